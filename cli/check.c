/* check.c: fiddlemarsh check. */

#define _XOPEN_SOURCE 700

#include "commands.h"

#include "../include/fiddlemarsh.h"

#include <stdlib.h>

struct finding check_module(const char *name, struct bytes module)
{
    struct finding finding = {.name = name, .answer = fiddlemarsh_check(module.first, module.length), .length = module.length};
    finding.stripped = !fiddlemarsh_refused(finding.answer) && fiddlemarsh_is_stripped(module.first);
    return finding;
}

static enum status check_file(struct manner manner, const struct name *name)
{
    struct input input;
    if (!is_file(name) || !read_input(name, &input)) {
        say_trouble_record(manner, name->text);
        return TROUBLE;
    }
    struct finding finding = check_module(name->text, input.bytes);
    free(input.bytes.first);
    return say_checked(manner, finding);
}

enum status check_files(struct manner manner, int count, char **named)
{
    struct names names = {NULL, 0, 0};
    struct counts counts = {{0}};
    for (int i = 0; i < count; i++)
        add_named(&names, named[i], NULL);
    for (size_t i = 0; i < names.count; i++) {
        say_progress(manner, i, names.count);
        counts.of[check_file(manner, &names.first[i])]++;
    }
    say_counts(manner, counts, "accepted");
    free_names(&names);
    return worst_of(counts);
}
