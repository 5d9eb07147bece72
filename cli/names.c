/* names.c: see names.h. */

#define _XOPEN_SOURCE 700

#include "names.h"

#include "say.h"

#include <dirent.h>
#include <errno.h>
#include <stdlib.h>
#include <string.h>
#include <strings.h>

static void *wanted(void *memory)
{
    if (memory == NULL)
        exit(trouble("the list of files", "not enough memory"));
    return memory;
}

static void add(struct names *names, struct name name)
{
    if (names->count == names->room) {
        names->room = 2 * names->room + 16;
        names->first = wanted(realloc(names->first, names->room * sizeof names->first[0]));
    }
    names->first[names->count++] = name;
}

bool is_standard_input(const char *text)
{
    return strcmp(text, "-") == 0;
}

bool same_file(const struct stat *one, const struct stat *other)
{
    return one->st_dev == other->st_dev && one->st_ino == other->st_ino;
}

char *join(const char *directory, const char *text)
{
    size_t length = strlen(directory);
    const char *between = length > 0 && directory[length - 1] == '/' ? "" : "/";
    char *joined = wanted(malloc(length + strlen(text) + 2));
    strcpy(joined, directory);
    strcat(joined, between);
    return strcat(joined, text);
}

static bool is_module_name(const char *text)
{
    size_t length = strlen(text);
    return length >= 3 && strcasecmp(text + length - 3, ".xm") == 0;
}

static int is_entry(const struct dirent *entry)
{
    return strcmp(entry->d_name, ".") != 0 && strcmp(entry->d_name, "..") != 0;
}

static int by_name(const struct dirent **one, const struct dirent **other)
{
    return strcmp((*one)->d_name, (*other)->d_name);
}

static void walk(struct names *names, const char *directory, const struct stat *but)
{
    struct dirent **entries;
    int count = scandir(directory, &entries, is_entry, by_name);
    if (count < 0) {
        int because = errno;
        add(names, (struct name){.text = wanted(strdup(directory)), .because = because});
        return;
    }
    for (int i = 0; i < count; i++) {
        struct stat about;
        char *path = join(directory, entries[i]->d_name);
        bool is_directory = lstat(path, &about) == 0 && S_ISDIR(about.st_mode);
        if (is_directory && (but == NULL || !same_file(&about, but)))
            walk(names, path, but);
        if (!is_directory && is_module_name(path))
            add(names, (struct name){.text = path, .found = true});
        else
            free(path);
        free(entries[i]);
    }
    free(entries);
}

void add_named(struct names *names, const char *text, const struct stat *but)
{
    struct stat about;
    size_t before = names->count;
    bool is_directory = !is_standard_input(text) && stat(text, &about) == 0 && S_ISDIR(about.st_mode);
    if (is_directory)
        walk(names, text, but);
    if (names->count == before)
        add(names, (struct name){.text = wanted(strdup(text)), .no_module = is_directory});
}

void free_names(struct names *names)
{
    for (size_t i = 0; i < names->count; i++)
        free(names->first[i].text);
    free(names->first);
}

bool is_file(const struct name *name)
{
    if (name->because != 0)
        trouble(name->text, "cannot be read: %s", strerror(name->because));
    else if (name->no_module)
        trouble(name->text, "has no .xm file in it");
    return name->because == 0 && !name->no_module;
}
