/* period.c: fiddlemarsh period. */

#include "commands.h"

#include "../include/fiddlemarsh.h"

#include <stdlib.h>

/* A whole number in decimal. One that is too large for the type becomes its largest or least, which is no note and no finetune. */
static bool read_number(const char *text, long long *number)
{
    char *end;
    const char *digits = text + (*text == '-' || *text == '+');
    if (*digits < '0' || *digits > '9')
        return false;
    *number = strtoll(text, &end, 10);
    return *end == 0;
}

enum status say_period(const char *note, const char *finetune)
{
    long long notes, finetunes;
    if (!read_number(note, &notes))
        return wrong_usage("NOTE wants a whole number: ", note);
    if (!read_number(finetune, &finetunes))
        return wrong_usage("FINETUNE wants a whole number: ", finetune);
    uint64_t answer = fiddlemarsh_period((uint64_t)notes, finetunes); /* below 0 it is far above every note */
    if (fiddlemarsh_refused(answer)) {
        printf("refused, number %u: a note is 0 to %d, a finetune -128 to 127, and note 0 has none below 0\n",
               (unsigned)fiddlemarsh_refusal(answer), FIDDLEMARSH_REAL_NOTE_MOST);
        return REFUSED;
    }
    unsigned dividend = fiddlemarsh_period_dividend(answer), divisor = fiddlemarsh_period_divisor(answer);
    printf("%u / %u = %.15g\n", dividend, divisor, (double)dividend / divisor); /* exact: eleven digits at most */
    return ACCEPTED;
}
