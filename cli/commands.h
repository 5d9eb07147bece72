/* commands.h: what the program does. */

#ifndef COMMANDS_H
#define COMMANDS_H

#include "input.h"
#include "say.h"

/* What the check finds in a module. */
struct finding check_module(const char *name, struct bytes module);

/* Checks each file, and each in a directory. */
enum status check_files(struct manner manner, int count, char **named);

/* Says which files are one song, and which are alone. */
enum status same_files(struct manner manner, int count, char **named);

/* The sheet of a module's samples, a line each. */
enum status say_samples(struct manner manner, char *named);

/* Says a note's period with its finetune, as two whole numbers and their quotient. */
enum status say_period(const char *note, const char *finetune);

/* What a module is written as: pressed in the kind that it is of, or converted to one. */
enum target { OWN_KIND, NORMAL_KIND, STRIPPED_KIND };

/* Presses or converts one file into another. */
enum status press_file(struct manner manner, enum target to, char *in, const char *out);

/* Presses or converts each file into a directory, under its own name. */
enum status press_into(struct manner manner, enum target to, const char *directory, int count, char **named);

#endif
