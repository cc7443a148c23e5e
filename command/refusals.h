/* What a refusal says to the user: which file, where in it, why, and what to do. */
#ifndef REFUSALS_H
#define REFUSALS_H

#include "files.h"
#include "lozhymet.h"

/* the three texts of a call, in the order in which they are judged; the third is a journal or an extract */
struct call {
    struct text schema, bundle, third;
    int selects;  /* the third is an extract */
    size_t place; /* the path asked for */
};

struct message {
    const struct text *text;
    char what[160];
    const char *help;
    int placed; /* line, column and place are those of a byte */
    size_t line, column, place;
};

struct message message_of(const struct call *call, struct lozhymet_result refused);

/* FILE:LINE:COLUMN: refused N: .., the source line, and a caret under the column */
void print_message(const struct message *message, uint64_t number);

#endif
