/* What the command says on success, as lines for people or as JSON for programs, and a refusal as JSON. */
#ifndef REPORT_H
#define REPORT_H

#include "refusals.h"

enum { CONTROLLER_ROWS = 4096 };

/* what was answered; `first` is the place of the first path asked for */
struct answer {
    struct lozhymet_result result;
    const uint16_t *items;
    const uint32_t *counts;
    size_t first;
};

/* an extract that was made: the rows of the journal, those kept, its bytes */
struct made {
    size_t rows, kept, bytes;
};

void print_made(const struct call *call, const struct made *made, const struct answer *found);
void print_made_json(const struct call *call, const struct made *made, const struct answer *found);
/* to standard output a line for each node: its number, after the path's place where all paths were asked for */
void print_selected(const struct answer *found, int all);
void print_counts(const struct call *call, const struct answer *found);
void print_selected_json(const struct call *call, const struct answer *found);
void print_refused_json(const struct message *message, uint64_t number);

#endif
