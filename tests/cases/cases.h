/* What the cases share: their input, records, the columns of a table, and what is written of an outcome. */
#ifndef CASES_H
#define CASES_H

#include "functions.h"

enum { SCHEMA_CELLS = 8192, BUNDLE_CELLS = 4104, MAX_CELLS = 65537 };

struct text {
    const uint8_t *bytes;
    size_t len;
};

/* a slice, and a record, as they are handed to a function */
#define GIVEN(text) (text).bytes, (text).len
#define HANDED(record) (record).cells, sizeof (record).cells, (record).len

struct schema {
    uint8_t cells[SCHEMA_CELLS];
    size_t len;
};

struct bundle {
    uint8_t cells[BUNDLE_CELLS];
    size_t len;
};

/* The first cells of each column are lent or handed in: `lens` says how many. */
enum { NUMBERS, NAMES, PARENTS, STARTS, LENGTHS, DECODED, COLUMNS };

struct columns {
    uint16_t numbers[MAX_CELLS], parents[MAX_CELLS], lengths[MAX_CELLS], decoded[MAX_CELLS];
    uint8_t names[MAX_CELLS];
    uint32_t starts[MAX_CELLS];
    size_t lens[COLUMNS];
};

#define LENT(c) \
    (c)->numbers, (c)->lens[NUMBERS], (c)->names, (c)->lens[NAMES], (c)->parents, (c)->lens[PARENTS], (c)->starts, (c)->lens[STARTS], (c)->lengths, \
        (c)->lens[LENGTHS], (c)->decoded, (c)->lens[DECODED]

/* ends the program where the input is no row of whole cases, or a cell that was not lent has changed */
_Noreturn void fail(const char *why);

/* the next bytes of the input, and numbers of one, two and four bytes, the highest first */
struct text take(struct text *input, size_t len);
size_t take_number(struct text *input, size_t bytes);

struct outcome read_schema(struct schema *schema, struct text text);
struct outcome read_bundle(struct bundle *bundle, const struct schema *schema, struct text text);

/* every cell is filled, and as many of each column are lent */
void fill_columns(struct columns *c, size_t len);
void check_columns(const struct columns *c);

void show_refusal(struct outcome outcome);
void show_outcome(struct outcome outcome);

/* texts.c */
void schema_cases(struct text input);
void bundle_cases(struct text input);
void needed_cases(struct text input);

/* tables.c */
void table_cases(struct text input);
void extract_cases(struct text input);
void journal_cases(struct text input);
void select_cases(struct text input);

#endif
