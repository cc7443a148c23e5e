/* Runs cases through the functions for C of tests/functions: `cases NAME` reads what tests/NAME.py makes from standard input, and writes what is
   held to NAME.out. */
#include "cases.h"

#include <stdio.h>
#include <stdlib.h>
#include <string.h>

enum { MAX_INPUT = 1 << 20, FILLED = 0x5A };

static uint8_t buffer[MAX_INPUT + 1];

void fail(const char *why) {
    fflush(stdout);
    fprintf(stderr, "cases: %s\n", why);
    exit(1);
}

struct text take(struct text *input, size_t len) {
    if (input->len < len) fail("the input ends within a case");
    struct text taken = { input->bytes, len };
    input->bytes += len;
    input->len -= len;
    return taken;
}

size_t take_number(struct text *input, size_t bytes) {
    struct text taken = take(input, bytes);
    size_t number = 0;
    for (size_t i = 0; i < bytes; i++) number = number * 256 + taken.bytes[i];
    return number;
}

/* the record that is handed back, the empty one on refusal */
struct outcome read_schema(struct schema *schema, struct text text) {
    struct outcome outcome = test_read_schema(GIVEN(text), schema->cells, sizeof schema->cells);
    schema->len = outcome.size;
    return outcome;
}

struct outcome read_bundle(struct bundle *bundle, const struct schema *schema, struct text text) {
    struct outcome outcome = test_read_bundle(HANDED(*schema), GIVEN(text), bundle->cells, sizeof bundle->cells);
    bundle->len = outcome.size;
    return outcome;
}

void fill_columns(struct columns *c, size_t len) {
    memset(c, FILLED, sizeof *c);
    for (int k = 0; k < COLUMNS; k++) c->lens[k] = len;
}

static void check_cells(const void *cells, size_t size, size_t lent) {
    const uint8_t *bytes = cells;
    for (size_t i = lent; i < size; i++)
        if (bytes[i] != FILLED) fail("a cell that was not lent has changed");
}

void check_columns(const struct columns *c) {
    check_cells(c->numbers, sizeof c->numbers, c->lens[NUMBERS] * sizeof *c->numbers);
    check_cells(c->names, sizeof c->names, c->lens[NAMES] * sizeof *c->names);
    check_cells(c->parents, sizeof c->parents, c->lens[PARENTS] * sizeof *c->parents);
    check_cells(c->starts, sizeof c->starts, c->lens[STARTS] * sizeof *c->starts);
    check_cells(c->lengths, sizeof c->lengths, c->lens[LENGTHS] * sizeof *c->lengths);
    check_cells(c->decoded, sizeof c->decoded, c->lens[DECODED] * sizeof *c->decoded);
}

void show_refusal(struct outcome outcome) {
    printf("refused %llu at %llu", (unsigned long long)outcome.number, (unsigned long long)outcome.place);
}

/* a refusal, or how many rows are answered */
void show_outcome(struct outcome outcome) {
    if (outcome.number) show_refusal(outcome);
    else printf("ok %llu", (unsigned long long)outcome.size);
    printf("\n");
}

static const struct {
    const char *name;
    void (*run)(struct text input);
} programs[] = {
    { "schema_cases", schema_cases },
    { "bundle_cases", bundle_cases },
    { "needed_cases", needed_cases },
    { "table_cases", table_cases },
    { "extract_cases", extract_cases },
    { "journal_cases", journal_cases },
    { "select_cases", select_cases },
};

int main(int count, char **arguments) {
    struct text input = { buffer, fread(buffer, 1, sizeof buffer, stdin) };
    if (ferror(stdin) || input.len == 0 || input.len > MAX_INPUT) fail("no input, or too much of it");
    for (size_t i = 0; i < sizeof programs / sizeof *programs; i++) {
        if (count != 2 || strcmp(arguments[1], programs[i].name)) continue;
        programs[i].run(input);
        return fflush(stdout) || ferror(stdout);
    }
    fail("cases NAME <INPUT");
}
