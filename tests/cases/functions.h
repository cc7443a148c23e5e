/* The functions for C of tests/functions that the cases go through. A slice is a pointer and a length, a record its cells and its length. */
#ifndef FUNCTIONS_H
#define FUNCTIONS_H

#include <stdbool.h>
#include <stddef.h>
#include <stdint.h>

/* the number of a refusal and its place, or 0 and 0; how many cells are answered; and a second number, where a function says which */
struct outcome {
    uint64_t number, place, size, other;
};

/* a slice, and the six columns of a table: lent, and handed in */
#define SLICE(name) const uint8_t *name, size_t name##_len
#define RECORD(name) const uint8_t *name, size_t name##_cells, size_t name##_len
#define LENT_COLUMNS uint16_t *, size_t, uint8_t *, size_t, uint16_t *, size_t, uint32_t *, size_t, uint16_t *, size_t, uint16_t *, size_t
#define HANDED_COLUMNS \
    const uint16_t *, size_t, const uint8_t *, size_t, const uint16_t *, size_t, const uint32_t *, size_t, const uint16_t *, size_t, \
        const uint16_t *, size_t

struct outcome test_read_schema(SLICE(text), uint8_t *out, size_t out_len);
bool test_is_schema_record(RECORD(schema));
struct outcome test_element(SLICE(schema), size_t element);
bool test_fits(SLICE(schema), size_t element, SLICE(children));

struct outcome test_read_bundle(RECORD(schema), SLICE(text), uint8_t *out, size_t out_len);
bool test_is_bundle_record(RECORD(schema), RECORD(bundle));
struct outcome test_needed_names(RECORD(schema), RECORD(bundle));
size_t test_compiled_paths(SLICE(schema), SLICE(text), uint8_t *paths, size_t paths_len, uint16_t *conditions, size_t conditions_len,
    uint8_t *axes, size_t axes_len, uint8_t *tests, size_t tests_len);

struct outcome test_read_journal(RECORD(schema), SLICE(text), LENT_COLUMNS);
struct outcome test_read_within(SLICE(schema), SLICE(text), size_t limit, LENT_COLUMNS);
struct outcome test_read_extract(RECORD(schema), SLICE(extract), LENT_COLUMNS);
bool test_is_table_beside(SLICE(schema), HANDED_COLUMNS, size_t count, SLICE(beside));
/* of a text the decoded length as the place, its length as the size and where it starts as the second number, all 0 for an element */
struct outcome test_row_text(RECORD(schema), HANDED_COLUMNS, size_t count, SLICE(beside), size_t position, uint8_t *out, size_t out_len);
struct outcome test_row_text_place(RECORD(schema), HANDED_COLUMNS, size_t count, SLICE(beside), size_t position);
struct outcome test_select_nodes(RECORD(schema), RECORD(bundle), size_t place, HANDED_COLUMNS, size_t count, SLICE(beside), uint16_t *items,
    size_t items_len, uint32_t *counts, size_t counts_len);

#endif
