/* Cases of tables in columns: judged as they are handed in, read from extracts and from journals, and selected on. */
#include "cases.h"

#include <stdio.h>

static struct columns table;
static struct schema schema;

static void show_number(uint64_t number) {
    printf("%llu ", (unsigned long long)number);
}

/* ---- tables: the lengths of the schema, of the table, of the columns and of the text beside it, a row's position, and how often the table is judged,
   two bytes each; then the schema, the cells row by row, and the text */

static void take_row(struct text *input, size_t row) {
    table.numbers[row] = (uint16_t)take_number(input, 2);
    table.names[row] = (uint8_t)take_number(input, 1);
    table.parents[row] = (uint16_t)take_number(input, 2);
    table.starts[row] = (uint32_t)take_number(input, 4);
    table.lengths[row] = (uint16_t)take_number(input, 2);
    table.decoded[row] = (uint16_t)take_number(input, 2);
}

/* To measure the time a table is judged again with one row fewer each time: the first rows of a table that passes do so, too. */
static int passes(struct text text, size_t count, struct text beside, size_t times) {
    int passed = 1;
    for (size_t i = 0; i < times; i++) passed &= test_is_table_beside(GIVEN(text), LENT(&table), i < count ? count - i : 0, GIVEN(beside));
    return passed;
}

/* the text of a row by its place, and the length of the part that is handed back; the decoded length stands for the place of a refusal */
static void show_row_text(size_t count, struct text beside, size_t position) {
    struct outcome place = test_row_text_place(HANDED(schema), LENT(&table), count, GIVEN(beside), position);
    if (place.number) printf(" refused");
    else if (place.place == 0) printf(" element");
    else printf(" text %llu %llu %llu", (unsigned long long)place.other, (unsigned long long)place.size, (unsigned long long)place.place);
    uint8_t part[1] = { 0 };
    struct outcome handed = test_row_text(HANDED(schema), LENT(&table), count, GIVEN(beside), position, part, 1);
    printf(" %llu %llu\n", (unsigned long long)handed.size, (unsigned long long)handed.place);
}

static void table_case(struct text *input) {
    size_t schema_len = take_number(input, 2), count = take_number(input, 2), cells = take_number(input, 2), len = take_number(input, 2);
    size_t position = take_number(input, 2), times = take_number(input, 2);
    struct text text = take(input, schema_len);
    fill_columns(&table, cells);
    for (size_t row = 0; row < cells; row++) take_row(input, row);
    struct text beside = take(input, len);
    if (passes(text, count, beside, times)) printf("ok %zu", count);
    else printf("refused 1 at 0");
    read_schema(&schema, text);
    show_row_text(count, beside, position);
}

void table_cases(struct text input) {
    while (input.len) table_case(&input);
}

/* ---- extracts: the lengths of the schema, of the extract and of the six columns, two bytes each, and the two texts. Every lent cell is shown */

static void show_cell(int column, size_t i, uint64_t cell) {
    if (i < table.lens[column]) show_number(cell);
    else printf("- ");
}

static void show_cells(void) {
    size_t longest = 0;
    for (int k = 0; k < COLUMNS; k++)
        if (longest < table.lens[k]) longest = table.lens[k];
    for (size_t i = 0; i < longest; i++) {
        show_cell(NUMBERS, i, table.numbers[i]);
        show_cell(NAMES, i, table.names[i]);
        show_cell(PARENTS, i, table.parents[i]);
        show_cell(LENGTHS, i, table.lengths[i]);
        show_cell(DECODED, i, table.decoded[i]);
        printf("\n");
    }
}

void extract_cases(struct text input) {
    while (input.len) {
        size_t schema_len = take_number(&input, 2), len = take_number(&input, 2);
        fill_columns(&table, 0);
        for (int k = 0; k < COLUMNS; k++) table.lens[k] = take_number(&input, 2);
        read_schema(&schema, take(&input, schema_len));
        struct text extract = take(&input, len);
        show_outcome(test_read_extract(HANDED(schema), GIVEN(extract), LENT(&table)));
        check_columns(&table);
        show_cells();
    }
}

/* ---- journals: the schema's length, how it is read, the column with a cell more, the limit of the text's length, how many cells are lent, and the
   number of pieces; then the schema and the pieces, of which the text is made */

/* the longest text, and of how many rows all are shown */
enum { MAX_TEXT = 1048580, MAX_SHOWN = 100 };

/* how a journal is read */
enum { PUBLIC, WITHIN };

static uint8_t journal[MAX_TEXT];

/* how many bytes a piece gives, and its own length; its own bytes are taken again and again */
static size_t put_piece(struct text *input, size_t from) {
    size_t count = take_number(input, 4), len = take_number(input, 2);
    struct text piece = take(input, len);
    if (MAX_TEXT - from < count || (count && !len)) fail("a piece that no text has room for");
    for (size_t i = 0; i < count; i++) journal[from + i] = piece.bytes[i % len];
    return from + count;
}

static struct text take_journal(struct text *input, size_t pieces) {
    size_t len = 0;
    for (size_t i = 0; i < pieces; i++) len = put_piece(input, len);
    return (struct text){ journal, len };
}

/* of more rows than 100 only the last is shown */
static void show_rows(size_t count) {
    for (size_t i = count > MAX_SHOWN ? count - 1 : 0; i < count; i++)
        printf("%u %u %u %u %u %u\n", table.numbers[i], table.names[i], table.parents[i], (unsigned)table.starts[i], table.lengths[i],
            table.decoded[i]);
}

/* lent cells past the answer are 0 */
static void show_not_cleared(size_t from) {
    const size_t *lens = table.lens;
    for (size_t i = from; i < MAX_CELLS; i++)
        if ((i < lens[NUMBERS] && table.numbers[i]) || (i < lens[NAMES] && table.names[i]) || (i < lens[PARENTS] && table.parents[i]) ||
            (i < lens[STARTS] && table.starts[i]) || (i < lens[LENGTHS] && table.lengths[i]) || (i < lens[DECODED] && table.decoded[i]))
            printf("not 0: row %zu\n", i);
}

static void show_journal(struct text schema_text, size_t way, struct text text, size_t limit) {
    struct outcome outcome;
    if (way == PUBLIC) {
        read_schema(&schema, schema_text);
        outcome = test_read_journal(HANDED(schema), GIVEN(text), LENT(&table));
    } else outcome = test_read_within(GIVEN(schema_text), GIVEN(text), limit, LENT(&table));
    show_outcome(outcome);
    check_columns(&table);
    if (outcome.size > MAX_CELLS) fail("more rows than cells");
    show_rows(outcome.size);
    show_not_cleared(outcome.size);
}

static void journal_case(struct text *input) {
    size_t schema_len = take_number(input, 2), way = take_number(input, 1), wider = take_number(input, 1);
    size_t limit = take_number(input, 4), cells = take_number(input, 4), pieces = take_number(input, 2);
    struct text text = take(input, schema_len), made = take_journal(input, pieces);
    if (way > WITHIN || wider > COLUMNS || cells >= MAX_CELLS) fail("a case that is none");
    fill_columns(&table, cells);
    if (wider) table.lens[wider - 1]++;
    show_journal(text, way, made, limit);
}

void journal_cases(struct text input) {
    while (input.len) journal_case(&input);
}

/* ---- selecting on the tables of journals: the lengths of the schema, the bundle and the journal, and how many calls follow the three; a call is a place
   in the bundle, and how many cells are lent for items and for counts, two bytes each */

enum { SELECT_CELLS = 4096, NINE = 9 };

static uint16_t items[SELECT_CELLS + 1];
static uint32_t counts[SELECT_CELLS + 1];

static void fill_outputs(void) {
    for (size_t i = 0; i <= SELECT_CELLS; i++) items[i] = NINE, counts[i] = NINE;
}

static void check_outputs(size_t lent_items, size_t lent_counts) {
    for (size_t i = 0; i <= SELECT_CELLS; i++)
        if ((i >= lent_items && items[i] != NINE) || (i >= lent_counts && counts[i] != NINE)) fail("a cell that was not lent has changed");
}

/* what is answered, and every cell that was lent */
static void show_selected(struct outcome outcome, size_t lent_items, size_t lent_counts) {
    show_number(outcome.number);
    show_number(outcome.place);
    show_number(outcome.size);
    show_number(outcome.other);
    printf("| ");
    for (size_t i = 0; i < lent_items; i++) show_number(items[i]);
    printf("| ");
    for (size_t i = 0; i < lent_counts; i++) show_number(counts[i]);
    printf("\n");
}

static void call(struct text *input, const struct bundle *bundle, size_t rows, struct text text) {
    size_t place = take_number(input, 2), lent_items = take_number(input, 2), lent_counts = take_number(input, 2);
    if (lent_items > SELECT_CELLS || lent_counts > SELECT_CELLS) fail("more cells than there are");
    fill_outputs();
    struct outcome outcome =
        test_select_nodes(HANDED(schema), HANDED(*bundle), place, LENT(&table), rows, GIVEN(text), items, lent_items, counts, lent_counts);
    check_outputs(lent_items, lent_counts);
    show_selected(outcome, lent_items, lent_counts);
}

static void select_case(struct text *input) {
    static struct bundle bundle;
    size_t schema_len = take_number(input, 2), bundle_len = take_number(input, 2), len = take_number(input, 2), calls = take_number(input, 2);
    read_schema(&schema, take(input, schema_len));
    read_bundle(&bundle, &schema, take(input, bundle_len));
    struct text text = take(input, len);
    fill_columns(&table, SELECT_CELLS);
    size_t rows = test_read_journal(HANDED(schema), GIVEN(text), LENT(&table)).size;
    check_columns(&table);
    for (size_t i = 0; i < calls; i++) call(input, &bundle, rows, text);
}

void select_cases(struct text input) {
    while (input.len) select_case(&input);
}
