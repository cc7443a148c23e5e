/* The cost of reading an extract whose rows are elements with a text each, short ones and the longest: the proved function, through tests/functions,
   against a plain C reader that judges the same and fills the same cells. Both read the schema each time (the proved one compiles its record). Prints
   times, nanoseconds for a byte of text, and the ratio; ends with 1 where the cells differ. */
#include <stdio.h>
#include <time.h>
#include "../cases/functions.h"
#include "plain_table.h"

enum { MAX_EXTRACT = 1310721, TURNS = 100 };
enum { ELEMENT = 1, TEXT, COUNT };

static const unsigned char schema[] = "<!ELEMENT a (b)*><!ELEMENT b (#PCDATA)>";
enum { SCHEMA = sizeof schema - 1 };

static struct columns {
    uint16_t numbers[MAX_ROWS], parents[MAX_ROWS], lengths[MAX_ROWS], decoded[MAX_ROWS];
    uint8_t codes[MAX_ROWS];
    uint32_t starts[MAX_ROWS];
} proved;
static unsigned char extract[MAX_EXTRACT], foreign[256];
static size_t extract_len, rows;

static int two(const unsigned char *p) { return p[0] * 256 + p[1]; }

/* ---- the extract: a root, then elements with a text of so many bytes, as many as a megabyte or the limit of rows has room for */

static void put(size_t number) {
    extract[extract_len++] = number >> 8;
    extract[extract_len++] = number & 255;
}

static void put_row(int tag, size_t size, size_t parent) {
    extract[extract_len++] = tag;
    put(size);
    put(rows++);
    put(parent);
}

static size_t make(size_t size) {
    size_t bytes = 0;
    extract_len = rows = 0;
    put_row(ELEMENT, 5, 0);
    extract[extract_len++] = 0;
    while (rows + 2 < MAX_ROWS && bytes + size <= 1 << 20) {
        put_row(ELEMENT, 5, 0);
        extract[extract_len++] = 1;
        put_row(TEXT, 4 + size, rows - 1);
        for (size_t i = 0; i < size; i++) extract[extract_len++] = "stain label 12, tray 3"[(i + rows) % 22];
        bytes += size;
    }
    extract[extract_len++] = COUNT;
    put(2);
    put(rows);
    return bytes;
}

/* ---- the plain reader: fields into columns, bytes by a table, then the test of tables */

static int put_field(const unsigned char *value, int tag, size_t size, int row, int *open) {
    if (size < 5 || (tag == ELEMENT && size != 5)) return 0;
    while (*open && numbers[*open] != two(value + 2)) *open = parents[*open];
    numbers[row] = two(value), parents[row] = *open;
    codes[row] = tag == ELEMENT ? value[4] : TEXTS + codes[*open];
    starts[row] = tag == ELEMENT ? 0 : value + 4 - extract, lengths[row] = decoded[row] = tag == ELEMENT ? 0 : size - 4;
    for (size_t i = 0; i < lengths[row]; i++)
        if (foreign[value[4 + i]]) return 0;
    if (tag == ELEMENT) *open = row;
    return numbers[*open] == two(value + 2) || tag == ELEMENT;
}

static size_t plain_read(void) {
    size_t at = 0;
    int count = 0, open = 0;
    read_schema(schema, SCHEMA);
    while (extract_len - at >= 5) {
        const unsigned char *field = extract + at;
        size_t size = two(field + 1);
        at += 3 + size;
        if (at > extract_len) return 0;
        if (field[0] == COUNT) return at == extract_len && size == 2 && two(field + 3) == count && well_formed(count) ? count : 0;
        if (count == MAX_ROWS || !put_field(field + 3, field[0], size, count++, &open)) return 0;
    }
    return 0;
}

static size_t proved_read(void) {
    return test_read_extract(schema, SCHEMA, SCHEMA, extract, extract_len, proved.numbers, rows, proved.codes, rows, proved.parents, rows,
        proved.starts, rows, proved.lengths, rows, proved.decoded, rows).size;
}

/* ---- times */

static int same(void) {
    return !memcmp(numbers, proved.numbers, rows * sizeof *numbers) && !memcmp(codes, proved.codes, rows) &&
        !memcmp(parents, proved.parents, rows * sizeof *parents) && !memcmp(starts, proved.starts, rows * sizeof *starts) &&
        !memcmp(lengths, proved.lengths, rows * sizeof *lengths) && !memcmp(decoded, proved.decoded, rows * sizeof *decoded);
}

/* the least time of several turns, and whether every row was read */
static double nanoseconds(size_t (*read)(void), int *wrong) {
    double best = 1e18;
    for (int i = 0; i < TURNS; i++) {
        struct timespec from, to;
        clock_gettime(CLOCK_MONOTONIC, &from);
        *wrong |= read() != rows;
        clock_gettime(CLOCK_MONOTONIC, &to);
        double taken = (to.tv_sec - from.tv_sec) * 1e9 + (to.tv_nsec - from.tv_nsec);
        if (taken < best) best = taken;
    }
    return best;
}

int main(void) {
    static const size_t sizes[] = { 8, 20, 256, 4096 };
    int wrong = 0;
    for (int b = 0; b < 256; b++) foreign[b] = !(b == '\t' || b == '\n' || (b >= 0x20 && b <= 0x7E));
    for (size_t k = 0; k < sizeof sizes / sizeof *sizes; k++) {
        size_t bytes = make(sizes[k]);
        double plain_time = nanoseconds(plain_read, &wrong), proved_time = nanoseconds(proved_read, &wrong);
        wrong |= !same();
        printf("%zu rows, texts of %zu bytes: plain %.0f microseconds, proved %.0f, %.2f nanoseconds a byte of text, ratio %.2f\n", rows, sizes[k],
            plain_time / 1e3, proved_time / 1e3, proved_time / bytes, proved_time / plain_time);
    }
    if (wrong) puts("the two differ");
    return wrong;
}
