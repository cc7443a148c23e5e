/* Cutting a table of 60,000 rows, and the chain of one of its rows: the proved entries, through tests/functions, against plain C loops, each with
   the schema read (the proved ones compile its record) and the table judged. Both must give the same cells. */
#include <stdint.h>
#include <stdio.h>
#include <time.h>
#include "plain_table.h"

enum { ROWS = 60000, CHAIN = 4096, TIMES = 40 };

/* what the functions of tests/functions answer */
struct outcome {
    uint64_t number, place, size, other;
};
struct outcome test_cut_table(const uint8_t *, size_t, size_t, const uint16_t *, size_t, const uint8_t *, size_t, const uint16_t *, size_t,
                              const uint32_t *, size_t, const uint16_t *, size_t, const uint16_t *, size_t, size_t, uint64_t, uint16_t *, size_t,
                              uint8_t *, size_t, uint16_t *, size_t, uint32_t *, size_t, uint16_t *, size_t, uint16_t *, size_t);
struct outcome test_row_chain(const uint8_t *, size_t, size_t, const uint16_t *, size_t, const uint8_t *, size_t, const uint16_t *, size_t,
                              const uint32_t *, size_t, const uint16_t *, size_t, const uint16_t *, size_t, size_t, size_t, uint8_t *, size_t);

static const char schema[] = "<!ELEMENT a (a|b)*><!ELEMENT b (#PCDATA)>";
static const char *const names[] = {"a", "b"};

struct columns {
    uint16_t numbers[ROWS], parents[ROWS], lengths[ROWS], decoded[ROWS];
    uint8_t codes[ROWS];
    uint32_t starts[ROWS];
};
static struct columns proved, plain;
static uint16_t positions[ROWS];
static uint8_t proved_chain[CHAIN], plain_chain[CHAIN];

/* Rows of many depths with short texts, as tables.py's `mixed`. */
static void make(void) {
    unsigned state = 1;
    int line[64] = {0}, depth = 1, row = 1;
    while (row < ROWS) {
        state = (state * 1103515245u + 12345u) & 0x7fffffff;
        depth = 1 + (state >> 16) % depth;
        numbers[row] = row, parents[row] = line[depth - 1], codes[row] = state >> 8 & 1 ? 0 : 1;
        if (codes[row] == 0 && depth < 60) line[depth++] = row;
        row++;
        if (codes[row - 1] == 1 && row < ROWS) {
            numbers[row] = row, parents[row] = row - 1, codes[row] = TEXTS + 1;
            starts[row] = state % 8000, lengths[row] = decoded[row] = 1 + state % 20;
            row++;
        }
    }
}

static size_t plain_cut(uint64_t word) {
    read_schema((const unsigned char *)schema, sizeof schema - 1);
    if (!well_formed(ROWS)) return 0;
    size_t n = 0;
    for (int row = 0; row < ROWS; row++) {
        int parent = parents[row];
        if (!(word >> codes[row] & 1) || (row && !positions[parent])) {
            positions[row] = 0;
            continue;
        }
        plain.numbers[n] = numbers[row], plain.codes[n] = codes[row], plain.starts[n] = starts[row];
        plain.lengths[n] = lengths[row], plain.decoded[n] = decoded[row];
        positions[row] = n + 1;
        plain.parents[n] = positions[parent] - 1;
        n++;
    }
    memset(plain.numbers + n, 0, (ROWS - n) * 2), memset(plain.codes + n, 0, ROWS - n), memset(plain.parents + n, 0, (ROWS - n) * 2);
    memset(plain.starts + n, 0, (ROWS - n) * 4), memset(plain.lengths + n, 0, (ROWS - n) * 2), memset(plain.decoded + n, 0, (ROWS - n) * 2);
    return n;
}

static size_t proved_cut(uint64_t word) {
    return test_cut_table((const uint8_t *)schema, sizeof schema - 1, sizeof schema - 1, numbers, ROWS, codes, ROWS, parents, ROWS, starts, ROWS,
                          lengths, ROWS, decoded, ROWS, ROWS, word, proved.numbers, ROWS, proved.codes, ROWS, proved.parents, ROWS, proved.starts, ROWS,
                          proved.lengths, ROWS, proved.decoded, ROWS)
        .size;
}

static size_t put_chain(int row) {
    size_t n = row ? put_chain(parents[row]) : 0;
    const char *tag = codes[row] < TEXTS ? names[codes[row]] : "text()";
    size_t size = strlen(tag);
    plain_chain[n] = '/';
    memcpy(plain_chain + n + 1, tag, size);
    return n + 1 + size;
}

static size_t plain_row(uint64_t row) {
    read_schema((const unsigned char *)schema, sizeof schema - 1);
    if (!well_formed(ROWS)) return 0;
    size_t n = put_chain(row);
    memset(plain_chain + n, 0, CHAIN - n);
    return n;
}

static size_t proved_row(uint64_t row) {
    return test_row_chain((const uint8_t *)schema, sizeof schema - 1, sizeof schema - 1, numbers, ROWS, codes, ROWS, parents, ROWS, starts, ROWS,
                          lengths, ROWS, decoded, ROWS, ROWS, row, proved_chain, CHAIN)
        .size;
}

static double microseconds(size_t (*work)(uint64_t), uint64_t argument, size_t *answer) {
    double best = 1e9;
    for (int i = 0; i < TIMES; i++) {
        struct timespec from, to;
        clock_gettime(CLOCK_MONOTONIC, &from);
        *answer = work(argument);
        clock_gettime(CLOCK_MONOTONIC, &to);
        double taken = (to.tv_sec - from.tv_sec) * 1e6 + (to.tv_nsec - from.tv_nsec) / 1e3;
        if (taken < best) best = taken;
    }
    return best;
}

static int compare(const char *name, size_t (*one)(uint64_t), size_t (*other)(uint64_t), uint64_t argument) {
    size_t a, b;
    double plain_time = microseconds(one, argument, &a), proved_time = microseconds(other, argument, &b);
    printf("%s: plain %.0f microseconds, proved %.0f, ratio %.1f, answer %zu\n", name, plain_time, proved_time, proved_time / plain_time, b);
    return a != b || a == 0;
}

int main(void) {
    make();
    int wrong = compare("cut to elements", plain_cut, proved_cut, 3);
    wrong |= memcmp(&plain, &proved, sizeof plain) != 0;
    wrong |= compare("cut to all names", plain_cut, proved_cut, ~0ull);
    wrong |= memcmp(&plain, &proved, sizeof plain) != 0;
    wrong |= compare("chain of the last row", plain_row, proved_row, ROWS - 1);
    wrong |= memcmp(plain_chain, proved_chain, CHAIN) != 0;
    if (wrong) puts("the two differ");
    return wrong;
}
