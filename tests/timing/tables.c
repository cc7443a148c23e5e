/* A plain C test of tables in columns, to compare times with: the same input as table_cases of tests/cases, and the same outcome, without
   the text of a row. */
#include <stdio.h>
#include "plain_table.h"

enum { MAX_INPUT = 1 << 20 };

static unsigned char input[MAX_INPUT], foreign[256];

static int two(const unsigned char *p) { return p[0] * 256 + p[1]; }

/* tables.py makes texts with two equal lengths alone */
static int texts_pass(int count, const unsigned char *text, unsigned long size) {
    for (int row = 0; row < count; row++) {
        if (codes[row] < TEXTS) continue;
        if (starts[row] > size || size - starts[row] < lengths[row] || decoded[row] != lengths[row]) return 0;
        const unsigned char *p = text + starts[row];
        for (int i = 0; i < lengths[row]; i++)
            if (foreign[p[i]]) return 0;
    }
    return 1;
}

int main(void) {
    for (int b = 0; b < 256; b++) foreign[b] = !(b == '\t' || b == '\n' || (b >= 0x20 && b <= 0x7E));
    long n = fread(input, 1, sizeof input, stdin), at = 0;
    while (n - at >= 12) {
        const unsigned char *head = input + at;
        int schema = two(head), count = two(head + 2), cells = two(head + 4), text = two(head + 6), times = two(head + 10);
        at += 12;
        read_schema(input + at, schema);
        at += schema;
        for (int row = 0; row < cells; row++, at += 13) {
            const unsigned char *p = input + at;
            numbers[row] = two(p), codes[row] = p[2], parents[row] = two(p + 3);
            starts[row] = (unsigned)two(p + 5) << 16 | two(p + 7), lengths[row] = two(p + 9), decoded[row] = two(p + 11);
        }
        int passed = 1;
        for (int i = 0; i < times; i++) {
            int rows = i < count ? count - i : 0;
            passed &= rows <= cells && well_formed(rows) && texts_pass(rows, input + at, text);
        }
        at += text;
        if (passed) printf("ok %d\n", count);
        else printf("refused 1 at 0\n");
    }
    return 0;
}
