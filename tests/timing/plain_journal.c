/* Journals read by plain C. On standard input for each case: the limit of the journal's length and the rows lent (four bytes each, high
   byte first), then a schema and a journal, each after its length in four bytes. On standard output the outcomes as in tests/vectors. */
#include <stdlib.h>
#include "plain_journal.h"

static unsigned four(void) {
    unsigned v = 0;
    for (int k = 0; k < 4; k++) {
        int b = getchar();
        if (b == EOF) exit(0);
        v = v << 8 | b;
    }
    return v;
}

static unsigned char *bytes(unsigned *size) {
    *size = four();
    unsigned char *b = malloc(*size + 1);
    if (!b || fread(b, 1, *size, stdin) != *size) exit(1);
    return b;
}

int main(void) {
    static uint16_t numbers[1 << 17], parents[1 << 17], lengths[1 << 17], decoded[1 << 17];
    static uint8_t names_of_rows[1 << 17];
    static uint32_t starts[1 << 17];
    static struct compiled c;
    static struct schema record;
    fill_classes();
    for (;;) {
        unsigned limit = four(), rows = four(), schema_size, size;
        unsigned char *schema = bytes(&schema_size), *journal = bytes(&size);
        struct columns out = {numbers, names_of_rows, parents, starts, lengths, decoded, rows};
        int where, number = read_schema(schema, schema_size, &where, &record);
        if (!number) {
            compile(&c);
            number = read_journal(&c, journal, size, limit, &out, &where);
        }
        if (number) printf("refused %d at %d\n", number, where);
        else {
            printf("ok %d\n", where);
            for (int k = 0; k < where; k++)
                printf("%d %d %d %d %d %d\n", numbers[k], names_of_rows[k], parents[k], starts[k], lengths[k], decoded[k]);
        }
        free(schema);
        free(journal);
    }
}
