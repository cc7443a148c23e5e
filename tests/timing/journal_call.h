/* Reading a journal through tests/functions (a slice is a pointer and a length), and the same call on the plain reading. */
#include <stddef.h>
#include <stdlib.h>
#include "plain_journal.h"

enum { CELLS = 65535, LONGEST = 1048576 };

/* what the functions of tests/functions answer */
struct outcome {
    uint64_t number, place, size, other;
};
struct outcome test_read_schema(const uint8_t *text, size_t, uint8_t *record, size_t);
struct outcome test_read_journal(const uint8_t *record, size_t, size_t record_size, const uint8_t *text, size_t, uint16_t *numbers, size_t, uint8_t *names,
    size_t, uint16_t *parents, size_t, uint32_t *starts, size_t, uint16_t *lengths, size_t, uint16_t *decoded, size_t);

struct answer { uint64_t number, place, rows; };

struct table { uint16_t numbers[CELLS], parents[CELLS], lengths[CELLS], decoded[CELLS]; uint8_t names[CELLS]; uint32_t starts[CELLS]; };

static struct table ours, theirs;

/* the schema's record is read once for each schema; each call tests it and compiles it anew */
static struct answer read_proved(const unsigned char *schema, int schema_size, const unsigned char *journal, int size, int cells) {
    static uint8_t record[8192], last[8192];
    static size_t record_size;
    static int last_size = -1;
    if (schema_size != last_size || memcmp(schema, last, schema_size)) {
        record_size = test_read_schema(schema, schema_size, record, sizeof record).size;
        memcpy(last, schema, schema_size);
        last_size = schema_size;
    }
    struct outcome o = test_read_journal(record, record_size, record_size, journal, size, ours.numbers, cells, ours.names, cells, ours.parents, cells,
        ours.starts, cells, ours.lengths, cells, ours.decoded, cells);
    return (struct answer){o.number, o.place, o.size};
}

/* the columns are cleared, as those of the library are */
static void clear(struct table *t, int from, int cells) {
    memset(t->numbers + from, 0, (cells - from) * sizeof *t->numbers);
    memset(t->names + from, 0, (cells - from) * sizeof *t->names);
    memset(t->parents + from, 0, (cells - from) * sizeof *t->parents);
    memset(t->starts + from, 0, (cells - from) * sizeof *t->starts);
    memset(t->lengths + from, 0, (cells - from) * sizeof *t->lengths);
    memset(t->decoded + from, 0, (cells - from) * sizeof *t->decoded);
}

static struct answer read_plain(const unsigned char *schema, int schema_size, const unsigned char *journal, int size, int cells) {
    static struct compiled c;
    static struct schema record;
    struct columns out = {theirs.numbers, theirs.names, theirs.parents, theirs.starts, theirs.lengths, theirs.decoded, cells};
    int where = 0, number = read_schema(schema, schema_size, &where, &record);
    if (!number) {
        compile(&c);
        number = read_journal(&c, journal, size, LONGEST, &out, &where);
    }
    clear(&theirs, number ? 0 : where, cells);
    return (struct answer){number, number ? where : 0, number ? 0 : where};
}

static int same_tables(int cells) {
    return !memcmp(ours.numbers, theirs.numbers, cells * sizeof *ours.numbers) && !memcmp(ours.names, theirs.names, cells * sizeof *ours.names) &&
        !memcmp(ours.parents, theirs.parents, cells * sizeof *ours.parents) && !memcmp(ours.starts, theirs.starts, cells * sizeof *ours.starts) &&
        !memcmp(ours.lengths, theirs.lengths, cells * sizeof *ours.lengths) && !memcmp(ours.decoded, theirs.decoded, cells * sizeof *ours.decoded);
}
