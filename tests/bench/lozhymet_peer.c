/* This library. Reading is making an extract for one path that needs the root alone: parsing and validating, and little else. Selecting is one call
   on the extract for all paths, which reads schema, bundle and extract anew. */
#include "../cases/functions.h"
#include "lozhymet.h"
#include "peers.h"

static const struct tray *tray;
static uint16_t numbers[LOZHYMET_MAX_ROWS], parents[LOZHYMET_MAX_ROWS], lengths[LOZHYMET_MAX_ROWS], decoded[LOZHYMET_MAX_ROWS];
static uint16_t items[LOZHYMET_MAX_PATHS * LOZHYMET_MAX_ROWS];
static uint8_t names[LOZHYMET_MAX_ROWS], extract[LOZHYMET_EXTRACT_BYTES(LOZHYMET_MAX_JOURNAL_BYTES)];
static uint32_t starts[LOZHYMET_MAX_ROWS], counts[LOZHYMET_MAX_PATHS];
static size_t extract_len, rows;

/* as many cells as there are rows: what is lent is cleared */
#define COLUMNS(n) numbers, n, names, n, parents, n, starts, n, lengths, n, decoded, n

static int make_for(const char *bundle, size_t bundle_len) {
    size_t most = rows ? rows : LOZHYMET_JOURNAL_ROWS(tray->journal_len);
    struct lozhymet_result r = host_make_extract((const uint8_t *)tray->schema, tray->schema_len, (const uint8_t *)bundle, bundle_len,
        (const uint8_t *)tray->journal, tray->journal_len, COLUMNS(most), extract, tray->journal_len + 4 * most + 5);
    extract_len = r.items;
    rows = r.rows;
    return !r.number;
}

static int read_journal(void) {
    return make_for("self::node()\n", 13);
}

static int elements(void) {
    int count = 0;
    for (size_t i = 0; i < rows; i++) count += names[i] < 32;
    return count;
}

static int make(void) {
    return make_for(tray->bundle, tray->bundle_len);
}

static long select_all(void) {
    size_t most = LOZHYMET_EXTRACT_ROWS(extract_len);
    struct lozhymet_result r = host_select((const uint8_t *)tray->schema, tray->schema_len, (const uint8_t *)tray->bundle, tray->bundle_len, 0, extract,
        extract_len, COLUMNS(most), items, LOZHYMET_ITEMS(LOZHYMET_MAX_PATHS, extract_len), counts, LOZHYMET_MAX_PATHS);
    return r.number ? -1 : (long)r.items;
}

/* the public function over records, on columns of exactly the journal's rows: it judges records and table first */
static uint8_t schema_cells[8192], bundle_cells[4104];
static size_t schema_len, bundle_len;

static void read_records(void) {
    schema_len = test_read_schema((const uint8_t *)tray->schema, tray->schema_len, schema_cells, sizeof schema_cells).size;
    bundle_len = test_read_bundle(schema_cells, sizeof schema_cells, schema_len, (const uint8_t *)tray->bundle, tray->bundle_len, bundle_cells,
        sizeof bundle_cells).size;
}

static long select_columns(void) {
    struct outcome selected = test_select_nodes(schema_cells, sizeof schema_cells, schema_len, bundle_cells, sizeof bundle_cells, bundle_len, 0,
        COLUMNS(rows), rows, (const uint8_t *)tray->journal, tray->journal_len, items, LOZHYMET_MAX_PATHS * rows, counts, LOZHYMET_MAX_PATHS);
    return selected.number ? -1 : (long)selected.size;
}

static void start(const struct tray *t) {
    tray = t;
    read_records();
}

static size_t selected(size_t path, uint16_t *to) {
    size_t from = 0;
    for (size_t k = 0; k < path; k++) from += counts[k];
    for (size_t i = 0; i < counts[path]; i++) to[i] = items[from + i];
    return counts[path];
}

static void finish(void) {
    rows = 0;
}

const struct peer lozhymet_peer = { "lozhymet", "parse to columns, validate", start, read_journal, elements, make, select_all, select_columns, selected, finish };
