/* The cost of selecting on 60,000 rows, by eight paths along the seven axes of document 01 and by eight along those of document 02, R-1, against plain C
   passes that do the same on the same columns; and the cost of needed names for each eight. The proved functions judge and compile the records of schema
   and bundle each time, and selecting judges the table; the plain passes do not. Links the archive of tests/functions. Prints both times and the ratio;
   ends with 1 where the answers differ. */
#include <stdio.h>
#include <string.h>
#include <time.h>
#include "../cases/functions.h"

enum { ROWS = 60000, PATHS = 8, CELLS = PATHS * ROWS, TURNS = 40, BUNDLES = 2 };

static const char schema[] =
    "<!ELEMENT journal (tray*)><!ELEMENT tray (note?, well*)><!ELEMENT well (image*)><!ELEMENT image (focus?, shift?, note?, lamp?, dye?)>"
    "<!ELEMENT focus (#PCDATA)><!ELEMENT shift (#PCDATA)><!ELEMENT note (#PCDATA)><!ELEMENT lamp (power, dye?)><!ELEMENT dye EMPTY>"
    "<!ELEMENT power (#PCDATA)><!ELEMENT stage (limit*)><!ELEMENT limit EMPTY>";
enum { JOURNAL, TRAY, WELL, IMAGE, FOCUS, SHIFT, NOTE };

static const char *const kinds[BUNDLES] = { "up and down", "along siblings, following and preceding" };
static const char *const bundles[BUNDLES] = {
    "descendant::image[child::focus or child::shift]/parent::well\n"
    "child::tray/child::well[descendant::text()]/child::image/child::focus\n"
    "descendant::focus/ancestor::tray\n"
    "descendant-or-self::node()/child::shift[parent::image/child::note]/parent::image\n"
    "descendant::text()/ancestor-or-self::node()[self::well or self::tray]\n"
    "child::tray[child::note]/descendant::shift/parent::image/child::focus/child::text()\n"
    "descendant::well[child::image/child::shift/child::text()]\n"
    "descendant::image[ancestor::tray/child::note]/descendant-or-self::node()\n",

    "descendant::image[child::shift]/following-sibling::image\n"
    "descendant::shift/preceding-sibling::focus/child::text()\n"
    "child::tray/child::well/child::image[following-sibling::image/child::note or preceding-sibling::image/child::shift]\n"
    "child::tray[child::note]/following-sibling::tray/child::well/preceding-sibling::note/child::text()\n"
    "child::tray[child::note]/following::shift/parent::image\n"
    "descendant::note/preceding::focus/child::text()\n"
    "descendant::well[child::image/following::note or preceding::shift/preceding-sibling::focus]\n"
    "descendant::focus[following-sibling::node()]/following::image[preceding::note]/preceding-sibling::node()\n",
};

/* ---- the same paths for the plain passes */
enum { SELF, CHILD, DESCENDANT, DESCENDANT_OR_SELF, PARENT, ANCESTOR, ANCESTOR_OR_SELF, FOLLOWING, FOLLOWING_SIBLING, PRECEDING, PRECEDING_SIBLING };
static const int inverse[] = { SELF, PARENT, ANCESTOR, ANCESTOR_OR_SELF, CHILD, DESCENDANT, DESCENDANT_OR_SELF,
    PRECEDING, PRECEDING_SIBLING, FOLLOWING, FOLLOWING_SIBLING };

struct step { int axis, low, high; };
struct alternative { int count; struct step steps[4]; };
struct written { struct step step; int count; struct alternative alternatives[4]; };
struct path { int count; struct written steps[8]; };
#define NAME(n) n, n
#define TEXT 32, 63
#define NODE 0, 63

static const struct path paths[BUNDLES][PATHS] = { {
    { 2, { { { DESCENDANT, NAME(IMAGE) }, 2, { { 1, { { CHILD, NAME(FOCUS) } } }, { 1, { { CHILD, NAME(SHIFT) } } } } }, { { PARENT, NAME(WELL) } } } },
    { 4, { { { CHILD, NAME(TRAY) } }, { { CHILD, NAME(WELL) }, 1, { { 1, { { DESCENDANT, TEXT } } } } }, { { CHILD, NAME(IMAGE) } }, { { CHILD, NAME(FOCUS) } } } },
    { 2, { { { DESCENDANT, NAME(FOCUS) } }, { { ANCESTOR, NAME(TRAY) } } } },
    { 3, { { { DESCENDANT_OR_SELF, NODE } }, { { CHILD, NAME(SHIFT) }, 1, { { 2, { { PARENT, NAME(IMAGE) }, { CHILD, NAME(NOTE) } } } } }, { { PARENT, NAME(IMAGE) } } } },
    { 2, { { { DESCENDANT, TEXT } }, { { ANCESTOR_OR_SELF, NODE }, 2, { { 1, { { SELF, NAME(WELL) } } }, { 1, { { SELF, NAME(TRAY) } } } } } } },
    { 5, { { { CHILD, NAME(TRAY) }, 1, { { 1, { { CHILD, NAME(NOTE) } } } } }, { { DESCENDANT, NAME(SHIFT) } }, { { PARENT, NAME(IMAGE) } }, { { CHILD, NAME(FOCUS) } }, { { CHILD, TEXT } } } },
    { 1, { { { DESCENDANT, NAME(WELL) }, 1, { { 3, { { CHILD, NAME(IMAGE) }, { CHILD, NAME(SHIFT) }, { CHILD, TEXT } } } } } } },
    { 2, { { { DESCENDANT, NAME(IMAGE) }, 1, { { 2, { { ANCESTOR, NAME(TRAY) }, { CHILD, NAME(NOTE) } } } } }, { { DESCENDANT_OR_SELF, NODE } } } },
}, {
    { 2, { { { DESCENDANT, NAME(IMAGE) }, 1, { { 1, { { CHILD, NAME(SHIFT) } } } } }, { { FOLLOWING_SIBLING, NAME(IMAGE) } } } },
    { 3, { { { DESCENDANT, NAME(SHIFT) } }, { { PRECEDING_SIBLING, NAME(FOCUS) } }, { { CHILD, TEXT } } } },
    { 3, { { { CHILD, NAME(TRAY) } }, { { CHILD, NAME(WELL) } }, { { CHILD, NAME(IMAGE) }, 2, { { 2, { { FOLLOWING_SIBLING, NAME(IMAGE) }, { CHILD, NAME(NOTE) } } },
        { 2, { { PRECEDING_SIBLING, NAME(IMAGE) }, { CHILD, NAME(SHIFT) } } } } } } },
    { 5, { { { CHILD, NAME(TRAY) }, 1, { { 1, { { CHILD, NAME(NOTE) } } } } }, { { FOLLOWING_SIBLING, NAME(TRAY) } }, { { CHILD, NAME(WELL) } },
        { { PRECEDING_SIBLING, NAME(NOTE) } }, { { CHILD, TEXT } } } },
    { 3, { { { CHILD, NAME(TRAY) }, 1, { { 1, { { CHILD, NAME(NOTE) } } } } }, { { FOLLOWING, NAME(SHIFT) } }, { { PARENT, NAME(IMAGE) } } } },
    { 3, { { { DESCENDANT, NAME(NOTE) } }, { { PRECEDING, NAME(FOCUS) } }, { { CHILD, TEXT } } } },
    { 1, { { { DESCENDANT, NAME(WELL) }, 2, { { 2, { { CHILD, NAME(IMAGE) }, { FOLLOWING, NAME(NOTE) } } },
        { 2, { { PRECEDING, NAME(SHIFT) }, { PRECEDING_SIBLING, NAME(FOCUS) } } } } } } },
    { 3, { { { DESCENDANT, NAME(FOCUS) }, 1, { { 1, { { FOLLOWING_SIBLING, NODE } } } } }, { { FOLLOWING, NAME(IMAGE) }, 1, { { 1, { { PRECEDING, NAME(NOTE) } } } } },
        { { PRECEDING_SIBLING, NODE } } } },
} };

static uint16_t numbers[ROWS], parents[ROWS], lengths[ROWS], decoded[ROWS], items[CELLS], plain_items[CELLS];
static uint32_t starts[ROWS], counts[PATHS], plain_counts[PATHS];
static uint8_t codes[ROWS], columns[4][ROWS];
static int rows, chosen; /* the bundle that is timed */

/* The siblings after the marked rows. Once row r is passed its cell of `from` says whether a marked child of it was passed. */
static void following_siblings(uint8_t *restrict from, uint8_t *restrict out) {
    const uint16_t *restrict p = parents;
    int n = rows;
    from[0] = out[0] = 0;
    for (int r = 1; r < n; r++) {
        uint8_t marked = from[r];
        from[r] = 0;
        out[r] = from[p[r]];
        from[p[r]] |= marked;
    }
}

/* The siblings before the marked rows. Until row r is reached its cell of `out` says whether a marked child of it was passed. */
static void preceding_siblings(const uint8_t *restrict from, uint8_t *restrict out) {
    const uint16_t *restrict p = parents;
    memset(out, 0, rows);
    for (int r = rows - 1; r > 0; r--) {
        out[r] = out[p[r]];
        out[p[r]] |= from[r];
    }
    out[0] = 0;
}

static void add_ancestors(uint8_t *restrict marks) { const uint16_t *restrict p = parents; for (int r = rows - 1; r > 0; r--) marks[p[r]] |= marks[r]; }

static void add_descendants(uint8_t *restrict marks) { const uint16_t *restrict p = parents; int n = rows; for (int r = 1; r < n; r++) marks[r] |= marks[p[r]]; }

/* The rows on an axis from the marked ones; what is left in `from` has no meaning. */
static void image(int axis, uint8_t *restrict from, uint8_t *restrict out) {
    const uint16_t *restrict p = parents;
    int n = rows;
    switch (axis) {
    case FOLLOWING: add_ancestors(from); following_siblings(from, out); add_descendants(out); break;
    case FOLLOWING_SIBLING: following_siblings(from, out); break;
    case PRECEDING: add_ancestors(from); preceding_siblings(from, out); add_descendants(out); break;
    case PRECEDING_SIBLING: preceding_siblings(from, out); break;
    case SELF: memcpy(out, from, n); break;
    case CHILD: out[0] = 0; for (int r = 1; r < n; r++) out[r] = from[p[r]]; break;
    case DESCENDANT: out[0] = 0; for (int r = 1; r < n; r++) out[r] = from[p[r]] | out[p[r]]; break;
    case DESCENDANT_OR_SELF: out[0] = from[0]; for (int r = 1; r < n; r++) out[r] = from[r] | out[p[r]]; break;
    case PARENT: memset(out, 0, n); for (int r = n - 1; r > 0; r--) out[p[r]] |= from[r]; break;
    case ANCESTOR: memset(out, 0, n); for (int r = n - 1; r > 0; r--) out[p[r]] |= from[r] | out[r]; break;
    default: memcpy(out, from, n); for (int r = n - 1; r > 0; r--) out[p[r]] |= out[r];
    }
}

static void root_image(int axis, uint8_t *restrict out) {
    const uint16_t *restrict p = parents;
    int n = rows;
    switch (axis) {
    case CHILD: for (int r = 0; r < n; r++) out[r] = p[r] == 0; out[0] = 0; break;
    case DESCENDANT: memset(out, 1, n); out[0] = 0; break;
    case DESCENDANT_OR_SELF: memset(out, 1, n); break;
    case SELF: case ANCESTOR_OR_SELF: memset(out, 0, n); out[0] = 1; break;
    default: memset(out, 0, n);
    }
}

static void filter(struct step s, uint8_t *restrict marks) {
    const uint8_t *restrict c = codes;
    int n = rows, low = s.low, high = s.high;
    for (int r = 0; r < n; r++) marks[r] &= c[r] >= low && c[r] <= high;
}

static void unite(const uint8_t *restrict from, uint8_t *restrict out) { int n = rows; for (int r = 0; r < n; r++) out[r] |= from[r]; }

static void intersect(const uint8_t *restrict from, uint8_t *restrict out) { int n = rows; for (int r = 0; r < n; r++) out[r] &= from[r]; }

static size_t collect(const uint8_t *restrict marks, uint16_t *restrict out) {
    const uint16_t *restrict from = numbers;
    int n = rows;
    size_t k = 0;
    for (int r = 0; r < n; r++) { out[k] = from[r]; k += marks[r]; }
    return k;
}

static size_t plain_path(const struct path *path, uint16_t *out) {
    uint8_t *now = columns[0], *other = columns[1], *held = columns[2];
    for (int k = 0; k < path->count; k++) {
        const struct written *w = &path->steps[k];
        if (k == 0) root_image(w->step.axis, now);
        else { image(w->step.axis, now, other); uint8_t *t = now; now = other; other = t; }
        filter(w->step, now);
        if (!memchr(now, 1, rows)) break;
        if (w->count == 0) continue;
        memset(held, 0, rows);
        for (int a = 0; a < w->count; a++) {
            uint8_t *from = columns[3], *to = other;
            memset(from, 1, rows);
            for (int j = w->alternatives[a].count - 1; j >= 0; j--) {
                filter(w->alternatives[a].steps[j], from);
                image(inverse[w->alternatives[a].steps[j].axis], from, to);
                uint8_t *t = from; from = to; to = t;
            }
            unite(from, held);
        }
        intersect(held, now);
    }
    return collect(now, out);
}

static size_t plain(void) {
    size_t n = 0;
    for (int i = 0; i < PATHS; i++) { plain_counts[i] = plain_path(&paths[chosen][i], plain_items + n); n += plain_counts[i]; }
    memset(plain_items + n, 0, sizeof plain_items - n * sizeof *plain_items);
    return n;
}

static uint8_t schema_cells[8192], bundle_cells[4104];
static size_t schema_len, bundle_len;
#define RECORDS schema_cells, sizeof schema_cells, schema_len, bundle_cells, sizeof bundle_cells, bundle_len

static void read_records(void) {
    schema_len = test_read_schema((const uint8_t *)schema, sizeof schema - 1, schema_cells, sizeof schema_cells).size;
    bundle_len = test_read_bundle(schema_cells, sizeof schema_cells, schema_len, (const uint8_t *)bundles[chosen], strlen(bundles[chosen]), bundle_cells,
        sizeof bundle_cells).size;
}

static size_t proved(void) {
    return test_select_nodes(RECORDS, 0, numbers, rows, codes, rows, parents, rows, starts, rows, lengths, rows, decoded, rows, rows, (const uint8_t *)"x",
        1, items, CELLS, counts, PATHS).size;
}

/* ---- a table: trays of wells of images, some of each part missing */
static unsigned seed = 12345;
static unsigned random_below(unsigned n) { seed = seed * 1103515245u + 12345u; return (seed >> 16) % n; }
static int add(int code, int parent) { codes[rows] = code; parents[rows] = parent; numbers[rows] = rows; return rows++; }
static void add_text(int code, int parent) { int row = add(32 + code, add(code, parent)); lengths[row] = decoded[row] = 1; }

static void fill_table(void) {
    add(JOURNAL, 0);
    while (rows < ROWS - 10) {
        int tray = add(TRAY, 0);
        if (random_below(2)) add_text(NOTE, tray);
        for (unsigned w = 20 + random_below(40); w > 0 && rows < ROWS - 10; w--) {
            int well = add(WELL, tray);
            for (unsigned i = random_below(9); i > 0 && rows < ROWS - 10; i--) {
                int image = add(IMAGE, well);
                if (random_below(4)) add_text(FOCUS, image);
                if (!random_below(3)) add_text(SHIFT, image);
                if (!random_below(8)) add_text(NOTE, image);
            }
        }
    }
}

static double seconds(void) { struct timespec t; clock_gettime(CLOCK_PROCESS_CPUTIME_ID, &t); return t.tv_sec + t.tv_nsec * 1e-9; }

static double least(size_t (*f)(void)) {
    double best = 1e9;
    for (int k = 0; k < TURNS; k++) { double a = seconds(); f(); double b = seconds() - a; if (b < best) best = b; }
    return best;
}

static size_t needed(void) { return test_needed_names(RECORDS).other != 0; }

/* whether both answer alike */
static int compare(void) {
    read_records();
    size_t n = plain(), m = proved();
    if (n != m || memcmp(items, plain_items, sizeof items) || memcmp(counts, plain_counts, sizeof counts)) return 0;
    double a = 1e9, b = 1e9;
    for (int k = 0; k < 5; k++) { double p = least(plain), q = least(proved); if (p < a) a = p; if (q < b) b = q; }
    printf("eight paths %s on %d rows, %zu numbers: plain %.0f microseconds, proved %.0f, ratio %.2f\n", kinds[chosen], rows, n, a * 1e6, b * 1e6, b / a);
    printf("their needed names, the records of schema and bundle judged: %.0f microseconds\n", least(needed) * 1e6);
    return 1;
}

int main(void) {
    fill_table();
    for (; chosen < BUNDLES; chosen++)
        if (!compare()) { printf("eight paths %s: the answers differ\n", kinds[chosen]); return 1; }
    return 0;
}
