/* An example host: makes an extract of a scan journal, sends it (to a file), takes it as a controller would, and prints what each path selects, texts with
   their characters.
     host SCHEMA PATHS JOURNAL EXTRACT
   Build: gcc host.c $(pkg-config --cflags --libs lozhymet) */
#include <lozhymet.h>
#include <stdio.h>

#define MOST LOZHYMET_MAX_JOURNAL_BYTES

/* what is lent, of the largest size, so that refusal 18 cannot come */
static uint8_t schema[LOZHYMET_MAX_SCHEMA_BYTES + 1], bundle[LOZHYMET_MAX_BUNDLE_BYTES + 1], journal[MOST + 1];
static uint8_t extract[LOZHYMET_EXTRACT_BYTES(MOST)], names[LOZHYMET_MAX_ROWS];
static uint16_t numbers[LOZHYMET_MAX_ROWS], parents[LOZHYMET_MAX_ROWS], lengths[LOZHYMET_MAX_ROWS], decoded[LOZHYMET_MAX_ROWS];
static uint16_t items[LOZHYMET_MAX_PATHS * LOZHYMET_MAX_ROWS];
static uint32_t starts[LOZHYMET_MAX_ROWS], counts[LOZHYMET_MAX_PATHS];

#define LEND(cells) cells, sizeof(cells) / sizeof *(cells)
#define COLUMNS LEND(numbers), LEND(names), LEND(parents), LEND(starts), LEND(lengths), LEND(decoded)

static const char *const reasons[] = {
    "accepted", "no such path", "a text is empty or too long", "a byte is not plain ASCII", "the schema is misspelt",
    "too many declarations or names in a model", "an element is declared twice", "a model names an undeclared element", "a path is misspelt",
    "a path passes a limit", "a path names an undeclared element", "a tag or an entity is misspelt", "tags do not nest", "elements stand 65 deep",
    "an element is undeclared", "content does not fit its model", "a text is too long, or there are too many nodes", "this is no extract",
    "too few cells were lent",
};

static int refused(const char *call, struct lozhymet_result r) {
    if (r.number) fprintf(stderr, "%s: refused %u at byte %u: %s\n", call, (unsigned)r.number, (unsigned)r.place, reasons[r.number]);
    return r.number != 0;
}

/* the bytes of a file, to one past the limit, so that a text that is too long is refused and not cut; a missing file is empty, and refused */
static size_t load(const char *name, uint8_t *bytes, size_t size) {
    FILE *file = fopen(name, "rb");
    size_t len = file ? fread(bytes, 1, size, file) : 0;
    if (file) fclose(file);
    return len;
}

static int save(const char *name, const uint8_t *bytes, size_t len) {
    FILE *file = fopen(name, "wb");
    if (!file) return perror(name), 1;
    int failed = fwrite(bytes, 1, len, file) != len;
    if (fclose(file) || failed) return perror(name), 1;
    return 0;
}

/* a node by its number and, if it is a text, its characters, which an extract has decoded; only a text has a length */
static void show(uint16_t number) {
    size_t row = 0;
    while (numbers[row] != number) row++;
    printf(" %u", number);
    if (lengths[row]) printf(" \"%.*s\"", lengths[row], (const char *)extract + starts[row]);
}

int main(int argc, char **argv) {
    if (argc != 5) return fprintf(stderr, "usage: host SCHEMA PATHS JOURNAL EXTRACT\n"), 2;
    size_t schema_len = load(argv[1], LEND(schema)), bundle_len = load(argv[2], LEND(bundle)), journal_len = load(argv[3], LEND(journal));

    struct lozhymet_result made = host_make_extract(schema, schema_len, bundle, bundle_len, journal, journal_len, COLUMNS, LEND(extract));
    if (refused("making an extract", made) || save(argv[4], extract, made.items)) return 1;

    /* at the controller: the same schema and bundle, and the extract as it came */
    size_t extract_len = load(argv[4], LEND(extract));
    struct lozhymet_result found = host_select(schema, schema_len, bundle, bundle_len, 0, extract, extract_len, COLUMNS, LEND(items), LEND(counts));
    if (refused("selecting", found)) return 1;
    const uint16_t *item = items;
    for (size_t path = 0; path < found.counts; path++) {
        printf("path %u:", (unsigned)path + 1);
        for (uint32_t i = 0; i < counts[path]; i++) show(*item++);
        printf("\n");
    }
    return 0;
}
