/* What entities cost: an extract is made of a journal in which every text holds some, and of one with as many bytes and rows whose texts hold none,
   in turn. Prints both times and their ratio for each shape of text; ends with 1 where an answer is wrong or a ratio is above 1.3. */
#define _POSIX_C_SOURCE 200809L
#include "lozhymet.h"

#include <stdio.h>
#include <string.h>
#include <time.h>

enum { TURNS = 25 };
#define BAR 1.3

static const char schema[] = "<!ELEMENT tray (label*)><!ELEMENT label (#PCDATA)>", bundle[] = "descendant::text()\n";

static uint16_t numbers[LOZHYMET_MAX_ROWS], parents[LOZHYMET_MAX_ROWS], lengths[LOZHYMET_MAX_ROWS], decoded[LOZHYMET_MAX_ROWS];
static uint8_t names[LOZHYMET_MAX_ROWS], extract[2 * LOZHYMET_MAX_JOURNAL_BYTES];
static uint32_t starts[LOZHYMET_MAX_ROWS];
#define COLUMNS \
    numbers, LOZHYMET_MAX_ROWS, names, LOZHYMET_MAX_ROWS, parents, LOZHYMET_MAX_ROWS, starts, LOZHYMET_MAX_ROWS, lengths, LOZHYMET_MAX_ROWS, \
        decoded, LOZHYMET_MAX_ROWS

struct journal {
    uint8_t bytes[LOZHYMET_MAX_JOURNAL_BYTES];
    size_t len, texts;
};

static struct journal with, without;

/* a text is `part` so many times; each entity stands for one character */
static const struct shape {
    const char *name, *part;
    size_t times, characters;
} shapes[] = {
    { "a label with one entity", "H&amp;E 12", 1, 6 },
    { "a label of entities alone", "&lt;&amp;&gt;", 1, 3 },
    { "texts of 280 bytes, an entity in 28", "stain &quot;A, tray 3, row 1", 10, 230 },
    { "4,095 bytes, an entity in 65", "well 12 of tray 3, focus &gt; 40, exposure 12 ms, gain 2, dapi ok", 63, 3906 },
    { "4,096 bytes of entities alone", "&lt;", 1024, 1024 },
};

static void put(struct journal *j, const char *part, size_t times) {
    size_t len = strlen(part);
    for (size_t i = 0; i < times; i++, j->len += len) memcpy(j->bytes + j->len, part, len);
}

/* as many labels as a journal has room for; the other journal has x for each byte of an entity */
static void make(struct journal *j, const struct shape *s, int entities) {
    size_t size = strlen("<label></label>") + strlen(s->part) * s->times;
    j->len = j->texts = 0;
    put(j, "<tray>", 1);
    while (j->len + size + strlen("</tray>") <= sizeof j->bytes && 2 * j->texts + 3 <= LOZHYMET_MAX_ROWS) {
        put(j, "<label>", 1);
        size_t from = j->len;
        put(j, s->part, s->times);
        for (size_t k = from, inside = 0; k < j->len && !entities; k++) {
            inside |= j->bytes[k] == '&';
            if (inside) inside = j->bytes[k] != ';', j->bytes[k] = 'x';
        }
        put(j, "</label>", 1);
        j->texts++;
    }
    put(j, "</tray>", 1);
}

/* nanoseconds of one call; `wrong` where the rows or the extract's bytes are not what they must be, with texts of so many characters */
static double call(const struct journal *j, size_t characters, int *wrong) {
    struct timespec from, to;
    clock_gettime(CLOCK_MONOTONIC, &from);
    struct lozhymet_result r = host_make_extract((const uint8_t *)schema, strlen(schema), (const uint8_t *)bundle, strlen(bundle), j->bytes, j->len,
        COLUMNS, extract, sizeof extract);
    clock_gettime(CLOCK_MONOTONIC, &to);
    /* 8 bytes for the root and for each label, 7 before the characters of each text, and 5 at the end */
    *wrong |= r.number || r.rows != 1 + 2 * j->texts || r.items != 8 + j->texts * (8 + 7 + characters) + 5;
    return (double)(to.tv_sec - from.tv_sec) * 1e9 + (double)(to.tv_nsec - from.tv_nsec);
}

/* the least of some turns, the two journals in turn */
static int compare(const struct shape *s) {
    double best[2] = { 1e18, 1e18 };
    int wrong = 0;
    make(&with, s, 1);
    make(&without, s, 0);
    for (int k = 0; k < TURNS; k++)
        for (int entities = 0; entities < 2; entities++) {
            double taken = entities ? call(&with, s->characters, &wrong) : call(&without, strlen(s->part) * s->times, &wrong);
            if (taken < best[entities]) best[entities] = taken;
        }
    wrong |= with.len != without.len || with.texts != without.texts;
    double ratio = best[1] / best[0];
    printf("%s: %zu bytes, %zu texts: %.0f microseconds without entities, %.0f with, ratio %.2f%s%s\n", s->name, with.len, with.texts, best[0] / 1e3,
        best[1] / 1e3, ratio, wrong ? ", and an answer is wrong" : "", ratio > BAR ? ", which is above 1.3" : "");
    return wrong || ratio > BAR;
}

int main(void) {
    int failed = 0;
    for (size_t k = 0; k < sizeof shapes / sizeof *shapes; k++) failed |= compare(&shapes[k]);
    return failed;
}
