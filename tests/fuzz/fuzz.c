/* Fuzzing of the two functions: fuzz SECONDS SEED. Texts start from a few good ones, are changed at random, and are kept where they are answered in a
   way not seen before. Every output is lent between guard cells, every input ends where memory ends. What is checked does not depend on a second
   reading of the texts: what is promised of zeros, sizes, order and places, and that an extract that was made is selected from. */
#define _POSIX_C_SOURCE 200809L
#include "../host/lent.h"

#include <stdio.h>
#include <stdlib.h>
#include <string.h>
#include <time.h>

/* GOOD is how many inputs it starts from, which stay */
enum { KINDS = 3, GOOD = 5, KEPT = 256, MOST = 1 << 15, GUARDS = 8 };
enum { SCHEMA, BUNDLE, JOURNAL };

struct input {
    uint8_t *bytes[KINDS];
    size_t len[KINDS];
};

static struct input kept[KEPT];
static size_t kept_count;
static size_t seen[2][19], calls, entities;
static uint64_t state;

/* ---- chance */

static size_t below(size_t n) {
    state ^= state << 13;
    state ^= state >> 7;
    state ^= state << 17;
    return (size_t)(state >> 11) % n;
}

/* ---- failing */

static struct text text_of(const struct input *i, int kind) {
    return (struct text){ i->bytes[kind], i->len[kind] };
}

static void print_text(const char *name, struct text t) {
    printf("%s:", name);
    for (size_t i = 0; i < t.len && i < 4000; i++) printf(" %02x", t.bytes[i]);
    printf("\n");
}

static void check(int holds, const char *what, const struct input *i, struct text extract) {
    if (holds) return;
    printf("fuzz: %s\n", what);
    print_text("schema", text_of(i, SCHEMA));
    print_text("bundle", text_of(i, BUNDLE));
    print_text("journal", text_of(i, JOURNAL));
    print_text("extract", extract);
    exit(1);
}

/* ---- changes */

static const char *const words[] = {
    "<!ELEMENT ", " EMPTY>", "(#PCDATA)", "(", ")", "*", "?", "+", "|", ",", "scan", "plate", "well", "tile", "focus", "child::", "descendant::", "self::",
    "parent::", "ancestor::", "descendant-or-self::", "ancestor-or-self::", "following::", "following-sibling::", "preceding::", "preceding-sibling::",
    "node()", "text()", "[", "]", " or ", "/", "\n", "<", ">", "</", "/>", "&lt;", "&gt;", "&amp;", "&apos;", "&quot;", "amp;", "]]>", " ", "\t", "<scan>",
    "</scan>", "<tile/>", "<plate>", "</plate>", "\x01", "\x02", "\x03", "\x7F", "\x80",
};

static void replace(uint8_t **bytes, size_t *len, size_t from, size_t to, const uint8_t *with, size_t with_len) {
    if (*len - (to - from) + with_len > MOST) return;
    uint8_t *made = malloc(*len - (to - from) + with_len + 1);
    if (!made) exit(2);
    memcpy(made, *bytes, from);
    memcpy(made + from, with, with_len);
    memcpy(made + from + with_len, *bytes + to, *len - to);
    *len = *len - (to - from) + with_len;
    free(*bytes);
    *bytes = made;
}

/* a part so many times more, to reach limits */
static void repeat(uint8_t **bytes, size_t *len, size_t from, size_t to) {
    uint8_t part[24];
    size_t size = to - from;
    memcpy(part, *bytes + from, size);
    for (size_t times = below(10) ? below(70) : below(4200) / (size + 1); times > 0; times--) replace(bytes, len, from, from, part, size);
}

/* one change: a bit, a byte, a word put in, a part taken out, repeated, moved in from another text, or the rest cut off */
static void change(uint8_t **bytes, size_t *len, struct text other) {
    size_t from = below(*len + 1), part = below(24), to = from + (part < *len - from ? part : *len - from);
    const char *word = words[below(sizeof words / sizeof *words)];
    uint8_t any = (uint8_t)(below(8) ? ' ' + below(95) : below(256));
    switch (below(8)) {
    case 0: if (from < *len) (*bytes)[from] ^= (uint8_t)(1 << below(7)); break;
    case 1: if (from < *len) (*bytes)[from] = any; break;
    case 2: replace(bytes, len, from, from, &any, 1); break;
    case 3: replace(bytes, len, from, from, (const uint8_t *)word, strlen(word)); break;
    case 4: replace(bytes, len, from, to, &any, 0); break;
    case 5: repeat(bytes, len, from, below(2) || to == from ? to : from + 1); break;
    case 6: if (other.len) {
        size_t start = below(other.len), size = below(other.len - start) + 1;
        replace(bytes, len, from, to, other.bytes + start, size < 200 ? size : 200);
        break;
    }
    /* fall through */
    default: if (below(4) == 0) replace(bytes, len, from, *len, &any, 0);
    }
}

static void keep(const struct input *i) {
    size_t at = kept_count < KEPT ? kept_count++ : GOOD + below(KEPT - GOOD);
    for (int k = 0; k < KINDS; k++) {
        free(kept[at].bytes[k]);
        kept[at].bytes[k] = malloc(i->len[k] + 1);
        if (!kept[at].bytes[k]) exit(2);
        memcpy(kept[at].bytes[k], i->bytes[k], i->len[k]);
        kept[at].len[k] = i->len[k];
    }
}

/* one of the inputs kept, most often with changes in one or two of its texts */
static struct input next_input(void) {
    const struct input *from = &kept[below(kept_count)];
    struct input i;
    for (int k = 0; k < KINDS; k++) {
        i.len[k] = from->len[k];
        i.bytes[k] = malloc(i.len[k] + 1);
        if (!i.bytes[k]) exit(2);
        memcpy(i.bytes[k], from->bytes[k], i.len[k]);
    }
    for (size_t times = below(3); times > 0; times--) {
        size_t chosen = below(8), kind = chosen == 0 ? SCHEMA : chosen < 4 ? BUNDLE : JOURNAL;
        for (size_t changes = 1 + below(3); changes > 0; changes--) change(&i.bytes[kind], &i.len[kind], text_of(&kept[below(kept_count)], (int)kind));
    }
    return i;
}

/* ---- what is promised */

static int zero_from(const struct lent *lent, enum output o, size_t from) {
    for (size_t i = from; i < lent->outputs[o].len; i++)
        if (cell(lent, o, i)) return 0;
    return 1;
}

static size_t length_judged(const struct input *i, uint64_t number) {
    size_t most = 0;
    for (int k = 0; k < KINDS; k++)
        if (i->len[k] > most) most = i->len[k];
    return number == LOZHYMET_BAD_BYTE ? most : number <= 7 ? i->len[SCHEMA] : number <= 10 ? i->len[BUNDLE] : i->len[JOURNAL];
}

/* how many characters a journal's text has: each entity is one, from its & to its ; */
static size_t characters(const uint8_t *bytes, size_t len) {
    size_t count = 0;
    for (size_t k = 0; k < len; k++, count++)
        if (bytes[k] == '&')
            while (k < len && bytes[k] != ';') k++;
    return count;
}

/* the rows of a journal, or of an extract, whose texts are not decoded again */
static void check_table(int selects, const struct lent *lent, struct lozhymet_result r, const struct input *i, struct text extract) {
    struct text text = selects ? extract : text_of(i, JOURNAL);
    for (size_t row = 0; row < r.rows; row++) {
        uint32_t name = cell(lent, NAMES, row), start = cell(lent, STARTS, row), len = cell(lent, LENGTHS, row);
        check(name < 64, "a name is out of range", i, extract);
        check(row ? cell(lent, PARENTS, row) < row : !cell(lent, PARENTS, 0), "a parent is not before its row", i, extract);
        check(!row || cell(lent, NUMBERS, row) > cell(lent, NUMBERS, row - 1), "numbers do not rise", i, extract);
        check(name >= 32 ? len >= 1 && len <= 4096 && start + (size_t)len <= text.len : !start && !len, "a text is out of range", i, extract);
        size_t decoded = selects || name < 32 ? len : characters(text.bytes + start, len);
        check(cell(lent, DECODED, row) == decoded, "a decoded length is not that of the text", i, extract);
        entities += decoded != len;
    }
}

/* what an entity stands for, by the letters after its & */
static uint8_t character(const uint8_t *letters) {
    return letters[0] == 'l' ? '<' : letters[0] == 'g' ? '>' : letters[0] == 'q' ? '"' : letters[1] == 'm' ? '&' : '\'';
}

/* whether a part of a journal, decoded, is these characters; a check of lengths comes before */
static int stands_for(const uint8_t *part, const uint8_t *all, size_t count) {
    for (size_t k = 0; k < count; k++, part++) {
        if (all[k] != (*part == '&' ? character(part + 1) : *part)) return 0;
        if (*part == '&')
            while (*part != ';') part++;
    }
    return 1;
}

/* the texts that are sent: a field of tag 2 has the number of its row in two bytes, the parent's in two, and the decoded characters */
static void check_sent(const struct lent *lent, const struct input *i, struct text extract) {
    for (size_t at = 0, size; at < extract.len; at += 3 + size) {
        const uint8_t *field = extract.bytes + at;
        size = field[1] * 256u + field[2];
        if (field[0] != 2) continue;
        size_t row = field[3] * 256u + field[4];
        check(size == 4 + cell(lent, DECODED, row), "a text is not sent at its decoded length", i, extract);
        check(stands_for(i->bytes[JOURNAL] + cell(lent, STARTS, row), field + 7, size - 4), "a text is not sent decoded", i, extract);
    }
}

static void check_result(int selects, struct lent *lent, struct lozhymet_result r, int enough, const struct input *i, struct text extract) {
    const size_t answered[OUTPUTS] = { r.rows, r.rows, r.rows, r.rows, r.rows, r.rows, r.items, r.counts };
    check(!lent->damaged, "a guard cell or an input has changed", i, extract);
    check(r.number <= 18 && !(selects ? r.number >= 11 && r.number <= 16 : r.number == 17), "a number that cannot be", i, extract);
    check(!(enough && r.number == LOZHYMET_TOO_FEW_CELLS), "18 with the cells that the header says", i, extract);
    check(!r.number || (!r.rows && !r.items && !r.counts), "refused, and something is answered", i, extract);
    check(r.number >= 3 && r.number <= 16 ? r.place <= length_judged(i, r.number) : !r.place, "a place that cannot be", i, extract);
    for (int o = 0; o < OUTPUTS; o++) {
        if (o == COUNTS && !selects) continue;
        check(answered[o] <= lent->outputs[o].len, "more is answered than lent", i, extract);
        check(zero_from(lent, o, answered[o]), "a cell past the answer is not 0", i, extract);
    }
    check_table(selects, lent, r, i, extract);
    seen[selects][r.number]++;
    calls++;
}

/* each path's numbers rise, and their counts add up */
static void check_selected(const struct lent *lent, struct lozhymet_result r, size_t place, const struct input *i, struct text extract) {
    size_t item = 0;
    check(r.number || (place ? r.counts == 1 : r.counts >= 1 && r.counts <= LOZHYMET_MAX_PATHS), "not a count for each path", i, extract);
    for (size_t path = 0; path < r.counts; path++)
        for (uint32_t k = 0; k < cell(lent, COUNTS, path); k++, item++)
            check(item < r.items && (!k || cell(lent, ITEMS, item) > cell(lent, ITEMS, item - 1)), "selected numbers do not rise", i, extract);
    check(item == r.items, "the counts do not add up", i, extract);
}

/* ---- the calls */

/* cells to lend: what the header says (enough is then 1), or fewer */
static size_t some(size_t most, int enough) {
    return enough ? most : below(most + 2);
}

static struct lozhymet_result try_select(const struct input *i, struct text extract, int enough, size_t place) {
    struct lent lent;
    size_t rows = LOZHYMET_EXTRACT_ROWS(extract.len), items = LOZHYMET_ITEMS(place ? 1 : LOZHYMET_MAX_PATHS, extract.len);
    lend_rows(&lent, 0, some(rows, enough), some(items, enough), enough ? LOZHYMET_MAX_PATHS : below(9), GUARDS);
    struct lozhymet_result r = select_from(&lent, text_of(i, SCHEMA), text_of(i, BUNDLE), place, extract);
    check_result(1, &lent, r, enough, i, extract);
    check_selected(&lent, r, place, i, extract);
    give_back(&lent);
    return r;
}

static void try_changed_extract(const struct input *i, struct text extract) {
    uint8_t *bytes = malloc(extract.len + 1);
    size_t len = extract.len;
    if (!bytes) exit(2);
    memcpy(bytes, extract.bytes, len);
    for (size_t changes = 1 + below(2); changes > 0; changes--) change(&bytes, &len, extract);
    try_select(i, (struct text){ bytes, len }, below(4) != 0, below(8) ? below(4) : below(12));
    free(bytes);
}

static void try_input(struct input *i) {
    struct lent lent;
    int enough = below(4) != 0;
    size_t len = i->len[JOURNAL], before = seen[0][0];
    size_t rows = some(LOZHYMET_JOURNAL_ROWS(len), enough), bytes = some(LOZHYMET_EXTRACT_BYTES(len), enough);
    size_t lens[OUTPUTS] = { rows, rows, rows, rows, rows, rows, bytes, 0 };
    if (below(50) == 0) lens[below(ITEMS)]++;
    lend(&lent, 1, lens, GUARDS);
    struct lozhymet_result r = make_extract(&lent, text_of(i, SCHEMA), text_of(i, BUNDLE), text_of(i, JOURNAL));
    check_result(0, &lent, r, enough, i, (struct text){ NULL, 0 });
    struct text extract = { lent.outputs[ITEMS].block + GUARDS, r.items };
    if (!r.number) {
        check_sent(&lent, i, extract);
        struct lozhymet_result all = try_select(i, extract, 1, 0);
        check(!all.number && all.rows <= r.rows, "an extract that was made is not selected from", i, extract);
        try_select(i, extract, 0, below(10));
        try_changed_extract(i, extract);
    } else if (below(8) == 0) {
        static const uint8_t no_rows[] = { 3, 0, 2, 0, 0 };
        try_select(i, (struct text){ no_rows, sizeof no_rows }, 1, below(12));
    }
    /* kept: what is accepted, and now and then what is refused */
    if (seen[0][0] > before ? below(16) == 0 : below(200) == 0) keep(i);
    give_back(&lent);
    for (int k = 0; k < KINDS; k++) free(i->bytes[k]);
}

/* ---- */

static void start(void) {
    static const char *const good[GOOD][KINDS] = {
        { "<!ELEMENT scan (plate*)><!ELEMENT plate (well|tile)*><!ELEMENT well (tile*)><!ELEMENT tile (focus?)><!ELEMENT focus (#PCDATA)>",
            "child::plate[child::well]/child::tile\ndescendant::tile/parent::well\n",
            "<scan><plate><well><tile><focus>12</focus></tile></well><tile/></plate></scan>" },
        { "<!ELEMENT a (a|b)*>\n<!ELEMENT b (#PCDATA)>\n", "descendant::b[ancestor::a/child::b or child::text()]\ndescendant-or-self::a/child::text()\n",
            "<a>\n <b>1 &lt; 2 &amp;&gt;</b>\n <a><a><b> &quot;&apos;</b></a></a>\n</a>" },
        { "<!ELEMENT r ((x,y?)+|(z*,(x|y)))><!ELEMENT x EMPTY><!ELEMENT y (r?)><!ELEMENT z (#PCDATA)>",
            "child::x/parent::r/child::y[child::r]\ndescendant::z/ancestor-or-self::node()\nself::r[descendant::text()]\n",
            "<r><x/><y><r><z>t</z><x/></r></y><x/></r>" },
        { "<!ELEMENT r (a|b)*><!ELEMENT a (b|t)*><!ELEMENT b EMPTY><!ELEMENT t (#PCDATA)>",
            "child::b/following-sibling::a[preceding::t]\ndescendant::t/preceding::node()/following::b\ndescendant::b[preceding-sibling::t]\n",
            "<r><a><b/><t>1</t><b/></a><b/><a><t>2</t></a></r>" },
        { "<!ELEMENT only EMPTY>", "self::only\n", "<only/>" },
    };
    for (size_t i = 0; i < GOOD; i++) {
        struct input made = { { 0 }, { 0 } };
        for (int k = 0; k < KINDS; k++) made.bytes[k] = (uint8_t *)good[i][k], made.len[k] = strlen(good[i][k]);
        keep(&made);
    }
}

int main(int argc, char **argv) {
    if (argc != 3) return fprintf(stderr, "usage: fuzz SECONDS SEED\n"), 2;
    time_t end = time(NULL) + atol(argv[1]);
    state = strtoull(argv[2], NULL, 10) * 0x9E3779B97F4A7C15u | 1;
    start();
    while (time(NULL) < end)
        for (int k = 0; k < 50; k++) {
            struct input i = next_input();
            try_input(&i);
        }
    for (int selects = 0; selects < 2; selects++) {
        printf("fuzz: %s, by refusal from 0:", selects ? "selecting" : "making");
        for (int n = 0; n <= 18; n++) printf(" %zu", seen[selects][n]);
        printf("\n");
    }
    if (!entities) return puts("fuzz: no text had an entity"), 1;
    printf("fuzz: %zu calls, %zu texts with entities, no promise broken\n", calls, entities);
    return 0;
}
