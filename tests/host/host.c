/* A host in C: calls the two functions on document 01's worked cases, on each refusal and at the limits, and prints what they answer and leave in
   every lent cell. `host` lends with guard cells; `host exact` lends without, for valgrind, and leaves the large texts out. */
#include "lent.h"

#include <stdio.h>
#include <stdlib.h>
#include <string.h>

static size_t guards = 8;
static int faults;

/* ---- texts */

static const char schema_s[] =
    "<!ELEMENT scan (plate*)><!ELEMENT plate (well|tile)*><!ELEMENT well (tile*)><!ELEMENT tile (focus?)><!ELEMENT focus (#PCDATA)>";
static const char journal_j[] = "<scan><plate><well><tile><focus>12</focus></tile></well><tile/></plate></scan>";
static const char schema_r[] = "<!ELEMENT r (a|b|c)*><!ELEMENT a (b|t)*><!ELEMENT b EMPTY><!ELEMENT c (t?)><!ELEMENT t (#PCDATA)>";
static const char journal_k[] = "<r><a><b/><t>1</t><b/></a><b/><c><t>2</t></c><a/></r>";
static const char schema_t[] = "<!ELEMENT t (#PCDATA)>";
static const char its_text[] = "child::text()\n";
static const char fourth[] = "child::plate/child::tile[child::focus]\n";
static const char two_paths[] = "descendant::text()\ndescendant::tile/parent::node()\n";
static const char foreign[] = "<scan>\x7F";
static const char declared_twice[] = "<!ELEMENT a EMPTY><!ELEMENT a EMPTY>";
static const char undeclared[] = "self::scan\nchild::cell\n";
static const char misfit[] = "<scan><plate><focus>1</focus></plate></scan>";

static struct text string(const char *s) {
    return (struct text){ (const uint8_t *)s, strlen(s) };
}

/* a text that grows; what it holds at last is freed by its owner */
struct growing {
    char *bytes;
    size_t len;
};

static void add(struct growing *g, const char *part, size_t times) {
    size_t len = strlen(part);
    g->bytes = realloc(g->bytes, g->len + len * times + 1);
    if (!g->bytes) exit(2);
    for (size_t i = 0; i < times; i++, g->len += len) memcpy(g->bytes + g->len, part, len);
    g->bytes[g->len] = 0;
}

/* head, then part so many times, then tail */
static char *repeated(const char *head, const char *part, size_t times, const char *tail) {
    struct growing g = { NULL, 0 };
    add(&g, head, 1);
    add(&g, part, times);
    add(&g, tail, 1);
    return g.bytes;
}

/* ---- printing */

static void print_cells(const struct lent *lent, enum output o) {
    static const char *const names[OUTPUTS] = { "numbers", "names", "parents", "starts", "lengths", "decoded", "items", "counts" };
    printf("  %s", names[o]);
    for (size_t i = 0; i < lent->outputs[o].len; i++)
        printf(lent->outputs[o].width == 1 && o == ITEMS ? " %02x" : " %u", (unsigned)cell(lent, o, i));
    printf("\n");
}

static void print_result(const char *name, struct lozhymet_result r) {
    printf("%s: ", name);
    if (r.number) printf("refused %u at %u", (unsigned)r.number, (unsigned)r.place);
    else printf("accepted");
    printf(", %u rows, %u items, %u counts\n", (unsigned)r.rows, (unsigned)r.items, (unsigned)r.counts);
}

static int all_zero(const struct lent *lent, enum output o, size_t from) {
    for (size_t i = from; i < lent->outputs[o].len; i++)
        if (cell(lent, o, i)) return 0;
    return 1;
}

/* cells past the answer are 0; on refusal all are, since the counts of the result are 0 then */
static void judge(const char *name, const struct lent *lent, struct lozhymet_result r) {
    const size_t answered[OUTPUTS] = { r.rows, r.rows, r.rows, r.rows, r.rows, r.rows, r.items, r.counts };
    if (r.number && (r.rows || r.items || r.counts)) faults++, printf("%s: refused, and something is answered\n", name);
    if (!r.number && r.place) faults++, printf("%s: accepted, and a place is named\n", name);
    if (lent->damaged) faults++, printf("%s: a guard cell or an input has changed\n", name);
    for (int o = 0; o < OUTPUTS; o++)
        if (!(o == COUNTS && lent->outputs[ITEMS].width == 1) && !all_zero(lent, o, answered[o]))
            faults++, printf("%s: output %d is not 0 past its answer\n", name, o);
}

static void show(const char *name, struct lent *lent, struct lozhymet_result r, int with_cells) {
    print_result(name, r);
    if (with_cells && !r.number)
        for (int o = 0; o < (lent->outputs[ITEMS].width == 1 ? COUNTS : OUTPUTS); o++) print_cells(lent, o);
    judge(name, lent, r);
    give_back(lent);
}

/* ---- calls with so many cells lent */

static void making(const char *name, const char *schema, const char *bundle, const char *journal, size_t rows, size_t bytes) {
    struct lent lent;
    lend_rows(&lent, 1, rows, bytes, 0, guards);
    struct lozhymet_result r = make_extract(&lent, string(schema), string(bundle), string(journal));
    show(name, &lent, r, rows <= 16);
}

static void selecting(const char *name, const char *schema, const char *bundle, size_t place, struct text extract, size_t rows, size_t items, size_t counts) {
    struct lent lent;
    lend_rows(&lent, 0, rows, items, counts, guards);
    struct lozhymet_result r = select_from(&lent, string(schema), string(bundle), place, extract);
    show(name, &lent, r, rows <= 16);
}

/* making, then selecting each path from what was made, each with just the cells that the header says */
static void made_then_selected(const char *name, const char *schema, const char *bundle, const char *journal) {
    struct lent made, found;
    size_t len = strlen(journal);
    lend_rows(&made, 1, LOZHYMET_JOURNAL_ROWS(len), LOZHYMET_EXTRACT_BYTES(len), 0, guards);
    struct lozhymet_result m = make_extract(&made, string(schema), string(bundle), string(journal));
    judge(name, &made, m);
    struct text extract = { made.outputs[ITEMS].block + guards, m.items };
    lend_rows(&found, 0, LOZHYMET_EXTRACT_ROWS(extract.len), LOZHYMET_ITEMS(LOZHYMET_MAX_PATHS, extract.len), LOZHYMET_MAX_PATHS, guards);
    struct lozhymet_result f = select_from(&found, string(schema), string(bundle), 0, extract);
    judge(name, &found, f);
    printf("%s: made %u at %u, selected %u at %u; kept", name, (unsigned)m.number, (unsigned)m.place, (unsigned)f.number, (unsigned)f.place);
    for (size_t i = 0; i < f.rows; i++) printf(" %u", (unsigned)cell(&found, NUMBERS, i));
    printf(" of %u; selected", (unsigned)m.rows);
    for (size_t i = 0; i < f.items; i++) printf(" %u", (unsigned)cell(&found, ITEMS, i));
    printf("; counts");
    for (size_t i = 0; i < f.counts; i++) printf(" %u", (unsigned)cell(&found, COUNTS, i));
    printf("\n");
    give_back(&made);
    give_back(&found);
}

/* ---- cases */

static void tried_paths(const char *schema, const char *const *paths, size_t count, const char *journal) {
    for (size_t i = 0; i < count; i++) {
        char name[80];
        snprintf(name, sizeof name, "%.*s", (int)(strlen(paths[i]) - 1), paths[i]);
        if (strchr(name, '\n')) snprintf(name, sizeof name, "the two paths of the listing");
        made_then_selected(name, schema, paths[i], journal);
    }
}

/* document 01, "Paths tried on S and J", and its example of two paths */
static void worked_cases(void) {
    static const char *const paths[] = {
        "self::scan\n", "self::plate\n", "child::well\n", "child::plate/child::tile[child::focus]\n", "child::plate[child::well]/child::tile\n",
        "descendant::tile/parent::well\n", "child::plate/child::tile/parent::node()\n", "descendant::text()\n", "parent::node()\n",
        "child::plate[child::well]/child::tile\ndescendant::tile/parent::well\n",
    };
    tried_paths(schema_s, paths, sizeof paths / sizeof *paths, journal_j);
    making("the first row's extract", schema_s, "self::scan\n", journal_j, 7, 13);
    making("an empty set's extract", schema_s, "self::plate\n", journal_j, 9, 8);
    making("the fourth row's extract", schema_s, fourth, journal_j, 9, 31);
    making("all of J", schema_s, two_paths, journal_j, 9, 63);
}

/* document 02, R-1: each axis, the condition of a rewritten step, what lies above a deep node, and a root without siblings */
static void sibling_axes(void) {
    static const char *const paths[] = {
        "child::b/following-sibling::node()\n", "child::b/preceding-sibling::node()\n", "child::a/following::node()\n", "child::a/child::t/preceding::node()\n",
        "child::b/following-sibling::c[child::t]\n", "child::c/child::t/child::text()/preceding::b\n", "following-sibling::node()\n",
    };
    tried_paths(schema_r, paths, sizeof paths / sizeof *paths, journal_k);
    made_then_selected("a root that holds itself", "<!ELEMENT a (a*)>", "following-sibling::a\npreceding::a\n", "<a><a/><a/></a>");
}

/* document 02, R-2: each entity, what looks like one or like markup once it is decoded, two spellings, an extract's text, which is not decoded again,
   and the limit, which counts raw bytes */
static void entities(void) {
    static const uint8_t entity_read[] = "\x01\x00\x05\x00\x00\x00\x00\x00\x02\x00\x09\x00\x01\x00\x00&amp;\x03\x00\x02\x00\x02";
    static const char each[] = "<t>A&amp;B&lt;&gt;&apos;&quot;</t>";
    char *most = repeated("<t>", "&lt;", 1024, "</t>"), *over = repeated("<t>", "&lt;", 1024, "x</t>");
    making("each entity", schema_t, its_text, each, 3, 29);
    making("each entity, just enough", schema_t, its_text, each, 2, 27);
    making("18, each entity in a byte too few", schema_t, its_text, each, 2, 26);
    making("nothing decoded twice", schema_t, its_text, "<t>&amp;lt;&amp;amp;</t>", 2, 29);
    making("what looks like an end tag", schema_t, its_text, "<t>]]&gt;&lt;/t&gt;</t>", 2, 27);
    making("a spelling", schema_t, its_text, "<t>\"a>b'</t>", 2, 25);
    making("another spelling", schema_t, its_text, "<t>&quot;a&gt;b&apos;</t>", 2, 25);
    made_then_selected("texts with entities", schema_r, "descendant::text()\nchild::c[child::t]\n", "<r><a><t>1 &lt; 2</t><b/></a><c><t>&amp;</t></c></r>");
    selecting("an extract's text with an entity", schema_t, its_text, 0, (struct text){ entity_read, sizeof entity_read - 1 }, 3, 2, 1);
    making("4,096 raw bytes of entities", schema_t, "self::t\n", most, 2, 13);
    making("16, 4,097 raw bytes", schema_t, "self::t\n", over, 2, 13);
    free(most), free(over);
}

/* document 01, "Accepted and turned back" */
static void declarations(size_t count) {
    struct growing g = { NULL, 0 };
    char declaration[64], name[64];
    for (size_t i = 0; i < count; i++) {
        snprintf(declaration, sizeof declaration, "<!ELEMENT e%u EMPTY>", (unsigned)i);
        add(&g, declaration, 1);
    }
    snprintf(name, sizeof name, "%u declarations", (unsigned)count);
    made_then_selected(name, g.bytes, "self::e0\n", "<e0/>");
    free(g.bytes);
}

static void parentheses(size_t count) {
    char *opened = repeated("<!ELEMENT a ", "(", count, "a?");
    char *schema = repeated(opened, ")", count, ">"), name[64];
    snprintf(name, sizeof name, "%u parentheses", (unsigned)count);
    made_then_selected(name, schema, "self::a\n", "<a><a/></a>");
    free(opened);
    free(schema);
}

static void depth(size_t count) {
    char *opened = repeated("", "<a>", count, "");
    char *journal = repeated(opened, "</a>", count, ""), name[64];
    snprintf(name, sizeof name, "depth %u", (unsigned)count);
    made_then_selected(name, "<!ELEMENT a (a?)>", "self::a\n", journal);
    free(opened);
    free(journal);
}

static void steps(size_t count) {
    char *bundle = repeated("self::scan", "/self::scan", count - 1, "\n"), name[64];
    snprintf(name, sizeof name, "%u steps", (unsigned)count);
    made_then_selected(name, schema_s, bundle, journal_j);
    free(bundle);
}

static void name_of(size_t count) {
    char *long_name = repeated("", "n", count, ""), schema[128], bundle[128], journal[128], name[64];
    snprintf(schema, sizeof schema, "<!ELEMENT %s EMPTY>", long_name);
    snprintf(bundle, sizeof bundle, "self::%s\n", long_name);
    snprintf(journal, sizeof journal, "<%s/>", long_name);
    snprintf(name, sizeof name, "a name of %u bytes", (unsigned)count);
    made_then_selected(name, schema, "self::node()\n", journal);
    made_then_selected("  in a path", "<!ELEMENT a EMPTY>", bundle, "<a/>");
    made_then_selected("  in a journal", "<!ELEMENT a EMPTY>", "self::a\n", journal);
    free(long_name);
}

static void both_sides_of_limits(void) {
    declarations(32), declarations(33);
    parentheses(8), parentheses(9);
    depth(64), depth(65);
    steps(16), steps(17);
    name_of(31), name_of(32);
}

static void unequal_columns(const char *name, int made, const size_t lens[OUTPUTS]) {
    struct lent lent;
    lend(&lent, made, lens, guards);
    struct lozhymet_result r = made ? make_extract(&lent, string(schema_s), string(fourth), string(journal_j))
                                    : select_from(&lent, string(schema_s), string(fourth), 0, string("x"));
    show(name, &lent, r, 1);
}

static void each_refusal_of_making(void) {
    for (int made = 0; made < 2; made++)
        for (int o = NUMBERS; o <= DECODED; o++) {
            size_t lens[OUTPUTS] = { 9, 9, 9, 9, 9, 9, 31, 3 };
            lens[o] = o % 2 ? 8 : 10;
            unequal_columns(made ? "1, making" : "1, selecting", made, lens);
        }
    making("2, an empty schema", "", undeclared, misfit, 9, 31);
    making("2, an empty bundle", schema_s, "", misfit, 9, 31);
    making("2, an empty journal", schema_s, fourth, "", 9, 31);
    making("3, in the schema", foreign, undeclared, misfit, 9, 31);
    making("3, in the bundle", schema_s, "self::scan\r\n", misfit, 9, 31);
    making("3, in the journal", schema_s, fourth, foreign, 9, 31);
    making("4, a star after (#PCDATA)", "<!ELEMENT a (#PCDATA)*>", fourth, journal_j, 9, 31);
    making("4, at the length", "<!ELEMENT a EMPTY", fourth, journal_j, 9, 31);
    making("6", declared_twice, "", "", 9, 31);
    making("7", "<!ELEMENT a (b)>", fourth, journal_j, 9, 31);
    making("8", schema_s, "childs::plate\n", misfit, 9, 31);
    making("8, at the length", schema_s, "self::scan", misfit, 9, 31);
    making("9, a ninth path", schema_s, "self::a\nself::a\nself::a\nself::a\nself::a\nself::a\nself::a\nself::a\nself::a\n", misfit, 9, 31);
    making("10", schema_s, undeclared, "", 9, 31);
    making("11, an attribute", schema_s, fourth, "<scan a='1'/>", 9, 31);
    making("11, an entity", schema_s, fourth, "<scan>&nbsp;</scan>", 9, 31);
    making("12, a wrong end tag", schema_s, fourth, "<scan><plate></scan></plate>", 9, 31);
    making("12, at the length", schema_s, fourth, "<scan>", 9, 31);
    making("14", schema_s, fourth, "<scan><cell/></scan>", 9, 31);
    making("15, before 18", schema_s, fourth, misfit, 0, 0);
    making("18, no rows", schema_s, fourth, "<scan/>", 0, 13);
    making("18, a byte too few", schema_s, fourth, "<scan/>", 1, 12);
    making("just enough", schema_s, fourth, "<scan/>", 1, 13);
    making("18, a row too few", schema_s, fourth, journal_j, 6, 31);
    making("18, bytes too few", schema_s, fourth, journal_j, 9, 28);
}

static void selections(void) {
    struct lent made;
    lend_rows(&made, 1, 7, 62, 0, guards);
    struct lozhymet_result m = make_extract(&made, string(schema_s), string(two_paths), string(journal_j));
    struct text all = { made.outputs[ITEMS].block + guards, m.items }, none = { (const uint8_t *)"\x03\x00\x02\x00\x00", 5 };
    selecting("all paths", schema_s, two_paths, 0, all, 9, 5, 3);
    selecting("the first path", schema_s, two_paths, 1, all, 9, 5, 3);
    selecting("the second path", schema_s, two_paths, 2, all, 9, 5, 3);
    selecting("an empty table", schema_s, two_paths, 0, none, 1, 1, 3);
    selecting("no cells for no rows", schema_s, two_paths, 0, none, 0, 0, 2);
    selecting("18, a row too few", schema_s, two_paths, 0, all, 6, 5, 3);
    selecting("18, an item too few", schema_s, two_paths, 0, all, 9, 2, 3);
    selecting("18, a count too few", schema_s, two_paths, 0, all, 9, 5, 1);
    selecting("18, no count", schema_s, two_paths, 1, all, 9, 5, 0);
    selecting("1, a place past the paths", schema_s, two_paths, 3, all, 9, 5, 3);
    selecting("1, whatever the extract", schema_s, two_paths, 3, string(""), 9, 5, 3);
    selecting("1, a place of no bundle", schema_s, two_paths, 9, all, 9, 5, 3);
    selecting("1, the largest place", schema_s, two_paths, (size_t)-1, all, 9, 5, 3);
    selecting("1, before a schema's refusal", declared_twice, two_paths, 9, all, 9, 5, 3);
    selecting("6, a place that some bundle has", declared_twice, two_paths, 8, all, 9, 5, 3);
    selecting("10, a place that some bundle has", schema_s, undeclared, 8, all, 9, 5, 3);
    selecting("3, in the schema", foreign, undeclared, 0, string("x"), 9, 5, 3);
    selecting("2, an empty extract", schema_s, two_paths, 2, string(""), 9, 5, 3);
    selecting("17, before 18", schema_s, two_paths, 2, string("x"), 0, 0, 0);
    for (size_t len = 1; len < all.len; len += 4) {
        char name[64];
        snprintf(name, sizeof name, "17, cut off after %u bytes", (unsigned)len);
        selecting(name, schema_s, two_paths, 0, (struct text){ all.bytes, len }, 9, 5, 3);
    }
    give_back(&made);
}

static void remaining_limits(void) {
    char *model = repeated("<!ELEMENT a (a?", ",a?", 63, ")>"), *over = repeated("<!ELEMENT a (a?", ",a?", 64, ")>");
    char *text = repeated("<a>", "x", 4096, "</a>"), *longer = repeated("<a>", "x", 4097, "</a>");
    char *schema = repeated("<!ELEMENT a EMPTY>", " ", 8174, ""), *bundle = repeated("", "self::a/self::a\n", 257, "");
    char *path = repeated("self::node()", "/self::node()", 15, "[child::a or child::a or child::a or child::a]\n");
    making("64 names in a model", model, "self::a\n", "<a/>", 2, 16);
    making("5, 65 names in a model", over, "self::a\n", "<a/>", 2, 16);
    making("a text of 4,096 bytes", "<!ELEMENT a (#PCDATA)>", "self::a\n", text, 2, 16);
    making("16, a text of 4,097 bytes", "<!ELEMENT a (#PCDATA)>", "self::a\n", longer, 2, 16);
    making("a schema of 8,192 bytes", schema, "self::a\n", "<a/>", 2, 16);
    making("2, a bundle of 4,112 bytes", schema, bundle, "<a/>", 2, 16);
    making("16 steps and 4 alternatives", model, path, "<a><a/></a>", 2, 24);
    free(model), free(over), free(text), free(longer), free(schema), free(bundle), free(path);
}

static void large_texts(void) {
    char *most = repeated("<a>", "<b/>", 65534, "</a>"), *over = repeated("<a>", "<b/>", 65535, "</a>");
    char *bytes = repeated("<a>", " ", 1048569, "</a>"), *longer = repeated("<a>", " ", 1048570, "</a>");
    const char *schema = "<!ELEMENT a (b*)><!ELEMENT b EMPTY>";
    making("65,535 nodes", schema, "self::a\n", most, LOZHYMET_MAX_ROWS, 13);
    making("16, 65,536 nodes", schema, "self::a\n", over, LOZHYMET_MAX_ROWS, 13);
    making("18, 65,535 nodes in one row less", schema, "self::a\n", most, LOZHYMET_MAX_ROWS - 1, 13);
    making("1,048,576 bytes", schema, "self::a\n", bytes, 1, 13);
    making("2, 1,048,577 bytes", schema, "self::a\n", longer, 1, 13);
    making("65,535 rows kept", schema, "child::b\n", most, LOZHYMET_MAX_ROWS, LOZHYMET_EXTRACT_BYTES(strlen(most)));
    free(most), free(over), free(bytes), free(longer);
}

int main(int argc, char **argv) {
    int exact = argc == 2 && strcmp(argv[1], "exact") == 0;
    if (exact) guards = 0;
    worked_cases();
    sibling_axes();
    entities();
    both_sides_of_limits();
    each_refusal_of_making();
    selections();
    remaining_limits();
    if (!exact) large_texts();
    if (faults) printf("host: %d faults\n", faults);
    return faults != 0;
}
