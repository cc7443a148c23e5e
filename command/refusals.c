#include "refusals.h"

#include <stdio.h>
#include <string.h>

/* ---- which text */

static int bad_byte(const struct text *text, size_t place) {
    if (place >= text->len) return 0;
    uint8_t b = text->bytes[place];
    return !(b == 0x09 || b == 0x0A || (b >= 0x20 && b <= 0x7E));
}

static int bad_length(const struct text *text, size_t limit) {
    return text->len == 0 || text->len > limit;
}

/* as include/lozhymet.h says under enum lozhymet_refusal */
static const struct text *refused_text(const struct call *c, struct lozhymet_result r) {
    if (r.number == LOZHYMET_BAD_ARGUMENT) return &c->bundle;
    if (r.number == LOZHYMET_BAD_LENGTH) {
        if (bad_length(&c->schema, LOZHYMET_MAX_SCHEMA_BYTES)) return &c->schema;
        return bad_length(&c->bundle, LOZHYMET_MAX_BUNDLE_BYTES) ? &c->bundle : &c->third;
    }
    if (r.number == LOZHYMET_BAD_BYTE) {
        if (bad_byte(&c->schema, r.place)) return &c->schema;
        return bad_byte(&c->bundle, r.place) ? &c->bundle : &c->third;
    }
    return r.number <= LOZHYMET_MODEL_UNDECLARED ? &c->schema : r.number <= LOZHYMET_PATH_UNDECLARED ? &c->bundle : &c->third;
}

static size_t limit_of(const struct call *c, const struct text *t) {
    return t == &c->schema ? LOZHYMET_MAX_SCHEMA_BYTES : t == &c->bundle ? LOZHYMET_MAX_BUNDLE_BYTES : LOZHYMET_MAX_JOURNAL_BYTES;
}

/* ---- what is wrong, and what to do */

/* the name at a place, or after the `<` there */
static const char *name_at(const struct text *t, size_t place, char name[32]) {
    size_t i = place + (place < t->len && t->bytes[place] == '<'), len = 0;
    while (len < 31 && i < t->len && (t->bytes[i] > ' ' && !strchr("</>()[]|,?*+:", t->bytes[i]))) name[len++] = (char)t->bytes[i++];
    name[len] = 0;
    return name;
}

static void say(struct message *m, const char *what, const char *help) {
    snprintf(m->what, sizeof m->what, "%s", what);
    m->help = help;
}

static void say_name(struct message *m, const char *before, const char *after, const char *help) {
    char name[32];
    snprintf(m->what, sizeof m->what, "%s %s %s", before, name_at(m->text, m->place, name), after);
    m->help = help;
}

static void say_argument(struct message *m, const struct call *c) {
    snprintf(m->what, sizeof m->what, "there is no path %zu here", c->place);
    m->help = "Paths are counted from 1, one on each line. Leave -p out to ask for all of them.";
}

static void say_length(struct message *m, const struct call *c) {
    if (m->text->len == 0) {
        say(m, "the text is empty", "Check that the right file is named and that it was written.");
        return;
    }
    snprintf(m->what, sizeof m->what, "the text has more than %zu bytes", limit_of(c, m->text));
    m->help = m->text == &c->third    ? "Divide the scan into several journals."
              : m->text == &c->bundle ? "Divide the paths among several bundles: one has at most 8 paths of 512 bytes."
                                      : "Shorten the schema: leave out elements that no journal has, and needless blanks.";
}

static void say_byte(struct message *m) {
    uint8_t b = m->text->bytes[m->place];
    snprintf(m->what, sizeof m->what, "the byte %02X hex may not stand in a text", b);
    m->help = b == 0x0D  ? "Convert the line ends from CR LF to LF."
              : b < 0x80 ? "Remove the control character: only plain ASCII, tabs and line feeds may stand here."
                         : "Save the file as plain ASCII: letters with accents and other signs cannot stand here.";
}

static void say_schema(struct message *m, uint64_t number) {
    int at_end = m->place == m->text->len;
    switch (number) {
    case LOZHYMET_SCHEMA_SYNTAX:
        say(m, at_end ? "the schema stops short" : "the schema is misspelt here",
            "A declaration is <!ELEMENT name EMPTY>, <!ELEMENT name (#PCDATA)> or <!ELEMENT name (a, b?, (c | d)*)>; "
            "names have at most 31 bytes, and parentheses stand at most 8 deep.");
        break;
    case LOZHYMET_SCHEMA_LIMIT:
        if (m->text->bytes[m->place] == '<') say(m, "this is the 33rd declaration, and 32 are allowed", "Leave out elements that no journal has.");
        else say(m, "this is the 65th name in its model, and 64 are allowed", "Put a part of the model into an element of its own.");
        break;
    case LOZHYMET_DECLARED_TWICE: say_name(m, "element", "is declared a second time", "Remove or rename one of the two declarations."); break;
    default: say_name(m, "element", "is not declared", "Declare it, or correct its name in this model."); break;
    }
}

static void say_bundle(struct message *m, uint64_t number) {
    int at_end = m->place == m->text->len;
    switch (number) {
    case LOZHYMET_PATH_SYNTAX:
        say(m, at_end ? "the last path stops short" : "the path is misspelt here",
            "A step is axis::test, as child::tile or parent::node(), then at most one condition, as [child::focus or child::image]; "
            "steps are joined by /, and each path ends with a line feed. lozhymet(1) lists the axes.");
        break;
    case LOZHYMET_PATH_LIMIT:
        say(m, "this path passes a limit", "A bundle has at most 8 paths; a path has at most 512 bytes and 16 steps, a condition 4 alternatives of 4 steps.");
        break;
    default: say_name(m, "element", "is not declared in the schema", "Correct its name, or use the schema of these journals."); break;
    }
}

static void say_misspelt(struct message *m) {
    switch (m->text->bytes[m->place]) {
    case '&': say(m, "this entity is unknown", "Write &lt; &gt; &amp; &apos; or &quot; and for a bare & write &amp;."); break;
    case ']': say(m, "]]> may not stand in a text", "Write ]]&gt; in its place."); break;
    default:
        say(m, "this tag is misspelt",
            "A tag is <name>, </name> or <name/>, with a name of at most 31 bytes. A journal has no attributes, comments, CDATA or DOCTYPE; "
            "for a bare < write &lt;.");
    }
}

static int longer_than_a_text(const struct text *t, size_t place) {
    size_t i = place;
    while (i < t->len && t->bytes[i] != '<') i++;
    return i - place > 4096;
}

static void say_journal(struct message *m, uint64_t number) {
    switch (number) {
    case LOZHYMET_JOURNAL_SYNTAX: say_misspelt(m); break;
    case LOZHYMET_NESTING:
        say(m, m->place == m->text->len ? "the journal ends before its root element does" : "tags do not nest here",
            "Close each element with its own end tag, the innermost first; one root element holds all others. Perhaps the journal was cut off.");
        break;
    case LOZHYMET_DEPTH: say(m, "elements stand 65 deep here, and 64 are allowed", "Look for end tags that are missing before this place."); break;
    case LOZHYMET_JOURNAL_UNDECLARED: say_name(m, "element", "is not declared in the schema", "Correct its name, or use the schema of this journal."); break;
    case LOZHYMET_CONTENT:
        say_name(m, "what element", "holds does not fit its model, or it is not the schema's root",
            "Compare the elements and the text in it with its declaration; the root is the element that the schema declares first.");
        break;
    default:
        if (longer_than_a_text(m->text, m->place)) say(m, "this text has more than 4,096 bytes", "Shorten it, or divide it among several elements.");
        else say(m, "this is the 65,536th node, and 65,535 are allowed", "Divide the scan into several journals.");
    }
}

static void describe(struct message *m, const struct call *c, uint64_t number) {
    if (number == LOZHYMET_BAD_ARGUMENT) say_argument(m, c);
    else if (number == LOZHYMET_BAD_LENGTH) say_length(m, c);
    else if (number == LOZHYMET_BAD_BYTE) say_byte(m);
    else if (number <= LOZHYMET_MODEL_UNDECLARED) say_schema(m, number);
    else if (number <= LOZHYMET_PATH_UNDECLARED) say_bundle(m, number);
    else if (number <= LOZHYMET_NODE_LIMIT) say_journal(m, number);
    else if (number == LOZHYMET_NOT_AN_EXTRACT)
        say(m, "this is no extract under this schema", "Make the extract again with this schema, and send it whole and as binary data.");
    else say(m, "too few cells were lent", "This is a fault of the command lozhymet; please report it with the three files.");
}

struct message message_of(const struct call *call, struct lozhymet_result r) {
    struct message m = { .text = refused_text(call, r), .line = 1, .column = 1, .place = r.place };
    m.placed = r.number >= LOZHYMET_BAD_BYTE && r.number <= LOZHYMET_NODE_LIMIT;
    for (size_t i = 0; m.placed && i < m.place && i < m.text->len; i++) {
        m.column++;
        if (m.text->bytes[i] == '\n') m.line++, m.column = 1;
    }
    describe(&m, call, r.number);
    return m;
}

/* ---- the source line and the caret */

enum { TAB = 8, WIDTH = 72 };

/* the column on the screen, from 0, after one more byte */
static size_t after(size_t column, uint8_t byte) {
    return byte == '\t' ? column / TAB * TAB + TAB : column + 1;
}

/* the part of a line that stands in the screen's columns from `from` to before `to`; tabs become blanks */
static void print_part(const uint8_t *line, size_t len, size_t from, size_t to) {
    size_t column = 0;
    for (size_t i = 0; i < len && column < to; i++) {
        size_t next = after(column, line[i]);
        for (; column < next && column < to; column++)
            if (column >= from) fputc(line[i] == '\t' ? ' ' : line[i] < 0x20 || line[i] > 0x7E ? '?' : line[i], stderr);
    }
}

/* the screen's columns of a line's first bytes */
static size_t width(const uint8_t *line, size_t len) {
    size_t column = 0;
    for (size_t i = 0; i < len; i++) column = after(column, line[i]);
    return column;
}

/* a line that is wider than the screen is cut on both sides of the caret */
static void print_line(const struct message *m) {
    const struct text *t = m->text;
    size_t start = m->place - (m->column - 1), end = start;
    while (end < t->len && t->bytes[end] != '\n') end++;
    const uint8_t *line = t->bytes + start;
    size_t caret = width(line, m->column - 1), all = width(line, end - start);
    size_t from = caret < WIDTH - 8 ? 0 : caret - WIDTH / 2, to = all - from > WIDTH ? from + WIDTH : all;
    fprintf(stderr, "%5zu | %s", m->line, from ? "..." : "");
    print_part(line, end - start, from, to);
    fprintf(stderr, "%s\n      | %*s^\n", to < all ? "..." : "", (int)(caret - from + (from ? 3 : 0)), "");
}

void print_message(const struct message *m, uint64_t number) {
    fprintf(stderr, "%s:", m->text->name);
    if (m->placed) fprintf(stderr, "%zu:%zu:", m->line, m->column);
    fprintf(stderr, " refused %u: %s\n", (unsigned)number, m->what);
    if (m->placed) print_line(m);
    fprintf(stderr, "  help: %s\n", m->help);
}
