/* A plain C reading of schema texts, to compare times with. Nothing here is proved. */
#include <stdio.h>
#include <string.h>

enum { MAX_TEXT = 8192, MAX_NAMES = 32, MAX_USES = 2048, MAX_MODEL = 64, MAX_GROUPS = 8, MAX_NAME = 31 };

struct name { int at, size; };

struct schema { unsigned char bytes[MAX_TEXT]; int size; };

static const unsigned char *text;
static int size, place, over, count, used;
static struct name names[MAX_NAMES], uses[MAX_USES + 1];
static unsigned char classes[256];

enum { BLANK = 1, LETTER = 2, DIGIT = 4, FOREIGN = 8 };

static void fill_classes(void) {
    for (int b = 0; b < 256; b++)
        classes[b] = b == ' ' || b == '\t' || b == '\n' ? BLANK
            : (b >= 'a' && b <= 'z') || (b >= 'A' && b <= 'Z') || b == '_' ? LETTER
            : (b >= '0' && b <= '9') || b == '-' || b == '.' ? DIGIT
            : b >= 0x20 && b <= 0x7E ? 0 : FOREIGN;
}

static int at(int c) { return place < size && text[place] == c; }

static void skip(void) { while (place < size && classes[text[place]] == BLANK) place++; }

static int space(void) {
    if (place >= size || classes[text[place]] != BLANK) return 0;
    skip();
    return 1;
}

static int word(const char *w) {
    for (; *w; w++, place++) if (!at(*w)) return 0;
    return 1;
}

static int name(struct name *n) {
    if (place >= size || classes[text[place]] != LETTER) return 0;
    n->at = place++;
    while (place < size && (classes[text[place]] & (LETTER | DIGIT))) {
        if (place - n->at >= MAX_NAME) return 0;
        place++;
    }
    n->size = place - n->at;
    return 1;
}

static void indicator(void) { if (at('?') || at('*') || at('+')) place++; }

/* after the '(' of a group with `depth` groups around it; `model` names were used before the model */
static int group(int depth, int model) {
    int parts = 0;
    for (;;) {
        skip();
        if (at('(')) {
            if (depth + 1 >= MAX_GROUPS) return 0;
            place++;
            if (!group(depth + 1, model)) return 0;
        } else {
            struct name n;
            if (!name(&n)) return 0;
            if (used - model == MAX_MODEL && over < 0) over = n.at;
            if (used < MAX_USES) uses[used] = n;
            used++;
        }
        indicator();
        skip();
        if (at(')')) { place++; return 1; }
        if (place >= size || (text[place] != ',' && text[place] != '|')) return 0;
        if (parts && text[place] != parts) return 0;
        parts = text[place++];
    }
}

static int declaration(void) {
    struct name n;
    int start = place, model = used;
    if (!word("<!ELEMENT") || !space() || !name(&n) || !space()) return 0;
    if (count == MAX_NAMES && over < 0) over = start;
    if (count < MAX_NAMES) names[count] = n;
    count++;
    if (at('E')) { if (!word("EMPTY")) return 0; }
    else {
        if (!at('(')) return 0;
        place++;
        skip();
        if (at('#')) { if (!word("#PCDATA")) return 0; skip(); if (!at(')')) return 0; place++; }
        else { if (!group(0, model)) return 0; indicator(); }
    }
    skip();
    if (!at('>')) return 0;
    place++;
    skip();
    return 1;
}

static int declared(struct name n, int before) {
    for (int i = 0; i < before; i++)
        if (names[i].size == n.size && !memcmp(text + names[i].at, text + n.at, n.size)) return 1;
    return 0;
}

static void normalize(struct schema *s) {
    int due = 0, run = 0;
    memset(s, 0, sizeof *s);
    for (int i = 0; i < size; i++) {
        int b = text[i], blank = classes[b] == BLANK;
        if (!blank) { s->bytes[s->size++] = b; if (!due && b == '<') due = 2; }
        else if (due && !run) { s->bytes[s->size++] = ' '; due--; }
        run = blank;
    }
}

/* the refusal's number and its place, or 0 and the number of elements */
static int read_schema(const unsigned char *t, int n, int *where, struct schema *s) {
    text = t; size = n; place = count = used = 0; over = -1; *where = 0;
    if (n == 0 || n > MAX_TEXT) return 2;
    for (int i = 0; i < n; i++) if (classes[t[i]] == FOREIGN) { *where = i; return 3; }
    skip();
    if (place == size) { *where = place; return 4; }
    while (place < size) if (!declaration()) { *where = place; return 4; }
    if (over >= 0) { *where = over; return 5; }
    for (int i = 0; i < count; i++) if (declared(names[i], i)) { *where = names[i].at; return 6; }
    for (int i = 0; i < used; i++) if (!declared(uses[i], count)) { *where = uses[i].at; return 7; }
    *where = count;
    normalize(s);
    return 0;
}
