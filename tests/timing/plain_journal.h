/* A plain C reading of journals, to compare times and outcomes with: a token at a time, names compared in the text, a content model as a set
   of positions. Nothing here is proved. */
#include <stdint.h>
#include "plain_schema.h"

enum { MAX_NODES = 65535, MAX_DEPTH = 64, MAX_RUN = 4096, MAX_POSITIONS = 64 };

enum kind { EMPTY, PCDATA, CHILDREN };

struct model {
    enum kind kind;
    int nullable;
    uint64_t first, last, follow[MAX_POSITIONS], of[MAX_NAMES]; /* of[e]: the positions that name element e */
};

struct element { const unsigned char *name; int size; struct model model; };

struct compiled { int count; struct element elements[MAX_NAMES]; };

struct part { uint64_t first, last; int nullable; };

static struct model *building;
static int positions;

static int element_of(const struct compiled *c, const unsigned char *name, int length) {
    for (int e = 0; e < c->count; e++)
        if (c->elements[e].size == length && !memcmp(c->elements[e].name, name, length)) return e;
    return -1;
}

static void link_parts(uint64_t last, uint64_t first) {
    for (int p = 0; p < positions; p++) if (last >> p & 1) building->follow[p] |= first;
}

static struct part repeated(struct part p) {
    if (at('*') || at('+')) link_parts(p.last, p.first);
    if (at('*') || at('?')) p.nullable = 1;
    indicator();
    return p;
}

static struct part particle(const struct compiled *c);

/* the group after its '(', of an accepted schema */
static struct part parts_of_group(const struct compiled *c) {
    struct part all = particle(c);
    for (;;) {
        skip();
        if (at(')')) { place++; return repeated(all); }
        int sequence = at(',');
        place++;
        struct part next = particle(c);
        if (sequence) {
            link_parts(all.last, next.first);
            all.first |= all.nullable ? next.first : 0;
            all.last = next.last | (next.nullable ? all.last : 0);
            all.nullable &= next.nullable;
        } else {
            all.first |= next.first;
            all.last |= next.last;
            all.nullable |= next.nullable;
        }
    }
}

static struct part particle(const struct compiled *c) {
    struct name n;
    skip();
    if (at('(')) { place++; return parts_of_group(c); }
    name(&n);
    uint64_t bit = (uint64_t)1 << positions++;
    building->of[element_of(c, text + n.at, n.size)] |= bit;
    return repeated((struct part){bit, bit, 0});
}

/* the schema that the last read_schema accepted */
static void compile(struct compiled *c) {
    struct name n;
    memset(c, 0, sizeof *c);
    c->count = count;
    for (int e = 0; e < count; e++) c->elements[e].name = text + names[e].at, c->elements[e].size = names[e].size;
    place = 0;
    for (int e = 0; e < c->count; e++) {
        building = &c->elements[e].model;
        positions = 0;
        skip(); word("<!ELEMENT"); space(); name(&n); space();
        if (at('E')) { word("EMPTY"); building->kind = EMPTY; }
        else {
            place++;
            skip();
            if (at('#')) { word("#PCDATA"); skip(); place++; building->kind = PCDATA; }
            else {
                struct part p = parts_of_group(c);
                building->kind = CHILDREN;
                building->first = p.first;
                building->last = p.last;
                building->nullable = p.nullable;
            }
        }
        skip();
        place++;
    }
}

struct columns { uint16_t *numbers; uint8_t *names; uint16_t *parents; uint32_t *starts; uint16_t *lengths, *decoded; int size; };

struct level { const unsigned char *name; int size, element, start, row, begun, fits; uint64_t next, reached; };

struct reading {
    const struct compiled *schema;
    const struct columns *out;
    int depth, closed, broken, nodes, number, where;
    struct level levels[MAX_DEPTH + 1];
};

/* keeps the refusal with the least number, and of one number the least place */
static void found(struct reading *r, int number, int where) {
    if (!r->number || number < r->number || (number == r->number && where < r->where)) r->number = number, r->where = where;
}

static void nesting(struct reading *r, int number, int where) { found(r, number, where); r->broken = 1; }

static void misfit(struct reading *r, struct level *l) { l->fits = 0; found(r, 15, l->start); }

static void row(struct reading *r, int code, int parent, int start, int length, int decoded) {
    int k = r->nodes++;
    if (k >= r->out->size) return;
    r->out->numbers[k] = k;
    r->out->names[k] = code;
    r->out->parents[k] = parent;
    r->out->starts[k] = start;
    r->out->lengths[k] = length;
    r->out->decoded[k] = decoded;
}

static void child(struct reading *r, struct level *l, int e) {
    const struct model *m = &r->schema->elements[l->element].model;
    if (m->kind != CHILDREN || e < 0) { misfit(r, l); return; }
    uint64_t hits = (l->begun ? l->next : m->first) & m->of[e];
    l->begun = 1;
    l->reached = hits;
    l->next = 0;
    if (!hits) { misfit(r, l); return; }
    for (uint64_t h = hits; h; h &= h - 1) l->next |= m->follow[__builtin_ctzll(h)];
}

static void open_element(struct reading *r, const unsigned char *name, int length, int start) {
    if (r->broken) return;
    if (!r->depth && r->closed) { nesting(r, 12, start); return; }
    if (r->depth == MAX_DEPTH) { nesting(r, 13, start); return; }
    struct level *outer = &r->levels[r->depth], *l = outer + 1;
    int e = element_of(r->schema, name, length);
    if (e < 0) found(r, 14, start);
    if (r->depth && outer->fits) child(r, outer, e);
    if (!r->depth && e > 0) found(r, 15, start);
    if (r->nodes >= MAX_NODES) found(r, 16, start);
    *l = (struct level){.name = name, .size = length, .element = e, .start = start, .row = r->nodes, .fits = e >= 0};
    row(r, e, r->depth ? outer->row : 0, 0, 0, 0);
    r->depth++;
}

static void end_element(struct reading *r) {
    struct level *l = &r->levels[r->depth];
    if (l->fits) {
        const struct model *m = &r->schema->elements[l->element].model;
        if (m->kind == CHILDREN && !(l->begun ? (l->reached & m->last) != 0 : m->nullable)) misfit(r, l);
    }
    r->depth--;
    r->closed = !r->depth;
}

static void close_element(struct reading *r, const unsigned char *name, int length, int start) {
    if (r->broken) return;
    struct level *l = &r->levels[r->depth];
    if (!r->depth || l->size != length || memcmp(l->name, name, length)) { nesting(r, 12, start); return; }
    end_element(r);
}

/* a run of character data from start on; the first byte that is not a blank is at solid, or past the run; its entities save so many bytes */
static void run(struct reading *r, int start, int end, int solid, int saved) {
    if (r->broken || start == end) return;
    if (!r->depth) { if (solid < end) nesting(r, 12, solid); return; }
    struct level *l = &r->levels[r->depth];
    if (!l->fits) return;
    const struct model *m = &r->schema->elements[l->element].model;
    if (m->kind == PCDATA) {
        if (end - start > MAX_RUN || r->nodes >= MAX_NODES) found(r, 16, start);
        row(r, 32 + l->element, l->row, start, end - start, end - start - saved);
    } else if (m->kind == EMPTY || solid < end) misfit(r, l);
}

static int entity(const unsigned char *t, int i, int n) {
    static const char *const known[] = {"lt;", "gt;", "amp;", "apos;", "quot;"};
    for (int k = 0; k < 5; k++) {
        int length = strlen(known[k]);
        if (n - i > length && !memcmp(t + i + 1, known[k], length)) return i + 1 + length;
    }
    return 0;
}

/* past the tag at t[i] == '<', or 0 where it is misspelt */
static int tag(struct reading *r, const unsigned char *t, int i, int n) {
    int end = i + 1 < n && t[i + 1] == '/', from = i + 1 + end, to = from, empty = 0;
    if (to >= n || classes[t[to]] != LETTER) return 0;
    while (to < n && classes[t[to]] & (LETTER | DIGIT)) to++;
    if (to - from > MAX_NAME) return 0;
    int j = to;
    while (j < n && classes[t[j]] == BLANK) j++;
    if (!end && j < n && t[j] == '/') empty = 1, j++;
    if (j >= n || t[j] != '>') return 0;
    if (end) close_element(r, t + from, to - from, i);
    else {
        open_element(r, t + from, to - from, i);
        if (empty && !r->broken) end_element(r);
    }
    return j + 1;
}

/* past the run of character data at i, or 0 with the place of what is misspelt */
static int data(struct reading *r, const unsigned char *t, int i, int n, int *where) {
    int start = i, solid = -1, saved = 0;
    for (; i < n && t[i] != '<'; i++) {
        if (solid < 0 && classes[t[i]] != BLANK) solid = i;
        if (t[i] == '&') {
            int past = entity(t, i, n);
            if (!past) { *where = i; return 0; }
            saved += past - 1 - i;
            i = past - 1;
        } else if (t[i] == '>' && i - start >= 2 && t[i - 1] == ']' && t[i - 2] == ']') { *where = i - 2; return 0; }
    }
    run(r, start, i, solid < 0 ? i : solid, saved);
    return i;
}

/* the refusal's number and its place, or 0 and the number of rows */
static int read_journal(const struct compiled *c, const unsigned char *t, int n, int limit, const struct columns *out, int *where) {
    static struct reading r;
    unsigned foreign = 0;
    r.schema = c; r.out = out; r.depth = r.closed = r.broken = r.nodes = r.number = r.where = 0;
    *where = 0;
    if (n == 0 || n > limit) return 2;
    for (int i = 0; i < n; i++) foreign |= classes[t[i]];
    if (foreign & FOREIGN) { while (classes[t[*where]] != FOREIGN) ++*where; return 3; }
    for (int i = 0; i < n;) {
        int past = t[i] == '<' ? tag(&r, t, i, n) : data(&r, t, i, n, where);
        if (!past) { if (t[i] == '<') *where = i; return 11; }
        i = past;
    }
    if (!r.broken && (r.depth || !r.closed)) found(&r, 12, n);
    *where = r.number ? r.where : r.nodes;
    if (r.number) return r.number;
    return r.nodes > out->size ? *where = 0, 18 : 0;
}
