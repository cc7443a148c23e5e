/* A plain reading of bundle texts, as a C programmer would write it, for comparison with bundle_cases of tests/cases: one pass by recursive descent, each
   name looked up where it is read. Standard input has texts after their lengths in two bytes, a schema's where 128 is added to the first byte. */
#include <stdio.h>
#include <string.h>

typedef unsigned char byte;
enum { AXES = 11, PATHS = 8, STEPS = 16, ALTERNATIVES = 4, INNER = 4, PATH_BYTES = 512, BYTES = 4104, NAME = 31, ELEMENTS = 32 };
static const char *const axes[] = {"self::", "child::", "descendant::", "descendant-or-self::", "parent::", "ancestor::", "ancestor-or-self::",
    "following::", "following-sibling::", "preceding::", "preceding-sibling::"};

struct step { byte axis, low, high; };
static struct { int count, steps, ways, inner; int paths[PATHS + 1], conditions[PATHS * STEPS + 1], ends[PATHS * STEPS * ALTERNATIVES + 1];
                struct step outer[PATHS * STEPS], in[512]; } bundle;
static const byte *names[ELEMENTS];
static int sizes[ELEMENTS], elements;
static const byte *s;
static int n, at, lost, over;
static byte record[BYTES];

static int starts(int b) { return (b >= 'A' && b <= 'Z') || (b >= 'a' && b <= 'z') || b == '_'; }
static int goes_on(int b) { return starts(b) || (b >= '0' && b <= '9') || b == '.' || b == '-'; }

static int axis(void) {
    int best = 0;
    for (int a = 0; a < AXES; a++) {
        int k = 0, size = strlen(axes[a]);
        while (k < size && at + k < n && s[at + k] == (byte)axes[a][k]) k++;
        if (k == size) { at += size; return a; }
        if (k > best) best = k;
    }
    at += best;
    return -1;
}

static int plain(struct step *p) {
    int a = axis(), from = at;
    if (a < 0 || at >= n || !starts(s[at])) return 0;
    while (at < n && goes_on(s[at])) { if (at - from == NAME) return 0; at++; }
    p->axis = a;
    if (at < n && s[at] == '(') {
        if (at - from != 4 || (memcmp(s + from, "node", 4) && memcmp(s + from, "text", 4))) return 0;
        p->low = s[from] == 'n' ? 0 : 32;
        p->high = 63;
        at++;
        if (at >= n || s[at] != ')') return 0;
        at++;
        return 1;
    }
    for (int e = 0; e < elements; e++)
        if (sizes[e] == at - from && !memcmp(names[e], s + from, at - from)) { p->low = p->high = e; return 1; }
    if (lost < 0 || from < lost) lost = from;
    p->low = p->high = 0;
    return 1;
}

static int word(const char *w) {
    for (; *w; w++, at++) if (at >= n || s[at] != (byte)*w) return 0;
    return 1;
}

static int condition(int *long_) {
    for (int ways = 1;; ways++) {
        for (int steps = 1;; steps++) {
            struct step p;
            if (!plain(&p)) return 0;
            if (bundle.inner < 512) bundle.in[bundle.inner] = p;
            bundle.inner++;
            if (steps > INNER) *long_ = 1;
            if (at >= n || s[at] != '/') break;
            at++;
        }
        if (ways > ALTERNATIVES) *long_ = 1;
        bundle.ways++;
        if (bundle.ways <= PATHS * STEPS * ALTERNATIVES) bundle.ends[bundle.ways] = bundle.inner;
        if (at < n && s[at] == ']') { at++; return 1; }
        if (!word(" or ")) return 0;
    }
}

static int path(void) {
    int from = at, long_ = 0, steps = 0;
    for (;;) {
        struct step p;
        if (!plain(&p)) return 0;
        if (bundle.steps < PATHS * STEPS) bundle.outer[bundle.steps] = p;
        bundle.steps++;
        steps++;
        if (at < n && s[at] == '[') { at++; if (!condition(&long_)) return 0; }
        if (bundle.steps <= PATHS * STEPS) bundle.conditions[bundle.steps] = bundle.ways;
        if (at < n && s[at] == '/') { at++; continue; }
        if (at >= n || s[at] != '\n') return 0;
        if (over < 0 && (bundle.count >= PATHS || steps > STEPS || at - from > PATH_BYTES || long_)) over = from;
        at++;
        if (++bundle.count <= PATHS) bundle.paths[bundle.count] = bundle.steps;
        return 1;
    }
}

static void read_bundle(void) {
    memset(&bundle, 0, sizeof bundle);
    memset(record, 0, sizeof record);
    at = 0, lost = over = -1;
    if (n == 0 || n > BYTES) { puts("refused 2 at 0"); return; }
    for (int k = 0; k < n; k++)
        if (s[k] != '\t' && s[k] != '\n' && (s[k] < 0x20 || s[k] > 0x7E)) { printf("refused 3 at %d\n", k); return; }
    while (at < n || at == 0)
        if (!path()) { printf("refused 8 at %d\n", at); return; }
    if (over >= 0) { printf("refused 9 at %d\n", over); return; }
    if (lost >= 0) { printf("refused 10 at %d\n", lost); return; }
    memcpy(record, s, n);
    printf("ok %d\n", bundle.count);
}

/* the declared names; a text with none is taken to be refused */
static void read_schema(void) {
    elements = 0;
    for (int k = 0; k + 10 < n && elements < ELEMENTS; k++)
        if (!memcmp(s + k, "<!ELEMENT", 9)) {
            k += 9;
            while (k < n && !starts(s[k])) k++;
            names[elements] = s + k;
            while (k < n && goes_on(s[k])) k++;
            sizes[elements] = s + k - names[elements];
            if (k < n && s[k] != '>') elements++;
        }
}

int main(void) {
    static byte input[1 << 18];
    int size = fread(input, 1, sizeof input, stdin);
    for (int k = 0; k + 2 <= size; k += 2 + n) {
        n = input[k] % 128 * 256 + input[k + 1];
        s = input + k + 2;
        if (input[k] >= 128) read_schema();
        else if (elements == 0) puts("refused 1 at 0");
        else read_bundle();
    }
}
