/* Tables in columns judged by plain C, to compare times with. What each element holds is read off the schema by its names; only schemas that
   tables.py makes are understood. Nothing here is proved. */
#include <string.h>

enum { MAX_ROWS = 65535, TEXTS = 32, MAX_DEPTH = 64, MAX_TEXT = 4096, MAX_NAMES = 32 };

static unsigned char codes[MAX_ROWS];
static unsigned short numbers[MAX_ROWS], parents[MAX_ROWS], lengths[MAX_ROWS], decoded[MAX_ROWS];
static unsigned starts[MAX_ROWS];
static unsigned long long held[MAX_NAMES];

/* Declarations of one-letter names a, b, .. in order: `(#PCDATA)`, or a model in which each letter is a use. */
static void read_schema(const unsigned char *s, int size) {
    memset(held, 0, sizeof held);
    int e = 0;
    for (int i = 0; i < size; i++) {
        if (s[i] != '(') continue;
        if (i + 1 < size && s[i + 1] == '#') held[e] |= 1ull << (TEXTS + e);
        else
            for (int j = i; j < size && s[j] != '>'; j++)
                if (s[j] >= 'a' && s[j] <= 'z') held[e] |= 1ull << (s[j] - 'a');
        e++;
        while (i < size && s[i] != '>') i++;
    }
}

static int well_formed(int count) {
    if (count == 0) return 1;
    if (numbers[0] || codes[0] || parents[0] || starts[0] || lengths[0] || decoded[0]) return 0;
    int element = 0, depth = 1;
    for (int row = 1; row < count; row++) {
        int parent = parents[row], code = codes[row];
        while (element != parent) {
            if (depth == 1) return 0;
            element = parents[element];
            depth--;
        }
        if (numbers[row] <= numbers[row - 1] || numbers[row] == 65535) return 0;
        if (code >= 64 || !(held[codes[element]] >> code & 1)) return 0;
        if (code < TEXTS) {
            if (depth == MAX_DEPTH || starts[row] || lengths[row] || decoded[row]) return 0;
            element = row;
            depth++;
        } else if (codes[row - 1] >= TEXTS || lengths[row] > MAX_TEXT || decoded[row] < 1 || decoded[row] > lengths[row])
            return 0;
    }
    return 1;
}
