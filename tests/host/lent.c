#define _DEFAULT_SOURCE
#include "lent.h"

#include <stdio.h>
#include <stdlib.h>
#include <string.h>
#include <sys/mman.h>

enum { GUARD = 0xA5, UNWRITTEN = 0x5A };

static void *block(size_t size) {
    void *made = malloc(size);
    if (!made) {
        perror("lent");
        exit(2);
    }
    return made;
}

void lend(struct lent *lent, int made, const size_t lens[OUTPUTS], size_t guards) {
    const size_t widths[OUTPUTS] = { 2, 1, 2, 4, 2, 2, made ? 1 : 2, 4 };
    lent->damaged = 0;
    for (int o = 0; o < OUTPUTS; o++) {
        struct cells *c = &lent->outputs[o];
        *c = (struct cells){ NULL, widths[o], lens[o], guards };
        c->block = block((c->len + 2 * guards) * c->width);
        memset(c->block, GUARD, (c->len + 2 * guards) * c->width);
        memset(c->block + guards * c->width, UNWRITTEN, c->len * c->width);
    }
}

void lend_rows(struct lent *lent, int made, size_t rows, size_t items, size_t counts, size_t guards) {
    const size_t lens[OUTPUTS] = { rows, rows, rows, rows, rows, rows, items, counts };
    lend(lent, made, lens, guards);
}

void give_back(struct lent *lent) {
    for (int o = 0; o < OUTPUTS; o++) free(lent->outputs[o].block);
}

static uint8_t *first(const struct lent *lent, enum output o) {
    const struct cells *c = &lent->outputs[o];
    return c->block + c->guards * c->width;
}

uint32_t cell(const struct lent *lent, enum output o, size_t place) {
    const uint8_t *at = first(lent, o) + place * lent->outputs[o].width;
    uint16_t two;
    uint32_t four;
    switch (lent->outputs[o].width) {
    case 1: return *at;
    case 2: return memcpy(&two, at, 2), two;
    default: return memcpy(&four, at, 4), four;
    }
}

static int guards_kept(const struct cells *c) {
    size_t guard = c->guards * c->width;
    for (size_t i = 0; i < guard; i++)
        if (c->block[i] != GUARD || c->block[guard + c->len * c->width + i] != GUARD) return 0;
    return 1;
}

/* ---- inputs: each is copied to the end of a region that a page without access follows; under valgrind to a block of just its size */

enum { INPUTS = 3, REGION = 1 << 21, PAGE = 4096 };

static uint8_t *region(int input) {
    static uint8_t *made[INPUTS];
    if (!made[input]) {
        made[input] = mmap(NULL, REGION + PAGE, PROT_READ | PROT_WRITE, MAP_PRIVATE | MAP_ANONYMOUS, -1, 0);
        if (made[input] == MAP_FAILED || mprotect(made[input] + REGION, PAGE, PROT_NONE)) {
            perror("lent");
            exit(2);
        }
    }
    return made[input];
}

static int in_region(const struct lent *lent, struct text text) {
    return lent->outputs[NUMBERS].guards && text.len <= REGION;
}

static uint8_t *copied(const struct lent *lent, struct text text, int input) {
    uint8_t *copy = in_region(lent, text) ? region(input) + REGION - text.len : block(text.len);
    if (text.len) memcpy(copy, text.bytes, text.len);
    return copy;
}

static void compare(struct lent *lent, struct text text, uint8_t *copy) {
    if (text.len && memcmp(text.bytes, copy, text.len)) lent->damaged = 1;
    if (!in_region(lent, text)) free(copy);
}

static void compare_guards(struct lent *lent) {
    for (int o = 0; o < OUTPUTS; o++)
        if (!guards_kept(&lent->outputs[o])) lent->damaged = 1;
}

#define CELLS(lent, o) (void *)first(lent, o), (lent)->outputs[o].len
#define COLUMNS(lent) \
    CELLS(lent, NUMBERS), CELLS(lent, NAMES), CELLS(lent, PARENTS), CELLS(lent, STARTS), CELLS(lent, LENGTHS), CELLS(lent, DECODED)

struct lozhymet_result make_extract(struct lent *lent, struct text schema, struct text bundle, struct text journal) {
    uint8_t *s = copied(lent, schema, 0), *b = copied(lent, bundle, 1), *j = copied(lent, journal, 2);
    struct lozhymet_result r = host_make_extract(s, schema.len, b, bundle.len, j, journal.len, COLUMNS(lent), CELLS(lent, ITEMS));
    compare(lent, schema, s);
    compare(lent, bundle, b);
    compare(lent, journal, j);
    compare_guards(lent);
    return r;
}

struct lozhymet_result select_from(struct lent *lent, struct text schema, struct text bundle, size_t place, struct text extract) {
    uint8_t *s = copied(lent, schema, 0), *b = copied(lent, bundle, 1), *e = copied(lent, extract, 2);
    struct lozhymet_result r =
        host_select(s, schema.len, b, bundle.len, place, e, extract.len, COLUMNS(lent), CELLS(lent, ITEMS), CELLS(lent, COUNTS));
    compare(lent, schema, s);
    compare(lent, bundle, b);
    compare(lent, extract, e);
    compare_guards(lent);
    return r;
}
