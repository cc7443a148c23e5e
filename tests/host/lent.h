/* Memory lent to the two functions, as tests lend it: each output in a block of its own, filled with what no answer leaves there, with guard cells
   on both sides; each input copied so that it ends where memory ends, and compared after the call. Without guard cells every block is of just the size
   lent, so that valgrind sees what lies beyond. */
#ifndef LENT_H
#define LENT_H

#include "lozhymet.h"

enum output { NUMBERS, NAMES, PARENTS, STARTS, LENGTHS, DECODED, ITEMS, COUNTS, OUTPUTS };

struct text {
    const uint8_t *bytes;
    size_t len;
};

struct cells {
    uint8_t *block;
    size_t width, len, guards;
};

struct lent {
    struct cells outputs[OUTPUTS];
    int damaged; /* a guard cell or an input has changed */
};

/* `items` are bytes for making an extract (made is not 0), numbers of two bytes for selecting */
void lend(struct lent *lent, int made, const size_t lens[OUTPUTS], size_t guards);
void lend_rows(struct lent *lent, int made, size_t rows, size_t items, size_t counts, size_t guards);
void give_back(struct lent *lent);
uint32_t cell(const struct lent *lent, enum output output, size_t place);

struct lozhymet_result make_extract(struct lent *lent, struct text schema, struct text bundle, struct text journal);
struct lozhymet_result select_from(struct lent *lent, struct text schema, struct text bundle, size_t place, struct text extract);

#endif
