/* How many bytes of stack a call of each function takes: on a painted stack, with the largest texts. Ends with 1 where one takes more than the
   header says. */
#define _POSIX_C_SOURCE 200809L
#include "lozhymet.h"

#include <pthread.h>
#include <stdio.h>
#include <stdlib.h>
#include <string.h>

enum { STACK = 1 << 26, PAINT = 0xC3 };

static uint16_t numbers[LOZHYMET_MAX_ROWS], parents[LOZHYMET_MAX_ROWS], lengths[LOZHYMET_MAX_ROWS], decoded[LOZHYMET_MAX_ROWS];
static uint16_t items[LOZHYMET_MAX_PATHS * LOZHYMET_MAX_ROWS];
static uint8_t names[LOZHYMET_MAX_ROWS], journal[LOZHYMET_MAX_JOURNAL_BYTES], extract[2 * LOZHYMET_MAX_JOURNAL_BYTES];
static uint32_t starts[LOZHYMET_MAX_ROWS], counts[LOZHYMET_MAX_PATHS];
static size_t journal_len, extract_len;
#define COLUMNS \
    numbers, LOZHYMET_MAX_ROWS, names, LOZHYMET_MAX_ROWS, parents, LOZHYMET_MAX_ROWS, starts, LOZHYMET_MAX_ROWS, lengths, LOZHYMET_MAX_ROWS, \
        decoded, LOZHYMET_MAX_ROWS

static const char schema[] = "<!ELEMENT a ((((((((b|c)*)?)+)*)?)+)*)?><!ELEMENT b (c?)><!ELEMENT c (#PCDATA)>";
/* the last path has as many steps as there may be, outside and inside brackets, each of an axis that is rewritten to four */
#define FOUR(axis) axis "::node()/" axis "::node()/" axis "::node()/" axis "::node()"
static const char bundle[] =
    "descendant::c[child::text()/parent::c/parent::b or parent::a]/ancestor::node()[child::b or child::c]/descendant::text()\n"
    "descendant-or-self::node()/ancestor-or-self::node()[descendant::b/child::c/child::text()/ancestor::a]\n"
    "child::b/child::c/parent::b/ancestor::a/descendant::c/child::text()\n"
    "child::b/following-sibling::b[preceding-sibling::b/child::c]/preceding::text()\n"
    "descendant::b/following::c/preceding::b/self::b/" FOUR("following") "/" FOUR("preceding") "/" FOUR("following") "[" FOUR("preceding") "]\n";

static void *make(void *number) {
    struct lozhymet_result r = host_make_extract((const uint8_t *)schema, strlen(schema), (const uint8_t *)bundle, strlen(bundle), journal, journal_len,
        COLUMNS, extract, sizeof extract);
    extract_len = r.items;
    *(uint64_t *)number = r.number;
    return NULL;
}

static void *select_all(void *number) {
    *(uint64_t *)number = host_select((const uint8_t *)schema, strlen(schema), (const uint8_t *)bundle, strlen(bundle), 0, extract, extract_len, COLUMNS,
        items, sizeof items / sizeof *items, counts, LOZHYMET_MAX_PATHS).number;
    return NULL;
}

static void *nothing(void *number) {
    *(uint64_t *)number = 0;
    return NULL;
}

/* the bytes from the lowest that changed to the stack's end */
static size_t taken(void *(*call)(void *), uint64_t *number) {
    pthread_attr_t attributes;
    pthread_t thread;
    uint8_t *stack = aligned_alloc(4096, STACK);
    if (!stack) exit(2);
    memset(stack, PAINT, STACK);
    if (pthread_attr_init(&attributes) || pthread_attr_setstack(&attributes, stack, STACK) || pthread_create(&thread, &attributes, call, number)) exit(2);
    pthread_join(thread, NULL);
    size_t low = 0;
    while (low < STACK && stack[low] == PAINT) low++;
    free(stack);
    return STACK - low;
}

static void add(const char *part) {
    memcpy(journal + journal_len, part, strlen(part));
    journal_len += strlen(part);
}

int main(void) {
    uint64_t number;
    add("<a>");
    for (int i = 0; i < 21840; i++) add(i % 2 ? "<b><c>12345</c></b>" : "<b><c>1&lt;2&amp;</c></b>");
    add("</a>");
    size_t own = taken(nothing, &number);
    size_t making = taken(make, &number) - own;
    if (number) return printf("stack: making is refused by %u\n", (unsigned)number), 1;
    size_t selecting = taken(select_all, &number) - own;
    if (number) return printf("stack: selecting is refused by %u\n", (unsigned)number), 1;
    printf("stack: making takes %zu bytes, selecting %zu\n", making, selecting);
    return making > LOZHYMET_STACK_BYTES || selecting > LOZHYMET_STACK_BYTES;
}
