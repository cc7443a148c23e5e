/* Cases of texts: schemas, bundles under them, and the names that these need. A text comes after its length in two bytes; what 128 that is added to the
   first byte means is said at each. */
#include "cases.h"

#include <stdio.h>

/* The children that are tried are the first elements, declared or not. */
enum { TRIED = 5 };

/* compiled_schema::entry_parts::CHILDREN */
enum { CHILDREN = 2 };

/* the next text, and whether 128 was added */
static struct text take_text(struct text *input, int *marked) {
    size_t head = take_number(input, 2);
    *marked = head >= 1 << 15;
    return take(input, head % (1 << 15));
}

/* ---- schemas: of a marked one the compiled form is shown, too. After a text of no bytes that is marked come the cells of a record: their number and the
   record's length, two bytes each */

static void show_fit(struct text schema, size_t element, const uint8_t *children, size_t len) {
    printf("%d", test_fits(GIVEN(schema), element, children, len));
}

/* every list of at most two children */
static void show_fits(struct text schema, size_t element) {
    uint8_t children[2] = { 0, 0 };
    show_fit(schema, element, children, 0);
    for (children[0] = 0; children[0] < TRIED; children[0]++) {
        show_fit(schema, element, children, 1);
        for (children[1] = 0; children[1] < TRIED; children[1]++) show_fit(schema, element, children, 2);
    }
}

/* of each element its kind, the names that it holds and those below it, and for a children model what fits it */
static void show_elements(struct text schema) {
    struct outcome e;
    for (size_t i = 0; (e = test_element(GIVEN(schema), i)).number == 0; i++) {
        printf("%llu %llu %llu ", (unsigned long long)e.place, (unsigned long long)e.size, (unsigned long long)e.other);
        if (e.place == CHILDREN) show_fits(schema, i);
        printf("\n");
    }
}

static void show_schema(struct text text) {
    static struct schema schema;
    struct outcome outcome = read_schema(&schema, text);
    if (outcome.number) show_refusal(outcome);
    else {
        if (!test_is_schema_record(HANDED(schema))) printf("no record: ");
        printf("ok %llu", (unsigned long long)outcome.other);
    }
    printf("\n");
}

static void show_record(struct text cells, size_t len) {
    if (test_is_schema_record(GIVEN(cells), len)) show_schema((struct text){ cells.bytes, len });
    else printf("refused 1 at 0\n");
}

void schema_cases(struct text input) {
    while (input.len) {
        int marked;
        struct text text = take_text(&input, &marked);
        if (marked && !text.len) {
            size_t cells = take_number(&input, 2), len = take_number(&input, 2);
            show_record(take(&input, cells), len);
            continue;
        }
        show_schema(text);
        if (marked) show_elements(text);
    }
}

/* ---- bundles under the last schema, which is marked: of an accepted one the columns of its compiled paths are shown */

/* as in crates/compiled_paths: most paths, steps outside brackets, and all */
enum { MAX_PATHS = 8, WRITTEN_STEPS = 128, STEPS = WRITTEN_STEPS + 512 };

static size_t within(size_t number, size_t most) {
    if (number > most) fail("compiled paths that are out of shape");
    return number;
}

static void show_bytes(const uint8_t *cells, size_t from, size_t end) {
    for (size_t i = from; i < end; i++) printf("%d ", cells[i]);
}

static void show_starts(const uint16_t *cells, size_t ranges) {
    for (size_t i = 0; i <= ranges; i++) printf("%d ", cells[i]);
    printf("\n");
}

/* a column of steps: those outside brackets, and those in them */
static void show_steps(const uint8_t *cells, size_t outside, size_t end) {
    show_bytes(cells, 0, outside);
    show_bytes(cells, WRITTEN_STEPS, end);
    printf("\n");
}

/* What is compiled of a text: the starts of paths and of conditions, then the axis of each step, with the mark at an alternative's last, and its test. */
static void show_paths(struct text schema, struct text text) {
    static uint8_t paths[MAX_PATHS + 1], axes[STEPS], tests[STEPS];
    static uint16_t conditions[WRITTEN_STEPS + 1];
    size_t count = test_compiled_paths(GIVEN(schema), GIVEN(text), paths, MAX_PATHS + 1, conditions, WRITTEN_STEPS + 1, axes, STEPS, tests, STEPS);
    size_t steps = paths[within(count, MAX_PATHS)], end = conditions[within(steps, WRITTEN_STEPS)];
    within(end, STEPS);
    show_bytes(paths, 0, count);
    printf("%zu \n", steps);
    show_starts(conditions, steps);
    show_steps(axes, steps, end);
    show_steps(tests, steps, end);
}

static void show_bundle(const struct schema *schema, struct text text) {
    static struct bundle bundle;
    struct outcome outcome = read_bundle(&bundle, schema, text);
    if (outcome.number) {
        show_refusal(outcome);
        printf("\n");
        return;
    }
    if (!test_is_bundle_record(HANDED(*schema), HANDED(bundle))) printf("no record: ");
    printf("ok %llu\n", (unsigned long long)outcome.other);
    show_paths((struct text){ schema->cells, schema->len }, text);
}

/* the names that a bundle needs, as 64 bits in decimal */
static void show_needed(const struct schema *schema, struct text text) {
    static struct bundle bundle;
    struct outcome outcome = read_bundle(&bundle, schema, text);
    if (!outcome.number) outcome = test_needed_names(HANDED(*schema), HANDED(bundle));
    if (outcome.number) show_refusal(outcome);
    else printf("%llu", (unsigned long long)outcome.other);
    printf("\n");
}

static void under_schemas(struct text input, void (*show)(const struct schema *, struct text)) {
    static struct schema schema;
    while (input.len) {
        int marked;
        struct text text = take_text(&input, &marked);
        if (marked) read_schema(&schema, text);
        else show(&schema, text);
    }
}

void bundle_cases(struct text input) {
    under_schemas(input, show_bundle);
}

void needed_cases(struct text input) {
    under_schemas(input, show_needed);
}
