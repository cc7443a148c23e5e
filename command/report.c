#include "report.h"

#include <stdio.h>
#include <string.h>

/* the path at a place of an accepted bundle, from 1, without its line feed */
static const uint8_t *path_at(const struct text *bundle, size_t place, size_t *len) {
    const uint8_t *path = bundle->bytes, *end = bundle->bytes + bundle->len;
    for (size_t k = 1; k < place; k++) path = (const uint8_t *)memchr(path, '\n', (size_t)(end - path)) + 1;
    *len = (size_t)((const uint8_t *)memchr(path, '\n', (size_t)(end - path)) - path);
    return path;
}

/* ---- for people, on standard error */

void print_counts(const struct call *call, const struct answer *found) {
    enum { SHOWN = 60 };
    for (size_t k = 0; k < found->result.counts; k++) {
        size_t len, place = found->first + k;
        const uint8_t *path = path_at(&call->bundle, place, &len);
        fprintf(stderr, "path %zu: %u %s  %.*s%s\n", place, (unsigned)found->counts[k], found->counts[k] == 1 ? "node" : "nodes",
            (int)(len < SHOWN ? len : SHOWN), (const char *)path, len > SHOWN ? "..." : "");
    }
}

void print_made(const struct call *call, const struct made *made, const struct answer *found) {
    fprintf(stderr, "%s: %zu of %zu rows kept, %zu bytes\n", call->third.name, made->kept, made->rows, made->bytes);
    print_counts(call, found);
    double full = 100.0 * (double)made->kept / CONTROLLER_ROWS;
    if (made->kept > CONTROLLER_ROWS) fprintf(stderr, "warning: a controller of %d rows cannot hold this extract (%.1f %%)\n", CONTROLLER_ROWS, full);
    else fprintf(stderr, "a controller of %d rows is %.1f %% full\n", CONTROLLER_ROWS, full);
}

void print_selected(const struct answer *found, int all) {
    const uint16_t *item = found->items;
    for (size_t k = 0; k < found->result.counts; k++)
        for (uint32_t i = 0; i < found->counts[k]; i++, item++) {
            if (all) printf("%zu ", found->first + k);
            printf("%u\n", (unsigned)*item);
        }
}

/* ---- for programs, on standard output */

static void json_string(const uint8_t *bytes, size_t len) {
    putchar('"');
    for (size_t i = 0; i < len; i++) {
        if (bytes[i] == '"' || bytes[i] == '\\') printf("\\%c", bytes[i]);
        else if (bytes[i] < 0x20) printf("\\u%04x", bytes[i]);
        else putchar(bytes[i]);
    }
    putchar('"');
}

static void json_text(const char *name, const char *value) {
    printf(",\"%s\":", name);
    json_string((const uint8_t *)value, strlen(value));
}

/* the head of a path's entry; its nodes follow */
static void json_path(const struct call *call, size_t place, int first) {
    size_t len;
    const uint8_t *path = path_at(&call->bundle, place, &len);
    printf("%s{\"place\":%zu,\"path\":", first ? "" : ",", place);
    json_string(path, len);
    printf(",\"nodes\":");
}

void print_made_json(const struct call *call, const struct made *made, const struct answer *found) {
    printf("{\"refused\":0,\"rows\":%zu,\"kept\":%zu,\"bytes\":%zu,\"controller_rows\":%d,\"fits\":%s,\"paths\":[", made->rows, made->kept, made->bytes,
        CONTROLLER_ROWS, made->kept <= CONTROLLER_ROWS ? "true" : "false");
    for (size_t k = 0; k < found->result.counts; k++) {
        json_path(call, found->first + k, k == 0);
        printf("%u}", (unsigned)found->counts[k]);
    }
    printf("]}\n");
}

void print_selected_json(const struct call *call, const struct answer *found) {
    const uint16_t *item = found->items;
    printf("{\"refused\":0,\"rows\":%u,\"paths\":[", (unsigned)found->result.rows);
    for (size_t k = 0; k < found->result.counts; k++) {
        json_path(call, found->first + k, k == 0);
        putchar('[');
        for (uint32_t i = 0; i < found->counts[k]; i++) printf("%s%u", i ? "," : "", (unsigned)*item++);
        printf("]}");
    }
    printf("]}\n");
}

void print_refused_json(const struct message *m, uint64_t number) {
    printf("{\"refused\":%u", (unsigned)number);
    json_text("file", m->text->name);
    if (m->placed) printf(",\"place\":%zu,\"line\":%zu,\"column\":%zu", m->place, m->line, m->column);
    json_text("message", m->what);
    json_text("help", m->help);
    printf("}\n");
}
