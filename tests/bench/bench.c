/* The library against its peers on trays: bench ROUNDS FOLDER.. prints, for each tray, the least time of several rounds for reading the journal
   (parsing and validating, where the library does), for selecting all paths, and for everything from the texts to the selections; how many times as
   long as this library that is; and how times grow from the first tray to the last, against the elements: 1 is linear. Ends with 1 where two libraries select different nodes. */
#define _POSIX_C_SOURCE 200809L
#include "peers.h"

#include <stdio.h>
#include <stdlib.h>
#include <string.h>
#include <time.h>

enum { PEERS = 5, TASKS = 3, MAX_TRAYS = 8 };
enum { READ, SELECT, ALL, COLUMNS };
enum { LOZHYMET, LIBXML2, XERCES, PUGIXML, EXPAT };
static const struct peer *const peers[PEERS] = { &lozhymet_peer, &libxml2_peer, &xerces_peer, &pugixml_peer, &expat_peer };
static const char *const tasks[TASKS] = { "read", "select", "all" };
/* microseconds; 0 where nothing was measured */
static double least[MAX_TRAYS][PEERS][TASKS + 1];
static int elements[MAX_TRAYS];

static double now(void) {
    struct timespec t;
    clock_gettime(CLOCK_MONOTONIC, &t);
    return (double)t.tv_sec * 1e6 + (double)t.tv_nsec / 1e3;
}

static char *load(const char *folder, const char *name, size_t *len) {
    char path[4096];
    snprintf(path, sizeof path, "%s/%s", folder, name);
    FILE *file = fopen(path, "rb");
    char *bytes = calloc(1 << 21, 1);
    if (!file || !bytes) {
        perror(path);
        exit(2);
    }
    *len = fread(bytes, 1, (1 << 21) - 1, file);
    fclose(file);
    return bytes;
}

static struct tray load_tray(const char *folder) {
    struct tray t = { .paths = 0 };
    t.schema = load(folder, "schema.dtd", &t.schema_len);
    t.bundle = load(folder, "paths.txt", &t.bundle_len);
    t.journal = load(folder, "journal.xml", &t.journal_len);
    for (const char *from = t.bundle, *end; (end = strchr(from, '\n')) && t.paths < MAX_PATHS; from = end + 1)
        snprintf(t.path[t.paths++], sizeof t.path[0], "%.*s", (int)(end - from), from);
    return t;
}

static void free_tray(struct tray *t) {
    free((void *)t->schema);
    free((void *)t->bundle);
    free((void *)t->journal);
}

static void note(int tray, int peer, int task, double taken) {
    double *best = &least[tray][peer][task];
    if (*best == 0 || taken < *best) *best = taken;
}

static void must(int holds, const struct peer *p, const char *what) {
    if (holds) return;
    printf("bench: %s %s\n", p->name, what);
    exit(1);
}

/* one round of one peer: from the texts on, then reading and selecting alone */
static void run_round(int tray, int peer, const struct tray *t) {
    const struct peer *p = peers[peer];
    double begin = now();
    p->start(t);
    must(p->make ? p->make() : p->read(), p, "refuses the journal");
    if (p->select) p->select();
    note(tray, peer, ALL, now() - begin);
    begin = now();
    must(p->read(), p, "refuses the journal");
    note(tray, peer, READ, now() - begin);
    must(!elements[tray] || p->elements() == elements[tray], p, "reads another number of elements");
    elements[tray] = p->elements();
    if (!p->select) return;
    if (p->make) p->make();
    if (p->columns) {
        begin = now();
        long nodes = p->columns();
        note(tray, peer, COLUMNS, now() - begin);
        must(nodes == p->select(), p, "selects other nodes on the whole journal");
        p->make();
    }
    begin = now();
    p->select();
    note(tray, peer, SELECT, now() - begin);
}

static size_t compare_selections(const struct tray *t) {
    static uint16_t ours[MAX_NODES], theirs[MAX_NODES];
    size_t all = 0;
    for (size_t path = 0; path < t->paths; path++) {
        size_t len = peers[0]->numbers(path, ours);
        all += len;
        for (int p = 1; p < PEERS; p++) {
            if (!peers[p]->numbers) continue;
            if (peers[p]->numbers(path, theirs) != len || memcmp(ours, theirs, len * sizeof *ours)) {
                printf("bench: %s selects other nodes by %s\n", peers[p]->name, t->path[path]);
                exit(1);
            }
        }
    }
    return all;
}

/* the times of a tray, and how many times as long as this library each takes */
static void print_times(int tray) {
    printf("%-10s %-28s %12s %12s %12s   times as long\n", "", "reading is", "read", "select", "all");
    for (int p = 0; p < PEERS; p++) {
        printf("%-10s %-28s", peers[p]->name, peers[p]->reads);
        for (int k = 0; k < TASKS; k++) {
            if (k == READ || peers[p]->select) printf(" %9.0f us", least[tray][p][k]);
            else printf(" %12s", "-");
        }
        for (int k = 0; k < TASKS; k++)
            if (k == READ || peers[p]->select) printf("   %s %.1f", tasks[k], least[tray][p][k] / least[tray][0][k]);
        printf("\n");
    }
    double best = least[tray][LIBXML2][SELECT] < least[tray][PUGIXML][SELECT] ? least[tray][LIBXML2][SELECT] : least[tray][PUGIXML][SELECT];
    printf("lozhymet's paths on the columns of the whole journal: %.0f us; the best peer's select takes %.1f times as long\n", least[tray][0][COLUMNS],
        best / least[tray][0][COLUMNS]);
    /* Xerces-C with its grammar loaded before, which is in its favour */
    double both = least[tray][XERCES][READ] + least[tray][PUGIXML][ALL];
    printf("Xerces-C to validate and pugixml to select: all %.0f us, %.1f times as long\n", both, both / least[tray][0][ALL]);
}

static void run_tray(int tray, const char *folder, int rounds) {
    struct tray t = load_tray(folder);
    for (int round = 0; round < rounds; round++)
        for (int p = 0; p < PEERS; p++) {
            run_round(tray, p, &t);
            if (round + 1 < rounds) peers[p]->finish();
        }
    size_t nodes = compare_selections(&t);
    for (int p = 0; p < PEERS; p++) peers[p]->finish();
    printf("\n%s tiles: %d elements, %zu bytes, %zu paths that select %zu nodes, the same by every library that has paths\n", folder, elements[tray],
        t.journal_len, t.paths, nodes);
    print_times(tray);
    free_tray(&t);
}

static void print_growth(int last) {
    double larger = (double)elements[last] / elements[0];
    printf("\nfrom the first tray to the last there are %.1f times as many elements; times grow, against that\n", larger);
    for (int p = 0; p < PEERS; p++) {
        printf("%-10s", peers[p]->name);
        for (int k = 0; k < TASKS; k++)
            if (k == READ || peers[p]->select) printf("   %s %.2f", tasks[k], least[last][p][k] / least[0][p][k] / larger);
        printf("\n");
    }
}

int main(int argc, char **argv) {
    int trays = argc - 2;
    if (trays < 1 || trays > MAX_TRAYS) return fprintf(stderr, "usage: bench ROUNDS FOLDER..\n"), 2;
    for (int k = 0; k < trays; k++) run_tray(k, argv[2 + k], atoi(argv[1]));
    print_growth(trays - 1);
    return 0;
}
