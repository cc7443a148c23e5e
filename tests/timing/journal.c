/* The times of reading the journals in some folders, the last of them by a plain reading and by Xerces-C too, and the stack that a call takes.
   Ends with 1 where outcomes differ. */
#include <pthread.h>
#include <stdio.h>
#include <time.h>
#include "journal_call.h"

enum { TURNS = 15, STACK = 4 << 20 };

void peer_start(const char *schema, size_t schema_size, const char *journal, size_t size);
int peer_read(void);

static unsigned char *schema, *journal;
static int schema_size, journal_size;

static unsigned char *contents(const char *folder, const char *name, int *count) {
    char path[4096];
    snprintf(path, sizeof path, "%s/%s", folder, name);
    FILE *f = fopen(path, "rb");
    unsigned char *bytes = malloc(LONGEST + 1);
    if (!f || !bytes) exit(1);
    *count = fread(bytes, 1, LONGEST + 1, f);
    fclose(f);
    return bytes;
}

static void load(const char *folder) {
    schema = contents(folder, "schema.dtd", &schema_size);
    journal = contents(folder, "journal.xml", &journal_size);
}

static struct answer last;

static void by_proof(void) { last = read_proved(schema, schema_size, journal, journal_size, CELLS); }
static void by_plain(void) { last = read_plain(schema, schema_size, journal, journal_size, CELLS); }
static void by_peer(void) { last.rows = peer_read(); }

/* microseconds, the least of some turns */
static double least(void (*reads)(void)) {
    double best = 0;
    for (int k = 0; k < TURNS; k++) {
        struct timespec a, b;
        clock_gettime(CLOCK_MONOTONIC, &a);
        reads();
        clock_gettime(CLOCK_MONOTONIC, &b);
        double taken = (b.tv_sec - a.tv_sec) * 1e6 + (b.tv_nsec - a.tv_nsec) / 1e3;
        if (!k || taken < best) best = taken;
    }
    return best;
}

static void *one_call(void *reads) {
    if (reads) by_proof();
    return reads;
}

/* the bytes of a thread's painted stack that are written to, from the deepest on */
static size_t stack_taken(void *reads) {
    unsigned char *low = aligned_alloc(4096, STACK);
    pthread_attr_t attributes;
    pthread_t thread;
    size_t k = 0;
    if (!low) exit(1);
    memset(low, 0xA5, STACK);
    pthread_attr_init(&attributes);
    if (pthread_attr_setstack(&attributes, low, STACK) || pthread_create(&thread, &attributes, one_call, reads)) exit(1);
    pthread_join(thread, NULL);
    while (low[k] == 0xA5) k++;
    return STACK - k;
}

int main(int count, char **folders) {
    double proved = 0;
    fill_classes();
    for (int k = 1; k < count; k++) {
        load(folders[k]);
        proved = least(by_proof);
        if (last.number) return 1;
        printf("%d bytes, %d nodes: %.0f microseconds, %.2f nanoseconds a byte\n", journal_size, (int)last.rows, proved, proved * 1e3 / journal_size);
    }
    struct answer found = last;
    double plain = least(by_plain);
    if (memcmp(&found, &last, sizeof found) || !same_tables(CELLS)) return 1;
    peer_start((char *)schema, schema_size, (char *)journal, journal_size);
    double peer = least(by_peer);
    if ((int)last.rows <= 0) return 1;
    printf("plain C %.0f microseconds, ratio %.2f; Xerces-C %.0f, ratio %.2f (least of %d)\n", plain, proved / plain, peer, proved / peer, TURNS);
    printf("stack of a call: %zu bytes\n", stack_taken(&found) - stack_taken(NULL));
    return 0;
}
