// Xerces-C: events, validated by its scanner for DTDs alone, with the grammar loaded once; no paths. The reader is that of tests/timing/xerces.cpp.
#include "peers.h"

extern "C" void peer_start(const char *schema, size_t schema_size, const char *journal, size_t size);
extern "C" int peer_read(void);

namespace {
void start(const tray *t) {
    peer_start(t->schema, t->schema_len, t->journal, t->journal_len);
}

int begun;

int read_journal() {
    begun = peer_read();
    return begun >= 0;
}

int elements() {
    return begun;
}

void finish() {
}
}

extern "C" const peer xerces_peer = { "Xerces-C", "parse to events, validate", start, read_journal, elements, nullptr, nullptr, nullptr, nullptr, finish };
