/* expat: events alone, no validation, no paths. */
#include "peers.h"

#include <expat.h>

static const struct tray *tray;
static int begun;

static void start(const struct tray *t) {
    tray = t;
}

static void begin(void *data, const XML_Char *name, const XML_Char **attributes) {
    (void)data, (void)name, (void)attributes;
    begun++;
}

static void end(void *data, const XML_Char *name) {
    (void)data, (void)name;
}

static void characters(void *data, const XML_Char *text, int len) {
    (void)data, (void)text, (void)len;
}

static int read_journal(void) {
    XML_Parser parser = XML_ParserCreate("US-ASCII");
    begun = 0;
    XML_SetElementHandler(parser, begin, end);
    XML_SetCharacterDataHandler(parser, characters);
    int good = XML_Parse(parser, tray->journal, (int)tray->journal_len, 1) == XML_STATUS_OK;
    XML_ParserFree(parser);
    return good;
}

static int elements(void) {
    return begun;
}

static void finish(void) {
}

const struct peer expat_peer = { "expat", "parse to events", start, read_journal, elements, NULL, NULL, NULL, NULL, finish };
