/* libxml2: a document tree, validated against the DTD; paths as compiled XPath expressions from the root element. */
#include "peers.h"

#include <libxml/parser.h>
#include <libxml/valid.h>
#include <libxml/xpath.h>
#include <libxml/xpathInternals.h>
#include <string.h>

static const struct tray *tray;
static xmlDtdPtr dtd;
static xmlDocPtr document;
static xmlXPathCompExprPtr paths[MAX_PATHS];
static xmlXPathObjectPtr found[MAX_PATHS];

static void start(const struct tray *t) {
    tray = t;
    xmlInitParser();
    dtd = xmlIOParseDTD(NULL, xmlParserInputBufferCreateMem(t->schema, (int)t->schema_len, XML_CHAR_ENCODING_NONE), XML_CHAR_ENCODING_NONE);
    for (size_t k = 0; k < t->paths; k++) paths[k] = xmlXPathCompile((const xmlChar *)t->path[k]);
}

static int count(xmlNodePtr node) {
    int found_here = 0;
    for (; node; node = node->next)
        if (node->type == XML_ELEMENT_NODE) found_here += 1 + count(node->children);
    return found_here;
}

static int read_journal(void) {
    if (document) xmlFreeDoc(document);
    document = xmlReadMemory(tray->journal, (int)tray->journal_len, "journal.xml", NULL, XML_PARSE_NOENT | XML_PARSE_NOBLANKS | XML_PARSE_COMPACT);
    if (!document) return 0;
    xmlValidCtxtPtr context = xmlNewValidCtxt();
    int valid = xmlValidateDtd(context, document, dtd);
    xmlFreeValidCtxt(context);
    return valid;
}

static int elements(void) {
    return count(xmlDocGetRootElement(document));
}

static long select_all(void) {
    long nodes = 0;
    xmlXPathContextPtr context = xmlXPathNewContext(document);
    for (size_t k = 0; k < tray->paths; k++) {
        if (found[k]) xmlXPathFreeObject(found[k]);
        context->node = xmlDocGetRootElement(document);
        found[k] = xmlXPathCompiledEval(paths[k], context);
        nodes += found[k] && found[k]->nodesetval ? found[k]->nodesetval->nodeNr : 0;
    }
    xmlXPathFreeContext(context);
    return nodes;
}

/* numbers from 1 in document order, kept in each node */
static size_t number_nodes(xmlNodePtr node, size_t next) {
    for (; node; node = node->next) {
        node->_private = (void *)++next;
        if (node->type == XML_ELEMENT_NODE) next = number_nodes(node->children, next);
    }
    return next;
}

/* the document itself, which XPath has above the root element, has no number */
static size_t selected(size_t path, uint16_t *to) {
    size_t len = 0;
    number_nodes(xmlDocGetRootElement(document), 0);
    xmlNodeSetPtr nodes = found[path]->nodesetval;
    xmlXPathNodeSetSort(nodes);
    for (int i = 0; nodes && i < nodes->nodeNr; i++)
        if (nodes->nodeTab[i]->type != XML_DOCUMENT_NODE) to[len++] = (uint16_t)((size_t)nodes->nodeTab[i]->_private - 1);
    return len;
}

static void finish(void) {
    for (size_t k = 0; k < tray->paths; k++) {
        if (found[k]) xmlXPathFreeObject(found[k]);
        found[k] = NULL;
        xmlXPathFreeCompExpr(paths[k]);
    }
    if (document) xmlFreeDoc(document);
    document = NULL;
    xmlFreeDtd(dtd);
}

const struct peer libxml2_peer = { "libxml2", "parse to a tree, validate", start, read_journal, elements, NULL, select_all, NULL, selected, finish };
