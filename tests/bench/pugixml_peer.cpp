// pugixml: a document tree, no validation; paths as compiled XPath queries from the root element.
#include "peers.h"

#include <pugixml.hpp>
#include <unordered_map>
#include <vector>

namespace {
const tray *given;
pugi::xml_document document;
std::vector<pugi::xpath_query> paths;
std::vector<pugi::xpath_node_set> found;

void start(const tray *t) {
    given = t;
    paths.clear();
    for (size_t k = 0; k < t->paths; k++) paths.emplace_back(t->path[k]);
}

int count(pugi::xml_node node) {
    int found_here = 0;
    for (pugi::xml_node child : node.children())
        if (child.type() == pugi::node_element) found_here += 1 + count(child);
    return found_here;
}

int read_journal() {
    return document.load_buffer(given->journal, given->journal_len, pugi::parse_default, pugi::encoding_utf8) ? 1 : 0;
}

int elements() {
    return count(document);
}

long select_all() {
    long nodes = 0;
    found.clear();
    for (const pugi::xpath_query &path : paths) {
        found.push_back(path.evaluate_node_set(document.document_element()));
        nodes += static_cast<long>(found.back().size());
    }
    return nodes;
}

void number_nodes(pugi::xml_node node, std::unordered_map<size_t, size_t> &numbers) {
    for (pugi::xml_node child : node.children()) {
        numbers.emplace(child.hash_value(), numbers.size());
        number_nodes(child, numbers);
    }
}

size_t selected(size_t path, uint16_t *to) {
    std::unordered_map<size_t, size_t> numbers;
    number_nodes(document, numbers);
    size_t len = 0;
    found[path].sort();
    for (const pugi::xpath_node &node : found[path])
        if (node.node().type() != pugi::node_document) to[len++] = static_cast<uint16_t>(numbers[node.node().hash_value()]);
    return len;
}

void finish() {
    found.clear();
    paths.clear();
    document.reset();
}
}

extern "C" const peer pugixml_peer = { "pugixml", "parse to a tree", start, read_journal, elements, nullptr, select_all, nullptr, selected, finish };
