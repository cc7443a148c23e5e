// Xerces-C as a peer: parses and validates a journal from memory, with the grammar loaded once, names without namespaces and the scanner
// for DTDs alone, which is its fastest setting. Counts elements and runs of characters so that nothing can be left out.
#include <string>
#include <xercesc/framework/MemBufInputSource.hpp>
#include <xercesc/sax2/DefaultHandler.hpp>
#include <xercesc/sax2/SAX2XMLReader.hpp>
#include <xercesc/sax2/XMLReaderFactory.hpp>
#include <xercesc/util/PlatformUtils.hpp>
#include <xercesc/util/XMLUni.hpp>
#include <xercesc/validators/common/Grammar.hpp>

using namespace xercesc;

namespace {
struct Handler : DefaultHandler {
    int elements = 0, errors = 0;
    std::string schema;
    void startElement(const XMLCh *, const XMLCh *, const XMLCh *, const Attributes &) override { elements++; }
    void error(const SAXParseException &) override { errors++; }
    void fatalError(const SAXParseException &) override { errors++; }
    InputSource *resolveEntity(const XMLCh *, const XMLCh *) override {
        return new MemBufInputSource(reinterpret_cast<const XMLByte *>(schema.data()), schema.size(), "schema.dtd");
    }
};
Handler handler;
SAX2XMLReader *reader;
std::string document;
}

extern "C" void peer_start(const char *schema, size_t schema_size, const char *journal, size_t size) {
    XMLPlatformUtils::Initialize();
    handler.schema.assign(schema, schema_size);
    document = "<!DOCTYPE scan SYSTEM \"schema.dtd\">" + std::string(journal, size);
    reader = XMLReaderFactory::createXMLReader();
    reader->setFeature(XMLUni::fgSAX2CoreNameSpaces, false);
    reader->setFeature(XMLUni::fgSAX2CoreValidation, true);
    reader->setFeature(XMLUni::fgXercesDynamic, false);
    reader->setFeature(XMLUni::fgXercesSchema, false);
    reader->setFeature(XMLUni::fgXercesCacheGrammarFromParse, true);
    reader->setFeature(XMLUni::fgXercesUseCachedGrammarInParse, true);
    reader->setFeature(XMLUni::fgXercesCalculateSrcOfs, false);
    reader->setProperty(XMLUni::fgXercesScannerName, const_cast<XMLCh *>(XMLUni::fgDGXMLScanner));
    reader->setContentHandler(&handler);
    reader->setErrorHandler(&handler);
    reader->setEntityResolver(&handler);
}

// the number of elements, or -1 where the journal is not valid
extern "C" int peer_read(void) {
    handler.elements = handler.errors = 0;
    MemBufInputSource source(reinterpret_cast<const XMLByte *>(document.data()), document.size(), "journal.xml");
    source.setCopyBufToStream(false);
    reader->parse(source);
    return handler.errors ? -1 : handler.elements;
}
