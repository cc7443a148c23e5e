/* Journals made by chance under one of some schemas, then damaged: read by the library and by plain C. Prints how often each number came, or
   the first journal on which the two differ, and then ends with 1. */
#include <stdio.h>
#include "journal_call.h"

enum { MOST = 16384, ROWS = 128, NUMBERS = 19 };

static const char *const schemas[] = {
    "<!ELEMENT a (a|b|t)*><!ELEMENT b EMPTY><!ELEMENT t (#PCDATA)>",
    "<!ELEMENT a (b?,(t|a)+)><!ELEMENT b EMPTY><!ELEMENT t (#PCDATA)>",
    "<!ELEMENT a ((b,t)|(t,b)|a)?><!ELEMENT b (t*)><!ELEMENT t (#PCDATA)>",
    "<!ELEMENT t (#PCDATA)>",
    "<!ELEMENT b EMPTY>",
};
enum { SCHEMAS = sizeof schemas / sizeof *schemas };

static const char *const parts[] = {
    "<a>", "</a>", "<b>", "</b>", "<b/>", "<t>", "</t>", "<t/>", "<a/>", "<c/>", "<c>", "</c>", "<a >", "<a\n/>", "</a\t>", "< a>", "</ a>", "<a b>", "x", "xy",
    " ", "\n ", "\t", "&lt;", "&gt;", "&amp;", "&apos;", "&quot;", "&amp", "&#65;", "&lx;", "&;", "&", "]", "]]", "]]>", "]]]>", ">", "<", "/", "\"", "!",
    "<!-- -->", "<?a?>", "<![CDATA[x]]>", "\x7f", "\x01", "\xff", "<abcdefghijklmnopqrstuvwxyzabcde>", "<abcdefghijklmnopqrstuvwxyzabcdef/>", "<a></a>",
    "<t>x</t>", "<b></b>", "<t> </t>", "<a><b/></a>",
};
enum { PARTS = sizeof parts / sizeof *parts };

static uint64_t state;
static unsigned char text_made[MOST];
static int made;

static unsigned chance(unsigned below) {
    state ^= state << 13;
    state ^= state >> 7;
    state ^= state << 17;
    return (state >> 20) % below;
}

static void put(const char *part) {
    int n = strlen(part);
    if (made + n <= MOST) memcpy(text_made + made, part, n), made += n;
}

/* a text, now and then one about as long as texts may be */
static void run_of_text(void) {
    if (chance(8)) { put(chance(3) ? "text &amp; more" : " "); return; }
    const char *part = chance(2) ? "x" : "&lt;";
    for (unsigned k = (4090 + chance(12)) / strlen(part); k; k--) put(part);
}

/* an element and what it may hold, to some depth */
static void element(int depth) {
    static const char *const names[] = {"a", "b", "t"};
    const char *name = names[depth > 1 ? 0 : chance(3)];
    if (depth <= 0 || (depth < 8 && chance(6) == 0)) { put("<"); put(name); put("/>"); return; }
    put("<"); put(name); put(">");
    if (*name == 't') run_of_text();
    else if (*name == 'a') for (unsigned k = depth > 7 ? 1 : chance(4); k; k--) { element(depth - 1); if (chance(4) == 0) put("\n"); }
    put("</"); put(name); put(">");
}

static void make(void) {
    made = 0;
    switch (chance(4)) {
    case 0: for (unsigned k = chance(12); k; k--) put(parts[chance(PARTS)]); break;
    case 1: element(60 + chance(8)); break;
    default: element(1 + chance(6));
    }
}

/* some bytes put in, left out or exchanged, and parts put in */
static void damage(void) {
    for (unsigned k = chance(4); k && made; k--) {
        int at = chance(made), n;
        const char *part = parts[chance(PARTS)];
        switch (chance(4)) {
        case 0: memmove(text_made + at, text_made + at + 1, --made - at); break;
        case 1: text_made[at] = "<>/&;]abt \n\tx\x7f"[chance(14)]; break;
        case 2: made = at; break;
        default:
            n = strlen(part);
            if (made + n > MOST) break;
            memmove(text_made + at + n, text_made + at, made - at);
            memcpy(text_made + at, part, n);
            made += n;
        }
    }
}

int main(int count, char **words) {
    unsigned long turns = count > 1 ? strtoul(words[1], NULL, 10) : 200000, seen[NUMBERS] = {0};
    state = 88172645463325252u + (count > 2 ? strtoul(words[2], NULL, 10) : 1);
    fill_classes();
    for (unsigned long turn = 0; turn < turns; turn++) {
        const unsigned char *schema = (const unsigned char *)schemas[chance(SCHEMAS)];
        int n = strlen((const char *)schema), cells = chance(5) ? ROWS : (int)chance(ROWS);
        make();
        damage();
        memset(&ours, 0xA5, cells * sizeof *ours.numbers);
        struct answer a = read_proved(schema, n, text_made, made, cells), b = read_plain(schema, n, text_made, made, cells);
        if (memcmp(&a, &b, sizeof a) || !same_tables(cells)) {
            printf("%s\n%.*s\nlibrary %d at %d, %d rows; plain %d at %d, %d rows; %d cells\n", schema, made, text_made, (int)a.number, (int)a.place, (int)a.rows,
                (int)b.number, (int)b.place, (int)b.rows, cells);
            return 1;
        }
        seen[a.number]++;
    }
    for (int k = 0; k < NUMBERS; k++) if (seen[k]) printf("%s %d: %lu\n", k ? "refused" : "accepted", k, seen[k]);
    return 0;
}
