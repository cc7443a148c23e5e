/* lozhymet.h: making an extract of a scan journal, and selecting from an extract, for a host in C on x86-64 Linux.

   A journal is an XML text that is valid under a schema (a DTD). A bundle is a text of 1 to 8 paths, each ended by a line feed. A path is steps joined by
   `/`, each axis::test, then at most one condition in brackets, as descendant::skipped/following-sibling::tile[child::image]; the axes are those of
   XPath 1.0 but attribute and namespace (lozhymet(1) has them). An extract holds the rows of a journal that the paths of a bundle need, and each path
   selects the same nodes on the extract as on the whole journal.

   Both functions are proved, in Rattle, to do what crates/library_spec/specs/Hosts.antt defines, for all arguments that meet "What a caller owes":
   - For each input there is one result and one content of the lent memory.
   - Accepted (number 0): each output holds its answer, and 0 in the cells past it.
   - Refused (number 1 to 18): rows, items and counts are 0, and so is every cell of every output.
   - What is handed in never changes. Nothing is allocated, no file is touched, no state is kept: threads may call at the same time, each with
     outputs of its own.
   This header, and whatever else is written in C, is tested and not proved.

   What a caller owes, since a contract cannot see it:
   - Each pointer has as many cells behind it as the length after it says, and is aligned for its cells.
   - No pointer is null, not even where its length is 0: lend the address of any object of that type then. (The compiled code takes each pointer
     for the address of an object, as Rust does.)
   - No output overlaps another output or an input. Inputs may overlap each other.
   - No other thread writes what is lent while a call runs. */
#ifndef LOZHYMET_H
#define LOZHYMET_H

#include <stddef.h>
#include <stdint.h>

#ifdef __cplusplus
extern "C" {
#endif

/* ---- limits of the texts; a longer one is refused (2) */

#define LOZHYMET_MAX_SCHEMA_BYTES 8192
#define LOZHYMET_MAX_BUNDLE_BYTES 4104
#define LOZHYMET_MAX_JOURNAL_BYTES 1048576

#define LOZHYMET_MAX_PATHS 8    /* of a bundle */
#define LOZHYMET_MAX_ROWS 65535 /* of a journal or an extract */

/* Bytes of stack to have free for a call: a bound to which tests/host/run holds what it measures on a journal of 65,521 nodes. Measured there:
   making 283,928 bytes, selecting 478,440. */
#define LOZHYMET_STACK_BYTES 524288

/* ---- how many cells to lend, so that 18 cannot come

   A journal of L bytes that is accepted has e elements and t texts. A text has at least one byte and stands alone between a start tag and an end
   tag. An element with a text of n bytes takes at least 7 + n bytes (<a>..</a>), any other at least 4 (<a/>). With N bytes in all texts, N >= t:
     L >= 4 (e - t) + 7 t + N = 4 e + 3 t + N >= 4 (e + t), so there are at most L / 4 rows.
   In an extract an element takes 8 bytes, a text of n bytes at most 7 + n, since decoding makes none longer, the count at the end 5:
     8 e + 7 t + N + 5 = (4 e + 3 t + N) + 4 (e + t) + 5 <= L + 4 rows + 5 bytes.
   A row of an extract takes at least 8 bytes, since a text has at least one.
   The arguments are evaluated more than once. */

#define LOZHYMET_AT_MOST(count, most) ((size_t)(count) < (size_t)(most) ? (size_t)(count) : (size_t)(most))

/* rows of a journal, for each of the six columns of host_make_extract */
#define LOZHYMET_JOURNAL_ROWS(journal_len) LOZHYMET_AT_MOST((size_t)(journal_len) / 4, LOZHYMET_MAX_ROWS)

/* bytes of the extract that is made; 1,310,721 for every journal */
#define LOZHYMET_EXTRACT_BYTES(journal_len) \
    (LOZHYMET_AT_MOST(journal_len, LOZHYMET_MAX_JOURNAL_BYTES) + 4 * LOZHYMET_JOURNAL_ROWS(journal_len) + 5)

/* rows of an extract, for each of the six columns of host_select */
#define LOZHYMET_EXTRACT_ROWS(extract_len) LOZHYMET_AT_MOST((size_t)(extract_len) / 8, LOZHYMET_MAX_ROWS)

/* selected numbers: no more for a path than there are rows; 8 times that serves every bundle and place */
#define LOZHYMET_ITEMS(paths, extract_len) ((size_t)(paths) * LOZHYMET_EXTRACT_ROWS(extract_len))

/* ---- results */

/* Why a call is refused. The texts are judged in turn, each whole: schema, bundle, then journal or extract; of one text the lowest number that
   applies is given, and within a number the earliest place. So 4 to 7 are the schema's, 8 to 10 the bundle's, 11 to 16 the journal's, 17 the
   extract's; 2 is that of the first text whose length is not allowed, 3 that of the first text (but an extract) whose byte at `place` is not. */
enum lozhymet_refusal {
    LOZHYMET_ACCEPTED = 0,
    LOZHYMET_BAD_ARGUMENT = 1,       /* columns of unequal length, or a place of no path of the bundle; no place is named */
    LOZHYMET_BAD_LENGTH = 2,         /* a text is empty or over its limit (an extract: is empty); no place is named */
    LOZHYMET_BAD_BYTE = 3,           /* a byte is none of 09, 0A, 20 to 7E hex; place: that byte */
    LOZHYMET_SCHEMA_SYNTAX = 4,      /* the schema departs from its grammar; place: the byte where no schema could go on, or the length */
    LOZHYMET_SCHEMA_LIMIT = 5,       /* a 33rd declaration, or a 65th name in a model; place: its first byte */
    LOZHYMET_DECLARED_TWICE = 6,     /* an element is declared twice; place: the second name */
    LOZHYMET_MODEL_UNDECLARED = 7,   /* a model names an undeclared element; place: that name */
    LOZHYMET_PATH_SYNTAX = 8,        /* a path departs from its grammar; place: as for 4, in the bundle */
    LOZHYMET_PATH_LIMIT = 9,         /* too many paths, steps or alternatives, or a path over 512 bytes; place: the path's first byte */
    LOZHYMET_PATH_UNDECLARED = 10,   /* a path names an undeclared element; place: that name */
    LOZHYMET_JOURNAL_SYNTAX = 11,    /* a tag, character data or an entity is misspelt; place: its first byte */
    LOZHYMET_NESTING = 12,           /* tags do not nest, or there is not exactly one root; place: the tag or byte, or the length */
    LOZHYMET_DEPTH = 13,             /* elements are 65 deep; place: the start tag */
    LOZHYMET_JOURNAL_UNDECLARED = 14, /* an element is undeclared; place: its start tag */
    LOZHYMET_CONTENT = 15,           /* the root is not the schema's, or content does not fit its model; place: the element's start tag */
    LOZHYMET_NODE_LIMIT = 16,        /* a text over 4,096 bytes, or a 65,536th node; place: its first byte */
    LOZHYMET_NOT_AN_EXTRACT = 17,    /* the bytes are no extract under this schema; no place is named */
    LOZHYMET_TOO_FEW_CELLS = 18      /* an output has fewer cells than its answer; no place is named */
};

/* What a call answers, by value. */
struct lozhymet_result {
    uint64_t number; /* 0, or why the call is refused: enum lozhymet_refusal */
    uint64_t place;  /* the byte offset in the text refused; 0 where no place is named, and on success */
    uint64_t rows;   /* rows of the whole journal, or of the extract, in the six columns */
    uint64_t items;  /* host_make_extract: bytes of the extract; host_select: selected numbers */
    uint64_t counts; /* host_select: counts, one for each path asked for; host_make_extract: 0 */
};

/* The six columns hold a table, a cell of each for a row, in document order. All six lengths are equal, else the call is refused (1).
     numbers  the node's number; nodes of a journal are numbered from 0 in document order, and keep their numbers in an extract
     names    e for the element that the schema declares as number e (from 0), 32 + e for the text of such an element
     parents  the row of the parent, in the same columns; 0 for the root
     starts   for a text the offset of its first byte in the journal, or in the extract; 0 for an element
     lengths  for a text its bytes, as they stand there, 1 to 4,096; 0 for an element
     decoded  for a text its characters, each of the five entities being one: 1 to its length, and equal to it where it has no entity; 0 for an element
   A text can be read from the journal, or from the extract, at starts[row], lengths[row] bytes long. In the journal it stands as it was written, in an
   extract decoded (for a label `H&amp;E` in the journal, with 7 and 3, the extract has `H&E`, with 3 and 3), and is not decoded again. */

/* Makes the extract of a journal for a bundle of paths.
     schema, bundle, journal  the three texts; none needs a 0 at its end
     numbers .. decoded       outputs: the table of the whole journal, LOZHYMET_JOURNAL_ROWS(journal_len) cells each
     out                      output: the extract, LOZHYMET_EXTRACT_BYTES(journal_len) cells; `items` of the result says how many were written.
                              Its last two bytes are the number of rows kept, high byte first
   Refused by 1 to 16 and 18. */
struct lozhymet_result host_make_extract(
    const uint8_t *schema, size_t schema_len, const uint8_t *bundle, size_t bundle_len, const uint8_t *journal, size_t journal_len,
    uint16_t *numbers, size_t numbers_len, uint8_t *names, size_t names_len, uint16_t *parents, size_t parents_len,
    uint32_t *starts, size_t starts_len, uint16_t *lengths, size_t lengths_len, uint16_t *decoded, size_t decoded_len, uint8_t *out, size_t out_len);

/* Selects from an extract, by one path of a bundle or by all of them in one reading.
     schema, bundle      the texts that the extract was made with; other ones are not told apart, and the answer is then that of these texts
     place               1 to 8: the path's place in the bundle; 0: all paths in order. A place of no path is refused by 1, whatever the extract;
                         where schema or bundle is refused, by 1 if it is over 8
     extract             the extract's bytes
     numbers .. decoded  outputs: the extract's table, LOZHYMET_EXTRACT_ROWS(extract_len) cells each
     items               output: numbers of the selected nodes, in document order, path after path; LOZHYMET_ITEMS(LOZHYMET_MAX_PATHS, extract_len)
                         cells, or LOZHYMET_ITEMS(1, extract_len) for one path
     counts              output: how many nodes each path asked for selects: LOZHYMET_MAX_PATHS cells, or 1 for one path
   Refused by 1 to 10, 17 and 18. */
struct lozhymet_result host_select(
    const uint8_t *schema, size_t schema_len, const uint8_t *bundle, size_t bundle_len, size_t place, const uint8_t *extract, size_t extract_len,
    uint16_t *numbers, size_t numbers_len, uint8_t *names, size_t names_len, uint16_t *parents, size_t parents_len,
    uint32_t *starts, size_t starts_len, uint16_t *lengths, size_t lengths_len, uint16_t *decoded, size_t decoded_len,
    uint16_t *items, size_t items_len, uint32_t *counts, size_t counts_len);

#ifdef __cplusplus
}
#endif

#endif
