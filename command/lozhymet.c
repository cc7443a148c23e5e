/* lozhymet: makes an extract of a scan journal, or selects from one. Over the two functions of include/lozhymet.h, which are proved; this command is
   tested and not proved. */
#define _POSIX_C_SOURCE 200809L
#include "report.h"

#include <getopt.h>
#include <signal.h>
#include <stdio.h>
#include <stdlib.h>
#include <string.h>

enum { DONE = 0, REFUSED = 1, FAILED = 2 };

static const char usage[] =
    "usage: lozhymet extract SCHEMA PATHS JOURNAL -o FILE [--quiet] [--json]\n"
    "       lozhymet select SCHEMA PATHS EXTRACT [-p N] [--quiet] [--json]\n";

static const char help[] =
    "\n"
    "extract   writes the rows of JOURNAL that the paths in PATHS need to FILE\n"
    "select    prints the numbers of the nodes that the paths select on EXTRACT, a line each: the path's place and\n"
    "          the number, or with -p the number alone\n"
    "\n"
    "  -o, --output FILE   where the extract goes; it is written whole or not at all\n"
    "  -p, --path N        only the path at place N of PATHS, counted from 1\n"
    "  -q, --quiet         no summary on standard error\n"
    "  -j, --json          the summary, the nodes or the refusal as JSON on standard output\n"
    "  -h, --help          this text\n"
    "\n"
    "SCHEMA is a DTD, PATHS a text with a path on each line; \"-\" is standard input, once.\n"
    "Exit status: 0 done, 1 a text is refused, 2 wrong usage or a file that cannot be read or written.\n";

struct options {
    const char *files[3], *output;
    size_t place;
    int selects, quiet, json;
};

static int wrong_usage(const char *why) {
    fprintf(stderr, "lozhymet: %s\n%sTry 'lozhymet --help'.\n", why, usage);
    return FAILED;
}

/* ---- options */

/* a place from 1; 0 where the word is none */
static size_t place_of(const char *word) {
    char *end;
    if (*word < '1' || *word > '9') return 0;
    unsigned long place = strtoul(word, &end, 10);
    return *end ? 0 : place;
}

static int read_options(struct options *o, int argc, char **argv) {
    static const struct option names[] = {
        { "output", required_argument, NULL, 'o' }, { "path", required_argument, NULL, 'p' }, { "quiet", no_argument, NULL, 'q' },
        { "json", no_argument, NULL, 'j' }, { "help", no_argument, NULL, 'h' }, { NULL, 0, NULL, 0 },
    };
    for (int found; (found = getopt_long(argc, argv, "o:p:qjh", names, NULL)) != -1;) {
        switch (found) {
        case 'o': o->output = optarg; break;
        case 'p':
            o->place = place_of(optarg);
            if (!o->place) return wrong_usage("-p takes a number from 1");
            break;
        case 'q': o->quiet = 1; break;
        case 'j': o->json = 1; break;
        case 'h': printf("%s%s", usage, help); return -1;
        default: return wrong_usage("wrong option");
        }
    }
    return DONE;
}

static int read_words(struct options *o, int argc, char **argv) {
    if (argc - optind != 4) return wrong_usage(argc - optind < 4 ? "a file is missing" : "there are too many files");
    const char *action = argv[optind];
    int inputs = 0;
    for (int k = 0; k < 3; k++) {
        o->files[k] = argv[optind + 1 + k];
        inputs += strcmp(o->files[k], "-") == 0;
    }
    if (inputs > 1) return wrong_usage("standard input can be read once");
    o->selects = strcmp(action, "select") == 0;
    if (!o->selects && strcmp(action, "extract")) return wrong_usage("the first word is extract or select");
    if (o->selects && o->output) return wrong_usage("select has no -o");
    if (!o->selects && o->place) return wrong_usage("extract has no -p");
    if (!o->selects && !o->output) return wrong_usage("extract needs -o FILE");
    if (!o->selects && o->json && strcmp(o->output, "-") == 0) return wrong_usage("standard output takes the extract or JSON, not both");
    for (int k = 0; k < 3 && !o->selects; k++)
        if (same_file(o->files[k], o->output)) return wrong_usage("the output is one of the files read");
    return DONE;
}

/* ---- the two calls, with the cells that the header says */

struct columns {
    size_t rows;
    uint16_t *numbers, *parents, *lengths, *decoded;
    uint8_t *names;
    uint32_t *starts;
};

static struct columns lend(size_t rows) {
    return (struct columns){ rows, cells(rows, 2), cells(rows, 2), cells(rows, 2), cells(rows, 2), cells(rows, 1), cells(rows, 4) };
}

static void give_back(struct columns *c) {
    free(c->numbers);
    free(c->parents);
    free(c->lengths);
    free(c->decoded);
    free(c->names);
    free(c->starts);
}

#define COLUMNS(c) \
    (c).numbers, (c).rows, (c).names, (c).rows, (c).parents, (c).rows, (c).starts, (c).rows, (c).lengths, (c).rows, (c).decoded, (c).rows
#define TEXT(t) (t).bytes, (t).len

static struct lozhymet_result make(const struct call *c, uint8_t *extract, size_t size) {
    struct columns columns = lend(LOZHYMET_JOURNAL_ROWS(c->third.len));
    struct lozhymet_result r = host_make_extract(TEXT(c->schema), TEXT(c->bundle), TEXT(c->third), COLUMNS(columns), extract, size);
    give_back(&columns);
    return r;
}

/* the answer's items and counts are the caller's to free */
static struct answer find(const struct call *c, const uint8_t *extract, size_t len) {
    struct columns columns = lend(LOZHYMET_EXTRACT_ROWS(len));
    size_t items_len = LOZHYMET_ITEMS(c->place ? 1 : LOZHYMET_MAX_PATHS, len);
    uint16_t *items = cells(items_len, sizeof *items);
    uint32_t *counts = cells(LOZHYMET_MAX_PATHS, sizeof *counts);
    struct answer found = { .items = items, .counts = counts, .first = c->place ? c->place : 1 };
    found.result = host_select(TEXT(c->schema), TEXT(c->bundle), c->place, extract, len, COLUMNS(columns), items, items_len, counts, LOZHYMET_MAX_PATHS);
    give_back(&columns);
    return found;
}

static void free_answer(struct answer *found) {
    free((void *)found->items);
    free((void *)found->counts);
}

/* ---- the two actions */

static int refuse(const struct options *o, const struct call *c, struct lozhymet_result r) {
    struct message m = message_of(c, r);
    if (o->json) print_refused_json(&m, r.number);
    else print_message(&m, r.number);
    return REFUSED;
}

/* the nodes of each path are those selected from the extract, which are those of the whole journal */
static void report_made(const struct options *o, const struct call *c, const uint8_t *extract, struct lozhymet_result r) {
    struct made made = { r.rows, (size_t)(extract[r.items - 2] << 8 | extract[r.items - 1]), r.items };
    struct answer found = find(c, extract, r.items);
    if (o->json) print_made_json(c, &made, &found);
    else print_made(c, &made, &found);
    free_answer(&found);
}

static int extract_action(const struct options *o, const struct call *c) {
    size_t size = LOZHYMET_EXTRACT_BYTES(c->third.len);
    uint8_t *extract = cells(size, 1);
    struct lozhymet_result r = make(c, extract, size);
    int status = r.number ? refuse(o, c, r) : write_whole(o->output, extract, r.items);
    if (!status && (o->json || !o->quiet)) report_made(o, c, extract, r);
    free(extract);
    return status;
}

static int select_action(const struct options *o, const struct call *c) {
    struct answer found = find(c, c->third.bytes, c->third.len);
    int status = DONE;
    if (found.result.number) {
        status = refuse(o, c, found.result);
    } else if (o->json) {
        print_selected_json(c, &found);
    } else {
        print_selected(&found, c->place == 0);
        if (!o->quiet) print_counts(c, &found);
    }
    free_answer(&found);
    return status;
}

static int run(const struct options *o) {
    struct call c = { .selects = o->selects, .place = o->place };
    int status = read_text(&c.schema, o->files[0], LOZHYMET_MAX_SCHEMA_BYTES);
    if (!status) status = read_text(&c.bundle, o->files[1], LOZHYMET_MAX_BUNDLE_BYTES);
    if (!status) status = read_text(&c.third, o->files[2], o->selects ? SIZE_MAX : LOZHYMET_MAX_JOURNAL_BYTES);
    if (!status) status = o->selects ? select_action(o, &c) : extract_action(o, &c);
    free(c.schema.bytes);
    free(c.bundle.bytes);
    free(c.third.bytes);
    return status;
}

int main(int argc, char **argv) {
    struct options o = { 0 };
    /* a file over the size that the system allows is then an error of writing, and what was written aside is removed */
    signal(SIGXFSZ, SIG_IGN);
    int status = read_options(&o, argc, argv);
    if (!status) status = read_words(&o, argc, argv);
    if (!status) status = run(&o);
    if (status < 0) status = DONE;
    if (fflush(stdout) || ferror(stdout)) {
        perror("lozhymet: standard output");
        return FAILED;
    }
    return status;
}
