/* What each library does for the benchmark. */
#ifndef PEERS_H
#define PEERS_H

#include <stddef.h>
#include <stdint.h>

enum { MAX_PATHS = 8, MAX_NODES = 65535 };

struct tray {
    const char *schema, *bundle, *journal;
    size_t schema_len, bundle_len, journal_len;
    size_t paths;
    char path[MAX_PATHS][600]; /* the bundle's paths, each ended by 0 */
};

struct peer {
    const char *name;
    const char *reads;    /* what reading does: for the table */
    void (*start)(const struct tray *tray); /* loads the schema and compiles the paths, where the library can do so ahead */
    int (*read)(void);    /* the journal; 0 where it is not accepted */
    int (*elements)(void); /* of the journal read last */
    int (*make)(void);    /* this library alone: the extract for all paths, from the texts; 0 where it is refused */
    long (*select)(void); /* all paths, on what was read or made last: how many nodes; NULL where the library has no paths */
    long (*columns)(void); /* this library alone: all paths on the columns of the whole journal, as read or made last */
    size_t (*numbers)(size_t path, uint16_t *numbers); /* the numbers of the nodes that a path selected */
    void (*finish)(void);
};

#ifdef __cplusplus
extern "C" {
#endif
extern const struct peer lozhymet_peer, libxml2_peer, xerces_peer, pugixml_peer, expat_peer;
#ifdef __cplusplus
}
#endif

#endif
