#define _POSIX_C_SOURCE 200809L
#include "tables.h"

#include <errno.h>
#include <stdlib.h>

#include "odm.h"
#include "progress.h"

enum { ENTRIES_TOP = 5 * ODM_FEED_LIMIT }; /* five a row, and a feed has fewer rows than bytes */

static const struct {
    const char *words;
    size_t from, to; /* bytes an entry */
    uint32_t (*make)(const uint8_t *table, size_t length, uint8_t *made, size_t made_length);
} ways[] = {
    [WIDEN] = {"widening the table", 2, 4, odm_widen},
    [NARROW] = {"narrowing the table", 4, 2, odm_narrow},
};

/* The other table gets as many entries and no spare byte. */
static bool make(struct bytes table, enum way way, struct recast *recast) {
    size_t entries = table.length / ways[way].from;
    struct bytes made = {NULL, entries * ways[way].to};
    made.at = malloc(made.length + 1); /* one byte more, since NULL may be the answer to a call for none */
    if (made.at == NULL) return false;
    progress_begin(ways[way].words);
    uint32_t reason = ways[way].make(table.at, table.length, made.at, made.length);
    progress_end();
    if (reason != ODM_OK) {
        free(made.at);
        made = (struct bytes){NULL, 0};
    }
    *recast = (struct recast){reason, entries, table.length % ways[way].from, made};
    return true;
}

bool table_recast(const char *name, enum way way, struct recast *recast, int *error) {
    size_t most = ENTRIES_TOP * ways[way].from;
    struct bytes table;
    if (!file_get(name, most + 1, &table, error)) return false;
    bool fits = table.length <= most;
    bool right = fits && make(table, way, recast);
    *error = fits ? ENOMEM : EFBIG;
    free(table.at);
    return right;
}
