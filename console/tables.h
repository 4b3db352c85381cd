/* Recorded tables: files of what the library filled as it placed a message, here or at a console before feeds grew, whose tables had two bytes an entry.
 * They are made over as they are. Nothing of them is lent with a feed, and none of their numbers is looked at here or spoken.
 */
#ifndef TABLES_H
#define TABLES_H

#include <stdbool.h>
#include <stddef.h>
#include <stdint.h>

#include "file.h"

enum way { WIDEN, NARROW }; /* from two bytes an entry to four, or back */

/* A recorded table made over by the library. */
struct recast {
    uint32_t reason;   /* the library's answer */
    size_t entries;    /* how many the table has */
    size_t spare;      /* how many bytes of its file are behind the last entry: they are left out */
    struct bytes made; /* the other table, for the caller to free; NULL on a refusal */
};

/* Reads a recorded table and makes it over. Where it cannot be read, or there is no memory for both, `error` says why, 0 where that is not known. */
bool table_recast(const char *name, enum way way, struct recast *recast, int *error);

#endif
