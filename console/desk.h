/* The console's desk: the one place that lends a feed to the library, and always with the table that belongs to it. A value can be had only from a row that
 * the library gives to a ticket, and a message's text and its table only of the present load: so all three only from the bytes that this load judged.
 * Of the feed for the next load no byte can be had but those for which the library refuses a message, as a blame and never as a row.
 */
#ifndef DESK_H
#define DESK_H

#include <stdbool.h>
#include <stddef.h>
#include <stdint.h>

#include "odm.h"

/* A load number and a row number, once a row was had for them. */
struct ticket {
    bool kept;
    uint32_t load, row;
};

/* The library's answer to a ticket. */
struct heard {
    odm_row row;
    const uint8_t *value; /* the row's bytes, row.length of them; NULL on a refusal */
};

/* Why a message is refused, by the library. */
struct blame {
    odm_explained answer;
    const uint8_t *text; /* the offending bytes, answer.length of them, until another feed is brought in; NULL where the feed has no such place */
    bool in_oem;         /* whether the answer's codes are of an OEM, where 9 is a data line */
};

/* The present load's message, written out by the library. */
struct sent {
    odm_written answer;
    size_t message; /* its number in the feed that it was loaded from */
    uint8_t *text;  /* the answer's length of bytes, for the caller to free; NULL on a refusal */
};

/* Reads a feed file for the next load. The present load stays as it is; where the file cannot be read, so does the feed for the next load, and
 * `error` says why, 0 where that is not known.
 */
bool desk_bring(const char *name, int *error);

/* How many messages the feed for the next load has. */
odm_counted desk_messages(void);

/* Judges a message of the feed that was brought in last, then places it: the analyst's load. False where there is no memory for its rows: then nothing
 * was placed, and all is as it was.
 */
bool desk_place(size_t message, odm_placed *answer);

/* What such a load would judge, and how many rows. Nothing is placed, no desk moves, and no ticket ends. */
odm_judged desk_preview(size_t message);

/* Why a message of that feed is refused, if it is. Nothing is placed, no desk moves, and no ticket ends. */
struct blame desk_explain(size_t message);

/* The present load's number and row count. */
uint32_t desk_load(void);
uint32_t desk_rows(void);

/* The row that a load number and a row number stand for. */
struct heard desk_read(uint32_t load, uint32_t row);

/* A value that was heard, as whole units of a decimal place. */
odm_rounded desk_round(struct heard heard, uint32_t decimals);

/* The reason why numbers cannot be rounded to so many decimals, or ODM_OK. */
uint32_t desk_decimals(uint32_t decimals);

/* The present load's message in plain form; without a load the answer is ODM_NO_MESSAGE. No desk moves, and no ticket ends. False where there is no memory
 * for the text.
 */
bool desk_write(struct sent *sent);

/* The present load's table, ODM_ROW_BYTES for each of its rows, until the next load; without a load it has no bytes. */
const uint8_t *desk_table(size_t *length);

#endif
