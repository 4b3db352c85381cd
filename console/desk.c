#include "desk.h"

#include <stdlib.h>
#include <string.h>

#include "file.h"
#include "odm_names.h"
#include "progress.h"
#include "words.h"

static struct bytes next;     /* the feed that the next load is judged from: before that only what offends in it can be heard */
static struct bytes loaded;   /* the feed that the last accepted load was judged from: the rows in the table are of these bytes and of no others */
static struct bytes table;    /* that load's rows */
static size_t loaded_message; /* the number of its message in its feed */
static odm_placed desk;       /* as it last came back; a fresh one is all 0 */

/* Frees a feed that another one takes the place of, unless it is still in use: after an acceptance `next` and `loaded` are the same memory. */
static void drop(struct bytes feed, struct bytes still) {
    if (feed.at != still.at) free(feed.at);
}

bool desk_bring(const char *name, int *error) {
    struct bytes incoming;
    if (!file_get(name, (size_t)ODM_FEED_LIMIT + 1, &incoming, error)) return false; /* one byte past the limit, so that the library itself refuses */
    drop(next, loaded);
    next = incoming;
    return true;
}

odm_counted desk_messages(void) {
    progress_begin("counting messages");
    odm_counted counted = odm_headings(next.at, next.length);
    progress_end();
    return counted;
}

/* After an acceptance: the feed and the table that belong together. Those of the load before go. */
static void keep(struct bytes fresh, size_t message) {
    drop(loaded, next);
    free(table.at);
    loaded = next;
    table = fresh;
    loaded_message = message;
}

/* One call for a load and its preview, so that both judge the same bytes; whoever calls ends the progress. */
static odm_judged judge_next(size_t message) {
    progress_begin("judging");
    return odm_judge(next.at, next.length, message);
}

/* The message is judged for its row count, then placed, which judges it once more and fills a table of that size. A refused one has no rows and fills
 * nothing, but placing it moves the desk.
 */
bool desk_place(size_t message, odm_placed *answer) {
    odm_judged judged = judge_next(message);
    struct bytes fresh = {NULL, (size_t)judged.rows * ODM_ROW_BYTES};
    fresh.at = malloc(fresh.length + 1); /* one byte more, since NULL may be the answer to a call for none */
    bool room = fresh.at != NULL;
    if (judged.reason == ODM_OK) progress_begin("filling the table");
    if (room) desk = odm_place(desk.load, desk.count, next.at, next.length, message, fresh.at, fresh.length);
    progress_end();
    if (room && desk.reason == ODM_OK) keep(fresh, message);
    else free(fresh.at); /* the table is as it was, and so is the feed that belongs to it */
    *answer = desk;
    return room;
}

odm_judged desk_preview(size_t message) {
    odm_judged answer = judge_next(message);
    progress_end();
    return answer;
}

static bool ends_line(uint8_t byte) {
    return byte == '\n' || byte == '\r';
}

/* Whether a heading line is that of an OEM: before its keyword it has blanks alone. */
static bool is_oem(const uint8_t *line, size_t length) {
    const char *keyword = odm_keyword_name(OEM_HEADING);
    size_t at = 0;
    while (at < length && line[at] == ' ') at++;
    return length - at >= strlen(keyword) && memcmp(line + at, keyword, strlen(keyword)) == 0;
}

/* Whether the message that has this place, or ends there, is an OEM: its heading line tells. The library is asked of each line before the place, from the
 * last one back, whether it is a heading.
 */
static bool in_oem(size_t place) {
    size_t start = place, end = place;
    while (start > 0) {
        start--;
        if (start > 0 && !ends_line(next.at[start - 1])) continue;
        if (odm_headings(next.at + start, end - start).count > 0) return is_oem(next.at + start, end - start);
        end = start;
    }
    return false;
}

struct blame desk_explain(size_t message) {
    progress_begin("judging");
    odm_explained answer = odm_explain(next.at, next.length, message);
    bool inside = answer.line > 0 && answer.start <= next.length && answer.length <= next.length - answer.start;
    bool oem = inside && answer.count > 0 && in_oem(answer.start);
    progress_end();
    return (struct blame){answer, inside ? next.at + answer.start : NULL, oem};
}

uint32_t desk_load(void) {
    return desk.load;
}

uint32_t desk_rows(void) {
    return desk.count;
}

struct heard desk_read(uint32_t load, uint32_t row) {
    odm_row answer = odm_read(desk.load, desk.count, load, row, loaded.at, loaded.length, table.at, table.length);
    return (struct heard){answer, answer.reason == ODM_OK ? loaded.at + answer.start : NULL};
}

odm_rounded desk_round(struct heard heard, uint32_t decimals) {
    return odm_round(heard.value, heard.row.length, decimals);
}

uint32_t desk_decimals(uint32_t decimals) {
    return odm_round((const uint8_t *)"0", 1, decimals).reason; /* 0 is a number, and never too big */
}

bool desk_write(struct sent *sent) {
    size_t message = desk.count > 0 ? loaded_message : 0; /* no feed has a message 0, so nothing is written of a load before a refused one */
    uint8_t *text = malloc(loaded.length + 1);            /* what is written is never longer than its feed */
    if (text == NULL) return false;
    progress_begin("writing");
    odm_written answer = odm_write(loaded.at, loaded.length, message, text, loaded.length);
    progress_end();
    if (answer.reason != ODM_OK) {
        free(text);
        text = NULL;
    }
    *sent = (struct sent){answer, message, text};
    return true;
}

const uint8_t *desk_table(size_t *length) {
    *length = (size_t)desk.count * ODM_ROW_BYTES; /* a refused load has no rows, so nothing is had of the load before it */
    return table.at;
}
