/* odm.h: orbit messages for a voice. Link with -lodm (x86-64 Linux). odm(3) is the manual, and odm_names.h has words for the numbers below.
 *
 * A feed is bytes: at most 16,777,215, holding CCSDS OPM and OEM messages in keyword notation. Messages are numbered from 1, each from its
 * heading line to the next heading line or the end of the feed. Any bytes, any message number get an answer.
 *
 * No function keeps state, allocates, prints or needs to be set up. A null pointer with length 0 is an empty feed, table, buffer or text. What is
 * lent to be written to may not overlap what is lent to be read. Every function may be called from any thread.
 *
 * A host of a version before 2.0.0, where a feed had at most 65,535 bytes and a table two bytes an entry: lend odm_place and odm_read a table of
 * four bytes an entry, 20 a row where it was 10, so twice as many bytes for the same rows. Take a recorded table of two bytes an entry through
 * odm_widen before odm_read is lent it. Wherever 65,535 was written down as the limit, for a feed's buffer or for what a file is cut at, put
 * ODM_FEED_LIMIT. ODM_FEED_LONG now means more bytes than that. No struct, no field and no other number changed.
 */
#ifndef ODM_H
#define ODM_H

#include <stddef.h>
#include <stdint.h>

#ifdef __cplusplus
extern "C" {
#endif

/* The version of this header and its library. As long as the first number stays, a program that was built for an earlier version runs on. */
#define ODM_VERSION "2.3.0"

/* A feed's limit, how many bytes a table needs for each row, and how many are always room enough for a value's words. */
enum { ODM_FEED_LIMIT = 16777215, ODM_ROW_BYTES = 20, ODM_WORDS_BYTES = 259 };

/* Why something is refused. 0 means accepted, or answered. */
enum {
    ODM_OK = 0,
    ODM_FEED_LONG = 1,   /* the feed has more than 16,777,215 bytes */
    ODM_NO_MESSAGE = 2,  /* the message number is 0 or above the headings */
    ODM_LONG = 3,        /* a line's text has more than 254 bytes */
    ODM_BYTE = 4,        /* a line's text has a byte outside 32 to 126 */
    ODM_FORM = 5,        /* a line is nothing that a line can be */
    ODM_KEYWORD = 6,     /* no assignment keyword of this message type */
    ODM_ORDER = 7,       /* not allowed next: repeated, too early or too late */
    ODM_VALUE = 8,       /* the value is not of its keyword's kind */
    ODM_UNIT = 9,        /* what follows the number is not its unit */
    ODM_TIME_ORDER = 10, /* a time is before one that it must not precede, or is no later than the data line's before it, or out of its segment's span */
    ODM_SHORT = 11,      /* no line offends, but something is missing at the end */
    ODM_NO_ROOM = 12,    /* the message or the value is right, and the table or the buffer too short for it; or two tables differ in their number of entries */
    ODM_SPENT = 13,      /* the load number is at its top */
    ODM_GONE = 14,       /* the ticket's load number is not the desk's */
    ODM_NO_ROW = 15,     /* the row number is not below the desk's count */
    ODM_ASTRAY = 16,     /* the row is not wholly in the table, or its span not in the feed */
    ODM_TOO_BIG = 17,    /* the rounded number is over 1,000,000,000,000,000 units, either way from zero */
    ODM_PLACES = 18,     /* more than six decimals are asked for */
    ODM_WIDE = 19        /* a number of the table is above 65,535 */
};

/* How many messages a feed has. */
typedef struct {
    uint32_t reason; /* ODM_OK or ODM_FEED_LONG */
    uint32_t count;  /* the heading lines; 0 on a refusal */
} odm_counted;

odm_counted odm_headings(const uint8_t *feed, size_t feed_len);

/* A message judged, with nothing placed: a preview moves no desk, fills no table and ends no ticket. Of the same feed and message number odm_place answers the
 * same reason, line and row count, but for ODM_SPENT and ODM_NO_ROOM, which judging never answers.
 */
typedef struct {
    uint32_t reason; /* ODM_OK, or 1 to 11 */
    uint32_t line;   /* for 3 to 11 the line within the message, its heading being line 1; else 0 */
    uint32_t rows;   /* how many rows the message has; 0 on a refusal */
} odm_judged;

odm_judged odm_judge(const uint8_t *feed, size_t feed_len, size_t message);

/* The desk. A desk is two numbers, its load number and its row count. A fresh desk is 0 and 0. odm_place hands back the next desk on acceptance and
 * refusal alike: hand on the desk as it last came back. An older copy counts as another desk.
 *
 * The table is lent bytes: four an entry, low byte first; five entries a row: code, group, line, start, length. An acceptance fills the first
 * 20 x count bytes and keeps the others as they came, up to three spare ones at the end with them. A refusal keeps every byte.
 *
 * A ticket is the load number at issue and a row number, from 0. It is answered on the desk that issued it until the next placing, refused or not, that is
 * not ODM_SPENT: with it the next load begins.
 */
typedef struct {
    uint32_t load;   /* the next desk's load number: one higher, but as it was on ODM_SPENT */
    uint32_t count;  /* the next desk's row count: 0 on a refusal, but as it was on ODM_SPENT */
    uint32_t reason; /* ODM_OK, or 1 to 13 */
    uint32_t line;   /* for 3 to 11 the line within the message; else 0 */
} odm_placed;

/* Judges a message and, where it is right and the table has room, fills the table. table_len is in bytes. */
odm_placed odm_place(uint32_t load, uint32_t count, const uint8_t *feed, size_t feed_len, size_t message, uint8_t *table, size_t table_len);

/* A row, spoken to a ticket. Its value is the feed's bytes from start on, length of them. Lend the feed and the table as odm_place left them: of others the
 * answer is what their bytes say, or ODM_ASTRAY.
 */
typedef struct {
    uint32_t reason; /* ODM_OK, ODM_GONE, ODM_NO_ROW or ODM_ASTRAY; on a refusal every other field is 0 */
    uint32_t code;   /* the keyword's code, 1 to 45 */
    uint32_t group;  /* OPM: the maneuver set, from 1, else 0; OEM: the segment, from 1, 0 in the header; a comment's is that of the row before it */
    uint32_t line;   /* within the message */
    uint32_t start;  /* the value's place in the feed, from 0, unit excluded */
    uint32_t length; /* the value's length in bytes */
} odm_row;

odm_row odm_read(uint32_t load, uint32_t count, uint32_t ticket_load, uint32_t ticket_row, const uint8_t *feed, size_t feed_len, const uint8_t *table,
                 size_t table_len);

/* A message written out in one plain form, with nothing placed: KEYWORD=value, META_START and META_STOP, COMMENT with one blank and the text or COMMENT
 * alone, a data line's seven values parted by one blank; an LF between lines and none after the last, no units, no blank lines. Placed again it gives the
 * same codes, groups and values, and written again the same bytes. It is never longer than the message, so a buffer as long as the feed always has room.
 *
 * On a refusal every byte of the buffer is as it was; else those past the length are.
 */
typedef struct {
    uint32_t reason; /* ODM_OK, 1 to 11, or ODM_NO_ROOM: the message is right, and the buffer too short for it */
    uint32_t line;   /* for 3 to 11 the line within the message; else 0 */
    uint32_t length; /* how many bytes were written; 0 on a refusal */
} odm_written;

/* buffer_len is in bytes. */
odm_written odm_write(const uint8_t *feed, size_t feed_len, size_t message, uint8_t *buffer, size_t buffer_len);

/* A number's text as a whole number of units of a decimal place, rounded to nearest, halves away from zero: "-2.5" at 0 decimals is -3 units, at 1
 * decimal -25. It is at most half a unit from the exact decimal that the text says. What rounds to 0 is 0, with no sign.
 *
 * The text is a number as a message has it, and nothing else: no blank before or after it, no unit. A row's value is lent as it stands in the feed.
 */
typedef struct {
    uint32_t reason; /* ODM_OK; ODM_PLACES, checked first; ODM_VALUE: the text is no number; ODM_TOO_BIG: the units are over 1,000,000,000,000,000 */
    int64_t units;   /* the units, with their sign; 0 on a refusal */
} odm_rounded;

/* decimals is from 0 to 6. */
odm_rounded odm_round(const uint8_t *text, size_t text_len, uint32_t decimals);

/* How the value of a code is said, in words for a voice: a bare `-` behind an `E`, or a time of day with colons, is not always said right.
 *
 * A number and an integer: "minus " or "plus " for a sign, digits and point as they stand, " times ten to the " for the exponent's letter; so
 * "-2.0842611E-02" is said "minus 2.0842611 times ten to the minus 02". An epoch: "year 2026 month 11 day 16, 20 hours 01 minutes 30.5 seconds", or
 * "year 2026 day 320, 20 hours 01 minutes 30 seconds" where it has the day of the year. A text, a comment and the version are said as they stand; an empty
 * comment has no words, and the length is 0. No unit is said: odm_unit_words of odm_names.h has it. The words of two values of one code are the same only
 * where the values are, but for `E` and `e`.
 *
 * The value is lent as it stands in the feed, with no blank before or after it and no unit; of an epoch second 60 may stand at 23:59. On a refusal every byte of
 * the buffer is as it was; else those past the length are.
 */
typedef struct {
    uint32_t reason; /* ODM_OK; ODM_VALUE: the value is not of the code's kind, has more than 254 bytes or one outside 32 to 126, or the code has no values (37, 44)
                        or is none; ODM_NO_ROOM, checked last: the buffer is too short */
    uint32_t length; /* how many bytes of words were written; 0 on a refusal */
} odm_spoken;

/* code is that of the row; buffer_len is in bytes, and ODM_WORDS_BYTES are always room enough. */
odm_spoken odm_in_words(uint32_t code, const uint8_t *value, size_t value_len, uint8_t *buffer, size_t buffer_len);

/* Recorded tables of two bytes an entry, as odm_place filled them before feeds grew past 65,535 bytes. odm_widen makes one a table of four bytes an
 * entry, in which odm_read finds each row as it was; odm_narrow makes it two bytes again. Both answer a reason alone: ODM_OK; ODM_NO_ROOM, checked
 * first, if the two tables have not as many entries, narrow_len / 2 and wide_len / 4; and odm_narrow ODM_WIDE exactly if some entry, in a row or not,
 * is above 65,535. On a refusal every byte of the table that was to be made is as it was; else up to three spare bytes at its end are.
 */
uint32_t odm_widen(const uint8_t *narrow, size_t narrow_len, uint8_t *wide, size_t wide_len);
uint32_t odm_narrow(const uint8_t *wide, size_t wide_len, uint8_t *narrow, size_t narrow_len);

/* Why a message is refused, with nothing placed: where the offending bytes stand in the feed, and what could have stood there instead.
 *
 * The bytes are: for ODM_LONG the text past its first 254 bytes; for ODM_BYTE the first such byte; for ODM_KEYWORD the keyword; for ODM_VALUE and
 * ODM_TIME_ORDER the value, a number's up to its first blank and in a data line the one field; for ODM_UNIT what follows the number, without blanks about it;
 * for ODM_FORM and ODM_ORDER the line without blanks about it. An empty value lies just past the `=`, an empty keyword at it. For ODM_SHORT there are none,
 * and the place is where the message ends: at the next heading line or the feed's end.
 *
 * Nothing of these bytes was judged right: say them as what is wrong, never as a row's value.
 */
typedef struct {
    uint32_t reason;   /* as odm_judge answers it */
    uint32_t rows;     /* as odm_judge answers it */
    uint32_t line;     /* as odm_judge answers it */
    uint32_t start;    /* for 3 to 11 the place of the offending bytes in the feed, from 0; else 0 */
    uint32_t length;   /* how many they are; 0 where there are none */
    uint32_t count;    /* for ODM_ORDER and ODM_SHORT how many keywords could have stood there; else 0 */
    uint32_t codes[4]; /* their codes in rising order, no comment's and no heading's, in an OEM 9 for a data line; 0 past the count */
} odm_explained;

odm_explained odm_explain(const uint8_t *feed, size_t feed_len, size_t message);

#ifdef __cplusplus
}
#endif

#endif
