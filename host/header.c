/* The header, compiled as C and as C++: every function called, every struct's size held, and a few answers that must not change. */
#include "odm.h"

#include <stdio.h>
#include <string.h>

enum { BUFFER = 1000, BEFORE = 0xa5, ROOM = 21 * ODM_ROW_BYTES }; /* a buffer's length, what each byte of it is before, and 21 rows' bytes */

static int failures = 0;

static void same(const char *what, unsigned long got, unsigned long want) {
    if (got != want) {
        printf("%s: %lu, and not %lu\n", what, got, want);
        failures++;
    }
}

static void check_judging(void) {
    const char *text = "noise\nCCSDS_OPM_VERS = 1.0\nCREATION_DATE = 2000-13-01T00:00:00\n";
    const uint8_t *feed = (const uint8_t *)text;
    size_t length = strlen(text);
    odm_counted counted = odm_headings(feed, length);
    odm_judged judged = odm_judge(feed, length, 1);

    same("reason of the count", counted.reason, ODM_OK);
    same("headings", counted.count, 1);
    same("reason of the judgement", judged.reason, ODM_VALUE);
    same("line", judged.line, 2);
    same("rows", judged.rows, 0);
    same("reason for message 0", odm_judge(feed, length, 0).reason, ODM_NO_MESSAGE);
    same("reason for the last message number", odm_judge(feed, length, SIZE_MAX).reason, ODM_NO_MESSAGE);
    same("headings of an empty feed", odm_headings(NULL, 0).count, 0);
    same("reason for a message of an empty feed", odm_judge(NULL, 0, 1).reason, ODM_NO_MESSAGE);
    same("size of odm_counted", sizeof counted, 8);
    same("size of odm_judged", sizeof judged, 12);
}

/* Two messages, one right and one wrong, and the right one's plain form. */
static const char two[] = "noise\n  CCSDS_OEM_VERS = 1.0\r\nCREATION_DATE = 2000-01-01T00:00:00\nCOMMENT\n\n COMMENT  a = b \nORIGINATOR = A\nMETA_START\n"
                          "OBJECT_NAME = B C\nOBJECT_ID = C\nCENTER_NAME = D\nREF_FRAME = E\nTIME_SYSTEM = UTC\nSTART_TIME = 2000-001T00:00:00\n"
                          "STOP_TIME = 2000-001T00:00:00\nMETA_STOP\n 2000-01-01T00:00:00  1 2 3 4 5 6 \n"
                          "CCSDS_OPM_VERS = 1.0\nCREATION_DATE = 2000-13-01T00:00:00\n";
static const char plain[] = "CCSDS_OEM_VERS=1.0\nCREATION_DATE=2000-01-01T00:00:00\nCOMMENT\nCOMMENT a = b\nORIGINATOR=A\nMETA_START\n"
                            "OBJECT_NAME=B C\nOBJECT_ID=C\nCENTER_NAME=D\nREF_FRAME=E\nTIME_SYSTEM=UTC\nSTART_TIME=2000-001T00:00:00\n"
                            "STOP_TIME=2000-001T00:00:00\nMETA_STOP\n2000-01-01T00:00:00 1 2 3 4 5 6";

/* Writes a message into the first `room` bytes of a buffer. The buffer then begins with the text, and all its other bytes are as they were. */
static void same_written(size_t message, size_t room, uint32_t reason, uint32_t line, const char *text) {
    uint8_t buffer[BUFFER];
    size_t length = strlen(text), kept = length;
    memset(buffer, BEFORE, sizeof buffer);
    odm_written written = odm_write((const uint8_t *)two, strlen(two), message, buffer, room);
    while (kept < sizeof buffer && buffer[kept] == BEFORE) kept++;

    same("reason of the writing", written.reason, reason);
    same("line of the writing", written.line, line);
    same("length of the writing", written.length, length);
    same("whether the text written is another", memcmp(buffer, text, length) != 0, 0);
    same("bytes written or kept", kept, sizeof buffer);
}

/* The desk's answers: 21 rows, of which row 4 is ORIGINATOR. */
static void check_desk(void) {
    const uint8_t *feed = (const uint8_t *)two;
    size_t length = strlen(two), start = (size_t)(strstr(two, "ORIGINATOR = A") - two) + strlen("ORIGINATOR = ");
    uint8_t table[BUFFER];
    odm_placed placed = odm_place(0, 0, feed, length, 1, table, ROOM);
    odm_judged preview = odm_judge(feed, length, 2); /* the row is read after it */
    odm_row row = odm_read(placed.load, placed.count, placed.load, 4, feed, length, table, ROOM);
    odm_placed refused = odm_place(placed.load, placed.count, feed, length, 2, table, ROOM);
    odm_placed spent = odm_place(UINT32_MAX, 21, feed, length, 2, table, ROOM);

    same("reason of the placing", placed.reason, ODM_OK);
    same("load number", placed.load, 1);
    same("row count", placed.count, 21);
    same("reason of the preview", preview.reason, ODM_VALUE);
    same("line of the preview", preview.line, 2);
    same("row count of the preview", preview.rows, 0);
    same("reason of the row", row.reason, ODM_OK);
    same("code of the row", row.code, 3);
    same("group of the row", row.group, 0);
    same("line of the row", row.line, 6);
    same("start of the row", row.start, start);
    same("length of the row", row.length, 1);
    same("reason of the placing refused", refused.reason, ODM_VALUE);
    same("line of the placing refused", refused.line, 2);
    same("load number after it", refused.load, 2);
    same("row count after it", refused.count, 0);
    same("reason for too short a table", odm_place(0, 0, feed, length, 1, table, ROOM - 1).reason, ODM_NO_ROOM);
    same("row count of its preview", odm_judge(feed, length, 1).rows, 21);
    same("reason at the top load number", spent.reason, ODM_SPENT);
    same("load number after it", spent.load, UINT32_MAX);
    same("row count after it", spent.count, 21);
    same("reason for an earlier ticket", odm_read(refused.load, refused.count, placed.load, 4, feed, length, table, ROOM).reason, ODM_GONE);
    same("reason for a row too high", odm_read(1, 21, 1, 21, feed, length, table, ROOM).reason, ODM_NO_ROW);
    same("reason for a feed cut short", odm_read(1, 21, 1, 4, feed, start, table, ROOM).reason, ODM_ASTRAY);
    same("bytes of a row", ODM_ROW_BYTES, 20);
    same("size of odm_placed", sizeof placed, 16);
    same("size of odm_row", sizeof row, 24);
}

static void check_writing(void) {
    same_written(1, BUFFER, ODM_OK, 0, plain);
    same_written(1, strlen(plain), ODM_OK, 0, plain);
    same_written(1, strlen(plain) - 1, ODM_NO_ROOM, 0, "");
    same_written(1, 0, ODM_NO_ROOM, 0, "");
    same_written(2, BUFFER, ODM_VALUE, 2, "");
    same_written(2, 0, ODM_VALUE, 2, "");
    same_written(3, BUFFER, ODM_NO_MESSAGE, 0, "");
    same("reason for writing from an empty feed", odm_write(NULL, 0, 1, NULL, 0).reason, ODM_NO_MESSAGE);
    same("size of odm_written", sizeof(odm_written), 12);
    same("place of its reason", offsetof(odm_written, reason), 0);
    same("place of its line", offsetof(odm_written, line), 4);
    same("place of its length", offsetof(odm_written, length), 8);
}

/* A table of two bytes an entry: 1, 65,535 and an odd byte; and of four: the same, and with 65,536 for the last entry. */
static const uint8_t two_bytes[] = {1, 0, 255, 255, 7};
static const uint8_t four_bytes[] = {1, 0, 0, 0, 255, 255, 0, 0};
static const uint8_t too_wide[] = {1, 0, 0, 0, 0, 0, 1, 0};

/* Whether a buffer begins with these bytes and all its others are as they were. */
static int is_made(const uint8_t *buffer, const uint8_t *bytes, size_t length) {
    size_t kept = length;
    while (kept < BUFFER && buffer[kept] == BEFORE) kept++;
    return kept == BUFFER && memcmp(buffer, bytes, length) == 0;
}

static void check_widths(void) {
    uint8_t buffer[BUFFER];
    memset(buffer, BEFORE, sizeof buffer);
    same("reason for widening to fewer entries", odm_widen(two_bytes, sizeof two_bytes, buffer, 7), ODM_NO_ROOM);
    same("reason for widening to more entries", odm_widen(two_bytes, sizeof two_bytes, buffer, 12), ODM_NO_ROOM);
    same("reason for narrowing to fewer entries", odm_narrow(too_wide, sizeof too_wide, buffer, 3), ODM_NO_ROOM);
    same("reason for narrowing a number too wide", odm_narrow(too_wide, sizeof too_wide, buffer, 4), ODM_WIDE);
    same("whether a refusal left the buffer", is_made(buffer, buffer, 0), 1);
    same("reason of the widening", odm_widen(two_bytes, sizeof two_bytes, buffer, 11), ODM_OK);
    same("whether the table is widened and spare bytes kept", is_made(buffer, four_bytes, sizeof four_bytes), 1);
    memset(buffer, BEFORE, sizeof buffer);
    same("reason of the narrowing", odm_narrow(four_bytes, sizeof four_bytes, buffer, 5), ODM_OK);
    same("whether the table is narrowed and the odd byte kept", is_made(buffer, two_bytes, 4), 1);
    same("reason for widening nothing", odm_widen(NULL, 0, NULL, 0), ODM_OK);
    same("reason for narrowing nothing", odm_narrow(NULL, 0, NULL, 0), ODM_OK);
}

/* A feed at its limit, and one byte past it. */
static void check_limit(void) {
    static uint8_t feed[ODM_FEED_LIMIT + 1];
    same("feed limit", ODM_FEED_LIMIT, 16777215);
    same("reason for a feed at its limit", odm_headings(feed, ODM_FEED_LIMIT).reason, ODM_OK);
    same("reason for a feed past it", odm_headings(feed, sizeof feed).reason, ODM_FEED_LONG);
}

/* A text rounded: its reason, and its units with their sign. */
static void same_rounded(const char *text, uint32_t decimals, uint32_t reason, long units) {
    odm_rounded rounded = odm_round((const uint8_t *)text, strlen(text), decimals);
    same("reason of the rounding", rounded.reason, reason);
    same("units of the rounding", (unsigned long)rounded.units, (unsigned long)units);
}

static void check_rounding(void) {
    same_rounded("-0.4", 0, ODM_OK, 0);
    same_rounded("-2.5", 0, ODM_OK, -3);
    same_rounded("-2.5", 1, ODM_OK, -25);
    same_rounded("6.655E-1", 3, ODM_OK, 666);
    same_rounded("-1.0E15", 0, ODM_OK, -1000000000000000);
    same_rounded("-1.0E15", 1, ODM_TOO_BIG, 0);
    same_rounded("1.5 [KM]", 6, ODM_VALUE, 0);
    same_rounded("1.5", 7, ODM_PLACES, 0);
    same("reason for an empty text", odm_round(NULL, 0, 0).reason, ODM_VALUE);
    same("size of odm_rounded", sizeof(odm_rounded), 16);
    same("place of its reason", offsetof(odm_rounded, reason), 0);
    same("place of its units", offsetof(odm_rounded, units), 8);
}

/* Says a value in the first `room` bytes of a buffer, which then begins with the words, all its other bytes as they were. */
static void same_words(uint32_t code, const char *value, size_t room, uint32_t reason, const char *words) {
    uint8_t buffer[BUFFER];
    memset(buffer, BEFORE, sizeof buffer);
    odm_spoken spoken = odm_in_words(code, (const uint8_t *)value, strlen(value), buffer, room);
    same("reason of the words", spoken.reason, reason);
    same("length of the words", spoken.length, strlen(words));
    same("whether the words and no other byte are written", is_made(buffer, (const uint8_t *)words, strlen(words)), 1);
}

/* As many zeros as a value can have, behind a minus: the longest words. */
static void check_longest_words(void) {
    char value[255], words[ODM_WORDS_BYTES + 1];
    memset(value, '0', sizeof value);
    value[0] = '-';
    value[254] = '\0';
    memcpy(words, "minus ", 6);
    strcpy(words + 6, value + 1);
    same("length of the longest words", strlen(words), ODM_WORDS_BYTES);
    same_words(43, value, ODM_WORDS_BYTES, ODM_OK, words);
    same_words(43, value, ODM_WORDS_BYTES - 1, ODM_NO_ROOM, "");
}

static void check_words(void) {
    const char *number = "minus 2.0842611 times ten to the minus 02", *epoch = "year 2026 month 11 day 16, 20 hours 01 minutes 30.5 seconds";
    same_words(13, "-2.0842611E-02", BUFFER, ODM_OK, number);
    same_words(13, "-2.0842611E-02", strlen(number), ODM_OK, number);
    same_words(13, "-2.0842611E-02", strlen(number) - 1, ODM_NO_ROOM, "");
    same_words(9, "2026-11-16T20:01:30.5", BUFFER, ODM_OK, epoch);
    same_words(9, "2026-320T20:01:30", BUFFER, ODM_OK, "year 2026 day 320, 20 hours 01 minutes 30 seconds");
    same_words(43, "+007", BUFFER, ODM_OK, "plus 007");
    same_words(3, "GSOC-1", BUFFER, ODM_OK, "GSOC-1");
    same_words(45, "", 0, ODM_OK, "");
    same_words(37, "", BUFFER, ODM_VALUE, "");
    same_words(43, "5.0", 0, ODM_VALUE, "");
    same_words(65545, "2026-320T20:01:30", BUFFER, ODM_VALUE, "");
    check_longest_words();
    same("reason for an empty comment at no place", odm_in_words(45, NULL, 0, NULL, 0).reason, ODM_OK);
    same("size of odm_spoken", sizeof(odm_spoken), 8);
    same("place of its reason", offsetof(odm_spoken, reason), 0);
    same("place of its length", offsetof(odm_spoken, length), 4);
}

/* Explains a message of `two`, or of it cut short: the numbers before the codes, then the codes. */
static void same_explained(size_t length, size_t message, const uint32_t want[10]) {
    odm_explained got = odm_explain((const uint8_t *)two, length, message);
    same("reason of the explanation", got.reason, want[0]);
    same("rows of the explanation", got.rows, want[1]);
    same("line of the explanation", got.line, want[2]);
    same("start of the explanation", got.start, want[3]);
    same("length of the explanation", got.length, want[4]);
    same("count of the explanation", got.count, want[5]);
    for (size_t at = 0; at < 4; at++) same("code of the explanation", got.codes[at], want[6 + at]);
}

static void check_explaining(void) {
    uint32_t date = (uint32_t)(strstr(two, "2000-13-01") - two), stop = (uint32_t)(strstr(two, "STOP_TIME") - two);
    const uint32_t right[10] = {ODM_OK, 21, 0, 0, 0, 0, 0, 0, 0, 0}, wrong[10] = {ODM_VALUE, 0, 2, date, 19, 0, 0, 0, 0, 0},
                   none[10] = {ODM_NO_MESSAGE, 0, 0, 0, 0, 0, 0, 0, 0, 0}, cut[10] = {ODM_SHORT, 0, 14, stop, 0, 3, 39, 40, 41, 0};
    same_explained(strlen(two), 1, right);
    same_explained(strlen(two), 2, wrong);
    same_explained(strlen(two), 3, none);
    same_explained(stop, 1, cut);
    same("reason for explaining an empty feed", odm_explain(NULL, 0, 1).reason, ODM_NO_MESSAGE);
    same("size of odm_explained", sizeof(odm_explained), 40);
    same("place of its rows", offsetof(odm_explained, rows), 4);
    same("place of its line", offsetof(odm_explained, line), 8);
    same("place of its start", offsetof(odm_explained, start), 12);
    same("place of its length", offsetof(odm_explained, length), 16);
    same("place of its count", offsetof(odm_explained, count), 20);
    same("place of its codes", offsetof(odm_explained, codes), 24);
}

int main(void) {
    check_judging();
    check_desk();
    check_writing();
    check_rounding();
    check_words();
    check_widths();
    check_limit();
    check_explaining();
    if (failures > 0) return 1;
    puts("the header's names answer as they should");
    return 0;
}
