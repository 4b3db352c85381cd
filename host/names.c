/* The words of odm_names.h, compiled as C and as C++: each keyword stands in a message that the library accepts, in a row of its code; behind each number
 * the library takes the unit that the header has for it and no other; each reason has the name that odm.h has for it.
 */
#include "odm_names.h"

#include <stdbool.h>
#include <stdio.h>
#include <string.h>

#include "odm.h"

enum { LINES_TOP = 60, TEXT_ROOM = 4000, UNITS = 7, META_START = 37, META_STOP = 44, COMMENT = 45, DATA = 100 }; /* DATA stands for a data line */

/* The codes of a message's lines, in their order, and where they end a 0. */
static const uint32_t messages[][LINES_TOP] = {
    {1,  2,  3,  4,  5,  6,  7,  8,  9,  10, 11, 12, 13, 14, 15, 16, 17, 18, 19, 20, 21, 23,
     24, 25, 26, 27, 28, 29, 30, 31, 32, 33, 34, 35, 45, 0},
    {1, 2, 3, 4, 5, 6, 7, 8, 9, 10, 11, 12, 13, 14, 15, 16, 17, 18, 19, 20, 22, 23, 24, 25, 26, 27, 28, 0},
    {36, 2, 3, 37, 4, 5, 6, 7, 8, 38, 39, 40, 41, 42, 43, 44, DATA, 45, 0},
};

/* A code for each unit, by document 01's list of units. */
static const uint32_t with_unit[UNITS] = {10, 13, 18, 23, 24, 25, 30};

static int failures = 0;
static char feed[TEXT_ROOM];

static void wrong(const char *what, uint32_t number, const char *text) {
    printf("%s %u: %s\n", what, (unsigned)number, text);
    failures++;
}

/* A value that stands for this code, by document 01's kinds. */
static const char *value_of(uint32_t code) {
    if (code == 1 || code == 36) return "1.0";
    if (code == 2 || code == 9 || code == 29 || (code >= 38 && code <= 41)) return "2000-01-01T00:00:00";
    if ((code >= 3 && code <= 8) || code == 32 || code == 42) return "TEXT";
    if (code == 43) return "7";
    return "1.5";
}

/* Puts the message's lines into the feed, each assignment with its own unit, but with another behind the value of one code, if that is not 0. */
static void put_feed(const uint32_t *codes, uint32_t chosen, const char *other) {
    size_t end = 0;
    for (; *codes != 0; codes++) {
        const char *name = odm_keyword_name(*codes), *unit = *codes == chosen ? other : odm_unit_name(*codes);
        if (*codes == DATA) end += (size_t)snprintf(feed + end, sizeof feed - end, "2000-01-01T00:00:00 1 2 3 4 5 6\n");
        else if (*codes == META_START || *codes == META_STOP || *codes == COMMENT) end += (size_t)snprintf(feed + end, sizeof feed - end, "%s\n", name);
        else end += (size_t)snprintf(feed + end, sizeof feed - end, "%s = %s %s\n", name, value_of(*codes), unit);
    }
}

/* The line of a code, from 1. */
static uint32_t line_of(const uint32_t *codes, uint32_t code) {
    uint32_t line = 1;
    while (codes[line - 1] != code) line++;
    return line;
}

/* The library takes the message, and each of its lines but a data line is a row of the code whose keyword was written there. */
static void check_keywords(const uint32_t *codes, bool *seen) {
    static uint8_t table[LINES_TOP * ODM_ROW_BYTES];
    put_feed(codes, 0, "");
    odm_placed desk = odm_place(0, 0, (const uint8_t *)feed, strlen(feed), 1, table, sizeof table);
    if (desk.reason != ODM_OK) wrong("refused at line", desk.line, odm_reason_name(desk.reason));
    for (uint32_t number = 0; number < desk.count; number++) {
        odm_row row = odm_read(desk.load, desk.count, desk.load, number, (const uint8_t *)feed, strlen(feed), table, sizeof table);
        uint32_t written = codes[row.line - 1];
        if (written == DATA) continue;
        if (row.code != written) wrong("the keyword of another code than", written, odm_keyword_name(written));
        seen[row.code <= ODM_CODE_TOP ? row.code : 0] = true;
    }
}

/* Behind the values of a code the library takes exactly the unit that is said to be its own; a code whose values are no numbers has none. */
static void check_unit(const uint32_t *codes, uint32_t code) {
    uint32_t line = line_of(codes, code);
    put_feed(codes, code, "[NONE]");
    bool is_number = odm_judge((const uint8_t *)feed, strlen(feed), 1).reason == ODM_UNIT;
    if (!is_number && *odm_unit_name(code) != '\0') wrong("a unit where there is no number, code", code, odm_unit_name(code));
    for (int at = 0; is_number && at < UNITS; at++) {
        const char *unit = odm_unit_name(with_unit[at]);
        bool own = strcmp(unit, odm_unit_name(code)) == 0;
        put_feed(codes, code, unit);
        odm_judged judged = odm_judge((const uint8_t *)feed, strlen(feed), 1);
        if (own ? judged.reason != ODM_OK : judged.reason != ODM_UNIT || judged.line != line) wrong("the wrong unit for code", code, unit);
    }
}

static void check_messages(void) {
    bool seen[ODM_CODE_TOP + 1] = {false};
    for (size_t at = 0; at < sizeof messages / sizeof messages[0]; at++) {
        check_keywords(messages[at], seen);
        for (const uint32_t *code = messages[at]; *code != 0; code++) {
            if (*code <= ODM_CODE_TOP) check_unit(messages[at], *code);
        }
    }
    for (uint32_t code = 1; code <= ODM_CODE_TOP; code++) {
        if (!seen[code]) wrong("in no message, code", code, odm_keyword_name(code));
        if ((*odm_unit_name(code) == '\0') != (*odm_unit_words(code) == '\0')) wrong("a unit by name or by words alone, code", code, odm_unit_name(code));
    }
    for (int at = 0; at < UNITS; at++) {
        if (*odm_unit_name(with_unit[at]) == '\0') wrong("no unit for code", with_unit[at], "");
    }
}

#define REASON(name) {ODM_##name, #name}

static const struct {
    uint32_t reason;
    const char *name;
} reasons[] = {
    REASON(OK), REASON(FEED_LONG), REASON(NO_MESSAGE), REASON(LONG), REASON(BYTE), REASON(FORM), REASON(KEYWORD), REASON(ORDER), REASON(VALUE),
    REASON(UNIT), REASON(TIME_ORDER), REASON(SHORT), REASON(NO_ROOM), REASON(SPENT), REASON(GONE), REASON(NO_ROW), REASON(ASTRAY),
    REASON(TOO_BIG), REASON(PLACES), REASON(WIDE),
};

static void check_reasons(void) {
    size_t count = sizeof reasons / sizeof reasons[0];
    if (count != ODM_REASON_TOP + 1) wrong("reasons counted", (uint32_t)count, "one for each number is wanted");
    for (size_t at = 0; at < count; at++) {
        const char *name = odm_reason_name(reasons[at].reason), *words = odm_reason_words(reasons[at].reason);
        if (strcmp(name, reasons[at].name) != 0) wrong("the name of another reason than", reasons[at].reason, name);
        if (*words == '\0') wrong("no words for reason", reasons[at].reason, name);
        for (size_t before = 0; before < at; before++) {
            if (strcmp(words, odm_reason_words(reasons[before].reason)) == 0) wrong("the words of an earlier reason for", reasons[at].reason, words);
        }
    }
}

/* Any number is answered. */
static void check_others(void) {
    static const uint32_t others[] = {0, ODM_CODE_TOP + 1, UINT32_MAX};
    for (size_t at = 0; at < sizeof others / sizeof others[0]; at++) {
        uint32_t code = others[at];
        if (*odm_keyword_name(code) != '\0' || *odm_unit_name(code) != '\0' || *odm_unit_words(code) != '\0') wrong("words for code", code, "it is none");
    }
    if (*odm_reason_name(ODM_REASON_TOP + 1) != '\0' || *odm_reason_name(UINT32_MAX) != '\0') wrong("a name for reason", ODM_REASON_TOP + 1, "it is none");
    if (*odm_reason_words(ODM_REASON_TOP + 1) == '\0' || *odm_reason_words(UINT32_MAX) == '\0') wrong("silence for reason", ODM_REASON_TOP + 1, "");
}

int main(void) {
    check_messages();
    check_reasons();
    check_others();
    if (failures == 0) puts("each keyword and unit is the library's, and each reason has its name");
    return failures == 0 ? 0 : 1;
}
