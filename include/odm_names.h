/* odm_names.h: words for the numbers of odm.h, in C and in C++, so that no host has to write them down again.
 *
 * Names are as the messages and the rules write them, for printing and comparing; words are for a voice. Each is a text that ends in a zero byte and stays as
 * long as the program runs, never a null pointer. A number that has no name or no words here gets an empty text; odm_reason_words has some for any number.
 */
#ifndef ODM_NAMES_H
#define ODM_NAMES_H

#include <stddef.h>
#include <stdint.h>

/* The highest code, and the highest reason. */
enum { ODM_CODE_TOP = 45, ODM_REASON_TOP = 19 };

/* The keyword of a code, 1 to 45, as "Y_DOT" of 14. For a message type's own reading of a code see odm_row and odm_explained: a data line of an OEM has
 * the codes 9 to 15, and 9 among an explanation's codes is then the whole line.
 */
static inline const char *odm_keyword_name(uint32_t code) {
    static const char *const names[ODM_CODE_TOP + 1] = {
        "",
        /*  1 */ "CCSDS_OPM_VERS",
        /*  2 */ "CREATION_DATE",
        /*  3 */ "ORIGINATOR",
        /*  4 */ "OBJECT_NAME",
        /*  5 */ "OBJECT_ID",
        /*  6 */ "CENTER_NAME",
        /*  7 */ "REF_FRAME",
        /*  8 */ "TIME_SYSTEM",
        /*  9 */ "EPOCH",
        /* 10 */ "X",
        /* 11 */ "Y",
        /* 12 */ "Z",
        /* 13 */ "X_DOT",
        /* 14 */ "Y_DOT",
        /* 15 */ "Z_DOT",
        /* 16 */ "SEMI_MAJOR_AXIS",
        /* 17 */ "ECCENTRICITY",
        /* 18 */ "INCLINATION",
        /* 19 */ "RA_OF_ASC_NODE",
        /* 20 */ "ARG_OF_PERICENTER",
        /* 21 */ "TRUE_ANOMALY",
        /* 22 */ "MEAN_ANOMALY",
        /* 23 */ "GM",
        /* 24 */ "MASS",
        /* 25 */ "SOLAR_RAD_AREA",
        /* 26 */ "SOLAR_RAD_COEFF",
        /* 27 */ "DRAG_AREA",
        /* 28 */ "DRAG_COEFF",
        /* 29 */ "MAN_EPOCH_IGNITION",
        /* 30 */ "MAN_DURATION",
        /* 31 */ "MAN_DELTA_MASS",
        /* 32 */ "MAN_REF_FRAME",
        /* 33 */ "MAN_DV_1",
        /* 34 */ "MAN_DV_2",
        /* 35 */ "MAN_DV_3",
        /* 36 */ "CCSDS_OEM_VERS",
        /* 37 */ "META_START",
        /* 38 */ "START_TIME",
        /* 39 */ "USEABLE_START_TIME",
        /* 40 */ "USEABLE_STOP_TIME",
        /* 41 */ "STOP_TIME",
        /* 42 */ "INTERPOLATION",
        /* 43 */ "INTERPOLATION_DEGREE",
        /* 44 */ "META_STOP",
        /* 45 */ "COMMENT",
    };
    return code <= ODM_CODE_TOP ? names[code] : "";
}

/* The name of a reason, 1 to 19, as "TIME_ORDER" of 10; of 0 it is "OK". */
static inline const char *odm_reason_name(uint32_t reason) {
    static const char *const names[ODM_REASON_TOP + 1] = {
        "OK",
        /*  1 */ "FEED_LONG",
        /*  2 */ "NO_MESSAGE",
        /*  3 */ "LONG",
        /*  4 */ "BYTE",
        /*  5 */ "FORM",
        /*  6 */ "KEYWORD",
        /*  7 */ "ORDER",
        /*  8 */ "VALUE",
        /*  9 */ "UNIT",
        /* 10 */ "TIME_ORDER",
        /* 11 */ "SHORT",
        /* 12 */ "NO_ROOM",
        /* 13 */ "SPENT",
        /* 14 */ "GONE",
        /* 15 */ "NO_ROW",
        /* 16 */ "ASTRAY",
        /* 17 */ "TOO_BIG",
        /* 18 */ "PLACES",
        /* 19 */ "WIDE",
    };
    return reason <= ODM_REASON_TOP ? names[reason] : "";
}

/* Why something was refused, as a sentence without its full stop. A number that this header does not know gets a sentence too: a refusal is never silence. */
static inline const char *odm_reason_words(uint32_t reason) {
    static const char *const words[ODM_REASON_TOP + 1] = {
        "it is accepted, or answered",
        /*  1 */ "the feed has more than 16777215 bytes",
        /*  2 */ "the feed has no message of this number",
        /*  3 */ "the line has more than 254 bytes",
        /*  4 */ "the line has a byte that is not plain text",
        /*  5 */ "the line has none of the forms that a line can have",
        /*  6 */ "the keyword is not one of this kind of message",
        /*  7 */ "the line is not allowed here, it is repeated, too early or too late",
        /*  8 */ "the value is not of its keyword's kind",
        /*  9 */ "what follows the number is not its unit",
        /* 10 */ "the time is out of order or outside its segment",
        /* 11 */ "the message ends before it is complete",
        /* 12 */ "there is no room for the rows or the text of the message, or two tables differ in their number of entries",
        /* 13 */ "the load numbers are used up, and the load before this one stays",
        /* 14 */ "this ticket is of an earlier load",
        /* 15 */ "the present load has no row of this number",
        /* 16 */ "the row is not in the table, or its value is not in the feed",
        /* 17 */ "the number is too big to be rounded",
        /* 18 */ "at most 6 decimals can be had",
        /* 19 */ "a number of the table is above 65535",
    };
    return reason <= ODM_REASON_TOP ? words[reason] : "it is refused for a reason that has no words here";
}

/* The codes whose numbers have a unit, in one place for its name and its words: which unit, from 1, and 0 for none. */
static inline size_t odm_unit_number(uint32_t code) {
    if ((code >= 10 && code <= 12) || code == 16) return 1;
    if ((code >= 13 && code <= 15) || (code >= 33 && code <= 35)) return 2;
    if (code >= 18 && code <= 22) return 3;
    if (code == 23) return 4;
    if (code == 24 || code == 31) return 5;
    if (code == 25 || code == 27) return 6;
    if (code == 30) return 7;
    return 0;
}

/* The unit of a code's numbers as a message writes it behind them, as "[KM/S]" of 14; empty where they have none. A message may leave it out, and a row's
 * value never has it.
 */
static inline const char *odm_unit_name(uint32_t code) {
    static const char *const names[] = {"", "[KM]", "[KM/S]", "[DEG]", "[KM**3/S**2]", "[KG]", "[M**2]", "[S]"};
    return names[odm_unit_number(code)];
}

/* The same unit as a voice says it, in the plural, as "kilometres per second" of 14. */
static inline const char *odm_unit_words(uint32_t code) {
    static const char *const words[] = {
        "", "kilometres", "kilometres per second", "degrees", "cubic kilometres per second squared", "kilograms", "square metres", "seconds",
    };
    return words[odm_unit_number(code)];
}

#endif
