/* What the console says and asks for by code that odm_names.h has not: for a number that is no code, for a character, and which values are numbers. */
#ifndef WORDS_H
#define WORDS_H

#include <stdbool.h>
#include <stdint.h>

enum { OPM_HEADING = 1, EPOCH = 9, OEM_HEADING = 36 }; /* codes */

/* The keyword of a code; for any other number a plain remark. */
const char *keyword_word(uint32_t code);

/* The code of a keyword, in capital or small letters; 0 where there is no such keyword. */
uint32_t keyword_code(const char *text);

/* Whether the values of a code are numbers with decimals, by document 01: no epoch, no text, no version and no degree of interpolation is one. */
bool is_number(uint32_t code);

/* The word for one of the characters 32 to 126 that is no letter; for any other byte a plain remark. */
const char *sign_word(uint8_t byte);

#endif
