#define _POSIX_C_SOURCE 200809L
#include "words.h"

#include <stddef.h>
#include <strings.h>

#include "odm_names.h"

enum { SIGNS = 127 }; /* one more than the last character */

static const char *const signs[SIGNS] = {
    [' '] = "blank",
    ['!'] = "exclamation mark",
    ['"'] = "quotation mark",
    ['#'] = "hash",
    ['$'] = "dollar",
    ['%'] = "percent",
    ['&'] = "ampersand",
    ['\''] = "apostrophe",
    ['('] = "open parenthesis",
    [')'] = "close parenthesis",
    ['*'] = "star",
    ['+'] = "plus",
    [','] = "comma",
    ['-'] = "minus",
    ['.'] = "point",
    ['/'] = "slash",
    ['0'] = "zero",
    ['1'] = "one",
    ['2'] = "two",
    ['3'] = "three",
    ['4'] = "four",
    ['5'] = "five",
    ['6'] = "six",
    ['7'] = "seven",
    ['8'] = "eight",
    ['9'] = "nine",
    [':'] = "colon",
    [';'] = "semicolon",
    ['<'] = "less than",
    ['='] = "equals",
    ['>'] = "greater than",
    ['?'] = "question mark",
    ['@'] = "at sign",
    ['['] = "open bracket",
    ['\\'] = "backslash",
    [']'] = "close bracket",
    ['^'] = "caret",
    ['_'] = "underscore",
    ['`'] = "backquote",
    ['{'] = "open brace",
    ['|'] = "vertical bar",
    ['}'] = "close brace",
    ['~'] = "tilde",
};

const char *keyword_word(uint32_t code) {
    const char *name = odm_keyword_name(code);
    return *name == '\0' ? "a keyword that this console does not know" : name;
}

uint32_t keyword_code(const char *text) {
    for (uint32_t code = 1; code <= ODM_CODE_TOP; code++) {
        if (strcasecmp(text, odm_keyword_name(code)) == 0) return code;
    }
    return 0;
}

bool is_number(uint32_t code) {
    return (code >= 10 && code <= 28) || code == 30 || code == 31 || (code >= 33 && code <= 35);
}

const char *sign_word(uint8_t byte) {
    if (byte >= SIGNS || signs[byte] == NULL) return "a character that this console does not know";
    return signs[byte];
}
