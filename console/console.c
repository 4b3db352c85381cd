/* The console: an analyst loads a message of a feed, has its rows spoken and sends it on. It judges nothing: every answer about a message, a row or a
 * ticket is the library's, and every value is one that the present load judged (desk.h). What `why` says as offending no load has accepted: it is said as
 * that, never as a value. Here are the commands and what is said.
 */
#define _POSIX_C_SOURCE 200809L
#include <errno.h>
#include <inttypes.h>
#include <stdbool.h>
#include <stddef.h>
#include <stdint.h>
#include <stdio.h>
#include <stdlib.h>
#include <string.h>
#include <unistd.h>

#include "desk.h"
#include "file.h"
#include "odm_names.h"
#include "tables.h"
#include "voice.h"
#include "words.h"

enum { COMMAND_ROOM = 8192, ENDING_ROOM = 8 };

enum { TEXT_TOP = 254 }; /* so much is said of an offending text: a line that is not too long is said whole */

static uint32_t heading;     /* the code of the present load's row 0: it tells what a group is called */
static struct ticket ticket; /* the one that `ticket` keeps and `speak` uses */
static struct ticket spoken; /* of the row that was spoken last */
static bool rounding;        /* whether numbers are said rounded, and to how many decimals */
static uint32_t decimals;
static bool leaving;

/* What the library answers, in words */

static void say_reason(uint32_t reason, uint32_t line) {
    say("reason: %s", odm_reason_words(reason));
    if (line != 0) say("line %" PRIu32, line);
}

static void say_messages(void) {
    odm_counted counted = desk_messages();
    if (counted.reason == ODM_OK) {
        say("%" PRIu32 " message%s", counted.count, counted.count == 1 ? "" : "s");
    } else {
        say("feed refused");
        say_reason(counted.reason, 0);
    }
}

/* What could not be done with a file, and why. */
static void say_error(const char *deed, const char *name, int error) {
    say("cannot %s %s", deed, name);
    if (error == 0) say("reason: it is not known");
    else if (error == EEXIST) say("reason: a file or folder of this name is there already, and it stays as it is");
    else if (error == ENOMEM) say("reason: there is not enough memory");
    else say("reason: %s", strerror(error));
}

/* Brings a feed in for the next load, or says why it cannot be read. */
static bool bring_feed(const char *name) {
    int error;
    bool right = desk_bring(name, &error);
    if (right) {
        say("feed %s", name);
        say_messages();
    } else {
        say_error("read", name, error);
    }
    return right;
}

static void say_row_count(uint32_t rows) {
    say("%" PRIu32 " row%s", rows, rows == 1 ? "" : "s");
}

/* Said of a message that is right and was not loaded. */
static void say_would_be_accepted(uint64_t message, uint32_t rows) {
    say("message %" PRIu64 " would be accepted", message);
    say_row_count(rows);
}

static void say_group(uint32_t group) {
    if (heading == OEM_HEADING && group == 0) say("header");
    else if (heading == OEM_HEADING) say("segment %" PRIu32, group);
    else if (heading == OPM_HEADING && group == 0) say("outside maneuvers");
    else if (heading == OPM_HEADING) say("maneuver %" PRIu32, group);
    else say("group %" PRIu32, group);
}

/* One character of a value, by a word that a voice says clearly. */
static void say_character(uint8_t byte) {
    if (byte >= 'A' && byte <= 'Z') say("capital %c", byte);
    else if (byte >= 'a' && byte <= 'z') say("small %c", byte);
    else say("%s", sign_word(byte));
}

/* The value as it stands in the message. */
static void say_exact(struct heard heard) {
    const char *unit = odm_unit_words(heard.row.code);
    if (heard.row.length == 0) say("no value");
    else say("value %.*s%s%s", (int)heard.row.length, (const char *)heard.value, *unit == '\0' ? "" : " ", unit);
}

/* So many units of the last decimal, as a decimal number. */
static void say_about(int64_t units, const char *unit) {
    uint64_t size = units < 0 ? 0 - (uint64_t)units : (uint64_t)units, ones = 1;
    const char *sign = units < 0 ? "-" : "", *gap = *unit == '\0' ? "" : " ";
    for (uint32_t at = 0; at < decimals; at++) ones *= 10;
    if (decimals == 0) say("value about %s%" PRIu64 "%s%s", sign, size, gap, unit);
    else say("value about %s%" PRIu64 ".%0*" PRIu64 "%s%s", sign, size / ones, (int)decimals, size % ones, gap, unit);
}

/* A number is said rounded, if that is wanted; one too big for that, and all that is no number, as it stands. */
static void say_value(struct heard heard) {
    odm_rounded rounded = {ODM_VALUE, 0};
    if (rounding && is_number(heard.row.code)) rounded = desk_round(heard, decimals);
    if (rounded.reason == ODM_OK) say_about(rounded.units, odm_unit_words(heard.row.code));
    else say_exact(heard);
}

/* What was asked for comes first, then where it stands. */
static void say_row(uint32_t number, struct heard heard) {
    say("row %" PRIu32 " %s", number, keyword_word(heard.row.code));
    say_value(heard);
    say_group(heard.row.group);
    say("line %" PRIu32, heard.row.line);
}

/* The library's answer to a ticket; a refusal is said, with what was asked for. */
static struct heard read_or_say(const char *asked, uint32_t load, uint32_t number) {
    struct heard heard = desk_read(load, number);
    if (heard.row.reason != ODM_OK) {
        say("%s %" PRIu32 " refused", asked, number);
        say_reason(heard.row.reason, 0);
    }
    return heard;
}

static void speak_ticket(const char *asked, uint32_t load, uint32_t number) {
    struct heard heard = read_or_say(asked, load, number);
    if (heard.row.reason != ODM_OK) return;
    say_row(number, heard);
    spoken = (struct ticket){true, load, number};
}

static void speak_row(uint32_t number) {
    speak_ticket("row", desk_load(), number);
}

/* Whether a row of the present load was spoken: the ticket of one of an earlier load has another load number. */
static bool spoken_here(void) {
    return spoken.kept && spoken.load == desk_load();
}

/* The row where `next` and `find` go on. */
static uint32_t row_after_spoken(void) {
    return spoken_here() ? spoken.row + 1 : 0;
}

static bool loaded_or_say(void) {
    if (desk_rows() == 0) say("no message is loaded");
    return desk_rows() > 0;
}

static bool spoken_or_say(void) {
    if (!loaded_or_say()) return false;
    if (!spoken_here()) say("no row of this load was spoken yet");
    return spoken_here();
}

/* Why a message is refused: no load has accepted this text, so it is said to offend before it is heard */

static bool is_plain(uint8_t byte) {
    return byte >= 32 && byte <= 126;
}

static bool only_blanks(const uint8_t *text, size_t length) {
    size_t at = 0;
    while (at < length && text[at] == ' ') at++;
    return at == length;
}

/* The text, or its beginning where it is long, with a `?` for each byte that is no plain text. */
static void say_offending(const uint8_t *text, size_t length) {
    char said[TEXT_TOP + 1];
    size_t end = 0;
    while (end < length && end < TEXT_TOP) {
        said[end] = is_plain(text[end]) ? (char)text[end] : '?';
        end++;
    }
    said[end] = '\0';
    if (length == 0) say("the offending text is empty");
    else if (only_blanks(text, length)) say("the offending text is blanks alone");
    else if (end < length) say("offending text, its first %zu characters: %s", end, said);
    else say("offending text: %s", said);
}

/* The message's type tells whether 9 is the keyword or a data line. */
static void say_could_stand(struct blame blame) {
    for (uint32_t at = 0; at < blame.answer.count && at < sizeof blame.answer.codes / sizeof blame.answer.codes[0]; at++) {
        uint32_t code = blame.answer.codes[at];
        say("%s could have stood there", blame.in_oem && code == EPOCH ? "a data line" : keyword_word(code));
    }
}

/* What comes after the reason and the line. */
static void say_blame(struct blame blame) {
    uint32_t reason = blame.answer.reason, length = blame.answer.length;
    if (reason == ODM_LONG) say("%" PRIu32 " byte%s too many", length, length == 1 ? "" : "s");
    if (reason == ODM_SHORT) say("the message ends there");
    else say_offending(blame.text, length);
    if (reason == ODM_BYTE && length > 0) say("the byte is %d, and plain text is from 32 to 126", *blame.text);
    say_could_stand(blame);
}

/* Commands */

struct argument {
    const char *text; /* the words after the command */
    uint64_t number;  /* their number, where the command takes one */
};

static void run_messages(struct argument argument) {
    (void)argument;
    say_messages();
}

static void run_load(struct argument argument) {
    odm_placed placed;
    if (!desk_place((size_t)argument.number, &placed)) {
        say("message %" PRIu64 " not loaded", argument.number);
        say("reason: there is not enough memory for its rows");
        if (desk_rows() > 0) say("the present load stays as it is");
        return;
    }
    if (placed.reason != ODM_OK) {
        say("message %" PRIu64 " refused", argument.number);
        say_reason(placed.reason, placed.line);
        return;
    }
    heading = desk_read(desk_load(), 0).row.code;
    say("message %" PRIu64 " accepted", argument.number);
    say_row_count(desk_rows());
}

/* Nothing is loaded: the present load, its tickets and the row spoken last stay. */
static void run_preview(struct argument argument) {
    odm_judged judged = desk_preview((size_t)argument.number);
    if (judged.reason == ODM_OK) {
        say_would_be_accepted(argument.number, judged.rows);
        return;
    }
    say("message %" PRIu64 " would be refused", argument.number);
    say_reason(judged.reason, judged.line);
}

/* Nothing is loaded here either. */
static void run_why(struct argument argument) {
    struct blame blame = desk_explain((size_t)argument.number);
    if (blame.answer.reason == ODM_OK) {
        say_would_be_accepted(argument.number, blame.answer.rows);
        return;
    }
    say("message %" PRIu64 " refused", argument.number);
    say_reason(blame.answer.reason, blame.answer.line);
    if (blame.text != NULL) say_blame(blame);
}

static void run_rows(struct argument argument) {
    (void)argument;
    say_row_count(desk_rows());
    for (uint32_t number = 0; number < desk_rows() && !voice_lost(); number++) speak_row(number);
}

static void run_row(struct argument argument) {
    speak_row((uint32_t)argument.number);
}

static void run_next(struct argument argument) {
    (void)argument;
    if (!loaded_or_say()) return;
    if (row_after_spoken() == desk_rows()) say("there is no row after row %" PRIu32, spoken.row);
    else speak_row(row_after_spoken());
}

static void run_back(struct argument argument) {
    (void)argument;
    if (!spoken_or_say()) return;
    if (spoken.row == 0) say("there is no row before row 0");
    else speak_row(spoken.row - 1);
}

static void run_find(struct argument argument) {
    uint32_t code = keyword_code(argument.text), number = row_after_spoken();
    if (code == 0) {
        say("there is no keyword: %s", argument.text);
        return;
    }
    if (!loaded_or_say()) return;
    while (number < desk_rows() && desk_read(desk_load(), number).row.code != code) number++;
    if (number < desk_rows()) speak_row(number);
    else if (spoken_here()) say("there is no %s after row %" PRIu32, keyword_word(code), spoken.row);
    else say("there is no %s in this load", keyword_word(code));
}

static void run_spell(struct argument argument) {
    (void)argument;
    if (!spoken_or_say()) return;
    struct heard heard = read_or_say("row", spoken.load, spoken.row);
    if (heard.row.reason == ODM_OK && heard.row.length == 0) say("no value");
    for (uint32_t at = 0; at < heard.row.length; at++) say_character(heard.value[at]);
}

static void run_exact(struct argument argument) {
    (void)argument;
    if (!spoken_or_say()) return;
    struct heard heard = read_or_say("row", spoken.load, spoken.row);
    if (heard.row.reason == ODM_OK) say_exact(heard);
}

/* How many decimals can be had is the library's answer; a count that it refuses changes nothing. */
static void run_decimals(struct argument argument) {
    uint32_t count = (uint32_t)argument.number;
    if (strcmp(argument.text, "off") == 0) {
        rounding = false;
        say("numbers are said as they stand");
    } else if (desk_decimals(count) != ODM_OK) {
        say("%" PRIu32 " decimals refused", count);
        say_reason(desk_decimals(count), 0);
    } else {
        rounding = true;
        decimals = count;
        say("numbers are said rounded to %" PRIu32 " decimal%s", count, count == 1 ? "" : "s");
    }
}

/* A ticket is kept if the library would answer it now; else the one kept before, if any, stays. */
static void run_ticket(struct argument argument) {
    uint32_t number = (uint32_t)argument.number;
    if (read_or_say("ticket for row", desk_load(), number).row.reason != ODM_OK) {
        say(ticket.kept ? "the ticket kept before stays" : "no ticket is kept");
        return;
    }
    ticket = (struct ticket){true, desk_load(), number};
    say("ticket kept for row %" PRIu32, number);
}

static void run_speak(struct argument argument) {
    (void)argument;
    if (ticket.kept) speak_ticket("ticket for row", ticket.load, ticket.row);
    else say("no ticket is kept");
}

static void run_feed(struct argument argument) {
    if (!bring_feed(argument.text)) say("the feed for the next load is as it was");
    if (desk_rows() > 0) say("the present load stays as it is");
}

static void run_write(struct argument argument) {
    struct sent sent;
    int error;
    if (!loaded_or_say()) return;
    if (!desk_write(&sent)) {
        say_error("write", argument.text, ENOMEM);
        return;
    }
    if (sent.answer.reason != ODM_OK) {
        say("message %zu refused", sent.message);
        say_reason(sent.answer.reason, sent.answer.line);
    } else if (file_put(argument.text, sent.text, sent.answer.length, &error)) {
        say("message %zu written to %s", sent.message, argument.text);
        say("%" PRIu32 " bytes", sent.answer.length);
    } else {
        say_error("write", argument.text, error);
    }
    free(sent.text);
}

/* Recorded tables: of their numbers and bytes nothing is said but how many there are. */

static void run_record(struct argument argument) {
    size_t length;
    int error;
    if (!loaded_or_say()) return;
    const uint8_t *table = desk_table(&length);
    if (file_put(argument.text, table, length, &error)) {
        say("table recorded in %s", argument.text);
        say_row_count(desk_rows());
        say("%zu bytes", length);
    } else {
        say_error("write", argument.text, error);
    }
}

static void say_recast(const struct recast *recast, const char *done, const char *name) {
    say("table %s to %s", done, name);
    say("%zu %s", recast->entries, recast->entries == 1 ? "entry" : "entries");
    say("%zu bytes", recast->made.length);
    if (recast->spare > 0) say("%zu byte%s after the last entry left out", recast->spare, recast->spare == 1 ? "" : "s");
}

/* Makes a recorded table over, into a new file beside it. */
static void make_over(const char *name, enum way way, const char *done, const char *ending) {
    static char beside[COMMAND_ROOM + ENDING_ROOM];
    struct recast recast;
    int error;
    if (!table_recast(name, way, &recast, &error)) {
        say_error("read", name, error);
        return;
    }
    snprintf(beside, sizeof beside, "%s.%s", name, ending);
    if (recast.reason != ODM_OK) {
        say("table %s not %s", name, done);
        say_reason(recast.reason, 0);
    } else if (file_put(beside, recast.made.at, recast.made.length, &error)) {
        say_recast(&recast, done, beside);
    } else {
        say_error("write", beside, error);
    }
    free(recast.made.at);
}

static void run_widen(struct argument argument) {
    make_over(argument.text, WIDEN, "widened", "wide");
}

static void run_narrow(struct argument argument) {
    make_over(argument.text, NARROW, "narrowed", "narrow");
}

static void run_help(struct argument argument);

static void run_quit(struct argument argument) {
    (void)argument;
    leaving = true;
}

enum takes { NOTHING, A_NUMBER, A_NUMBER_OR_OFF, A_FILE, A_KEYWORD };

static const struct command {
    const char *name;
    enum takes takes;
    uint64_t top; /* the highest number that the library can be asked with */
    void (*run)(struct argument argument);
    const char *help;
} commands[] = {
    {"messages", NOTHING, 0, run_messages, "messages: how many messages the feed for the next load has"},
    {"load", A_NUMBER, SIZE_MAX, run_load, "load N: load message N of that feed, from 1"},
    {"preview", A_NUMBER, SIZE_MAX, run_preview, "preview N: say what a load of message N would judge and how many rows, and load nothing"},
    {"why", A_NUMBER, SIZE_MAX, run_why, "why N: say why message N of that feed is refused, and load nothing"},
    {"rows", NOTHING, 0, run_rows, "rows: speak all rows of the present load"},
    {"row", A_NUMBER, UINT32_MAX, run_row, "row N: speak row N of the present load, from 0"},
    {"next", NOTHING, 0, run_next, "next: speak the row after the one spoken last, at first row 0"},
    {"back", NOTHING, 0, run_back, "back: speak the row before the one spoken last"},
    {"find", A_KEYWORD, 0, run_find, "find KEYWORD: speak the next row with this keyword after the one spoken last"},
    {"spell", NOTHING, 0, run_spell, "spell: spell the value spoken last as it stands, one character a line"},
    {"exact", NOTHING, 0, run_exact, "exact: say the value spoken last as it stands, not rounded"},
    {"decimals", A_NUMBER_OR_OFF, UINT32_MAX, run_decimals, "decimals N: say numbers rounded to N decimals, from 0 to 6, or with off in place of N as they stand"},
    {"ticket", A_NUMBER, UINT32_MAX, run_ticket, "ticket N: keep a ticket for row N of the present load"},
    {"speak", NOTHING, 0, run_speak, "speak: speak the row of the kept ticket"},
    {"feed", A_FILE, 0, run_feed, "feed FILE: bring in a feed for the next load, and the present load stays"},
    {"write", A_FILE, 0, run_write, "write FILE: write the message of the present load to a new file, in plain form"},
    {"record", A_FILE, 0, run_record, "record FILE: write the table of the present load to a new file"},
    {"widen", A_FILE, 0, run_widen, "widen FILE: make a recorded table of two bytes an entry one of four, in the new file FILE.wide"},
    {"narrow", A_FILE, 0, run_narrow, "narrow FILE: make a recorded table of four bytes an entry one of two, in the new file FILE.narrow"},
    {"help", NOTHING, 0, run_help, "help: say these lines"},
    {"quit", NOTHING, 0, run_quit, "quit: end the session"},
};

enum { COMMANDS = sizeof commands / sizeof commands[0] };

static void run_help(struct argument argument) {
    (void)argument;
    for (size_t at = 0; at < COMMANDS; at++) say("%s", commands[at].help);
}

/* Command lines */

/* Whether the text is a number, one digit or more and nothing else; `right` is false for a number over the top. */
static bool read_number(const char *text, uint64_t top, uint64_t *number, bool *right) {
    *number = 0;
    *right = true;
    for (const char *at = text; *at != '\0'; at++) {
        if (*at < '0' || *at > '9') return false;
        uint64_t digit = (uint64_t)(*at - '0');
        if (*number > (top - digit) / 10) *right = false;
        if (*right) *number = *number * 10 + digit;
    }
    return *text != '\0';
}

static void run_with_number(const struct command *command, struct argument argument) {
    bool right;
    if (!read_number(argument.text, command->top, &argument.number, &right)) say("not a number in digits: %s", argument.text);
    else if (!right) say("the number is too big: %s", argument.text);
    else command->run(argument);
}

static void run_command(const struct command *command, const char *text) {
    struct argument argument = {text, 0};
    bool given = *text != '\0';
    if (command->takes == NOTHING && given) say("%s stands alone, with nothing after it", command->name);
    else if (command->takes == A_NUMBER && !given) say("%s needs a number", command->name);
    else if (command->takes == A_NUMBER_OR_OFF && !given) say("%s needs a number or off", command->name);
    else if (command->takes == A_FILE && !given) say("%s needs a file name", command->name);
    else if (command->takes == A_KEYWORD && !given) say("%s needs a keyword", command->name);
    else if (command->takes == A_NUMBER) run_with_number(command, argument);
    else if (command->takes == A_NUMBER_OR_OFF && strcmp(text, "off") != 0) run_with_number(command, argument);
    else command->run(argument);
}

static bool is_blank(char byte) {
    return byte == ' ' || byte == '\t' || byte == '\r';
}

/* Cuts blanks at both ends. */
static char *trim(char *text) {
    while (is_blank(*text)) text++;
    size_t length = strlen(text);
    while (length > 0 && is_blank(text[length - 1])) length--;
    text[length] = '\0';
    return text;
}

/* Does what one command line says: its first word is the command, the rest, trimmed, is what the command takes. */
static void obey(char *line) {
    char *word = trim(line);
    if (*word == '\0') return;
    char *rest = word;
    while (*rest != '\0' && !is_blank(*rest)) rest++;
    if (*rest != '\0') *rest++ = '\0';
    for (size_t at = 0; at < COMMANDS; at++) {
        if (strcmp(word, commands[at].name) == 0) {
            run_command(&commands[at], trim(rest));
            return;
        }
    }
    say("there is no command: %s", word);
    say("help lists the commands");
}

/* Reads one command line without its ending; false at the end of the input. `right` is false for a line that has no room. */
static bool read_line(char *line, bool *right) {
    size_t length = 0;
    int byte;
    *right = true;
    while ((byte = getchar()) != EOF && byte != '\n') {
        if (length + 1 == COMMAND_ROOM) *right = false;
        else line[length++] = byte == '\0' ? '?' : (char)byte;
    }
    line[length] = '\0';
    return byte != EOF || length > 0;
}

/* For a person at a terminal only: a mark that a command can be typed, and a line's end where the input ended after the mark. */
static void print_for_typist(const char *text) {
    if (!isatty(STDIN_FILENO)) return;
    fputs(text, stdout);
    fflush(stdout);
}

static void hold_session(void) {
    static char line[COMMAND_ROOM];
    bool right;
    print_for_typist("> ");
    while (!leaving && !voice_lost() && read_line(line, &right)) {
        if (right) obey(line);
        else say("the command line is too long");
        if (!leaving) print_for_typist("> ");
    }
    if (!leaving) print_for_typist("\n");
    if (ferror(stdin)) say("the commands cannot be read");
}

/* Reads `FEEDFILE [--say CMD]`, in either order. */
static bool read_arguments(int count, char **arguments, const char **name, const char **speech) {
    for (int at = 1; at < count; at++) {
        if (strcmp(arguments[at], "--say") == 0 && *speech == NULL && at + 1 < count) *speech = arguments[++at];
        else if (strncmp(arguments[at], "--", 2) != 0 && *name == NULL) *name = arguments[at];
        else return false;
    }
    return *name != NULL;
}

int main(int count, char **arguments) {
    const char *name = NULL, *speech = NULL;
    if (count == 2 && strcmp(arguments[1], "--version") == 0) {
        say("odm-console %s", ODM_VERSION);
        return voice_lost() ? 1 : 0;
    }
    if (!read_arguments(count, arguments, &name, &speech)) {
        fputs("usage: odm-console FEEDFILE [--say CMD], or odm-console --version\n", stderr);
        return 2;
    }
    if (speech != NULL) voice_use(speech);
    if (!bring_feed(name)) say("no feed is brought in");
    hold_session();
    return ferror(stdin) || voice_lost() ? 1 : 0;
}
