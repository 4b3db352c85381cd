#define _POSIX_C_SOURCE 200809L
#include "voice.h"

#include <signal.h>
#include <stdarg.h>
#include <stdio.h>

enum { LINE_ROOM = 9000 }; /* a sentence and the longest name that can be typed; of a value or an offending text at most 254 bytes are said */

static char line[LINE_ROOM];
static const char *speech = NULL; /* the speech command, as long as it works */

/* Does nothing. A handler and not SIG_IGN, since the speech command would inherit the latter. */
static void on_broken_pipe(int number) {
    (void)number;
}

void voice_use(const char *command) {
    struct sigaction quiet = {.sa_handler = on_broken_pipe};
    sigaction(SIGPIPE, &quiet, NULL); /* a command may end without reading its line */
    signal(SIGCHLD, SIG_DFL);         /* else its end could not be learned */
    speech = command;
}

static void print_line(const char *text) {
    fputs(text, stdout);
    putchar('\n');
    fflush(stdout);
}

/* Whether the speech command was started with this line and ended well. The line is written past the stream's buffer: what is in the buffer of a
 * command that ended well without reading would make pclose fail.
 */
static bool pipe_line(const char *text) {
    FILE *mouth = popen(speech, "w");
    if (mouth == NULL) return false;
    dprintf(fileno(mouth), "%s\n", text);
    return pclose(mouth) == 0;
}

/* Lets the line be heard. A speech command that fails is given up with one sentence. */
static void speak_line(void) {
    print_line(line);
    if (speech == NULL || pipe_line(line)) return;
    speech = NULL;
    print_line("the speech command failed, and from here on lines are only printed");
}

void say(const char *format, ...) {
    va_list parts;
    va_start(parts, format);
    int length = vsnprintf(line, sizeof line, format, parts);
    va_end(parts);
    if (length < 0) line[0] = '\0';
    for (char *at = line; *at != '\0'; at++) {
        unsigned char byte = (unsigned char)*at;
        if (byte < 32 || byte == 127) *at = '?';
    }
    speak_line();
}

bool voice_lost(void) {
    return ferror(stdout) != 0;
}
