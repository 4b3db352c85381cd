#define _POSIX_C_SOURCE 200809L
#include "progress.h"

#include <errno.h>
#include <signal.h>
#include <stdbool.h>
#include <stddef.h>
#include <unistd.h>

enum { STEP = 2, LINE_ROOM = 80 }; /* the seconds from line to line; room for the words */

static const char *_Atomic doing = NULL; /* what takes long now; NULL where nothing does */
static volatile sig_atomic_t seconds;    /* since it began */

/* Each of these puts something at the end of a line and gives the new end: a signal's handler may call nothing that formats. */

static size_t put_text(char *line, size_t end, const char *text) {
    while (*text != '\0' && end < LINE_ROOM) line[end++] = *text++;
    return end;
}

static size_t put_number(char *line, size_t end, unsigned number) {
    if (number >= 10) end = put_number(line, end, number / 10);
    return put_text(line, end, (const char[]){(char)('0' + number % 10), '\0'});
}

static void print_line(const char *words) {
    char line[LINE_ROOM];
    size_t end = put_text(line, 0, "still ");
    end = put_text(line, end, words);
    end = put_text(line, end, ", ");
    end = put_number(line, end, (unsigned)seconds);
    end = put_text(line, end, " seconds\n");
    if (write(STDOUT_FILENO, line, end) < 0) return; /* a line that cannot be heard ends no work */
}

/* Every call here is one that a signal's handler may make. */
static void on_alarm(int number) {
    int error = errno;
    const char *words = doing;
    (void)number;
    if (words != NULL) { /* an alarm may come just after the end */
        seconds += STEP;
        print_line(words);
        alarm(STEP);
    }
    errno = error;
}

void progress_begin(const char *words) {
    struct sigaction action = {.sa_handler = on_alarm, .sa_flags = SA_RESTART}; /* reading and writing go on after the line */
    bool going = doing != NULL;
    if (!isatty(STDOUT_FILENO)) return;
    doing = words;
    if (going) return;
    seconds = 0;
    sigaction(SIGALRM, &action, NULL);
    alarm(STEP);
}

void progress_end(void) {
    doing = NULL; /* before the alarm, which could come in between and be set again */
    alarm(0);
}
