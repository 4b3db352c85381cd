/* The console's voice: each line goes to standard output and, where a speech command is given, to that command. */
#ifndef VOICE_H
#define VOICE_H

#include <stdbool.h>

/* From now on each line is also piped to this command, run once a line by the shell. */
void voice_use(const char *command);

/* Says one line. Control bytes are said as `?`, so that a file's name or a typed word cannot steer the terminal. */
#if defined(__GNUC__)
__attribute__((format(printf, 1, 2)))
#endif
void say(const char *format, ...);

/* Whether standard output has failed, so that nobody can hear any more. */
bool voice_lost(void);

#endif
