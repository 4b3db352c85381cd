/* The console's patience: on a terminal, what takes long is heard of every two seconds, as `still judging, 4 seconds`. Where standard output is no terminal
 * nothing is said, and to a speech command neither.
 */
#ifndef PROGRESS_H
#define PROGRESS_H

/* From here on this is what may take long. After another such call only the words change, and the seconds go on. */
void progress_begin(const char *words);

/* It is done. Lines are said before the beginning or after the end, never between. */
void progress_end(void);

#endif
