/* The console's files: what it reads, into memory of their size, and what it makes for others, each new, and there whole or not at all. */
#ifndef FILE_H
#define FILE_H

#include <stdbool.h>
#include <stddef.h>
#include <stdint.h>

/* Memory that was asked for, and how many bytes of it are in use. */
struct bytes {
    uint8_t *at;
    size_t length;
};

/* Reads a file to its end, or to so many bytes of it at most, into memory for the caller to free. Where that fails `bytes` is as it was, and `error`
 * says why, 0 where that is not known.
 */
bool file_get(const char *name, size_t most, struct bytes *bytes, int *error);

/* Makes a new file of these bytes. Where that fails nothing of it is left, and `error` says why, 0 where that is not known: EEXIST where something of
 * this name is there, which stays as it is.
 */
bool file_put(const char *name, const uint8_t *bytes, size_t length, int *error);

#endif
