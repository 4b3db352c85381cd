#define _XOPEN_SOURCE 700 /* for SIGXFSZ */
#include "file.h"

#include <errno.h>
#include <fcntl.h>
#include <signal.h>
#include <stdio.h>
#include <stdlib.h>
#include <string.h>
#include <unistd.h>

#include "progress.h"

enum {
    PATH_ROOM = 9000, /* for the longest name that can be typed, and for one beside it */
    NAMES_BESIDE = 100,
    FIRST_ROOM = 65536 /* for a file that is read, before it has turned out to be longer */
};

static char beside[PATH_ROOM]; /* the name of the file that is filled before it gets its own */

/* Whether all that is wanted was read. The memory is doubled whenever the file has filled it; what is not filled is never touched, and so costs little. */
static bool fill(FILE *file, size_t most, struct bytes *bytes) {
    size_t room = 0;
    while (bytes->length == room && room < most) {
        room = room == 0 ? FIRST_ROOM : 2 * room;
        if (room > most) room = most;
        uint8_t *more = realloc(bytes->at, room);
        if (more == NULL) return false;
        bytes->at = more;
        bytes->length += fread(bytes->at + bytes->length, 1, room - bytes->length, file);
        if (ferror(file)) return false;
    }
    return true;
}

bool file_get(const char *name, size_t most, struct bytes *bytes, int *error) {
    struct bytes incoming = {NULL, 0};
    progress_begin("reading");
    errno = 0;
    FILE *file = fopen(name, "rb");
    bool right = file != NULL && fill(file, most, &incoming);
    *error = errno;
    if (file != NULL) fclose(file);
    progress_end();
    if (right) *bytes = incoming;
    else free(incoming.at);
    return right;
}

/* Does nothing. At the system's limit on a file's size the write then fails; the signal's own way is to end the session. */
static void on_size_limit(int number) {
    (void)number;
}

/* Whether all the bytes were taken; one call may take only some. */
static bool write_all(int file, const uint8_t *bytes, size_t length) {
    while (length > 0) {
        ssize_t taken = write(file, bytes, length);
        if (taken < 0 && errno != EINTR) return false;
        if (taken < 0) continue;
        bytes += taken;
        length -= (size_t)taken;
    }
    return true;
}

/* Whether the bytes are on the disk, where the file system can tell: one that can't answers EINVAL. */
static bool settle(int file) {
    while (fsync(file) != 0) {
        if (errno != EINTR) return errno == EINVAL;
    }
    return true;
}

/* Makes a file where none of this name is, and fills it. Where that fails the file is removed again, and errno says what failed first. */
static bool make_file(const char *name, const uint8_t *bytes, size_t length) {
    int file = open(name, O_WRONLY | O_CREAT | O_EXCL, 0666);
    if (file < 0) return false;
    bool right = write_all(file, bytes, length) && settle(file);
    int error = errno;
    bool closed = close(file) == 0;
    if (right && !closed) error = errno;
    right = right && closed;
    if (!right) unlink(name);
    errno = error;
    return right;
}

/* Whether there is room for a name in the same folder. */
static bool name_beside(const char *name, int number) {
    const char *slash = strrchr(name, '/');
    int folder = slash == NULL ? 0 : (int)(slash + 1 - name);
    int length = snprintf(beside, sizeof beside, "%.*sconsole-%ld-%d.part", folder, name, (long)getpid(), number);
    if (length < PATH_ROOM) return true;
    errno = ENAMETOOLONG;
    return false;
}

/* Makes the file beside its own place, under a name that is free: a console that was killed may have left one of these. */
static bool make_beside(const char *name, const uint8_t *bytes, size_t length) {
    for (int number = 0; number < NAMES_BESIDE; number++) {
        if (!name_beside(name, number)) return false;
        if (make_file(beside, bytes, length)) return true;
        if (errno != EEXIST) return false;
    }
    errno = 0; /* EEXIST would be heard as said of the file's own name */
    return false;
}

/* A file that is finished gets its own name by `link`, which never takes a name that is there: so the file is there whole, and one that comes at the last
 * moment stays. A file system without links, as that of a memory stick, has the file made under its own name, by a call that makes a new file or none.
 * That call also says what is wrong where the name itself is.
 */
static bool put(const char *name, const uint8_t *bytes, size_t length) {
    if (!make_beside(name, bytes, length)) return false;
    bool linked = link(beside, name) == 0;
    unlink(beside);
    return linked || make_file(name, bytes, length);
}

bool file_put(const char *name, const uint8_t *bytes, size_t length, int *error) {
    struct sigaction quiet = {.sa_handler = on_size_limit}, before;
    sigaction(SIGXFSZ, &quiet, &before);
    progress_begin("writing");
    errno = 0;
    bool right = put(name, bytes, length);
    *error = errno;
    progress_end();
    sigaction(SIGXFSZ, &before, NULL);
    return right;
}
