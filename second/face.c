/* A small host over the product's C face. It reads requests from standard input and writes answers to standard output,
 * so that the comparer can run it as a child process, under an emulator if need be. All numbers are low byte first.
 * A block is a u32 length and so many bytes. A feed is a u32 form and what goes with it: 1 and a block; 2 for padding, that is u32 length, u32
 * byte and a block, which stands in front and is followed by that byte up to the length; or 3 and nothing more, for the feed of the request before,
 * so that a long feed is sent once for all that is asked about it.
 *
 * Judge:  u32 kind (1), a feed, u32 how many message numbers, each of them a u64.
 * Answer: u32 reason and u32 count of odm_headings, then for each message number u32 reason, u32 line, u32 rows.
 *
 * Place:  u32 kind (2), u32 load and u32 count of the desk, a feed, u64 message number, a table as a block.
 * Answer: u32 load, u32 count, u32 reason, u32 line, then every byte of the table.
 *
 * Read:   u32 kind (3), u32 load and u32 count of the desk, a feed, a table as a block, u32 how many tickets, each of them
 *         u32 load and u32 row.
 * Answer: for each ticket u32 reason, u32 code, u32 group, u32 line, u32 start, u32 length, then every byte of the table.
 *
 * Write:  u32 kind (4), a feed, u64 message number, a buffer as a block.
 * Answer: u32 reason, u32 line, u32 length, then every byte of the buffer.
 *
 * Say:    u32 kind (5), a text as a block, u32 decimals.
 * Answer: u32 reason, u64 units, the bits of the signed number as they stand.
 *
 * Widen:  u32 kind (6), a narrow and a wide table as blocks.
 * Narrow: u32 kind (7), a wide and a narrow table as blocks.
 * Answer: u32 reason, then every byte of either table, in the order in which they were sent.
 *
 * Explain: u32 kind (8), a feed, u32 how many message numbers, each of them a u64.
 * Answer: for each message number u32 reason, u32 rows, u32 line, u32 start, u32 length, u32 count and four u32 codes.
 *
 * Sit:    u32 kind (9), u32 load and u32 count of the desk, a feed, a table as a block, u32 how many acts. Each of them is a ticket, that is u32 1,
 *         u32 load and u32 row; a preview, that is u32 2, a feed and u64 message number; or a placing of a message of the sitting's feed, that is
 *         u32 3 and u64 message number. Feed and table are lent from the first act to the last, where they are, and the desk goes into each act as
 *         it last came back. The feed of a preview is u32 4 and nothing more for the sitting's own; any other has room of its own, and 3 means the
 *         last one of these.
 * Answer: for each act as Read has it for a ticket, Judge for a message number and Place for a placing, without the table; then every byte of the
 *         table.
 *
 * Voice:  u32 kind (10), u32 code, a value and a buffer as blocks.
 * Answer: u32 reason, u32 length, then every byte of the buffer.
 */
#define _DEFAULT_SOURCE
#include <stddef.h>
#include <stdint.h>
#include <stdio.h>
#include <stdlib.h>
#include <string.h>
#include <sys/mman.h>
#include <unistd.h>

#include "odm.h"

enum { JUDGE = 1, PLACE = 2, READ = 3, WRITE = 4, SAY = 5, WIDEN = 6, NARROW = 7, EXPLAIN = 8, SIT = 9, VOICE = 10 };
enum { TICKET = 1, PREVIEW = 2, PLACING = 3 };
enum { WHOLE = 1, PADDED = 2, AGAIN = 3, OWN = 4 };
enum { BUFFER = 1 << 16 };

static uint8_t in[BUFFER], out[BUFFER];
static size_t in_at, in_end, out_end;

/* Says what is wrong in plain words and ends. */
static void refuse(const char *why) {
    fprintf(stderr, "face: %s\n", why);
    exit(1);
}

static void write_all(const uint8_t *from, size_t count) {
    while (count > 0) {
        ssize_t written = write(1, from, count);
        if (written <= 0) refuse("the answers could not be written");
        from += written;
        count -= (size_t)written;
    }
}

static void flush(void) {
    write_all(out, out_end);
    out_end = 0;
}

/* Gets some input. Answers go out first, since the other side may be waiting for them. */
static size_t read_some(uint8_t *to, size_t most) {
    flush();
    ssize_t got = read(0, to, most);
    if (got < 0) refuse("the requests could not be read");
    return (size_t)got;
}

static int fill(void) {
    in_at = 0;
    in_end = read_some(in, BUFFER);
    return in_end > 0;
}

/* Takes exactly so many bytes; the input may end only between requests. What is longer than the buffer goes past it, straight to its place. */
static void take(uint8_t *to, size_t count) {
    while (count > 0) {
        size_t part = in_end - in_at < count ? in_end - in_at : count;
        if (part > 0) {
            memcpy(to, in + in_at, part);
            in_at += part;
        } else if (count >= BUFFER) {
            part = read_some(to, count);
            if (part == 0) refuse("the input ended within a request");
        } else if (!fill()) {
            refuse("the input ended within a request");
        }
        to += part;
        count -= part;
    }
}

static uint64_t take_number(size_t bytes) {
    uint8_t raw[8];
    uint64_t number = 0;
    take(raw, bytes);
    for (size_t at = bytes; at > 0; at--) number = number << 8 | raw[at - 1];
    return number;
}

static uint32_t take_u32(void) {
    return (uint32_t)take_number(4);
}

static void put_bytes(const uint8_t *from, size_t count) {
    if (count >= BUFFER) {
        flush();
        write_all(from, count);
        return;
    }
    while (count > 0) {
        if (out_end == BUFFER) flush();
        size_t part = BUFFER - out_end < count ? BUFFER - out_end : count;
        memcpy(out + out_end, from, part);
        out_end += part;
        from += part;
        count -= part;
    }
}

static void put_number(uint32_t number) {
    uint8_t raw[4];
    for (int at = 0; at < 4; at++) raw[at] = (uint8_t)(number >> (8 * at));
    put_bytes(raw, 4);
}

/* A feed, a table, a buffer, a text or a value, lent to the product as the comparer sent it. */
typedef struct {
    uint8_t *bytes;
    size_t length;
} block;

/* Room that ends where a page begins that may not be touched. A block ends there too, so a read or a write past its end stops the program, also in
 * code that no sanitizer has instrumented. */
typedef struct {
    uint8_t *end;
    size_t size;
} room;

/* Room grows by whole steps of this many bytes, a multiple of any page's size. */
enum { STEP = 1 << 20 };

/* Sees to it that there is room for so many bytes; says whether it is new. What stood there is gone then. */
static int make_room(room *room, size_t wanted) {
    if (wanted <= room->size) return 0;
    size_t page = (size_t)sysconf(_SC_PAGESIZE);
    size_t size = (wanted + STEP - 1) / STEP * STEP;
    if (room->size > 0 && munmap(room->end - room->size, room->size + page) != 0) refuse("room could not be given back");
    uint8_t *region = mmap(NULL, size + page, PROT_READ | PROT_WRITE, MAP_PRIVATE | MAP_ANONYMOUS, -1, 0);
    if (region == MAP_FAILED) refuse("no memory for a feed, a table, a buffer, a text or a value");
    if (mprotect(region + size, page, PROT_NONE) != 0) refuse("a page could not be fenced");
    room->end = region + size;
    room->size = size;
    return 1;
}

/* A feed, a table, a buffer, a text or a value against its own fence; a null pointer where it is empty. */
static block take_block(room *room) {
    block taken = {NULL, take_u32()};
    if (taken.length == 0) return taken;
    make_room(room, taken.length);
    taken.bytes = room->end - taken.length;
    take(taken.bytes, taken.length);
    return taken;
}

/* Room that is full of one byte, but for a part that the last front was laid over. */
typedef struct {
    room room;
    uint8_t *laid;
    size_t length;
} padding;

/* Where feeds are laid, whole ones and padded ones by their byte, and the one that was sent last. */
typedef struct {
    room room;
    padding paddings[256];
    block feed;
    int is_there;
} shelf;

/* A padded feed: its front is laid over room that is full of the byte already, so a long one costs no more than its front. */
static block take_padded(shelf *shelf) {
    block taken = {NULL, take_u32()};
    uint8_t byte = (uint8_t)take_u32();
    padding *padding = &shelf->paddings[byte];
    size_t front = take_u32();
    if (taken.length == 0 || front > taken.length) refuse("a feed whose padding is nothing");
    if (make_room(&padding->room, taken.length)) {
        memset(padding->room.end - padding->room.size, byte, padding->room.size);
    } else {
        memset(padding->laid, byte, padding->length);
    }
    taken.bytes = padding->room.end - taken.length;
    padding->laid = taken.bytes;
    padding->length = front;
    take(taken.bytes, front);
    return taken;
}

static shelf feeds, previewed;
static room tables, others, buffers, texts;

/* A feed in any form. The one that was sent last is as it was: it is lent to be read alone, and its room is given to no other block. */
static block take_feed_in(shelf *shelf, uint32_t form) {
    if (form == WHOLE) {
        shelf->feed = take_block(&shelf->room);
    } else if (form == PADDED) {
        shelf->feed = take_padded(shelf);
    } else if (form != AGAIN || !shelf->is_there) {
        refuse("a feed in an unknown form, or none before");
    }
    shelf->is_there = 1;
    return shelf->feed;
}

static block take_feed(void) {
    return take_feed_in(&feeds, take_u32());
}

static void judge(block feed, size_t message) {
    odm_judged judged = odm_judge(feed.bytes, feed.length, message);
    put_number(judged.reason);
    put_number(judged.line);
    put_number(judged.rows);
}

static void answer_judge(void) {
    block feed = take_feed();
    odm_counted counted = odm_headings(feed.bytes, feed.length);
    put_number(counted.reason);
    put_number(counted.count);
    for (uint32_t left = take_u32(); left > 0; left--) judge(feed, (size_t)take_number(8));
}

/* The two numbers that a desk is. */
typedef struct {
    uint32_t load, count;
} desk;

static desk take_desk(void) {
    desk taken;
    taken.load = take_u32();
    taken.count = take_u32();
    return taken;
}

static desk place(desk desk, block feed, size_t message, block table) {
    odm_placed placed = odm_place(desk.load, desk.count, feed.bytes, feed.length, message, table.bytes, table.length);
    put_number(placed.load);
    put_number(placed.count);
    put_number(placed.reason);
    put_number(placed.line);
    desk.load = placed.load;
    desk.count = placed.count;
    return desk;
}

static void answer_place(void) {
    desk desk = take_desk();
    block feed = take_feed();
    size_t message = (size_t)take_number(8);
    block table = take_block(&tables);
    place(desk, feed, message, table);
    put_bytes(table.bytes, table.length);
}

/* Takes a ticket and reads it. */
static void read_ticket(desk desk, block feed, block table) {
    uint32_t load = take_u32();
    uint32_t number = take_u32();
    odm_row row = odm_read(desk.load, desk.count, load, number, feed.bytes, feed.length, table.bytes, table.length);
    put_number(row.reason);
    put_number(row.code);
    put_number(row.group);
    put_number(row.line);
    put_number(row.start);
    put_number(row.length);
}

/* The table goes back after all tickets, to show that reading changed nothing. */
static void answer_read(void) {
    desk desk = take_desk();
    block feed = take_feed();
    block table = take_block(&tables);
    for (uint32_t left = take_u32(); left > 0; left--) read_ticket(desk, feed, table);
    put_bytes(table.bytes, table.length);
}

/* Takes a message to be judged, of the sitting's feed or of one beside it. */
static void preview(block own) {
    uint32_t form = take_u32();
    block feed = form == OWN ? own : take_feed_in(&previewed, form);
    judge(feed, (size_t)take_number(8));
}

/* The host of one desk: what is lent stays where it is, whatever is previewed, and the desk is handed on. */
static void answer_sit(void) {
    desk desk = take_desk();
    block feed = take_feed();
    block table = take_block(&tables);
    for (uint32_t left = take_u32(); left > 0; left--) {
        uint32_t act = take_u32();
        if (act == TICKET) {
            read_ticket(desk, feed, table);
        } else if (act == PREVIEW) {
            preview(feed);
        } else if (act == PLACING) {
            desk = place(desk, feed, (size_t)take_number(8), table);
        } else {
            refuse("an act of an unknown kind");
        }
    }
    put_bytes(table.bytes, table.length);
}

static void answer_write(void) {
    block feed = take_feed();
    size_t message = (size_t)take_number(8);
    block buffer = take_block(&buffers);
    odm_written written = odm_write(feed.bytes, feed.length, message, buffer.bytes, buffer.length);
    put_number(written.reason);
    put_number(written.line);
    put_number(written.length);
    put_bytes(buffer.bytes, buffer.length);
}

static void answer_say(void) {
    block text = take_block(&texts);
    uint32_t decimals = take_u32();
    odm_rounded rounded = odm_round(text.bytes, text.length, decimals);
    uint64_t units = (uint64_t)rounded.units;
    put_number(rounded.reason);
    put_number((uint32_t)units);
    put_number((uint32_t)(units >> 32));
}

/* A widening or a narrowing; both tables go back, to show that the first is as it was. */
static void answer_move(uint32_t (*move)(const uint8_t *, size_t, uint8_t *, size_t)) {
    block from = take_block(&tables);
    block into = take_block(&others);
    put_number(move(from.bytes, from.length, into.bytes, into.length));
    put_bytes(from.bytes, from.length);
    put_bytes(into.bytes, into.length);
}

/* Every code goes back, those past the count too, to show that they are 0. */
static void answer_explain(void) {
    block feed = take_feed();
    for (uint32_t left = take_u32(); left > 0; left--) {
        odm_explained explained = odm_explain(feed.bytes, feed.length, (size_t)take_number(8));
        put_number(explained.reason);
        put_number(explained.rows);
        put_number(explained.line);
        put_number(explained.start);
        put_number(explained.length);
        put_number(explained.count);
        for (int at = 0; at < 4; at++) put_number(explained.codes[at]);
    }
}

/* The words go into the buffer, and every byte of it goes back, to show that those past the words are as they were. */
static void answer_voice(void) {
    uint32_t code = take_u32();
    block value = take_block(&texts);
    block buffer = take_block(&buffers);
    odm_spoken spoken = odm_in_words(code, value.bytes, value.length, buffer.bytes, buffer.length);
    put_number(spoken.reason);
    put_number(spoken.length);
    put_bytes(buffer.bytes, buffer.length);
}

int main(void) {
    _Static_assert(sizeof(size_t) == 8, "message numbers are passed as 64 bits");
    _Static_assert(ODM_WORDS_BYTES == 259, "the comparer lends buffers of just these bytes as always room enough");
    while (in_at < in_end || fill()) {
        uint32_t kind = take_u32();
        if (kind == JUDGE) {
            answer_judge();
        } else if (kind == PLACE) {
            answer_place();
        } else if (kind == READ) {
            answer_read();
        } else if (kind == WRITE) {
            answer_write();
        } else if (kind == SAY) {
            answer_say();
        } else if (kind == WIDEN) {
            answer_move(odm_widen);
        } else if (kind == NARROW) {
            answer_move(odm_narrow);
        } else if (kind == EXPLAIN) {
            answer_explain();
        } else if (kind == SIT) {
            answer_sit();
        } else if (kind == VOICE) {
            answer_voice();
        } else {
            refuse("a request of an unknown kind");
        }
    }
    flush();
    return 0;
}
