/* The library behind a pipe: reads calls on standard input, makes each through board.h, and answers on standard output. For a
 * bench that cannot link the archive (another processor), and to run the header that is shipped.
 *
 * Buffers are kept here between calls, as a radio keeps them. A call brings, for each of table, image, undo area and block handed
 * out, its length and the part that is other than what is kept (-1 in place of a length: not lent to this call); the answer
 * brings back the part that the call changed. Every number on the pipe is 32 bits, little-endian:
 *   call:   kind (0 open, 1 create, 2 write, 3 complete, 4 ask, 5 count; 6 to 10 the record of an open, a create, a write, a
 *           complete, a cut; 11 complete_write, 12 its records), three numbers (first, block or asked; offset; a cut's bits, high
 *           half first; x, y and, for the records, the first answer), four times length, place, count and the bytes; count and
 *           bytes of the data; the same of the names
 *   answer: refusal, number, hold, the set's low and high half, state, count, second; four times place, count and the bytes;
 *           1 where a byte beside a buffer was changed, else 0; the nanoseconds that the call took
 * A record goes into the buffer of the block handed out, its length into the count. Any other input ends the program with status 1. */
#define _POSIX_C_SOURCE 200809L
#include <stdio.h>
#include <stdlib.h>
#include <string.h>
#include <time.h>

#include "../board/board.h"

#define LONGEST 524288u /* of a buffer, of the data, and of the names in bytes */
#define BESIDE 64u     /* bytes watched before and after a buffer */
#define WATCHED 0xC3u
#define UNWRITTEN 0xDEADBEEFu /* stands in each number lent for an answer, so that one left unwritten shows */
#define NOT_LENT 0xFFFFFFFFu

enum { TABLE, IMAGE, UNDO, HANDED, DATA, NAMED, BUFFERS };
#define KEPT DATA /* the buffers that are kept between calls come first */

struct buffer {
    uint32_t len;
    uint8_t area[BESIDE + LONGEST + BESIDE];
};

/* A buffer starts one byte past a multiple of four, so that nothing can lean on an alignment that the header does not ask for;
 * the names, of which it does, start at a multiple of four. */
static _Alignas(8) struct buffer buffers[BUFFERS];
static uint8_t before[KEPT][LONGEST];

struct answer {
    uint32_t refusal, number, hold, state, count, second;
    uint64_t set;
};

static uint8_t *start(unsigned which)
{
    uint8_t *at = buffers[which].area + BESIDE / 2;
    size_t past = (uintptr_t)at % 4;
    return at + (4 - past) % 4 + (which == NAMED ? 0 : 1);
}

static void bad(const char *what)
{
    fprintf(stderr, "serve: %s\n", what);
    exit(1);
}

static void take(void *to, size_t len)
{
    if (len != 0 && fread(to, len, 1, stdin) != 1)
        bad("the input ends inside a call");
}

static uint32_t number_in(void)
{
    uint8_t b[4];
    take(b, sizeof b);
    return (uint32_t)b[0] | (uint32_t)b[1] << 8 | (uint32_t)b[2] << 16 | (uint32_t)b[3] << 24;
}

static void number_out(uint32_t n)
{
    uint8_t b[4] = {(uint8_t)n, (uint8_t)(n >> 8), (uint8_t)(n >> 16), (uint8_t)(n >> 24)};
    fwrite(b, sizeof b, 1, stdout);
}

static uint32_t length_in(void)
{
    uint32_t len = number_in();
    if (len > LONGEST)
        bad("a buffer is too long");
    return len;
}

/* The part of a kept buffer that is other than what is kept, and its length. Not lent, it stays as it is. */
static void buffer_in(unsigned which)
{
    struct buffer *b = &buffers[which];
    uint32_t len = number_in();
    if (len == NOT_LENT)
        return;
    uint32_t at = length_in(), count = length_in();
    if (len > LONGEST || at > len || count > len - at)
        bad("a part is outside its buffer");
    b->len = len;
    take(start(which) + at, count);
}

/* The bytes beside a buffer are painted before the call, and looked at after it. */
static void paint(unsigned which)
{
    uint8_t *from = start(which);
    memset(from - BESIDE / 4, WATCHED, BESIDE / 4);
    memset(from + buffers[which].len, WATCHED, BESIDE / 4);
}

static int spilled(unsigned which)
{
    const uint8_t *from = start(which);
    for (size_t i = 0; i < BESIDE / 4; i++)
        if (from[-1 - (ptrdiff_t)i] != WATCHED || from[buffers[which].len + i] != WATCHED)
            return 1;
    return 0;
}

static int is_record(uint32_t kind)
{
    return (kind >= 6 && kind <= 10) || kind == 12;
}

static uint32_t write_record(uint32_t kind, uint32_t a, uint32_t b, uint32_t c, uint32_t *length)
{
    uint8_t *record = start(HANDED);
    size_t record_len = buffers[HANDED].len;
    switch (kind) {
    case 6: return board_record_open(record, record_len, a, length);
    case 7:
        return board_record_create(record, record_len, a, b, start(DATA), buffers[DATA].len,
                                   (const uint32_t *)(const void *)start(NAMED), buffers[NAMED].len / 4, length);
    case 8: return board_record_write(record, record_len, a, length);
    case 9: return board_record_complete(record, record_len, a, length);
    case 10: return board_record_cut(record, record_len, (uint64_t)a << 32 | b, length);
    case 12: return board_record_complete_write(record, record_len, a, b, c, length);
    default: bad("no such call");
    }
    return 0;
}

static struct answer call(uint32_t kind, uint32_t a, uint32_t b, uint32_t c)
{
    uint8_t *table = start(TABLE), *image = start(IMAGE), *undo = start(UNDO), *handed = start(HANDED);
    size_t table_len = buffers[TABLE].len, image_len = buffers[IMAGE].len, undo_len = buffers[UNDO].len;
    size_t handed_len = buffers[HANDED].len;
    struct answer r = {0, 0, 0, 0, 0, 0, 0};
    if (is_record(kind)) {
        r.count = UNWRITTEN;
        r.refusal = write_record(kind, a, b, c, &r.count);
        return r;
    }
    switch (kind) {
    case 0: r.refusal = board_open(table, table_len, a); break;
    case 1:
        r.number = r.hold = UNWRITTEN;
        r.refusal = board_create(table, table_len, image, image_len, undo, undo_len, a, b, start(DATA), buffers[DATA].len,
                                 (const uint32_t *)(const void *)start(NAMED), buffers[NAMED].len / 4, &r.number, &r.hold);
        break;
    case 2:
        r.set = UNWRITTEN;
        r.refusal = board_write(table, table_len, image, image_len, undo, undo_len, handed, handed_len, a, &r.set);
        break;
    case 3: r.refusal = board_complete(table, table_len, a); break;
    case 4:
        r.state = UNWRITTEN;
        r.refusal = board_ask(table, table_len, a, &r.state);
        break;
    case 5:
        r.count = UNWRITTEN;
        r.refusal = board_count(table, table_len, a, &r.count);
        break;
    case 11:
        r.set = r.second = UNWRITTEN;
        r.refusal = board_complete_write(table, table_len, image, image_len, undo, undo_len, handed, handed_len, a, b, &r.second,
                                         &r.set);
        break;
    default: bad("no such call");
    }
    return r;
}

static uint64_t nanoseconds(void)
{
    struct timespec t;
    clock_gettime(CLOCK_MONOTONIC, &t);
    return (uint64_t)t.tv_sec * 1000000000u + (uint64_t)t.tv_nsec;
}

/* The part of a kept buffer from the first byte that the call changed to the last. */
static void buffer_out(unsigned which)
{
    const uint8_t *now = start(which), *was = before[which];
    uint32_t from = 0, to = buffers[which].len;
    if (memcmp(now, was, to) == 0) {
        number_out(0);
        number_out(0);
        return;
    }
    while (now[from] == was[from])
        from++;
    while (now[to - 1] == was[to - 1])
        to--;
    number_out(from);
    number_out(to - from);
    fwrite(now + from, to - from, 1, stdout);
}

int main(void)
{
    for (;;) {
        int first = getchar();
        if (first == EOF)
            return 0;
        ungetc(first, stdin);
        uint32_t kind = number_in(), a = number_in(), b = number_in(), c = number_in();
        for (unsigned which = 0; which < KEPT; which++)
            buffer_in(which);
        take(start(DATA), buffers[DATA].len = length_in());
        take(start(NAMED), buffers[NAMED].len = length_in());
        for (unsigned which = 0; which < KEPT; which++)
            memcpy(before[which], start(which), buffers[which].len);
        for (unsigned which = 0; which < BUFFERS; which++)
            paint(which);
        uint64_t began = nanoseconds();
        struct answer r = call(kind, a, b, c);
        uint64_t took = nanoseconds() - began;
        int beside = 0;
        for (unsigned which = 0; which < BUFFERS; which++)
            beside |= spilled(which);
        const uint32_t numbers[] = {r.refusal, r.number, r.hold,  (uint32_t)r.set, (uint32_t)(r.set >> 32),
                                    r.state,   r.count,  r.second};
        for (size_t i = 0; i < sizeof numbers / sizeof numbers[0]; i++)
            number_out(numbers[i]);
        for (unsigned which = 0; which < KEPT; which++)
            buffer_out(which);
        number_out((uint32_t)beside);
        number_out((uint32_t)took);
        fflush(stdout);
    }
}
