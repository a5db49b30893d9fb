/* Stores a station over two blocks, in order: its name on block 1, then the index entry on block 2 that names it. The
 * index must not reach the store before the name, so the second change names the first. A third, on the entry's block,
 * joins the entry: it is answered the same number and goes with it. Then the radio sleeps, opens at its next number and names
 * the entry from before. `send` stands for the radio's own driver.
 *
 * The calls up to the sleep are recorded. Called with two file names, the program keeps the trace in the first file and, in the
 * second, what the radio got, in the words of the program that runs a trace again: board/build compares the two. */
#include <inttypes.h>
#include <stdarg.h>
#include <stdio.h>
#include <string.h>

#include "board.h"

#define CHANGES 8u /* more than this session makes */

static uint8_t table[BOARD_TABLE]; /* in memory that survives sleep */
static uint8_t image[BOARD_IMAGE]; /* filled from the store at start-up; here the store is all zero */
static uint8_t undo[BOARD_UNDO];
static uint8_t block[BOARD_BLOCK];

static FILE *trace, *answers; /* null: not kept */
static uint8_t record[BOARD_RECORD_BYTES];
static uint32_t length, place;           /* of the last record */
static int kept;                         /* it is in the trace */
static uint32_t made[CHANGES], made_len; /* the number of each change that was granted */

/* Appends what was just recorded to the trace. */
static void keep(uint32_t refusal)
{
    if (refusal != BOARD_GRANTED)
        printf("not recorded: %s\n", board_words(refusal));
    kept = refusal == BOARD_GRANTED && trace;
    if (kept)
        fwrite(record, 1, length, trace);
}

/* Appends what the radio got for a call that was kept to the answers. */
static void got(const char *format, ...)
{
    va_list values;
    if (!kept)
        return;
    fprintf(answers, "%" PRIu32 " ", ++place);
    va_start(values, format);
    vfprintf(answers, format, values);
    va_end(values);
    fputc('\n', answers);
}

static void send(uint32_t to, const uint8_t *bytes, uint64_t set)
{
    printf("block %" PRIu32 " goes, slots %" PRIx64 ": %02x %02x %02x %02x ..\n", to, set, bytes[0], bytes[1], bytes[2],
           bytes[3]);
}

static uint32_t open(uint32_t first)
{
    uint32_t refusal = board_open(table, sizeof table, first);
    keep(board_record_open(record, sizeof record, first, &length));
    got("open %" PRIu32, refusal);
    return refusal;
}

/* Makes a change and says its number, 0 where it is refused. */
static uint32_t change(uint32_t at, uint32_t offset, const char *text, const uint32_t *after, size_t after_len)
{
    const uint8_t *bytes = (const uint8_t *)text;
    uint32_t number, hold;
    uint32_t refusal = board_create(table, sizeof table, image, sizeof image, undo, sizeof undo, at, offset, bytes,
                                    strlen(text), after, after_len, &number, &hold);
    keep(board_record_create(record, sizeof record, at, offset, bytes, strlen(text), after, after_len, &length));
    printf("create on block %" PRIu32 ": %s, number %" PRIu32 ", hold %" PRIu32 "\n", at, board_words(refusal), number, hold);
    if (refusal == BOARD_GRANTED) {
        got("create 0 %" PRIu32 " %s", number, hold == 1 ? "hard" : "soft");
        if (made_len < CHANGES)
            made[made_len++] = number;
    } else
        got("create %" PRIu32, refusal);
    return number;
}

static uint32_t patches(uint64_t set)
{
    uint32_t many = 0;
    for (; set != 0; set &= set - 1)
        many++;
    return many;
}

/* What came of a write: the driver gets the block, or there is a word why not. */
static void wrote(uint32_t from, uint32_t refusal, uint64_t set)
{
    if (refusal == BOARD_GRANTED) {
        send(from, block, set);
        got("write 0 %" PRIu32, patches(set));
        return;
    }
    printf("write of block %" PRIu32 ": %s\n", from, board_words(refusal));
    if (refusal != BOARD_NOT_TRIED)
        got("write %" PRIu32, refusal);
}

/* Sends what may go of a block. Called again when the driver is idle, until nothing waits. */
static void flush(uint32_t from)
{
    uint64_t set;
    uint32_t refusal =
        board_write(table, sizeof table, image, sizeof image, undo, sizeof undo, block, sizeof block, from, &set);
    keep(board_record_write(record, sizeof record, from, &length));
    wrote(from, refusal, set);
}

/* The driver says that a block has landed. */
static uint32_t complete(uint32_t landed)
{
    uint32_t refusal = board_complete(table, sizeof table, landed);
    keep(board_record_complete(record, sizeof record, landed, &length));
    got("complete %" PRIu32, refusal);
    return refusal;
}

/* The driver says that a block has landed, and is given the next one at once: one call, recorded as the two that it made. */
static uint32_t go_on(uint32_t landed, uint32_t from)
{
    uint64_t set;
    uint32_t second;
    uint32_t refusal = board_complete_write(table, sizeof table, image, sizeof image, undo, sizeof undo, block, sizeof block,
                                            landed, from, &second, &set);
    keep(board_record_complete_write(record, sizeof record, landed, from, refusal, &length));
    got("complete %" PRIu32, refusal);
    wrote(from, second, set);
    return refusal;
}

/* The trace ends: nothing is in flight. On the store are the changes whose numbers have committed. */
static int cut(void)
{
    uint32_t state, there = 0;
    for (uint32_t i = 0; i < made_len; i++)
        there += board_ask(table, sizeof table, made[i], &state) == BOARD_GRANTED && state == 3;
    keep(board_record_cut(record, sizeof record, 0, &length));
    got("cut %" PRIu32, there);
    if (!trace)
        return 1;
    int closed = fclose(trace) == 0;
    closed = fclose(answers) == 0 && closed;
    trace = answers = NULL;
    return closed;
}

/* The station is stored; gives the number of its entry, 0 where something was refused. */
static uint32_t store(void)
{
    uint32_t none = 0;
    uint32_t name = change(1, 0, "KRTL", &none, 0);
    uint32_t entry = change(2, 0, "\x01", &name, 1);
    change(2, 1, "\x63", &none, 0); /* the preset's key: joins the entry, and has its number */
    flush(2); /* 13: the entry follows the name, which has not landed */
    flush(1);
    flush(2); /* 13 still: the name is only in flight */
    if (go_on(1, 2) != BOARD_GRANTED) /* the name has landed, so the entry may go */
        return 0;
    return complete(2) == BOARD_GRANTED ? entry : 0;
}

/* Where the entry is: committed means that it and what joined it are on the store. */
static int say(uint32_t entry)
{
    uint32_t state, waiting;
    if (board_ask(table, sizeof table, entry, &state) != 0 || board_count(table, sizeof table, 2, &waiting) != 0)
        return 0;
    printf("entry: state %" PRIu32 ", %" PRIu32 " waiting on block 2\n", state, waiting);
    return 1;
}

int main(int argc, char **argv)
{
    if (argc == 3 && (!(trace = fopen(argv[1], "wb")) || !(answers = fopen(argv[2], "w"))))
        return 1;
    if (open(1) != BOARD_GRANTED)
        return 1;
    uint32_t entry = store();
    if (!say(entry) || !cut())
        return 1;
    /* At rest: the radio may sleep. It keeps its next number, and at start-up fills the image from the store. */
    uint32_t next = board_next(table);
    if (open(next) != BOARD_GRANTED || !say(entry))
        return 1;
    change(3, 0, "NEWS", &entry, 1); /* the menu's old number is good, and the change follows nothing */
    flush(3);
    return 0;
}
