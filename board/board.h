/* The write-before cache for C: seven functions over plain numbers and lent bytes, and six that record their calls, proved in
 * crates/board, and in crates/board_c under these names.
 *
 * The radio makes changes, each to one block of 256 bytes and each naming earlier changes that must reach the store first. The
 * cache says what may be sent, and with which bytes. docs/RULES.md has the rules and the words.
 *
 * Each function returns a refusal number, 0 where it is granted, and writes what else it answers through its pointers to single
 * numbers (refused: 0). Nothing is asked of the values: whatever is wrong is refused by number. A refused call changes no byte of
 * the table and of the lent buffers (but board_open, which refuses with the empty table whose first number is 1).
 * board_complete_write is two calls in one and has two answers; it returns the first.
 *
 * JOINING. A hard change on a block where a patch waits makes no patch of its own: it joins the one with the lowest number, takes
 * no slot and no new number, and is answered that patch's number, which was given before. So many small changes of one block fill
 * nothing, and a full table still takes them. The changes of a number go out and land together. Who names a number asks for all
 * changes answered it so far, and for none that is answered it later; board_ask says where the patch is, and with it all of them;
 * board_count counts patches, not changes. Do not keep anything by number that is meant for one change alone.
 *
 * OLD NUMBERS. A number from 1 to first - 1 is from before this opening and means committed: board_ask says 3, and a change that
 * names it follows nothing for it. Open at the old next number (board_next; keep it where it survives) or above it: no number is
 * given twice, and the names that the menus hold stay good. If it is lost, or is 1,000,000,001 (refused, 15: no number is left),
 * open at 1 and forget all old numbers, as they would come to mean new changes.
 * - After a deep sleep: each of them is on the store if nothing waited and nothing was in flight before it. So write and complete
 *   until board_count gives 0 for every block and no completion is outstanding; then sleep.
 * - After a power cut: each that board_ask had called committed before it is on the store. A change that waited or was in flight
 *   may be lost, and its number means committed all the same, as nobody is left who knows. Forget those numbers, or look into the
 *   image.
 *
 * YOUR PART
 * - Before board_open, fill the working image from the store: what it held is what every later change lies over.
 * - Table, working image AND undo area belong together. To go on after a sleep keep all three; with one of them lost, open anew
 *   from the store. Nobody else writes to them.
 * - After a power cut, fill the image from the store and open again: at which number, see OLD NUMBERS.
 * - One call at a time, and no reset inside one: a call that is broken off leaves the table, the image and the undo area half made.
 * - Pass the bytes handed out to the store as they are, a block whole or not at all. Every write that was granted is to be passed
 *   on, and its completion told with board_complete or board_complete_write, but not before the bytes are there: what was told is
 *   taken to be on the store.
 * - Stack: the calls took up to 16,216 bytes when it was read (complete_write; docs/FIGURES.md has each). Keep more than that free.
 * - Pointers, as for any callee that takes a pointer with a length: not null, also where the length is 0 (any valid address will do),
 *   valid for the length, and aligned where they are to 32-bit or 64-bit numbers; tables and buffers of bytes may stand anywhere.
 *   No two of a call's pointers reach the same byte, unless both are to const. Two traps: `bytes` that lie in the image itself
 *   (copy them out first), and `named` and `number` that are the same word (let the answer go into another).
 *   No call keeps a pointer or allocates, and none calls anything but C's memcpy and memset.
 *
 * RECORDING. A trace is the calls of one power-up, for a bench to run again: their records, end to end. For each call of
 * board_open, board_create, board_write and board_complete, in the order in which you make them, call the board_record_ function
 * with the same arguments and append the first `length` bytes of its buffer to the trace. One buffer of BOARD_RECORD_BYTES serves
 * for all records; its bytes behind a record stay as they were. No table is lent, and nothing else changes.
 * - A record says what was asked, not what was answered: record a refused call like a granted one. Ask and count are not recorded.
 * - board_complete_write is recorded as the calls that it made, so after it, with what it returned: the completion alone where that
 *   was refused, else the completion and the write. Both records are in the one buffer, end to end.
 * - board_record_open comes first, and once: the next power-up is another trace.
 * - board_record_cut comes last: the supply was cut, or the radio sleeps. Bit b of `landed` is set when block b's write in flight
 *   landed; the bits of other blocks count for nothing. Who was cut appends it at the next start-up, or leaves it to the bench.
 * - Refused, 1: the buffer has not BOARD_RECORD_BYTES. Refused, 16: the call fits no record, as its block is above 255, its offset
 *   above 65,535, or it has more than 255 numbers or, with 4 bytes for each number, more than 1,196 bytes of numbers and data.
 *   Leave such a call out: the cache refuses it too, and nothing changes. But where board_record_complete_write is refused 16 with x
 *   at most 255, x has been completed: record that with board_record_complete, and leave out the write alone.
 *
 * THE TABLE is BOARD_TABLE bytes that you keep. Every number in it is little-endian:
 *   0 first (4 bytes), 4 next (4), then 64 slots of 32 bytes, slot i at 8 + 32 * i:
 *   0 state (4): 0 free, 1 waiting hard, 2 waiting soft, 3 in flight hard, 4 in flight soft
 *   4 room (4), read for state 2 only and written 0 for the others
 *   8 number (4), 12 block (4), 16 offset (4), 20 length (4), 24 befores (8), bit i for slot i
 * Bytes of another length, or with a state above 4, are no table. A granted open, create, write or complete writes the whole
 * table, and so does complete_write where the completion is granted; ask and count write none of it. */
#ifndef BOARD_H
#define BOARD_H

#include <stddef.h>
#include <stdint.h>

#ifdef __cplusplus
extern "C" {
#endif

#define BOARD_TABLE 2056u  /* the table */
#define BOARD_IMAGE 16384u /* the working image: 64 blocks of 256 bytes */
#define BOARD_UNDO 1024u   /* the undo area: 16 rooms of 64 bytes */
#define BOARD_BLOCK 256u   /* the block handed out */

#define BOARD_RECORD_BYTES 1203u /* the buffer for a record */

/* The refusal numbers. Each call answers the first of its own that holds, in rising order. */
enum board_refusal {
    BOARD_GRANTED = 0,
    BOARD_BUFFER_SIZE = 1,
    BOARD_NOT_SOUND = 2,
    BOARD_NO_BLOCK = 3,
    BOARD_DATA_LENGTH = 4,
    BOARD_PAST_THE_END = 5,
    BOARD_MANY_NAMES = 6,
    BOARD_NEVER_ISSUED = 7,
    BOARD_NO_NUMBER = 8,
    BOARD_NO_SLOT = 9,
    BOARD_NO_ROOM = 10,
    BOARD_IN_FLIGHT = 11,
    BOARD_NONE_WAITS = 12,
    BOARD_NONE_MAY_GO = 13,
    BOARD_NONE_IN_FLIGHT = 14,
    BOARD_FIRST_NUMBER = 15,
    BOARD_NO_RECORD = 16
};

/* The second answer of board_complete_write where completing was refused: no refusal has this number. */
#define BOARD_NOT_TRIED 4294967295u

/* A refusal number in words; BOARD_NOT_TRIED too. */
static inline const char *board_words(uint32_t refusal)
{
    static const char *const words[] = {
        "granted",
        "a lent buffer has not its exact size",
        "no table, or a table that is not sound",
        "block above 63",
        "data length 0 or above 64",
        "offset + length above 256",
        "more than 8 named numbers",
        "a named or asked number was never issued",
        "no number is left, and the change joins no patch",
        "no free slot, and the change joins no patch",
        "would be soft, and all 16 rooms are taken",
        "a patch of the block is in flight",
        "no patch of the block waits",
        "some wait, and none may go",
        "no patch of the block is in flight",
        "first number 0 or above 1,000,000,000",
        "the call fits no record",
    };
    if (refusal == BOARD_NOT_TRIED)
        return "not tried";
    return refusal < sizeof words / sizeof words[0] ? words[refusal] : "no refusal has this number";
}

/* The next number of a table: what to open at after a deep sleep or a cut (OLD NUMBERS). Tests nothing. */
static inline uint32_t board_next(const uint8_t *table)
{
    return table[4] | (uint32_t)table[5] << 8 | (uint32_t)table[6] << 16 | (uint32_t)table[7] << 24;
}

/* An empty table whose first and next number are `first`. Tests 2 (the length only), then 15. */
uint32_t board_open(uint8_t *table, size_t table_len, uint32_t first);

/* A change of `bytes` at `offset` of `block`, after all changes answered so far with the numbers named (for an old number, after
 * none). It goes into the working image. number: the change's; a new one, or that of the waiting patch it joins. hold: 1 hard,
 * 2 + r soft with undo room r. Tests 1 to 10, but 8 and 9 not for a change that joins. */
uint32_t board_create(uint8_t *table, size_t table_len, uint8_t *image, size_t image_len, uint8_t *undo, size_t undo_len,
                      uint32_t block, uint32_t offset, const uint8_t *bytes, size_t bytes_len, const uint32_t *named,
                      size_t named_len, uint32_t *number, uint32_t *hold);

/* The bytes to send to `block` now, in `handed`. set: bit i where slot i was sent, with all changes of its number. Tests 1, 2, 3,
 * 11, 12, 13. */
uint32_t board_write(uint8_t *table, size_t table_len, const uint8_t *image, size_t image_len, const uint8_t *undo,
                     size_t undo_len, uint8_t *handed, size_t handed_len, uint32_t block, uint64_t *set);

/* The block has landed: its changes in flight commit. Tests 2, 3, 14. */
uint32_t board_complete(uint8_t *table, size_t table_len, uint32_t block);

/* Block x has landed, and block y is to go: board_complete of x, then board_write of y on the table that this gave; x and y may be
 * the same. Returns the completion's answer: tests 2, 3, 14. second: the write's, which tests as board_write does (1, 2, 3, 11, 12,
 * 13; the buffers are judged only now), or BOARD_NOT_TRIED where completing was refused, and then no byte changes. Where only the
 * write is refused the completion stands, and `handed` keeps its bytes. set: as of board_write, 0 unless the write was granted. */
uint32_t board_complete_write(uint8_t *table, size_t table_len, const uint8_t *image, size_t image_len, const uint8_t *undo,
                              size_t undo_len, uint8_t *handed, size_t handed_len, uint32_t x, uint32_t y, uint32_t *second,
                              uint64_t *set);

/* Where the patch with the number is, and so all changes answered it. state: 1 waiting, 2 in flight, 3 committed, as
 * every old number is. Tests 2, 7 (0, or not below next). */
uint32_t board_ask(const uint8_t *table, size_t table_len, uint32_t asked, uint32_t *state);

/* count: how many patches of the block wait; the changes of one number are one patch. Tests 2, 3. */
uint32_t board_count(const uint8_t *table, size_t table_len, uint32_t block, uint32_t *count);

/* RECORDING: a call's record, in `record`. length: how many bytes it has. Each tests 1, then 16. */
uint32_t board_record_open(uint8_t *record, size_t record_len, uint32_t first, uint32_t *length);
uint32_t board_record_create(uint8_t *record, size_t record_len, uint32_t block, uint32_t offset, const uint8_t *bytes,
                             size_t bytes_len, const uint32_t *named, size_t named_len, uint32_t *length);
uint32_t board_record_write(uint8_t *record, size_t record_len, uint32_t block, uint32_t *length);
uint32_t board_record_complete(uint8_t *record, size_t record_len, uint32_t block, uint32_t *length);
/* first: what board_complete_write returned. length: 4, or 8 where first is 0. 16 where x is above 255, or first is 0 and y is. */
uint32_t board_record_complete_write(uint8_t *record, size_t record_len, uint32_t x, uint32_t y, uint32_t first,
                                     uint32_t *length);
uint32_t board_record_cut(uint8_t *record, size_t record_len, uint64_t landed, uint32_t *length);

#ifdef __cplusplus
}
#endif
#endif
