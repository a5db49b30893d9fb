/* Prints the most bytes of stack that each of the seven calls was seen to take along one order: hard and soft patches, a hard
 * patch that turns a soft one, patches taken back and struck. It is what was seen, not a bound. Each step's answer is held to
 * what is expected, so that the order goes where it is said to go. Each call runs on a stack of its own that was painted
 * before; what is no longer painted was used. */
#include <stdio.h>
#include <string.h>
#include <ucontext.h>

#include "board.h"

#define STACK 262144u
#define PAINT 0xA5u

static uint8_t stack[STACK];
static uint8_t table[BOARD_TABLE], image[BOARD_IMAGE], undo[BOARD_UNDO], handed[BOARD_BLOCK];
static ucontext_t caller, callee;

enum kind { NOTHING, OPEN, CREATE, WRITE, COMPLETE, ASK, COUNT, COMPLETE_WRITE, KINDS };
static const char *names[KINDS] = {"nothing", "open", "create", "write", "complete", "ask", "count", "complete_write"};

struct step {
    enum kind kind;
    uint32_t block, offset, named, refusal; /* complete_write: block x, and y in place of the offset */
    uint64_t answer; /* create: hold; write: the set sent; complete_write: that, or the second answer where nothing went */
};

static const struct step *step;
static uint32_t refusal;
static uint64_t answer;

static void call(void)
{
    uint32_t number, hold, state, count, second;
    uint64_t set;
    uint8_t bytes[64];
    memset(bytes, 7, sizeof bytes);
    answer = 0;
    switch (step->kind) {
    case OPEN: refusal = board_open(table, sizeof table, 1); break;
    case CREATE:
        refusal = board_create(table, sizeof table, image, sizeof image, undo, sizeof undo, step->block, step->offset, bytes, 4,
                               &step->named, step->named != 0, &number, &hold);
        answer = hold;
        break;
    case WRITE:
        refusal =
            board_write(table, sizeof table, image, sizeof image, undo, sizeof undo, handed, sizeof handed, step->block, &set);
        answer = set;
        break;
    case COMPLETE: refusal = board_complete(table, sizeof table, step->block); break;
    case COMPLETE_WRITE:
        refusal = board_complete_write(table, sizeof table, image, sizeof image, undo, sizeof undo, handed, sizeof handed,
                                       step->block, step->offset, &second, &set);
        answer = second == BOARD_GRANTED ? set : second;
        break;
    case ASK: refusal = board_ask(table, sizeof table, step->named, &state); break;
    case COUNT: refusal = board_count(table, sizeof table, step->block, &count); break;
    default: refusal = 0;
    }
}

/* Bytes of the painted stack that one step used. */
static size_t used(void)
{
    memset(stack, PAINT, STACK);
    getcontext(&callee);
    callee.uc_stack.ss_sp = stack;
    callee.uc_stack.ss_size = STACK;
    callee.uc_link = &caller;
    makecontext(&callee, call, 0);
    swapcontext(&caller, &callee);
    size_t at = 0;
    while (at < STACK && stack[at] == PAINT)
        at++;
    return STACK - at;
}

int main(void)
{
    static const struct step steps[] = {
        {NOTHING, 0, 0, 0, 0, 0},
        {OPEN, 0, 0, 0, 0, 0},
        {CREATE, 1, 0, 0, 0, 1},  /* 1, hard */
        {CREATE, 2, 0, 1, 0, 1},  /* 2, hard */
        {CREATE, 1, 2, 2, 0, 2},  /* 3, soft in room 0: 2 follows 1 */
        {CREATE, 1, 40, 0, 0, 3}, /* 4, soft in room 1 */
        {CREATE, 3, 0, 3, 0, 1},
        {CREATE, 2, 80, 4, 0, 4},
        {WRITE, 3, 0, 0, 13, 0},
        {WRITE, 1, 0, 0, 0, 0x9}, /* 3 is struck and taken back */
        {WRITE, 2, 0, 0, 13, 0},
        {COMPLETE, 1, 0, 0, 0, 0},
        {WRITE, 2, 0, 0, 0, 0x22},
        {COUNT, 1, 0, 0, 0, 0},
        {ASK, 0, 0, 1, 0, 0},
        {ASK, 0, 0, 2, 0, 0},
        {ASK, 0, 0, 3, 0, 0},
        {COMPLETE, 2, 0, 0, 0, 0},
        {WRITE, 1, 0, 0, 0, 0x4},
        {COMPLETE, 1, 0, 0, 0, 0},
        {WRITE, 3, 0, 0, 0, 0x10},
        {COMPLETE, 3, 0, 0, 0, 0},
        {CREATE, 5, 0, 0, 0, 1}, /* 7 */
        {CREATE, 6, 0, 7, 0, 1}, /* 8 follows 7 */
        {CREATE, 5, 8, 8, 0, 2}, /* 9, soft, follows 8 */
        {WRITE, 5, 0, 0, 0, 0x1},
        {COMPLETE, 5, 0, 0, 0, 0},
        {CREATE, 5, 16, 0, 0, 1}, /* hard: it joins 9, which turns hard */
        {WRITE, 5, 0, 0, 13, 0},  /* so nothing goes while 9 waits for 8; a soft 9 would stay behind */
        {CREATE, 64, 0, 0, 3, 0},
        {WRITE, 64, 0, 0, 3, 0},
        {ASK, 0, 0, 99, 7, 0},
        {COMPLETE_WRITE, 5, 6, 0, 14, BOARD_NOT_TRIED},
        {WRITE, 6, 0, 0, 0, 0x2},
        {COMPLETE_WRITE, 6, 64, 0, 0, 3},
        {CREATE, 7, 0, 9, 0, 1},              /* 10 follows 9 */
        {CREATE, 5, 0, 10, 0, 2},             /* 11, soft, follows 10 */
        {CREATE, 5, 32, 0, 0, 3},             /* 12, soft */
        {CREATE, 8, 0, 0, 0, 1},              /* 13 */
        {WRITE, 8, 0, 0, 0, 0x10},
        {COMPLETE_WRITE, 8, 5, 0, 0, 0xc},    /* 11 is struck and taken back */
        {COMPLETE_WRITE, 5, 7, 0, 0, 0x1},
        {COMPLETE_WRITE, 7, 5, 0, 0, 0x2},
        {COMPLETE_WRITE, 5, 5, 0, 0, 12},
    };
    size_t most[KINDS] = {0};
    for (size_t i = 0; i < sizeof steps / sizeof steps[0]; i++) {
        step = &steps[i];
        size_t bytes = used();
        if (bytes > most[step->kind])
            most[step->kind] = bytes;
        if (refusal != step->refusal || answer != step->answer) {
            printf("step %zu: refusal %u, answer %llx\n", i, (unsigned)refusal, (unsigned long long)answer);
            return 1;
        }
    }
    for (size_t kind = OPEN; kind < KINDS; kind++)
        printf("%-14s %6zu\n", names[kind], most[kind] - most[NOTHING]);
    return 0;
}
