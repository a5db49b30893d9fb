/* The same calls and the writer as a shop would write them in C: masks, arrays, the table read from its bytes and written back, no
 * proofs. It has the functions of board.h, and serve.c linked with it in the archive's place is what the library is measured against;
 * `compare quick --plain` holds it to the second model. It knows the board's setting alone. */
#include <string.h>

#include "../board/board.h"

#define SLOTS 64u
#define SLOT_BYTES 32u
#define LAST_NUMBER 1000000000u
#define ROOMS 16u
#define ROOM_BYTES 64u

enum state { FREE, WAITING_HARD, WAITING_SOFT, IN_FLIGHT_HARD, IN_FLIGHT_SOFT, STATES };

struct slot {
    uint32_t state, room, number, block, offset, length;
    uint64_t befores;
};

struct table {
    uint32_t first, next;
    struct slot slots[SLOTS];
    /* what the walk over a sound table finds */
    uint64_t waiting, in_flight, soft;
    uint32_t rooms; /* bit r where room r is taken */
};

/* The processor is little-endian, and so are the table's numbers. */
static uint32_t number_at(const uint8_t *p)
{
    uint32_t n;
    memcpy(&n, p, sizeof n);
    return n;
}

static void put(uint8_t *p, uint32_t n)
{
    memcpy(p, &n, sizeof n);
}

static int read_table(struct table *t, const uint8_t *bytes, size_t len)
{
    if (len != BOARD_TABLE)
        return 0;
    t->first = number_at(bytes);
    t->next = number_at(bytes + 4);
    for (size_t i = 0; i < SLOTS; i++) {
        const uint8_t *p = bytes + 8 + SLOT_BYTES * i;
        struct slot *s = &t->slots[i];
        s->state = number_at(p);
        s->room = number_at(p + 4);
        s->number = number_at(p + 8);
        s->block = number_at(p + 12);
        s->offset = number_at(p + 16);
        s->length = number_at(p + 20);
        s->befores = (uint64_t)number_at(p + 28) << 32 | number_at(p + 24);
        if (s->state >= STATES)
            return 0;
    }
    return 1;
}

static void write_table(const struct table *t, uint8_t *bytes)
{
    put(bytes, t->first);
    put(bytes + 4, t->next);
    for (size_t i = 0; i < SLOTS; i++) {
        uint8_t *p = bytes + 8 + SLOT_BYTES * i;
        const struct slot *s = &t->slots[i];
        put(p, s->state);
        put(p + 4, s->state == WAITING_SOFT ? s->room : 0);
        put(p + 8, s->number);
        put(p + 12, s->block);
        put(p + 16, s->offset);
        put(p + 20, s->length);
        put(p + 24, (uint32_t)s->befores);
        put(p + 28, (uint32_t)(s->befores >> 32));
    }
}

static unsigned lowest(uint64_t set)
{
    return (unsigned)__builtin_ctzll(set);
}

static uint64_t used(const struct table *t)
{
    return t->waiting | t->in_flight;
}

/* Marks each number by its low digits; only a clash of marks asks for the long way. */
static int numbers_differ(const struct table *t)
{
    uint64_t seen[16] = {0};
    for (uint64_t rest = used(t); rest != 0; rest &= rest - 1) {
        unsigned i = lowest(rest), mark = t->slots[i].number % 1024;
        if (seen[mark / 64] >> (mark % 64) & 1)
            for (uint64_t below = used(t) & (((uint64_t)1 << i) - 1); below != 0; below &= below - 1)
                if (t->slots[lowest(below)].number == t->slots[i].number)
                    return 0;
        seen[mark / 64] |= (uint64_t)1 << (mark % 64);
    }
    return 1;
}

static int sound(struct table *t)
{
    uint64_t befores = 0;
    t->waiting = t->in_flight = t->soft = t->rooms = 0;
    if (t->first < 1 || t->first > LAST_NUMBER || t->next < t->first || t->next > LAST_NUMBER + 1)
        return 0;
    for (unsigned i = 0; i < SLOTS; i++) {
        const struct slot *s = &t->slots[i];
        uint64_t bit = (uint64_t)1 << i;
        if (s->state == FREE)
            continue;
        if (s->state >= IN_FLIGHT_HARD)
            t->in_flight |= bit;
        else
            t->waiting |= bit;
        if (s->state == WAITING_SOFT) {
            if (s->room >= ROOMS || (t->rooms >> s->room & 1))
                return 0;
            t->soft |= bit;
            t->rooms |= (uint32_t)1 << s->room;
        }
        if (s->length < 1 || s->length > 64 || s->offset > BOARD_BLOCK - s->length || s->block > 63 || (s->befores & bit) != 0 ||
            s->number < t->first || s->number >= t->next)
            return 0;
        befores |= s->befores;
    }
    return (befores & ~used(t)) == 0 && numbers_differ(t);
}

static uint64_t on_block(const struct table *t, uint64_t among, uint32_t block)
{
    uint64_t set = 0;
    for (; among != 0; among &= among - 1)
        if (t->slots[lowest(among)].block == block)
            set |= among & -among;
    return set;
}

/* The slot in use that has the number; SLOTS where there is none. */
static unsigned slot_of(const struct table *t, uint32_t number)
{
    for (uint64_t rest = used(t); rest != 0; rest &= rest - 1)
        if (t->slots[lowest(rest)].number == number)
            return lowest(rest);
    return SLOTS;
}

/* Those below first were issued before this opening: they are in no slot, so they have committed. */
static int issued(const struct table *t, uint32_t number)
{
    return number != 0 && number < t->next;
}

uint32_t board_open(uint8_t *table, size_t table_len, uint32_t first)
{
    struct table t;
    if (table_len != BOARD_TABLE)
        return 2;
    int refused = first == 0 || first > LAST_NUMBER;
    memset(&t, 0, sizeof t);
    t.first = t.next = refused ? 1 : first;
    write_table(&t, table);
    return refused ? 15 : 0;
}

/* The refusals of create before 8. */
static uint32_t judge_create(struct table *t, uint32_t block, uint32_t offset, size_t len, const uint32_t *named, size_t named_len)
{
    if (!sound(t))
        return 2;
    if (block > 63)
        return 3;
    if (len == 0 || len > 64)
        return 4;
    if (offset > BOARD_BLOCK - len)
        return 5;
    if (named_len > 8)
        return 6;
    for (size_t i = 0; i < named_len; i++)
        if (!issued(t, named[i]))
            return 7;
    return 0;
}

/* Whether a slot in use has a patch of the block without old bytes. */
static int hard_on(const struct slot *s, uint32_t block)
{
    return s->block == block && (s->state == WAITING_HARD || s->state == IN_FLIGHT_HARD);
}

static uint64_t named_slots(const struct table *t, const uint32_t *named, size_t named_len)
{
    uint64_t set = 0;
    for (size_t i = 0; i < named_len; i++) {
        unsigned slot = slot_of(t, named[i]);
        if (slot < SLOTS)
            set |= (uint64_t)1 << slot;
    }
    return set;
}

static uint64_t befores_of(const struct table *t, const struct slot *new, uint64_t named)
{
    uint64_t befores = named;
    for (uint64_t rest = used(t); rest != 0; rest &= rest - 1) {
        const struct slot *s = &t->slots[lowest(rest)];
        int overlaps = s->block == new->block && s->offset < new->offset + new->length && new->offset < s->offset + s->length;
        if (overlaps || hard_on(s, new->block))
            befores |= rest & -rest;
    }
    return befores;
}

/* Whether a patch on another block has one of the set among its befores. */
static int followed(const struct table *t, uint64_t set, uint32_t block)
{
    for (uint64_t rest = used(t); rest != 0; rest &= rest - 1) {
        const struct slot *s = &t->slots[lowest(rest)];
        if ((s->befores & set) != 0 && s->block != block)
            return 1;
    }
    return 0;
}

static unsigned lowest_numbered(const struct table *t, uint64_t set)
{
    unsigned found = lowest(set);
    for (uint64_t rest = set & (set - 1); rest != 0; rest &= rest - 1)
        if (t->slots[lowest(rest)].number < t->slots[found].number)
            found = lowest(rest);
    return found;
}

static void turn_hard(struct table *t, uint64_t set)
{
    for (; set != 0; set &= set - 1)
        t->slots[lowest(set)].state = WAITING_HARD;
}

/* A hard change beside waiting patches of its block goes with the lowest-numbered of them. Gives its slot. */
static unsigned join(struct table *t, uint64_t here, uint32_t block, uint64_t named)
{
    unsigned joined = lowest_numbered(t, here);
    turn_hard(t, here & t->soft);
    t->slots[joined].befores |= named & ~on_block(t, named, block);
    return joined;
}

/* A patch of its own. Gives its slot. */
static unsigned add(struct table *t, struct slot new, int soft, uint64_t named, uint8_t *undo, const uint8_t *place)
{
    unsigned slot = lowest(~used(t));
    new.befores = befores_of(t, &new, named);
    if (soft) {
        new.state = WAITING_SOFT;
        new.room = (uint32_t)__builtin_ctz(~t->rooms);
        memcpy(undo + ROOM_BYTES * new.room, place, new.length);
    }
    t->slots[slot] = new;
    t->next++;
    return slot;
}

uint32_t board_create(uint8_t *table, size_t table_len, uint8_t *image, size_t image_len, uint8_t *undo, size_t undo_len,
                      uint32_t block, uint32_t offset, const uint8_t *bytes, size_t bytes_len, const uint32_t *named,
                      size_t named_len, uint32_t *number, uint32_t *hold)
{
    struct table t;
    *number = *hold = 0;
    if (image_len != BOARD_IMAGE || undo_len != BOARD_UNDO)
        return 1;
    if (!read_table(&t, table, table_len))
        return 2;
    uint32_t refusal = judge_create(&t, block, offset, bytes_len, named, named_len);
    if (refusal != 0)
        return refusal;
    uint64_t here = on_block(&t, t.waiting, block);
    int soft = followed(&t, here, block), joins = !soft && here != 0;
    if (!joins && t.next > LAST_NUMBER)
        return 8;
    if (!joins && ~used(&t) == 0)
        return 9;
    if (soft && t.rooms == 0xFFFFu)
        return 10;
    struct slot new = {WAITING_HARD, 0, t.next, block, offset, (uint32_t)bytes_len, 0};
    uint64_t before = named_slots(&t, named, named_len);
    uint8_t *place = image + BOARD_BLOCK * block + offset;
    const struct slot *has = &t.slots[joins ? join(&t, here, block, before) : add(&t, new, soft, before, undo, place)];
    memcpy(place, bytes, bytes_len);
    write_table(&t, table);
    *number = has->number;
    *hold = soft ? 2 + has->room : 1;
    return 0;
}

/* The largest set of the block's waiting patches that may go; empty where a hard one is struck. */
static uint64_t largest(const struct table *t, uint64_t waiting)
{
    uint64_t kept = waiting, began;
    do {
        began = kept;
        for (uint64_t rest = began; rest != 0; rest &= rest - 1) {
            unsigned i = lowest(rest);
            if ((t->slots[i].befores & ~kept) == 0)
                continue;
            if (!(t->soft >> i & 1))
                return 0;
            kept &= ~((uint64_t)1 << i);
        }
    } while (kept != began);
    return kept;
}

/* Takes the patches of the set back, highest number first. */
static void take_back(const struct table *t, uint64_t left, const uint8_t *undo, uint8_t *handed)
{
    while (left != 0) {
        unsigned last = lowest(left);
        for (uint64_t rest = left & (left - 1); rest != 0; rest &= rest - 1)
            if (t->slots[lowest(rest)].number > t->slots[last].number)
                last = lowest(rest);
        const struct slot *s = &t->slots[last];
        memcpy(handed + s->offset, undo + ROOM_BYTES * s->room, s->length);
        left &= ~((uint64_t)1 << last);
    }
}

uint32_t board_write(uint8_t *table, size_t table_len, const uint8_t *image, size_t image_len, const uint8_t *undo,
                     size_t undo_len, uint8_t *handed, size_t handed_len, uint32_t block, uint64_t *set)
{
    struct table t;
    *set = 0;
    if (image_len != BOARD_IMAGE || undo_len != BOARD_UNDO || handed_len != BOARD_BLOCK)
        return 1;
    if (!read_table(&t, table, table_len) || !sound(&t))
        return 2;
    if (block > 63)
        return 3;
    if (on_block(&t, t.in_flight, block) != 0)
        return 11;
    uint64_t waiting = on_block(&t, t.waiting, block);
    if (waiting == 0)
        return 12;
    uint64_t sent = largest(&t, waiting);
    if (sent == 0)
        return 13;
    memcpy(handed, image + BOARD_BLOCK * block, BOARD_BLOCK);
    take_back(&t, waiting & ~sent, undo, handed);
    for (uint64_t rest = sent; rest != 0; rest &= rest - 1) {
        struct slot *s = &t.slots[lowest(rest)];
        s->state = s->state == WAITING_SOFT ? IN_FLIGHT_SOFT : IN_FLIGHT_HARD;
    }
    write_table(&t, table);
    *set = sent;
    return 0;
}

uint32_t board_complete(uint8_t *table, size_t table_len, uint32_t block)
{
    struct table t;
    if (!read_table(&t, table, table_len) || !sound(&t))
        return 2;
    if (block > 63)
        return 3;
    uint64_t landed = on_block(&t, t.in_flight, block);
    if (landed == 0)
        return 14;
    for (uint64_t rest = used(&t); rest != 0; rest &= rest - 1) {
        struct slot *s = &t.slots[lowest(rest)];
        if (landed & rest & -rest)
            memset(s, 0, sizeof *s);
        else
            s->befores &= ~landed;
    }
    write_table(&t, table);
    return 0;
}

uint32_t board_complete_write(uint8_t *table, size_t table_len, const uint8_t *image, size_t image_len, const uint8_t *undo,
                              size_t undo_len, uint8_t *handed, size_t handed_len, uint32_t x, uint32_t y, uint32_t *second,
                              uint64_t *set)
{
    *second = BOARD_NOT_TRIED;
    *set = 0;
    uint32_t first = board_complete(table, table_len, x);
    if (first == BOARD_GRANTED)
        *second = board_write(table, table_len, image, image_len, undo, undo_len, handed, handed_len, y, set);
    return first;
}

uint32_t board_ask(const uint8_t *table, size_t table_len, uint32_t asked, uint32_t *state)
{
    struct table t;
    *state = 0;
    if (!read_table(&t, table, table_len) || !sound(&t))
        return 2;
    if (!issued(&t, asked))
        return 7;
    unsigned slot = slot_of(&t, asked);
    *state = slot == SLOTS ? 3 : t.waiting >> slot & 1 ? 1 : 2;
    return 0;
}

uint32_t board_count(const uint8_t *table, size_t table_len, uint32_t block, uint32_t *count)
{
    struct table t;
    *count = 0;
    if (!read_table(&t, table, table_len) || !sound(&t))
        return 2;
    if (block > 63)
        return 3;
    *count = (uint32_t)__builtin_popcountll(on_block(&t, t.waiting, block));
    return 0;
}

#define LONGEST_VALUE 1200u

/* A number's low bytes, high byte first. */
static uint8_t *put_high_first(uint8_t *p, uint64_t n, unsigned bytes)
{
    while (bytes-- > 0)
        *p++ = (uint8_t)(n >> 8 * bytes);
    return p;
}

/* Tag, length and a value that is one number. */
static uint8_t *put_whole(uint8_t *p, uint8_t tag, uint64_t value, unsigned bytes)
{
    *p = tag;
    return put_high_first(put_high_first(p + 1, bytes, 2), value, bytes);
}

/* A record whose value is one number. */
static uint32_t put_record(uint8_t *record, size_t record_len, uint8_t tag, uint64_t value, unsigned bytes, uint32_t *length)
{
    *length = 0;
    if (record_len != BOARD_RECORD_BYTES)
        return BOARD_BUFFER_SIZE;
    if (bytes < 8 && value >> 8 * bytes != 0)
        return BOARD_NO_RECORD;
    *length = (uint32_t)(put_whole(record, tag, value, bytes) - record);
    return BOARD_GRANTED;
}

uint32_t board_record_open(uint8_t *record, size_t record_len, uint32_t first, uint32_t *length)
{
    return put_record(record, record_len, 1, first, 4, length);
}

uint32_t board_record_create(uint8_t *record, size_t record_len, uint32_t block, uint32_t offset, const uint8_t *bytes,
                             size_t bytes_len, const uint32_t *named, size_t named_len, uint32_t *length)
{
    *length = 0;
    if (record_len != BOARD_RECORD_BYTES)
        return BOARD_BUFFER_SIZE;
    if (block > 255 || offset > 65535 || named_len > 255 || bytes_len > LONGEST_VALUE - 4 - 4 * named_len)
        return BOARD_NO_RECORD;
    size_t value = 4 + 4 * named_len + bytes_len;
    record[0] = 2;
    put_high_first(record + 1, value, 2);
    record[3] = (uint8_t)block;
    put_high_first(record + 4, offset, 2);
    record[6] = (uint8_t)named_len;
    uint8_t *p = record + 7;
    for (size_t i = 0; i < named_len; i++)
        p = put_high_first(p, named[i], 4);
    memcpy(p, bytes, bytes_len);
    *length = (uint32_t)(3 + value);
    return BOARD_GRANTED;
}

uint32_t board_record_write(uint8_t *record, size_t record_len, uint32_t block, uint32_t *length)
{
    return put_record(record, record_len, 3, block, 1, length);
}

uint32_t board_record_complete(uint8_t *record, size_t record_len, uint32_t block, uint32_t *length)
{
    return put_record(record, record_len, 4, block, 1, length);
}

uint32_t board_record_complete_write(uint8_t *record, size_t record_len, uint32_t x, uint32_t y, uint32_t first,
                                     uint32_t *length)
{
    *length = 0;
    if (record_len != BOARD_RECORD_BYTES)
        return BOARD_BUFFER_SIZE;
    int tried = first == BOARD_GRANTED;
    if (x > 255 || (tried && y > 255))
        return BOARD_NO_RECORD;
    uint8_t *end = put_whole(record, 4, x, 1);
    if (tried)
        end = put_whole(end, 3, y, 1);
    *length = (uint32_t)(end - record);
    return BOARD_GRANTED;
}

uint32_t board_record_cut(uint8_t *record, size_t record_len, uint64_t landed, uint32_t *length)
{
    return put_record(record, record_len, 5, landed, 8, length);
}
