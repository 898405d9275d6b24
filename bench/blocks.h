/* Records in blocks, plain C, for comparison: a walk that checks a block and returns its parts, and a
   packer. docs/FORMATS.md, 'Records in blocks', has the rules. */
#ifndef BLOCKS_H
#define BLOCKS_H

#include <stddef.h>
#include <stdint.h>
#include <string.h>

#define CIRCUMFLEX '^'
#define LEAST_PADDED 18u

struct shape {
    char format; /* F, D, S */
    uint32_t block_length, record_length, offset;
    int pad_full;
};

enum span { WHOLE, FIRST, MIDDLE, LAST };
enum cause { NO_FAULT, SHORT_OFFSET, NOT_MULTIPLE, BAD_COUNT, PAST_END, BAD_INDICATOR, SPAN_BROKEN, BAD_PADDING };

/* ---- reading: one part after another, checked as it comes ---- */

struct walk {
    const unsigned char *block;
    size_t length, place;
    int begun; /* a record is unfinished */
    enum cause cause;
    size_t fault_place;
    enum span span; /* of the last part returned, like its bytes and their number */
    const unsigned char *bytes;
    size_t count;
};

static inline int fault(struct walk *walk, enum cause cause, size_t place)
{
    walk->cause = cause;
    walk->fault_place = place;
    return 0;
}

static inline void begin_walk(struct walk *walk, const struct shape *shape, int begun, const unsigned char *block, size_t length)
{
    memset(walk, 0, sizeof *walk);
    walk->block = block;
    walk->length = length;
    walk->begun = begun;
    walk->place = shape->offset;
    if (length < shape->offset) {
        walk->place = length;
        fault(walk, SHORT_OFFSET, 0);
    }
}

static inline size_t first_other(const struct walk *walk)
{
    size_t at = walk->place;
    while (at < walk->length && walk->block[at] == CIRCUMFLEX)
        at++;
    return at;
}

static inline int padding(struct walk *walk)
{
    size_t at = first_other(walk);
    if (at < walk->length)
        return fault(walk, BAD_PADDING, at);
    walk->place = walk->length;
    return 0;
}

static inline int rest_of_fixed(struct walk *walk)
{
    if (first_other(walk) < walk->length)
        return fault(walk, NOT_MULTIPLE, walk->place);
    walk->place = walk->length;
    return 0;
}

static inline int part(struct walk *walk, enum span span, size_t head, size_t unit)
{
    if ((span == MIDDLE || span == LAST) != walk->begun)
        return fault(walk, SPAN_BROKEN, walk->place);
    walk->span = span;
    walk->begun = span == FIRST || span == MIDDLE;
    walk->bytes = walk->block + walk->place + head;
    walk->count = unit - head;
    walk->place += unit;
    return 1;
}

/* the length of the unit from the four digits at the end of its head; 0 if they are not digits or too few */
static inline size_t unit_length(const struct walk *walk, size_t head)
{
    size_t value = 0;
    if (walk->length - walk->place < head)
        return 0;
    for (size_t at = walk->place + head - 4; at < walk->place + head; at++) {
        unsigned digit = walk->block[at] - (unsigned)'0';
        if (digit > 9)
            return 0;
        value = value * 10 + digit;
    }
    return value < head ? 0 : value;
}

static inline int counted(struct walk *walk, enum span span, size_t head)
{
    size_t unit = unit_length(walk, head);
    if (unit == 0)
        return fault(walk, BAD_COUNT, walk->place);
    if (unit > walk->length - walk->place)
        return fault(walk, PAST_END, walk->place);
    return part(walk, span, head, unit);
}

/* 1 if a part was returned; 0 at the end of the block or at a fault */
static inline int next_part(struct walk *walk, const struct shape *shape)
{
    if (walk->cause != NO_FAULT || walk->place == walk->length)
        return 0;
    if (shape->format == 'F')
        return walk->length - walk->place < shape->record_length ? rest_of_fixed(walk)
                                                                 : part(walk, WHOLE, 0, shape->record_length);
    unsigned char front = walk->block[walk->place];
    if (front == CIRCUMFLEX)
        return padding(walk);
    if (shape->format == 'D')
        return counted(walk, WHOLE, 4);
    if (front < '0' || front > '3')
        return fault(walk, BAD_INDICATOR, walk->place);
    return counted(walk, (enum span)(front - '0'), 5);
}

/* ---- writing ---- */

struct packer {
    struct shape shape;
    unsigned char block[99999];
    size_t used;
    int begun; /* a record continues in the next block */
};

static inline void begin_packer(struct packer *packer, struct shape shape)
{
    packer->shape = shape;
    packer->used = shape.offset;
    packer->begun = 0;
    memset(packer->block, ' ', shape.offset);
}

/* pads the current block and returns its length; 0 if it contains no part */
static inline size_t take_block(struct packer *packer)
{
    const struct shape *shape = &packer->shape;
    size_t used = packer->used, length = used;
    if (used == shape->offset)
        return 0;
    if (shape->format != 'F' && length < LEAST_PADDED)
        length = LEAST_PADDED;
    if (shape->pad_full)
        length = shape->block_length;
    memset(packer->block + used, CIRCUMFLEX, length - used);
    packer->used = shape->offset;
    return length;
}

static inline void put_count(unsigned char *at, size_t value)
{
    at[0] = '0' + value / 1000;
    at[1] = '0' + value / 100 % 10;
    at[2] = '0' + value / 10 % 10;
    at[3] = '0' + value % 10;
}

/* accepts bytes of the rest of a record; BLOCK_FULL if the block must be taken and the rest offered again */
#define BLOCK_FULL ((size_t)1 << 63)
static inline size_t offer(struct packer *packer, const unsigned char *rest, size_t count)
{
    const struct shape *shape = &packer->shape;
    unsigned char *at = packer->block + packer->used;
    size_t free = shape->block_length - packer->used, head = shape->format == 'D' ? 4 : 0;
    if (shape->format != 'S') {
        if (free < head + count)
            return BLOCK_FULL;
        if (head)
            put_count(at, head + count);
        memcpy(at + head, rest, count);
        packer->used += head + count;
        return count;
    }
    if (free < 6)
        return BLOCK_FULL;
    size_t taken = count <= free - 5 ? count : free - 5;
    int goes_on = taken < count;
    at[0] = '0' + (packer->begun ? (goes_on ? MIDDLE : LAST) : (goes_on ? FIRST : WHOLE));
    put_count(at + 1, 5 + taken);
    memcpy(at + 5, rest, taken);
    packer->used += 5 + taken;
    packer->begun = goes_on;
    return goes_on ? BLOCK_FULL | taken : taken;
}

#endif
