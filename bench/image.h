/* Reads the items of a tape image by buffered stdio: plain C, for comparison.
   docs/FORMATS.md, 'Images', has the rules. */
#ifndef IMAGE_H
#define IMAGE_H

#include <stdint.h>
#include <stdio.h>

#define LONGEST_BLOCK 99999u
#define IMAGE_LIMIT 4294967295ull

enum item { MARK, BLOCK, BAD, END_MARKED, END_PHYSICAL, FAULT };
enum image_cause { TRUNCATED = 1, LENGTHS_DIFFER, RESERVED, TOO_LONG, DEVICE };

struct image {
    FILE *in;
    uint64_t place; /* the offset of the current encoding */
    uint32_t length; /* of the last block returned */
    enum image_cause cause; /* of the fault */
    unsigned char data[LONGEST_BLOCK + 1];
};

static inline uint32_t word_of(const unsigned char *bytes)
{
    return bytes[0] | (uint32_t)bytes[1] << 8 | (uint32_t)bytes[2] << 16 | (uint32_t)bytes[3] << 24;
}

static inline enum item fail(struct image *image, enum image_cause cause)
{
    image->cause = cause;
    return FAULT;
}

/* the bytes ended, or the reader failed */
static inline enum item cut(struct image *image)
{
    return fail(image, ferror(image->in) ? DEVICE : TRUNCATED);
}

/* skips the data of a long block; 0 if the image ends inside them */
static inline int pass(struct image *image, uint32_t count)
{
    while (count > 0) {
        uint32_t piece = count < LONGEST_BLOCK ? count : LONGEST_BLOCK;
        if (fread(image->data, 1, piece, image->in) != piece)
            return 0;
        count -= piece;
    }
    return 1;
}

static inline enum item next_block(struct image *image, uint32_t word)
{
    uint32_t length = word & 0xFFFFFF, padded = length + length % 2;
    unsigned char trailing[4];
    if (length == 0 || (word >> 24 != 0x00 && word >> 24 != 0x80))
        return fail(image, RESERVED);
    if (image->place + 8 + padded > IMAGE_LIMIT)
        return fail(image, TOO_LONG);
    if (word > LONGEST_BLOCK) {
        if (!pass(image, padded))
            return cut(image);
    } else if (fread(image->data, 1, padded, image->in) != padded) {
        return cut(image);
    }
    if (fread(trailing, 1, 4, image->in) != 4)
        return cut(image);
    if (word_of(trailing) != word)
        return fail(image, LENGTHS_DIFFER);
    image->place += 8 + (uint64_t)padded;
    image->length = length;
    return word > LONGEST_BLOCK ? BAD : BLOCK;
}

static inline enum item next_item(struct image *image)
{
    for (;;) {
        unsigned char front[4];
        size_t count = fread(front, 1, 4, image->in);
        if (count < 4)
            return count == 0 && !ferror(image->in) ? END_PHYSICAL : cut(image);
        uint32_t word = word_of(front);
        if (word != 0 && word < 0xFFFFFFFE)
            return next_block(image, word);
        if (image->place + 4 > IMAGE_LIMIT)
            return fail(image, TOO_LONG);
        if (word == 0xFFFFFFFF)
            return END_MARKED;
        image->place += 4;
        if (word == 0)
            return MARK;
        /* an erase gap: continue */
    }
}

/* opens the image in the arguments, or standard input if there is none */
static inline FILE *open_image(int words, char **word)
{
    return words > 1 ? fopen(word[1], "rb") : stdin;
}

#endif
