/* tape.h: images of labelled magnetic tapes (SIMH .tap files) in memory, for reading.
 *
 * Each call reads bytes that the caller has, for example by mmap, and writes its answer to a buffer
 * of the caller. It keeps nothing: calls do not depend on each other, and may run in several
 * threads at once. Any bytes are safe, and any size of a buffer; a pointer may be NULL if its size
 * is 0. A call allocates memory by malloc, and frees it before it returns; so make none in a signal
 * handler.
 *
 * README.md of the crate tape_c says how to build libtape_c.a and libtape_c.so.
 */
#ifndef TAPE_H
#define TAPE_H

#include <stddef.h>
#include <stdint.h>

#ifdef __cplusplus
extern "C" {
#endif

/* Why a call ended. Only with TAPE_ALL and TAPE_MISSING is the answer complete. */
enum tape_state {
    TAPE_ALL = 0,            /* everything was given */
    TAPE_TRUNCATED = 1,      /* the image ends inside an item */
    TAPE_LENGTHS_DIFFER = 2, /* the lengths before and after a block differ */
    TAPE_RESERVED = 3,       /* a length word has a value that is not assigned */
    TAPE_TOO_LONG = 4,       /* an item would end after byte 4,294,967,295 */
    TAPE_UNREADABLE = 5,     /* reading failed; in memory this does not happen */
    TAPE_NO_MEMORY = 6,      /* malloc failed */
    TAPE_FULL = 7,           /* there is more than the buffer has room for */
    TAPE_MISSING = 8         /* everything was given, and the survey says that something is missing,
                                damaged or in conflict */
};

/* The end of a call. */
struct tape_end {
    size_t count;   /* the items or bytes that were written, from the start of the buffer */
    size_t needed;  /* the room for the whole answer; more than there was exactly if TAPE_FULL.
                       tape_items does not count on: then it is count + 1 */
    uint64_t place; /* tape_items: the offset at which the items given end;
                       TAPE_TRUNCATED to TAPE_TOO_LONG: that of the item at fault; otherwise 0 */
    uint32_t state; /* an enum tape_state */
};

/* Kinds of items. */
enum tape_kind {
    TAPE_BLOCK = 1, /* a block of 1 to 99,999 bytes */
    TAPE_BAD = 2,   /* a block that was recorded with an error, or is longer */
    TAPE_MARK = 3   /* a tape mark */
};

/* An item of an image. The bytes of a block, also of a bad one, begin at image + place + 4. */
struct tape_item {
    uint64_t place;  /* the offset of the item, after any erase gaps */
    uint32_t length; /* the number of bytes of the block; 0 for a tape mark */
    uint32_t kind;   /* an enum tape_kind */
};

/* Gives the items of an image, in order. With TAPE_ALL, `place` is the offset of the end-of-medium
 * marker, or `length` if there is none. With TAPE_FULL, the next call continues with
 * `image + place` and `length - place`; its offsets count from there. */
struct tape_end tape_items(const uint8_t *image, size_t length,
                           struct tape_item *items, size_t room);

/* Kinds of labels. */
enum tape_label_kind {
    TAPE_NO_LABEL = 0,
    TAPE_VOL1 = 1,
    TAPE_HDR1 = 2,
    TAPE_HDR2 = 3,
    TAPE_EOF1 = 4,
    TAPE_EOF2 = 5,
    TAPE_EOV1 = 6,
    TAPE_EOV2 = 7
};

/* The numbers in a label; those that the label does not have are 0. The texts are in the block:
 *
 *   VOL1              volume identifier       6 characters at block + 4
 *                     owner                  14 characters at block + 37
 *   HDR1, EOF1, EOV1  file identifier        17 characters at block + 4
 *                     file set identifier     6 characters at block + 21
 *                     creation date           6 characters at block + 41
 *                     expiration date         6 characters at block + 47
 *                     system                 13 characters at block + 60
 */
struct tape_label {
    uint32_t kind;          /* an enum tape_label_kind, by length and first four characters only */
    uint32_t fault;         /* 0, or the number of the label fault: 1 it does not have 80 bytes,
                               2 it is of none of these kinds, 3 a number has a character that is
                               not a digit, 4 the record format is unknown, 5 a number is too low */
    uint32_t position;      /* for the faults 3 and 5: where the number begins, counted from 1 */
    uint32_t section;       /* HDR1, EOF1, EOV1: the file section number */
    uint32_t sequence;      /* HDR1, EOF1, EOV1: the file sequence number */
    uint32_t blocks;        /* EOF1, EOV1: the block count */
    uint32_t format;        /* HDR2, EOF2, EOV2: the letter of the record format */
    uint32_t block_length;  /* HDR2, EOF2, EOV2 */
    uint32_t record_length; /* HDR2, EOF2, EOV2 */
    uint32_t offset;        /* HDR2, EOF2, EOV2: the buffer offset */
};

/* Reads a block as a label. If `fault` is not 0, all numbers after `position` are 0. */
struct tape_label tape_label(const uint8_t *block, size_t length);

/* Gives the lines that `tape list` prints for an image. A text has no final NUL. */
struct tape_end tape_list(const uint8_t *image, size_t length, char *text, size_t room);

/* An image of a survey. */
struct tape_image {
    const uint8_t *bytes;
    size_t length;
};

/* Gives the rows that `tape survey --tsv` prints for images named 1, 2, 3 and so on, if no rule of
 * its normal form applies: SIMH images are read as they are, with labels in ASCII, and no other
 * format. Columns are separated by tabs, and a line feed ends each row. A text has no final NUL. */
struct tape_end tape_survey(const struct tape_image *images, size_t count,
                            char *text, size_t room);

#ifdef __cplusplus
}
#endif

#endif
