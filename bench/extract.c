/* extract SET FILE OUT IMAGE..: writes the records of one file of a set as lines, as `tape extract` does, and
   prints the same lines. Plain C over buffered stdio. docs/FORMATS.md, 'Reading a file' and 'Records in blocks', has the
   rules: labels, the order of marks, section and sequence numbers, block counts, counts and indicators of units, span
  order and padding are all checked.
   The lines are written as they come: if the file is incomplete, OUT contains a prefix of it. */
#define _GNU_SOURCE
#include <stdlib.h>

#define fread fread_unlocked /* there is only one thread: the locks of stdio are not part of the comparison */
#include "blocks.h"
#include "image.h"
#include "labels.h"

enum state { GOES_ON, SECTION_DONE, COMPLETE, REFUSED };

struct extract {
    char set[7];
    unsigned file, section;      /* expected next */
    unsigned long long blocks; /* of the expected section, already recovered */
    unsigned long long seen; /* of the current section */
    unsigned long long records; /* finished */
    int known, begun; /* the identifier and shape of the file are known; a record is unfinished */
    char name[18];
    struct shape shape;
    struct file_label first; /* HDR1 of the current section */
    FILE *out;
    const char *why; /* why the reel was refused */
};

static struct image image;
static struct extract extract;

static void stop(const char *why)
{
    fprintf(stderr, "%s\n", why);
    exit(1);
}

/* ---- one block ---- */

static inline void put_text(const unsigned char *bytes, size_t count, int ends)
{
    if (fwrite_unlocked(bytes, 1, count, extract.out) != count || (ends && putc_unlocked('\n', extract.out) == EOF))
        stop("the output cannot be written");
}

static inline enum state refuse(const char *why)
{
    extract.why = why;
    return REFUSED;
}

static inline enum state read_block(void)
{
    struct walk walk;
    unsigned long long records = extract.records;
    begin_walk(&walk, &extract.shape, extract.begun, image.data, image.length);
    while (next_part(&walk, &extract.shape)) {
        put_text(walk.bytes, walk.count, !walk.begun);
        extract.records += !walk.begun;
    }
    if (walk.cause != NO_FAULT) {
        extract.records = records;
        return refuse("BAD BLOCK");
    }
    extract.begun = walk.begun;
    extract.blocks++;
    return GOES_ON;
}

/* ---- labels ---- */

static enum state wanted_section(const struct file_label *first)
{
    if (strcmp(first->set, extract.set) != 0)
        return refuse("OTHER SET");
    if (first->sequence != extract.file)
        return first->sequence < extract.file ? GOES_ON : refuse("NOT ON REEL");
    if (first->section != extract.section)
        return refuse(first->section < extract.section ? "EARLIER SECTION" : "LATER SECTION");
    if (extract.known && strcmp(first->file, extract.name) != 0)
        return refuse("SECTION DIFFERS");
    return GOES_ON;
}

static enum state second_header(void)
{
    char format;
    unsigned record_length, offset;
    if (!read_second(image.data, &format, &record_length, &offset))
        return refuse("BAD LABEL");
    if (extract.known && (format != extract.shape.format || offset != extract.shape.offset
            || (format == 'F' && record_length != extract.shape.record_length)))
        return refuse("SECTION DIFFERS");
    extract.shape = (struct shape){ format, LONGEST_BLOCK, record_length, offset, 0 };
    memcpy(extract.name, extract.first.file, sizeof extract.name);
    extract.known = 1;
    return GOES_ON;
}

static enum state trailer(int wanted)
{
    struct file_label last;
    int ends = is_label(image.data, image.length, "EOF1");
    if ((!ends && !is_label(image.data, image.length, "EOV1")) || !read_first(image.data, 1, &last))
        return refuse("BAD LABEL");
    if (last.section != extract.first.section || last.sequence != extract.first.sequence)
        return refuse("SECTION DIFFERS");
    if (!wanted)
        return GOES_ON;
    if (last.blocks != extract.seen % 1000000)
        return refuse("BLOCK COUNT");
    if (ends && extract.begun)
        return refuse("SPAN LEFT");
    extract.blocks = 0;
    extract.section += !ends;
    return ends ? COMPLETE : SECTION_DONE;
}

/* ---- one reel ---- */

static enum state broken_off(enum item item)
{
    return refuse(item == BAD ? "BAD ITEM" : item == MARK || item == BLOCK ? "BAD LABEL" : "REEL ENDED");
}

/* skips labels up to a mark */
static enum state to_mark(void)
{
    enum item item;
    while ((item = next_item(&image)) == BLOCK)
        ;
    return item == MARK ? GOES_ON : broken_off(item);
}

/* data up to the mark; those of a skipped section, and those already recovered, are not checked */
static enum state data(int wanted)
{
    enum item item;
    for (extract.seen = 0; (item = next_item(&image)) == BLOCK || item == BAD; extract.seen++) {
        if (!wanted || extract.seen < extract.blocks)
            continue;
        if (item == BAD)
            return refuse("BAD ITEM");
        if (read_block() == REFUSED)
            return REFUSED;
    }
    if (item == MARK && wanted && extract.seen < extract.blocks)
        return refuse("SECTION DIFFERS");
    return item == MARK ? GOES_ON : broken_off(item);
}

/* after HDR1, up to the mark after the trailer labels */
static enum state section(int wanted)
{
    enum item item = next_item(&image);
    enum state state;
    if (item != BLOCK)
        return broken_off(item);
    if (!is_label(image.data, image.length, "HDR2"))
        return refuse("BAD LABEL");
    if (wanted && second_header() == REFUSED)
        return REFUSED;
    if (to_mark() == REFUSED || data(wanted) == REFUSED)
        return REFUSED;
    item = next_item(&image);
    if (item != BLOCK)
        return broken_off(item);
    state = trailer(wanted);
    return state == GOES_ON ? to_mark() : state;
}

static enum state read_sections(enum item item)
{
    for (;; item = next_item(&image)) {
        if (item != BLOCK)
            return item == MARK ? refuse("NOT ON REEL") : broken_off(item);
        if (!is_label(image.data, image.length, "HDR1") || !read_first(image.data, 0, &extract.first))
            return refuse("BAD LABEL");
        enum state state = wanted_section(&extract.first);
        if (state == GOES_ON)
            state = section(extract.first.sequence == extract.file);
        if (state != GOES_ON)
            return state;
    }
}

static enum state read_reel(void)
{
    enum item item = next_item(&image);
    if (item != BLOCK || !is_label(image.data, image.length, "VOL1"))
        return item == BAD || item > BAD ? broken_off(item) : refuse("NOT LABELLED");
    do
        item = next_item(&image);
    while (item == BLOCK && (is_label(image.data, image.length, "VOL") || is_label(image.data, image.length, "UVL")));
    if (item == MARK || (item == BLOCK && !is_label(image.data, image.length, "HDR1")))
        return refuse("NOT LABELLED");
    return read_sections(item);
}

static enum state read_image(int number, const char *path)
{
    image.in = fopen(path, "rb");
    image.place = 0;
    if (!image.in)
        return printf("REEL %d NOT OPENED\n", number), GOES_ON;
    enum state state = read_reel();
    fclose(image.in);
    printf("REEL %d %s\n", number, state == COMPLETE ? "COMPLETE" : state == SECTION_DONE ? "SECTION DONE" : extract.why);
    return state;
}

/* ---- the program ---- */

int main(int words, char **word)
{
    enum state state = GOES_ON;
    if (words < 5)
        return fputs("usage: extract SET FILE OUT IMAGE..\n", stderr), 2;
    snprintf(extract.set, sizeof extract.set, "%-6.6s", word[1]);
    extract.file = (unsigned)strtoul(word[2], NULL, 10);
    extract.section = 1;
    if (!(extract.out = fopen(word[3], "wb")))
        stop("the output cannot be made");
    for (int i = 4; i < words && state != COMPLETE; i++)
        state = read_image(i - 3, word[i]);
    if (state != COMPLETE)
        return printf("AWAITS %u %u %llu\n", extract.file, extract.section, extract.blocks), 3;
    if (fclose(extract.out) != 0)
        stop("the output cannot be written");
    printf("COMPLETE %llu\n", extract.records);
    return fflush(stdout) != 0;
}
