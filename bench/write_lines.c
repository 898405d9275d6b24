/* write_lines FOLDER PREFIX CAPACITY FORMAT BLOCK RECORD IDENTIFIER=PATH..: writes the lines of files as a file set on
   tape images, as `tape write` does, and prints the same lines. Plain C; the lines are read by getline. The images are
   written with a buffer of 8,192 bytes; with stdio, small blocks take twice as long. docs/FORMATS.md, 'Written images',
   'Written blocks' and 'Written sets', has the rules. */
#define _GNU_SOURCE
#include <fcntl.h>
#include <stdio.h>
#include <stdlib.h>
#include <unistd.h>

#include "blocks.h"
#include "labels.h"

#define MARK_BYTES 4
#define LABEL_BYTES 88
#define HEADERS (2 * LABEL_BYTES + MARK_BYTES)
#define FILE_END (MARK_BYTES + 2 * LABEL_BYTES + MARK_BYTES)
#define VOLUME_END (FILE_END + 2 * MARK_BYTES)
#define MOST_VOLUMES 999
#define BUFFER 8192

struct file_set {
    const char *folder, *prefix;
    uint64_t capacity, used; /* of the current volume */
    unsigned volume, files;
    int out;
    size_t held; /* bytes in the buffer */
    unsigned char buffer[BUFFER];
    struct file_label file;
    struct packer packer;
};

static inline void stop(const char *why)
{
    fprintf(stderr, "%s\n", why);
    exit(1);
}

static inline void begin_set(struct file_set *set, const char *folder, const char *prefix, uint64_t capacity)
{
    memset(set, 0, sizeof *set);
    set->folder = folder;
    set->prefix = prefix;
    set->capacity = capacity;
    snprintf(set->file.set, sizeof set->file.set, "%.3s001", prefix);
}

/* ---- items ---- */

static inline void write_all(struct file_set *set, const unsigned char *bytes, size_t count)
{
    while (count > 0) {
        ssize_t written = write(set->out, bytes, count);
        if (written <= 0)
            stop("an image cannot be written");
        bytes += written;
        count -= (size_t)written;
    }
}

static inline void flush(struct file_set *set)
{
    write_all(set, set->buffer, set->held);
    set->held = 0;
}

static inline void put_bytes(struct file_set *set, const void *bytes, size_t count)
{
    if (count > BUFFER - set->held)
        flush(set);
    if (count < BUFFER) {
        memcpy(set->buffer + set->held, bytes, count);
        set->held += count;
    } else {
        write_all(set, bytes, count);
    }
    set->used += count;
}

static inline void put_word(struct file_set *set, uint32_t word)
{
    unsigned char bytes[4] = { word & 0xFF, word >> 8 & 0xFF, word >> 16 & 0xFF, word >> 24 };
    put_bytes(set, bytes, 4);
}

static inline void put_mark(struct file_set *set)
{
    put_word(set, 0);
}

static inline void put_block(struct file_set *set, const void *bytes, uint32_t length)
{
    put_word(set, length);
    put_bytes(set, bytes, length);
    put_bytes(set, "", length % 2);
    put_word(set, length);
}

/* ---- label groups ---- */

static inline void put_labels(struct file_set *set, const char *first, const char *second)
{
    const struct shape *shape = &set->packer.shape;
    char text[LABEL + 1];
    first_label(text, first, &set->file);
    put_block(set, text, LABEL);
    second_label(text, second, shape->format, shape->block_length, shape->record_length, shape->offset);
    put_block(set, text, LABEL);
    put_mark(set);
}

static inline void begin_section(struct file_set *set)
{
    set->file.blocks = 0;
    put_labels(set, "HDR1", "HDR2");
}

static inline void end_section(struct file_set *set, const char *first, const char *second)
{
    put_mark(set);
    put_labels(set, first, second);
}

/* ---- volumes ---- */

static inline void volume_name(const struct file_set *set, char *name)
{
    snprintf(name, 7, "%.3s%03u", set->prefix, set->volume % 1000);
}

static inline void begin_volume(struct file_set *set)
{
    char path[4096], name[7], text[LABEL + 1];
    if (set->volume == MOST_VOLUMES)
        stop("out of volumes");
    set->volume++;
    volume_name(set, name);
    snprintf(path, sizeof path, "%s/%s.tap", set->folder, name);
    set->out = open(path, O_WRONLY | O_CREAT | O_TRUNC, 0666);
    if (set->out < 0)
        stop("an image cannot be made");
    set->used = 0;
    volume_label(text, name);
    put_block(set, text, LABEL);
}

/* the second mark and the end-of-medium marker */
static inline void end_volume(struct file_set *set)
{
    char name[7];
    put_mark(set);
    put_word(set, 0xFFFFFFFF);
    flush(set);
    if (close(set->out) != 0)
        stop("an image cannot be written");
    volume_name(set, name);
    printf("VOLUME %s %llu\n", name, (unsigned long long)set->used);
}

static inline void change_volume(struct file_set *set)
{
    end_section(set, "EOV1", "EOV2");
    end_volume(set);
    begin_volume(set);
    set->file.section++;
    begin_section(set);
}

static inline int fits(const struct file_set *set, uint64_t more)
{
    return set->used + more <= set->capacity;
}

/* ---- files and records ---- */

static inline void begin_file(struct file_set *set, const char *identifier, struct shape shape)
{
    if (set->volume == 0)
        begin_volume(set);
    snprintf(set->file.file, sizeof set->file.file, "%.17s", identifier);
    set->file.section = 1;
    set->file.sequence = ++set->files;
    begin_packer(&set->packer, shape);
    begin_section(set);
}

static inline void write_packed(struct file_set *set)
{
    size_t length = take_block(&set->packer);
    if (length == 0)
        return;
    if (!fits(set, 8 + length + length % 2 + VOLUME_END))
        change_volume(set);
    put_block(set, set->packer.block, (uint32_t)length);
    set->file.blocks++;
}

static inline void write_record(struct file_set *set, const unsigned char *record, size_t count)
{
    const struct shape *shape = &set->packer.shape;
    if (shape->format == 'F' ? count != shape->record_length : shape->format == 'D' && count + 4 > shape->record_length)
        stop("a record of another length");
    for (;;) {
        size_t answer = offer(&set->packer, record, count);
        if (!(answer & BLOCK_FULL))
            return;
        record += answer & ~BLOCK_FULL;
        count -= answer & ~BLOCK_FULL;
        write_packed(set);
    }
}

static inline void end_file(struct file_set *set)
{
    write_packed(set);
    if (!fits(set, FILE_END + HEADERS + VOLUME_END))
        change_volume(set);
    end_section(set, "EOF1", "EOF2");
}

static inline void end_set(struct file_set *set)
{
    end_volume(set);
    printf("FILES %u VOLUMES %u\n", set->files, set->volume);
}

/* ---- arguments of the command line ---- */

/* FORMAT BLOCK RECORD; a record length of 0 is the default of `tape write` */
static struct shape shape_of(char **word)
{
    struct shape shape = { word[0][0], (uint32_t)strtoul(word[1], NULL, 10), (uint32_t)strtoul(word[2], NULL, 10), 0, 0 };
    if (shape.format == 'D' && shape.record_length == 0)
        shape.record_length = shape.block_length < 9999 ? shape.block_length : 9999;
    return shape;
}

static struct file_set set;

static void write_file(const char *identifier, const char *path, struct shape shape)
{
    char *line = NULL;
    size_t room = 0;
    ssize_t count;
    FILE *in = fopen(path, "rb");
    if (!in)
        stop("an input cannot be opened");
    begin_file(&set, identifier, shape);
    while ((count = getline(&line, &room, in)) > 0) {
        if (line[count - 1] == '\n')
            count--;
        write_record(&set, (const unsigned char *)line, (size_t)count);
    }
    if (ferror(in))
        stop("an input cannot be read");
    end_file(&set);
    free(line);
    fclose(in);
}

int main(int words, char **word)
{
    if (words < 8)
        return fputs("usage: write_lines FOLDER PREFIX CAPACITY FORMAT BLOCK RECORD IDENTIFIER=PATH..\n", stderr), 2;
    struct shape shape = shape_of(word + 4);
    begin_set(&set, word[1], word[2], strtoull(word[3], NULL, 10));
    for (int i = 7; i < words; i++) {
        char *path = strchr(word[i], '=');
        if (!path)
            return fputs("write_lines: a word without '='\n", stderr), 2;
        *path++ = '\0';
        write_file(word[i], path, shape);
    }
    end_set(&set);
    return fflush(stdout) != 0;
}
