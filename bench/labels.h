/* The labels of tape volumes, written and read: plain C, for comparison. docs/FORMATS.md, 'Labels', has the rules. */
#ifndef LABELS_H
#define LABELS_H

#include <stdio.h>
#include <string.h>

#define LABEL 80

struct file_label {
    char file[18], set[7];
    unsigned section, sequence;
    unsigned long long blocks; /* in a trailer; only the last six digits are written */
};

/* ---- writing: the caller provides room for 81 characters ---- */

static inline void volume_label(char *text, const char *volume)
{
    snprintf(text, LABEL + 1, "VOL1%-6.6s%-69s4", volume, "");
}

/* HDR1, EOF1, EOV1 */
static inline void first_label(char *text, const char *identifier, const struct file_label *file)
{
    snprintf(text, LABEL + 1, "%s%-17.17s%-6.6s%04u%04u000100 00000 00000 %06u%-20s", identifier, file->file, file->set,
        file->section % 10000, file->sequence % 10000, (unsigned)(file->blocks % 1000000), "");
}

/* HDR2, EOF2, EOV2 */
static inline void second_label(char *text, const char *identifier, char format, unsigned block_length, unsigned record_length,
    unsigned offset)
{
    snprintf(text, LABEL + 1, "%s%c%05u%05u%-35s%02u%-28s", identifier, format, block_length % 100000, record_length % 100000,
        "", offset % 100, "");
}

/* ---- reading: 0 if a field has other characters than digits, or is out of range ---- */

static inline int is_label(const unsigned char *block, size_t length, const char *identifier)
{
    return length == LABEL && memcmp(block, identifier, strlen(identifier)) == 0;
}

/* the decimal number at a position, counted from 1; -1 if there are other characters than digits */
static inline long number_at(const unsigned char *label, int position, int count)
{
    long value = 0;
    for (int i = position - 1; i < position - 1 + count; i++) {
        if (label[i] < '0' || label[i] > '9')
            return -1;
        value = value * 10 + (label[i] - '0');
    }
    return value;
}

static inline int read_first(const unsigned char *label, int is_trailer, struct file_label *file)
{
    long section = number_at(label, 28, 4), sequence = number_at(label, 32, 4);
    long blocks = is_trailer ? number_at(label, 55, 6) : 0;
    if (section < 1 || sequence < 1 || blocks < 0)
        return 0;
    memcpy(file->file, label + 4, 17);
    memcpy(file->set, label + 21, 6);
    file->file[17] = file->set[6] = '\0';
    file->section = (unsigned)section;
    file->sequence = (unsigned)sequence;
    file->blocks = (unsigned long long)blocks;
    return 1;
}

static inline int read_second(const unsigned char *label, char *format, unsigned *record_length, unsigned *offset)
{
    long block = number_at(label, 6, 5), record = number_at(label, 11, 5);
    long front = memcmp(label + 50, "  ", 2) == 0 ? 0 : number_at(label, 51, 2);
    *format = (char)label[4];
    if ((*format != 'F' && *format != 'D' && *format != 'S') || block < 0 || record < (*format == 'F') || front < 0)
        return 0;
    *record_length = (unsigned)record;
    *offset = (unsigned)front;
    return 1;
}

#endif
