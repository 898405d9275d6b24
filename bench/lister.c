/* lister [--silent] [IMAGE]: prints the items of a tape image, one on each line, as `tape list` does, or only the last line.
   Plain C over buffered stdio. docs/REFERENCE.md, 'list', describes the lines. */
#include <string.h>

#include "image.h"

static struct image image;

static int are_digits(const unsigned char *text, int count)
{
    for (int i = 0; i < count; i++)
        if (text[i] < '0' || text[i] > '9')
            return 0;
    return 1;
}

static int is_number_above_0(const unsigned char *text, int count)
{
    int above = 0;
    for (int i = 0; i < count; i++)
        above |= text[i] != '0';
    return above && are_digits(text, count);
}

/* copies characters, with `?` for those that cannot be printed */
static const char *shown(const unsigned char *text, int count, char *room)
{
    for (int i = 0; i < count; i++)
        room[i] = text[i] >= 0x20 && text[i] <= 0x7E ? (char)text[i] : '?';
    room[count] = '\0';
    return room;
}

static int print_volume(unsigned long long number, const unsigned char *label)
{
    char volume[7];
    printf("%06llu VOL1 %s\n", number, shown(label + 4, 6, volume));
    return 1;
}

/* HDR1, EOF1, EOV1; the last two have a count of blocks */
static int print_first(unsigned long long number, const unsigned char *label, int has_count)
{
    char file[18], set[7];
    if (!is_number_above_0(label + 27, 4) || !is_number_above_0(label + 31, 4)
        || (has_count && !are_digits(label + 54, 6)))
        return 0;
    printf("%06llu %.4s %s %s %.4s %.4s", number, label, shown(label + 4, 17, file),
        shown(label + 21, 6, set), label + 27, label + 31);
    if (has_count)
        printf(" %.6s", label + 54);
    printf("\n");
    return 1;
}

/* HDR2, EOF2, EOV2 */
static int print_second(unsigned long long number, const unsigned char *label)
{
    const unsigned char *offset = label + 50;
    if ((label[4] != 'F' && label[4] != 'D' && label[4] != 'S') || !are_digits(label + 5, 5)
        || !(label[4] == 'F' ? is_number_above_0(label + 10, 5) : are_digits(label + 10, 5)))
        return 0;
    if (memcmp(offset, "  ", 2) == 0)
        offset = (const unsigned char *)"00";
    if (!are_digits(offset, 2))
        return 0;
    printf("%06llu %.4s %c %.5s %.5s %.2s\n", number, label, label[4], label + 5, label + 10, offset);
    return 1;
}

/* 0 if the block cannot be read as a label */
static int print_label(unsigned long long number, const unsigned char *label)
{
    if (memcmp(label, "VOL1", 4) == 0)
        return print_volume(number, label);
    if (memcmp(label, "HDR1", 4) == 0)
        return print_first(number, label, 0);
    if (memcmp(label, "EOF1", 4) == 0 || memcmp(label, "EOV1", 4) == 0)
        return print_first(number, label, 1);
    if (memcmp(label, "HDR2", 4) == 0 || memcmp(label, "EOF2", 4) == 0 || memcmp(label, "EOV2", 4) == 0)
        return print_second(number, label);
    return 0;
}

static void print_item(unsigned long long number, enum item item)
{
    if (item == MARK)
        printf("%06llu MARK\n", number);
    else if (item == BAD)
        printf("%06llu BAD\n", number);
    else if (image.length != 80 || !print_label(number, image.data))
        printf("%06llu BLOCK %05u\n", number, image.length);
}

int main(int words, char **word)
{
    unsigned long long number = 0;
    enum item item;
    int is_silent = words > 1 && strcmp(word[1], "--silent") == 0;
    image.in = open_image(words - is_silent, word + is_silent);
    if (!image.in)
        return fputs("tape: file fault 2\n", stderr), 1;
    while ((item = next_item(&image)) <= BAD)
        if (!is_silent)
            print_item(++number, item);
    if (item != FAULT)
        printf(item == END_MARKED ? "END MARKED\n" : "END PHYSICAL\n");
    if (fflush(stdout) != 0 || ferror(stdout))
        return fputs("tape: file fault 4\n", stderr), 1;
    if (item == FAULT)
        return fprintf(stderr, "tape: image fault %d at %llu\n", image.cause, (unsigned long long)image.place), 1;
    return 0;
}
