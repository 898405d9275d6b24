/* walk.c: prints each item of an image, with a buffer for three items; then the listing, with a
 * buffer that is first too short. Status 0 if every call ended with TAPE_ALL. */
#include "tape.h"

#include <stdio.h>
#include <stdlib.h>

static uint8_t image[1 << 20];

static int items(size_t length)
{
    struct tape_item table[3];
    struct tape_end end;
    size_t at = 0;
    size_t i;

    do {
        end = tape_items(image + at, length - at, table, 3);
        for (i = 0; i < end.count; i++) {
            const uint8_t *bytes = image + at + table[i].place + 4;
            struct tape_label label = tape_label(bytes, table[i].length);
            printf("%lu %lu %lu", (unsigned long)(at + table[i].place),
                   (unsigned long)table[i].kind, (unsigned long)table[i].length);
            if (table[i].kind == TAPE_BLOCK && label.kind != TAPE_NO_LABEL)
                printf(" %.4s fault %lu section %lu blocks %lu format %lu", (const char *)bytes,
                       (unsigned long)label.fault, (unsigned long)label.section,
                       (unsigned long)label.blocks, (unsigned long)label.format);
            printf("\n");
        }
        at += (size_t)end.place;
    } while (end.state == TAPE_FULL);
    printf("end %lu at %lu\n", (unsigned long)end.state, (unsigned long)at);
    return end.state != TAPE_ALL;
}

static int listing(size_t length)
{
    struct tape_end end = tape_list(image, length, NULL, 0);
    char *text = malloc(end.needed ? end.needed : 1);

    if (text == NULL)
        return 1;
    end = tape_list(image, length, text, end.needed);
    fwrite(text, 1, end.count, stdout);
    free(text);
    return end.state != TAPE_ALL || end.count != end.needed;
}

int main(int argc, char **argv)
{
    FILE *file = argc == 2 ? fopen(argv[1], "rb") : NULL;
    size_t length;
    int wrong;

    if (file == NULL)
        return 2;
    length = fread(image, 1, sizeof image, file);
    fclose(file);
    wrong = items(length);
    return listing(length) || wrong;
}
