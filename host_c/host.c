/* Calls the host's two calls on the files named, at the settings and input words below 5, and on the files cut short, and prints
 * what came. */
#include "../include/rectifier.h"

#include <stdio.h>
#include <stdlib.h>
#include <string.h>

static uint8_t bytes[16384];

static size_t load(const char *name)
{
    FILE *file = fopen(name, "rb");
    size_t length;
    if (file == NULL) {
        perror(name);
        exit(1);
    }
    length = fread(bytes, 1, sizeof bytes, file);
    fclose(file);
    return length;
}

static void damaged(size_t length)
{
    size_t cut;
    printf("empty: read %u\n", rectifier_read(bytes, 0));
    printf("one byte: read %u\n", rectifier_read(bytes, 1));
    for (cut = 32; cut < length; cut += 32)
        printf("cut after row %zu: read %u, match %u\n", cut / 32, rectifier_read(bytes, cut), rectifier_match(bytes, cut, 0, 0));
}

int main(int count, char **names)
{
    int i;
    for (i = 1; i < count; i++) {
        size_t length = load(names[i]);
        const char *name = strrchr(names[i], '/');
        uint64_t setting, word;
        printf("%s: read %u\n", name == NULL ? names[i] : name + 1, rectifier_read(bytes, length));
        for (setting = 0; setting < 5; setting++) {
            printf("setting %u:", (unsigned)setting);
            for (word = 0; word < 5; word++)
                printf(" %u", rectifier_match(bytes, length, setting, word));
            printf("\n");
        }
        damaged(length);
    }
    return 0;
}
