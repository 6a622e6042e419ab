/* Reads a binder file and prints the number that boot code gets for it. */
#include "binder_verdict.h"
#include <stdio.h>

int main(int argc, char **argv)
{
    static uint8_t bytes[65536];
    if (argc != 2) {
        fprintf(stderr, "usage: verdict FILE\n");
        return 2;
    }
    FILE *file = fopen(argv[1], "rb");
    if (file == NULL) {
        fprintf(stderr, "%s cannot be read\n", argv[1]);
        return 2;
    }
    size_t length = fread(bytes, 1, sizeof bytes, file);
    int longer = fgetc(file) != EOF;
    fclose(file);
    if (longer) {
        fprintf(stderr, "%s has more than %zu bytes\n", argv[1], sizeof bytes);
        return 2;
    }
    printf("%u\n", (unsigned)binder_verdict(bytes, length));
    return 0;
}
