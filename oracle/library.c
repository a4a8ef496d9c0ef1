/* Prints the packed answers of the static library for a text and faulty masks, one decimal number a line.
 *
 *     library FILE MASK...     each MASK is four hexadecimal digits
 */
#include <stdio.h>
#include <stdlib.h>

#include "zurbeshik.h"

int main(int argc, char **argv) {
    static uint8_t text[1 << 20];
    FILE *f = argc > 1 ? fopen(argv[1], "rb") : NULL;
    if (!f) return 2;
    size_t len = fread(text, 1, sizeof text, f);
    int whole = feof(f) && !ferror(f);
    fclose(f);
    if (!whole) return 2;
    for (int i = 2; i < argc; i++)
        printf("%llu\n", (unsigned long long)zurbeshik_guild(text, len, (uint16_t)strtoul(argv[i], NULL, 16)));
    return 0;
}
