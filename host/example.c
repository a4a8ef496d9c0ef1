/* Reads a statement text from a file and prints, for a faulty mask, the wise nodes and the guild.
 *
 *     example FILE MASK        MASK is four hexadecimal digits, as 0008
 */
#include <stdio.h>
#include <stdlib.h>

#include "zurbeshik.h"

static const char *reason(uint8_t refusal) {
    switch (refusal) {
    case 1: return "a line has no end, or is not in the form";
    case 2: return "a count, node or mask is outside its range";
    case 3: return "the N line is missing, second or not first, or lines are out of order";
    case 4: return "a node has a 17th F or Q line";
    case 5: return "a node has no F line";
    case 8: return "the faulty mask has a bit above the number of nodes";
    case 9: return "the statement is not sound";
    default: return "unknown";
    }
}

static void print_nodes(const char *what, uint16_t mask) {
    printf("%s %04x:", what, (unsigned)mask);
    for (int k = 1; k <= 16; k++)
        if (mask >> (k - 1) & 1) printf(" %d", k);
    printf("\n");
}

/* All of a file, in memory that the caller frees; NULL where it cannot be read. */
static uint8_t *read_file(const char *path, size_t *len) {
    FILE *f = fopen(path, "rb");
    if (!f) return NULL;
    size_t room = 8192, n = 0;
    uint8_t *text = malloc(room);
    while (text) {
        n += fread(text + n, 1, room - n, f);
        if (n < room) break;
        room *= 2;
        uint8_t *more = realloc(text, room);
        if (!more) free(text);
        text = more;
    }
    if (text && ferror(f)) {
        free(text);
        text = NULL;
    }
    fclose(f);
    *len = n;
    return text;
}

int main(int argc, char **argv) {
    if (argc != 3) {
        fprintf(stderr, "usage: %s FILE MASK\n", argv[0]);
        return 2;
    }
    char *end;
    unsigned long faulty = strtoul(argv[2], &end, 16);
    if (*argv[2] == '\0' || *end != '\0' || faulty > 0xffff) {
        fprintf(stderr, "%s: the mask is not four hexadecimal digits\n", argv[2]);
        return 2;
    }
    size_t len = 0;
    uint8_t *text = read_file(argv[1], &len);
    if (!text) {
        perror(argv[1]);
        return 2;
    }
    uint64_t answer = zurbeshik_guild(text, len, (uint16_t)faulty);
    free(text);
    if (zurbeshik_refusal(answer)) {
        printf("refused %u: %s\n", (unsigned)zurbeshik_refusal(answer), reason(zurbeshik_refusal(answer)));
        return 0;
    }
    print_nodes("wise", zurbeshik_wise(answer));
    print_nodes("guild", zurbeshik_guild_mask(answer));
    return 0;
}
