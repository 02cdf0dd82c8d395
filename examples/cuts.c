/* cuts: reads one message from standard input and cuts it to every length from 0 to 600. Each cut is converted twice:
   from memory of exactly its length, and out of a pool buffer that still holds the whole message and into a text buffer
   that still holds the text before it. Number, value and every octet of the text buffer must be the same as on clean
   memory. */

#include "velvetshelf.h"

#include <stdio.h>
#include <stdlib.h>
#include <string.h>

enum { LONGEST = 600, ROOM = 8192 };

static uint8_t pool[65535];
static uint8_t dirty[ROOM], before[ROOM];

static int fail(size_t length, const char *what)
{
    printf("cut to %zu octets: %s\n", length, what);
    return 1;
}

int main(void)
{
    size_t whole = fread(pool, 1, sizeof pool, stdin);
    unsigned accepted = 0, refused = 0;
    memset(dirty, 0xA5, sizeof dirty);
    for (size_t length = 0; length <= LONGEST && length <= whole; length++) {
        uint8_t *exact = malloc(length ? length : 1);
        uint8_t *clean = calloc(ROOM, 1);
        uint64_t first = 0, second = 0;
        if (!exact || !clean)
            return 2;
        memcpy(exact, pool, length);
        memcpy(before, dirty, sizeof dirty);
        uint32_t number = velvetshelf_to_text(exact, length, clean, ROOM, &first);
        uint32_t again = velvetshelf_to_text(pool, length, dirty, ROOM, &second);
        if (number != again || first != second)
            return fail(length, "the answers differ");
        size_t written = number == VELVETSHELF_SUCCESS ? (size_t)first : 0;
        if (memcmp(clean, dirty, written) != 0)
            return fail(length, "the texts differ");
        if (memcmp(dirty + written, before + written, ROOM - written) != 0)
            return fail(length, "octets after the text changed");
        for (size_t i = written; i < ROOM; i++)
            if (clean[i] != 0)
                return fail(length, "octets after the text changed on clean memory");
        if (number == VELVETSHELF_SUCCESS)
            accepted++;
        else
            refused++;
        free(exact);
        free(clean);
    }
    printf("cuts: %u accepted, %u refused\n", accepted, refused);
    return 0;
}
