/* The library's own speed, for tools/rates: `rates totext FILE TIMES` converts the messages of a file of hexadecimal
   lines so many times, `rates towire FILE TIMES` the texts of a file; prints the seconds of processor time that the
   calls took. The buffers are those of the line programs. */

#include "velvetshelf.h"

#include <stdio.h>
#include <stdlib.h>
#include <string.h>
#include <time.h>

enum { LINES = 100000 };

static uint8_t *inputs[LINES];
static size_t lengths[LINES];
static uint8_t text[65536], message[4096];

static uint8_t *octets_of(const char *line, size_t length)
{
    uint8_t *octets = malloc(length / 2 + 1);
    for (size_t i = 0; octets && i < length / 2; i++) {
        unsigned value;
        sscanf(line + 2 * i, "%2x", &value);
        octets[i] = (uint8_t)value;
    }
    return octets;
}

static int read_lines(const char *path, int digits)
{
    static char line[65538];
    int count = 0;
    FILE *file = fopen(path, "r");
    while (file && count < LINES && fgets(line, sizeof line, file)) {
        size_t length = strcspn(line, "\n");
        inputs[count] = digits ? octets_of(line, length) : (uint8_t *)strdup(line);
        lengths[count++] = digits ? length / 2 : length;
    }
    return count;
}

int main(int argc, char **argv)
{
    int to_text = argc == 4 && strcmp(argv[1], "totext") == 0;
    int count = argc == 4 ? read_lines(argv[2], to_text) : 0;
    clock_t start = clock();
    for (long i = 0; i < (argc == 4 ? atol(argv[3]) : 0); i++)
        for (int k = 0; k < count; k++) {
            uint64_t value;
            uint32_t number = to_text ? velvetshelf_to_text(inputs[k], lengths[k], text, sizeof text, &value)
                                      : velvetshelf_to_wire(inputs[k], lengths[k], message, sizeof message, &value);
            if (number != VELVETSHELF_SUCCESS) {
                fprintf(stderr, "rates: line %d is refused\n", k + 1);
                return 1;
            }
        }
    printf("%f\n", (double)(clock() - start) / CLOCKS_PER_SEC);
    return count == 0;
}
