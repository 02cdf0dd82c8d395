/* collector: reads DNS messages from standard input, each after its length in two octets as in DNS over TCP, and writes
   the text of each on a line of its own, or `refused N at P`.
   collector -r: reads texts, one per line, and writes their messages, each after its length. Refusals go to standard
   error, each with the number of its line and the reason.

   Exit status: 0 if standard output has an answer to all of the input; 1 if not: a read or a write failed, the last
   message is cut, or, with -r, a line was refused; 2 for wrong arguments or a library of another format.

   The buffers are never cleared: what a message or a text does not fill still holds octets of earlier ones. */

#include "velvetshelf.h"

#include <stdio.h>
#include <string.h>

static uint8_t frame[2 + VELVETSHELF_LONGEST_MESSAGE];  /* a message after its length */
static uint8_t line[VELVETSHELF_LONGEST_TEXT + 1];      /* a text with its newline */

/* Whether all output so far was written. Called before each read, so that every answer is out while the next message is
   awaited. That is one write for each answer: where the input is a file, the flush can go. */
static int sent(void)
{
    return fflush(stdout) == 0 && !ferror(stdout);
}

static int to_text(void)
{
    size_t got;
    while (sent() && (got = fread(frame, 1, 2, stdin)) != 0) {
        size_t length = frame[0] * (size_t)256 + frame[1];
        uint64_t value;
        uint32_t number;
        if (got != 2 || fread(frame + 2, 1, length, stdin) != length) {
            if (!ferror(stdin))
                fputs("collector: the last message is cut\n", stderr);
            return 1;
        }
        number = velvetshelf_to_text(frame + 2, length, line, sizeof line - 1, &value);
        if (number == VELVETSHELF_SUCCESS) {
            line[value] = '\n';
            fwrite(line, 1, (size_t)value + 1, stdout);
        } else {
            printf("refused %u at %llu\n", (unsigned)number, (unsigned long long)value);
        }
    }
    return 0;
}

/* Reads the next line without its newline: its length, or -1 where there is none. Of a line that is longer than any
   text, one octet more than VELVETSHELF_LONGEST_TEXT is kept. */
static long next_line(void)
{
    long length = 0;
    int c;
    while ((c = getchar()) != EOF && c != '\n') {
        if ((size_t)length < sizeof line)
            line[length++] = (uint8_t)c;
    }
    return c == EOF && (length == 0 || ferror(stdin)) ? -1 : length;
}

static int to_wire(void)
{
    int status = 0;
    unsigned long count = 0;
    long length;
    while (sent() && (length = next_line()) >= 0) {
        uint64_t value;
        uint32_t number;
        count++;
        if (length > VELVETSHELF_LONGEST_TEXT) {
            fprintf(stderr, "line %lu: longer than any text\n", count);
            status = 1;
            continue;
        }
        number = velvetshelf_to_wire(line, (size_t)length, frame + 2, sizeof frame - 2, &value);
        if (number == VELVETSHELF_SUCCESS) {
            frame[0] = (uint8_t)(value / 256);
            frame[1] = (uint8_t)(value % 256);
            fwrite(frame, 1, (size_t)value + 2, stdout);
        } else {
            const char *reason = velvetshelf_reason(number);
            fprintf(stderr, "line %lu: refused %u at %llu: %s\n", count, (unsigned)number, (unsigned long long)value,
                    reason ? reason : "unknown reason");
            status = 1;
        }
    }
    return status;
}

int main(int argc, char **argv)
{
    int status;
    if (velvetshelf_format() != VELVETSHELF_FORMAT) { /* a library of another format can have the same soname */
        fprintf(stderr, "collector: the library has format %u, not %u\n", (unsigned)velvetshelf_format(),
                (unsigned)VELVETSHELF_FORMAT);
        return 2;
    }
    if (argc == 1) {
        status = to_text();
    } else if (argc == 2 && strcmp(argv[1], "-r") == 0) {
        status = to_wire();
    } else {
        fputs("usage: collector [-r]\n", stderr);
        return 2;
    }
    if (ferror(stdin)) {
        perror("collector: read failed");
        status = 1;
    }
    if (ferror(stdout) || fclose(stdout) != 0) {
        perror("collector: write failed");
        status = 1;
    }
    return status;
}
