/* stack text, stack wire: the octets of stack that the conversion used, the return address among them. Reads inputs,
   each after its length in four octets, and converts each into a buffer with room for every output and into one without
   room, on a stack of its own that was filled with one octet: what is not that octet afterwards was used. */

#define _XOPEN_SOURCE 700

#include <velvetshelf.h>

#include <stdio.h>
#include <string.h>
#include <ucontext.h>

enum { STACK = 65536, FILL = 0xA5, LONGEST_INPUT = 1 << 20 };

static uint8_t stack[STACK] __attribute__((aligned(64)));
static uint8_t input[LONGEST_INPUT], output[VELVETSHELF_LONGEST_TEXT];
static size_t input_length, output_length;
static ucontext_t outside, inside;

typedef uint32_t conversion(const uint8_t *, size_t, uint8_t *, size_t, uint64_t *);
static conversion *volatile called;

/* Uses nothing but its return address. */
static uint32_t nothing(const uint8_t *from, size_t from_length, uint8_t *to, size_t to_length, uint64_t *value)
{
    (void)from, (void)from_length, (void)to, (void)to_length, (void)value;
    return 0;
}

static void call(void)
{
    uint64_t value;
    called(input, input_length, output, output_length, &value);
}

/* The octets of stack from the deepest that were used up. */
static size_t depth(conversion *function)
{
    const uint8_t *deepest = stack;
    called = function;
    memset(stack, FILL, sizeof stack);
    getcontext(&inside);
    inside.uc_stack.ss_sp = stack;
    inside.uc_stack.ss_size = sizeof stack;
    inside.uc_link = &outside;
    makecontext(&inside, call, 0);
    swapcontext(&outside, &inside);
    while (*deepest == FILL)
        deepest++;
    return (size_t)(stack + sizeof stack - deepest);
}

int main(int argc, char **argv)
{
    conversion *function = argc == 2 && strcmp(argv[1], "text") == 0 ? velvetshelf_to_text : velvetshelf_to_wire;
    size_t most = 0;
    uint8_t length[4];
    while (fread(length, 1, 4, stdin) == 4) {
        input_length = (size_t)length[0] << 24 | (size_t)length[1] << 16 | (size_t)length[2] << 8 | length[3];
        if (input_length > sizeof input || fread(input, 1, input_length, stdin) != input_length)
            return 1;
        for (int room = 0; room <= 1; room++) {
            size_t used;
            output_length = room ? sizeof output : 0;
            used = depth(function);
            most = used > most ? used : most;
        }
    }
    printf("%zu\n", most - depth(nothing) + sizeof(void *));
    return 0;
}
