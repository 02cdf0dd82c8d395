/* Prints, with the installed header and library: the versions of both; then of each number from 0 to 99 its reason. */

#include <velvetshelf.h>

#include <stdio.h>

#if VELVETSHELF_Z_SET != 3 /* withdrawn, but programs may have the name */
#error "VELVETSHELF_Z_SET is not 3"
#endif

int main(void)
{
    uint32_t number;
    printf("%s\n%lu %lu\n", VELVETSHELF_VERSION, (unsigned long)VELVETSHELF_VERSION_NUMBER,
           (unsigned long)velvetshelf_version());
    printf("%lu %lu\n", (unsigned long)VELVETSHELF_FORMAT, (unsigned long)velvetshelf_format());
    for (number = 0; number < 100; number++) {
        const char *reason = velvetshelf_reason(number);
        printf("%lu %s\n", (unsigned long)number, reason ? reason : "(null)");
    }
    return 0;
}
