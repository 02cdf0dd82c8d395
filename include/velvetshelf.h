/* Velvetshelf: one DNS message to one JSON text, and back. For C99, C++11 and newer. The format is described in
   docs/FORMAT.md of the installed documents. What the two conversions promise is proved; see docs/CLAIMS.md of the
   source tree.

   Both take an input, the caller's buffer for the output, and the pointer `value`.
   - On success they return 0, `*value` is the length of the output, the output is at the start of the buffer, and
     every octet of the buffer after it is as it was. Outputs are not ended by a zero octet.
   - On a refusal they return its number, `*value` is its place, and every octet of the buffer is as it was.
   The answer and the octets written depend on the input and the buffer's length alone, not on the buffer's contents.

   The caller owns everything. A pointer must be valid for its length until the call returns, and not null even where
   the length is 0; input, buffer and `*value` must not overlap. Nothing is allocated, no state is kept, nothing outside
   the input is read: calls from several threads are safe if each call has its own buffer and value.

   The library is for x86-64 with the System V calling convention. It needs nothing from the C library but memcpy and
   memset, and a call needs at most VELVETSHELF_STACK octets of stack. */

#ifndef VELVETSHELF_H
#define VELVETSHELF_H

#include <stddef.h>
#include <stdint.h>

#ifdef __cplusplus
extern "C" {
#endif

/* The library's version, as a string and as major * 10000 + minor * 100 + patch. */
#define VELVETSHELF_VERSION "1.3.0"
#define VELVETSHELF_VERSION_NUMBER 10300

/* The format's version. It increases with every change to a text, or to a refusal's number or place. */
#define VELVETSHELF_FORMAT 4

/* What is returned. */
enum {
    VELVETSHELF_SUCCESS = 0,

    /* message to text; the place is an offset in the message, at most its length */
    VELVETSHELF_CUT = 1,                /* fewer than 12 octets, at 0; or a field, label, pointer or RDATA runs past the
                                           end, at the first octet of the field, pointer or RDATA, or at the label's
                                           length octet */
    VELVETSHELF_MESSAGE_TOO_LONG = 2,   /* message of more than 65,535 octets; at 0 */
    VELVETSHELF_LENGTH_OCTET = 4,       /* length octet with top bits 01 or 10; at that octet */
    VELVETSHELF_POINTER = 5,            /* pointer target not allowed; at the pointer's first octet */
    VELVETSHELF_NAME_TOO_LONG = 6,      /* name of more than 255 octets; at the length octet of the label that makes
                                           it too long */
    VELVETSHELF_RDATA_LAYOUT = 7,       /* RDATA of a listed type ends inside its layout; at RDATA's first octet */
    VELVETSHELF_TRAILING = 8,           /* octets after the last record; at the first of them */
    VELVETSHELF_FORM_TOO_LONG = 9,      /* uncompressed form of more than 65,535 octets; at 0 */
    VELVETSHELF_TEXT_BUFFER = 10,       /* text longer than the buffer; at 0 */
    VELVETSHELF_RDATA_LEFT = 11,        /* RDATA of a listed type has octets after its layout; at the first of them */

    /* text to message; the place of 20 is an offset in the input, at most its length; all others are at 0 */
    VELVETSHELF_GRAMMAR = 20,           /* not within the grammar; at the first octet that no text in the grammar has
                                           there, or at the input's length if it is only the beginning of a text */
    VELVETSHELF_MEANING = 21,           /* no message has this text */
    VELVETSHELF_SIZE = 22,              /* RDATA, an option's value or the message has more than 65,535 octets */
    VELVETSHELF_MESSAGE_BUFFER = 23     /* message longer than the buffer */
};

/* Withdrawn with format 3: no call returns it, and no later format will use the number. The name is here so that
   programs which have it can still be compiled. */
#define VELVETSHELF_Z_SET 3

/* A buffer of LONGEST_TEXT octets has room for the text of every accepted message: it is an upper bound, and no text
   need have that length. A buffer of LONGEST_MESSAGE octets has room for the message of every accepted text. */
#define VELVETSHELF_LONGEST_TEXT 655750
#define VELVETSHELF_LONGEST_MESSAGE 65535

/* No call uses more octets of stack than this: an upper bound, checked for each release by adding up the frames of the
   compiled functions. What memcpy and memset use is not in it, nor what a dynamic linker uses that binds them at the first
   call (the shared library binds them when it is loaded). */
#define VELVETSHELF_STACK 8192

/* Writes the text of a message. */
uint32_t velvetshelf_to_text(const uint8_t *message, size_t message_length, uint8_t *text, size_t text_length,
                             uint64_t *value);

/* Writes the message of a text, its names uncompressed. */
uint32_t velvetshelf_to_wire(const uint8_t *text, size_t text_length, uint8_t *message, size_t message_length,
                             uint64_t *value);

/* VELVETSHELF_VERSION_NUMBER and VELVETSHELF_FORMAT of the library that the program runs with. */
uint32_t velvetshelf_version(void);
uint32_t velvetshelf_format(void);

/* The meaning of a returned number, in words; null for a number that is never returned. */
static inline const char *velvetshelf_reason(uint32_t number)
{
    switch (number) {
    case VELVETSHELF_SUCCESS:
        return "success";
    case VELVETSHELF_CUT:
        return "the message ends too early";
    case VELVETSHELF_MESSAGE_TOO_LONG:
        return "the message has more than 65,535 octets";
    case VELVETSHELF_LENGTH_OCTET:
        return "a length octet has the top bits 01 or 10";
    case VELVETSHELF_POINTER:
        return "a compression pointer goes forward, into the header, or to its own run of labels";
    case VELVETSHELF_NAME_TOO_LONG:
        return "a name has more than 255 octets uncompressed";
    case VELVETSHELF_RDATA_LAYOUT:
        return "RDATA ends inside the layout of its TYPE";
    case VELVETSHELF_TRAILING:
        return "octets follow the last record";
    case VELVETSHELF_FORM_TOO_LONG:
        return "the message has more than 65,535 octets with its names uncompressed";
    case VELVETSHELF_TEXT_BUFFER:
        return "the text is longer than the buffer";
    case VELVETSHELF_RDATA_LEFT:
        return "RDATA has octets after the layout of its TYPE";
    case VELVETSHELF_GRAMMAR:
        return "the text is not within the grammar";
    case VELVETSHELF_MEANING:
        return "no message has this text";
    case VELVETSHELF_SIZE:
        return "RDATA, an option's value or the message would have more than 65,535 octets";
    case VELVETSHELF_MESSAGE_BUFFER:
        return "the message is longer than the buffer";
    default:
#ifdef __cplusplus
        return nullptr;
#else
        return NULL;
#endif
    }
}

#ifdef __cplusplus
}
#endif

#endif
