#!/usr/bin/env python3
"""Converts with the shared library, by ctypes. For each line of FILE that is a message in hexadecimal it prints the
text, for each that is a text (it begins with a brace) the message, or the refusal with its number, place and reason.
Exit status: 0 if every line was converted, 1 if not, 2 for wrong arguments.

usage: convert.py FILE [LIBRARY]
LIBRARY is the path of libvelvetshelf.so.1; without it VELVETSHELF_LIBRARY of the environment is taken, else the system
searches."""

import binascii
import ctypes
import os
import sys

FORMAT = 4  # of the texts, numbers and places that this program was written for
LONGEST_TEXT = 655750
LONGEST_MESSAGE = 65535
REASONS = {
    1: "the message ends too early",
    2: "the message has more than 65,535 octets",
    4: "a length octet has the top bits 01 or 10",
    5: "a compression pointer goes forward, into the header, or to its own run of labels",
    6: "a name has more than 255 octets uncompressed",
    7: "RDATA ends inside the layout of its TYPE",
    8: "octets follow the last record",
    9: "the message has more than 65,535 octets with its names uncompressed",
    10: "the text is longer than the buffer",
    11: "RDATA has octets after the layout of its TYPE",
    20: "the text is not within the grammar",
    21: "no message has this text",
    22: "RDATA, an option's value or the message would have more than 65,535 octets",
    23: "the message is longer than the buffer",
}


class Refused(Exception):
    def __init__(self, number, place):
        super().__init__(f"refused {number} at {place}: {REASONS.get(number, 'unknown reason')}")
        self.number, self.place = number, place


class Velvetshelf:
    """The library with a buffer for outputs: for one thread at a time."""

    def __init__(self, path):
        self.library = ctypes.CDLL(path)
        for convert in [self.library.velvetshelf_to_text, self.library.velvetshelf_to_wire]:
            convert.restype = ctypes.c_uint32
            convert.argtypes = [
                ctypes.c_char_p,  # the input; bytes may hold zeros, the length counts
                ctypes.c_size_t,
                ctypes.POINTER(ctypes.c_char),  # the buffer
                ctypes.c_size_t,
                ctypes.POINTER(ctypes.c_uint64),  # the length of the output, or the refusal's place
            ]
        self.library.velvetshelf_format.restype = ctypes.c_uint32
        self.library.velvetshelf_format.argtypes = []
        if self.library.velvetshelf_format() != FORMAT:
            raise RuntimeError(f"{path} has format {self.library.velvetshelf_format()}, not {FORMAT}")
        self.buffer = ctypes.create_string_buffer(max(LONGEST_TEXT, LONGEST_MESSAGE))

    def convert(self, function, given):
        value = ctypes.c_uint64()
        number = function(given, len(given), self.buffer, len(self.buffer), ctypes.byref(value))
        if number != 0:
            raise Refused(number, value.value)
        return ctypes.string_at(self.buffer, value.value)

    def to_text(self, message):
        return self.convert(self.library.velvetshelf_to_text, message)

    def to_wire(self, text):
        return self.convert(self.library.velvetshelf_to_wire, text)


def convert_line(velvetshelf, line):
    if line.startswith(b"{"):
        return velvetshelf.to_wire(line).hex().upper()
    message = binascii.unhexlify(line)  # bytes.fromhex would take spaces and carriage returns
    return velvetshelf.to_text(message).decode("ascii")


def convert_file(velvetshelf, file, output):
    status = 0
    for line in file:
        try:
            answer = convert_line(velvetshelf, line.rstrip(b"\n"))
        except Refused as refused:
            answer, status = refused, 1
        except binascii.Error:
            answer, status = "not hexadecimal", 1
        print(answer, file=output)
    return status


def main():
    if len(sys.argv) not in (2, 3):
        print("usage: convert.py FILE [LIBRARY]", file=sys.stderr)
        return 2
    default = os.environ.get("VELVETSHELF_LIBRARY", "libvelvetshelf.so.1")
    try:
        velvetshelf = Velvetshelf(sys.argv[2] if len(sys.argv) == 3 else default)
    except (OSError, AttributeError, RuntimeError) as error:  # not there, another library, another format
        return f"convert.py: {error}"
    try:
        with open(1, "w", closefd=False) as output, open(sys.argv[1], "rb") as file:
            return convert_file(velvetshelf, file, output)
    except OSError as error:
        return f"convert.py: {error}"


if __name__ == "__main__":
    sys.exit(main())
