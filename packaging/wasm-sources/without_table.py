#!/usr/bin/env python3
"""without_table.py IN OUT: takes the table off a module that has no function in it. The linker gives a module of a 64-bit memory a table
with indices of 64 bits, which not all engines and tools read."""
import sys

TABLE, ELEMENTS = 4, 9


def number(bytes_, at):
    """A number as modules have it, seven bits in a byte, and where it ends."""
    value = shift = 0
    while True:
        byte = bytes_[at]
        at += 1
        value |= (byte & 127) << shift
        shift += 7
        if byte < 128:
            return value, at


def without_table(module):
    left, at = module[:8], 8
    while at < len(module):
        size, begin = number(module, at + 1)
        if module[at] == ELEMENTS:
            sys.exit("without_table.py: the module has functions in its table")
        if module[at] != TABLE:
            left += module[at : begin + size]
        at = begin + size
    return left


if __name__ == "__main__":
    with open(sys.argv[1], "rb") as file:
        module = file.read()
    with open(sys.argv[2], "wb") as file:
        file.write(without_table(module))
