#!/usr/bin/env python3
"""Writes a module with one function of so many blocks, each within the one before, to standard output.

usage: bench/nested.py BLOCKS
"""

import sys

from modules import BLOCK, END, HEADER, code, section, unsigned, vector


def main():
    if len(sys.argv) != 2 or not sys.argv[1].isdigit():
        sys.exit(__doc__)
    blocks = int(sys.argv[1])
    none_to_none = b"\x60" + vector([]) + vector([])
    nested = code([BLOCK] * blocks + [END] * (blocks + 1))
    types, functions = vector([none_to_none]), vector([unsigned(0)])
    sys.stdout.buffer.write(HEADER + section(1, types) + section(3, functions) + section(10, vector([nested])))


main()
