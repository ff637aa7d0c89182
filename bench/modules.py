#!/usr/bin/env python3
"""Writes a valid WebAssembly module of about SIZE_KB thousand bytes to standard output.

usage: bench/modules.py SIZE_KB

The module has two types, a memory, a global, an export, and as many functions as fill it. Their bodies are
what a compiler makes: constants, locals, arithmetic, loads and stores, blocks, branches and calls. The same
size gives the same bytes.
"""

import random
import sys

HEADER = b"\x00asm\x01\x00\x00\x00"
I32, I64 = b"\x7f", b"\x7e"
STEPS_OF_A_BODY = 40

BLOCK, END, BR_IF, CALL, DROP = b"\x02\x40", b"\x0b", b"\x0d\x00", b"\x10", b"\x1a"
GET, SET, TEE = b"\x20", b"\x21", b"\x22"
LOAD, STORE = b"\x28\x02", b"\x36\x02"
I32_CONST, I32_EQZ, I32_ADD, I32_MUL = b"\x41", b"\x45", b"\x6a", b"\x6c"
I64_CONST, I64_ADD = b"\x42", b"\x7c"


def unsigned(value):
    """The shortest LEB128 spelling of a number from 0 on."""
    spelling = bytearray()
    while value >= 0x80:
        spelling.append(value & 0x7F | 0x80)
        value >>= 7
    spelling.append(value)
    return bytes(spelling)


def signed(value):
    """The shortest signed LEB128 spelling of a number."""
    spelling = bytearray()
    while not -0x40 <= value < 0x40:
        spelling.append(value & 0x7F | 0x80)
        value >>= 7
    spelling.append(value & 0x7F)
    return bytes(spelling)


def vector(items):
    return unsigned(len(items)) + b"".join(items)


def section(number, content):
    return bytes([number]) + unsigned(len(content)) + content


def step(rng, functions):
    """A list of instructions that leave the stack as it was. Locals 0 to 5 are i32, and 6 and 7 are i64."""
    one, two, three = (unsigned(rng.randrange(6)) for _ in range(3))
    offset = unsigned(rng.randrange(1 << 12))
    kinds = [
        [I32_CONST + signed(rng.randrange(-1 << 31, 1 << 31)), DROP],
        [GET + one, GET + two, I32_ADD, SET + three],
        [GET + one, I32_CONST + signed(rng.randrange(-64, 1 << 12)), I32_MUL, TEE + two, DROP],
        [GET + one, LOAD + offset, SET + two],
        [GET + one, GET + two, STORE + offset],
        [BLOCK, GET + one, I32_EQZ, BR_IF, GET + two, SET + three, END],
        [I64_CONST + signed(rng.randrange(-1 << 63, 1 << 63)), GET + b"\x06", I64_ADD, SET + b"\x07"],
        [GET + one, GET + two, CALL + unsigned(rng.randrange(functions)), SET + three],
    ]
    return rng.choice(kinds)


def body(rng, functions):
    """A function of two i32 to one, with four more locals of i32 and two of i64: a list of instructions."""
    steps = [instruction for _ in range(STEPS_OF_A_BODY) for instruction in step(rng, functions)]
    return steps + [GET + b"\x00", END]


def code(instructions):
    declared = vector([unsigned(4) + I32, unsigned(2) + I64])
    content = declared + b"".join(instructions)
    return unsigned(len(content)) + content


def bodies_of(size):
    """Bodies that are of about so many bytes together, each of which calls only those before it or itself."""
    rng = random.Random(size)
    bodies, total = [], 0
    while total < size or not bodies:
        bodies.append(body(rng, len(bodies) + 1))
        total += len(code(bodies[-1])) + 1
    return bodies


def module(bodies):
    two_to_one = b"\x60" + vector([I32, I32]) + vector([I32])
    none_to_none = b"\x60" + vector([]) + vector([])
    return (
        HEADER
        + section(1, vector([two_to_one, none_to_none]))
        + section(3, vector([unsigned(0)] * len(bodies)))
        + section(5, vector([b"\x00" + unsigned(16)]))
        + section(6, vector([I32 + b"\x01" + I32_CONST + signed(1 << 20) + END]))
        + section(7, vector([unsigned(3) + b"run" + b"\x00" + unsigned(0)]))
        + section(10, vector([code(instructions) for instructions in bodies]))
    )


def main():
    if len(sys.argv) != 2 or not sys.argv[1].isdigit():
        sys.exit(__doc__)
    sys.stdout.buffer.write(module(bodies_of(int(sys.argv[1]) * 1000)))


if __name__ == "__main__":
    main()
