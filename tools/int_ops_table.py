#!/usr/bin/env python3
"""Writes the tables in crates/machine_tests/src/operations: what each numeric instruction gives on the edge values
of its width, computed with Python's whole numbers. Run it at the top of the repository, and then
`rt fmt` in the crate."""

FOLDER = "crates/machine_tests/src/operations"


def edges(n):
    """0, 1, one more than the width, the greatest, the least and -1 of n bits."""
    return [0, 1, n + 1, 2 ** (n - 1) - 1, 2 ** (n - 1), 2**n - 1]


def signed(i, n):
    return i - 2**n if i >> (n - 1) else i


def quotient(x, y):
    q = abs(x) // abs(y)
    return q if (x < 0) == (y < 0) else -q


def tests(n):
    def s(i):
        return signed(i, n)

    return [
        ("eq", lambda a, b: a == b),
        ("ne", lambda a, b: a != b),
        ("lt_s", lambda a, b: s(a) < s(b)),
        ("lt_u", lambda a, b: a < b),
        ("gt_s", lambda a, b: s(a) > s(b)),
        ("gt_u", lambda a, b: a > b),
        ("le_s", lambda a, b: s(a) <= s(b)),
        ("le_u", lambda a, b: a <= b),
        ("ge_s", lambda a, b: s(a) >= s(b)),
        ("ge_u", lambda a, b: a >= b),
    ]


def operations(n):
    def s(i):
        return signed(i, n)

    def rotl(a, k):
        return (a << k) | (a >> (n - k))

    return [
        ("add", lambda a, b: a + b),
        ("sub", lambda a, b: a - b),
        ("mul", lambda a, b: a * b),
        ("div_s", lambda a, b: quotient(s(a), s(b))),
        ("div_u", lambda a, b: a // b),
        ("rem_s", lambda a, b: s(a) - s(b) * quotient(s(a), s(b))),
        ("rem_u", lambda a, b: a % b),
        ("and", lambda a, b: a & b),
        ("or", lambda a, b: a | b),
        ("xor", lambda a, b: a ^ b),
        ("shl", lambda a, b: a << (b % n)),
        ("shr_s", lambda a, b: s(a) >> (b % n)),
        ("shr_u", lambda a, b: a >> (b % n)),
        ("rotl", lambda a, b: rotl(a, b % n)),
        ("rotr", lambda a, b: rotl(a, (n - b) % n)),
    ]


def outcome(name, f, a, b, n):
    """The number that is left in n bits, or the trap."""
    if name in ("div_s", "div_u", "rem_s", "rem_u") and b == 0:
        return "Err(DivideByZero)"
    if name == "div_s" and quotient(signed(a, n), signed(b, n)) == 2 ** (n - 1):
        return "Err(IntegerOverflow)"
    return f"Ok({f(a, b) % 2**n:#x})"


def leading(i, n):
    return n - i.bit_length()


def trailing(i, n):
    return n if i == 0 else (i & -i).bit_length() - 1


def extended(i, m, n):
    return signed(i % 2**m, m) % 2**n


def unary(n):
    """Opcode, name, width of the result and the function of one operand of n bits."""
    if n == 32:
        return [
            (0x45, "i32.eqz", 32, lambda i: int(i == 0)),
            (0x67, "i32.clz", 32, lambda i: leading(i, 32)),
            (0x68, "i32.ctz", 32, lambda i: trailing(i, 32)),
            (0x69, "i32.popcnt", 32, lambda i: bin(i).count("1")),
            (0xAC, "i64.extend_i32_s", 64, lambda i: extended(i, 32, 64)),
            (0xAD, "i64.extend_i32_u", 64, lambda i: i),
            (0xC0, "i32.extend8_s", 32, lambda i: extended(i, 8, 32)),
            (0xC1, "i32.extend16_s", 32, lambda i: extended(i, 16, 32)),
        ]
    return [
        (0x50, "i64.eqz", 32, lambda i: int(i == 0)),
        (0x79, "i64.clz", 64, lambda i: leading(i, 64)),
        (0x7A, "i64.ctz", 64, lambda i: trailing(i, 64)),
        (0x7B, "i64.popcnt", 64, lambda i: bin(i).count("1")),
        (0xA7, "i32.wrap_i64", 32, lambda i: i % 2**32),
        (0xC2, "i64.extend8_s", 64, lambda i: extended(i, 8, 64)),
        (0xC3, "i64.extend16_s", 64, lambda i: extended(i, 16, 64)),
        (0xC4, "i64.extend32_s", 64, lambda i: extended(i, 32, 64)),
    ]


def unary_operands(n):
    narrow = [0x7F, 0x80, 0x7FFF, 0x8000, 0xFEDC80]
    wide = [0x7FFFFFFF, 0x80000000, 0x123456789ABCDEF0] if n == 64 else []
    return edges(n) + narrow + wide


def rows(items):
    return "[" + ", ".join(items) + "]"


def uses(items):
    return ["// Written by tools/int_ops_table.py."] + [f"use int_ops::{item};" for item in items]


def edge_line(n):
    values = edges(n)
    return f"pub(crate) static EDGES{n}: [u{n}; {len(values)}] = {rows(f'{v:#x}' for v in values)};"


def test_table(n, first):
    values = edges(n)
    out = [f"pub(crate) static TESTS{n}: [[[bool; 6]; 6]; 10] = ["]
    for place, (name, f) in enumerate(tests(n)):
        table = rows(rows(str(f(a, b)).lower() for b in values) for a in values)
        out.append(f"// {first + place:#x} i{n}.{name}")
        out.append(f"{table},")
    return out + ["];", ""]


def operation_table(n, first):
    values = edges(n)
    out = [f"pub(crate) static OPERATIONS{n}: [[[Result<u{n}, NumTrap>; 6]; 6]; 15] = ["]
    for place, (name, f) in enumerate(operations(n)):
        table = rows(rows(outcome(name, f, a, b, n) for b in values) for a in values)
        out.append(f"// {first + place:#x} i{n}.{name}")
        out.append(f"{table},")
    return out + ["];", ""]


def unary_table(n):
    operands = unary_operands(n)
    count = len(operands)
    out = [f"pub(crate) static OPERANDS{n}: [u{n}; {count}] = {rows(f'{v:#x}' for v in operands)};", ""]
    opcodes = rows(f"{op:#x}" for op, _, _, _ in unary(n))
    out += [f"pub(crate) static OPCODES{n}: [u8; 8] = {opcodes};", ""]
    out.append(f"pub(crate) static UNARY{n}: [[Num; {count}]; 8] = [")
    for op, name, width, f in unary(n):
        out.append(f"// {op:#x} {name}")
        out.append(f"{rows(f'I{width}({f(i):#x})' for i in operands)},")
    return out + ["];", ""]


def write(name, lines):
    with open(f"{FOLDER}/{name}.rt", "w") as table:
        table.write("\n".join(lines))


def main():
    write("edges", uses([])[:1] + [edge_line(32), edge_line(64), ""])
    write("relations", uses([])[:1] + test_table(32, 0x46) + test_table(64, 0x51))
    traps = uses(["NumTrap", "NumTrap::{DivideByZero, IntegerOverflow}"])
    write("operations32", traps + operation_table(32, 0x6A))
    write("operations64", traps + operation_table(64, 0x7C))
    write("unary", uses(["Num", "Num::{I32, I64}"]) + unary_table(32) + unary_table(64))


main()
