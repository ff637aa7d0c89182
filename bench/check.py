#!/usr/bin/env python3
"""Times `wasmnode check` on a contract of about SIZE_KB thousand bytes, beside reading alone and wasm-validate.

usage: bench/check.py SIZE_KB
       bench/check.py worst

The second form times codes of at most 819,200 bytes that were made to be slow to check, each beside reading it, and
ends with status 1 where one takes more than ten times as long as reading it.

It needs the built programs crates/wasmnode/out/wasmnode and crates/bench_kernels/out/bench_kernels. Each time is
the least processor time of five runs of a whole process; that of reading is of one reading more. The code is that of
modules.py with what a contract has to export. wasm-validate of wabt is left out where it isn't on the machine.
"""

import base64
import shutil
import sys
import tempfile

sys.dont_write_bytecode = True
import modules  # noqa: E402
from modules import CALL, END, HEADER, I32, I32_CONST, code, section, unsigned, vector  # noqa: E402
from processes import run  # noqa: E402

NODE = "crates/wasmnode/out/wasmnode"
KERNELS = "crates/bench_kernels/out/bench_kernels"
RUNS = 5
READINGS = 40

# name, number of i32 parameters, whether it has a result
ENTRY_POINTS = [
    (b"interface_version_8", 0, False),
    (b"allocate", 1, True),
    (b"deallocate", 1, False),
    (b"instantiate", 3, True),
    (b"execute", 3, True),
    (b"query", 2, True),
]


def func_type(params, has_result):
    return b"\x60" + vector([I32] * params) + vector([I32] * has_result)


def entry_code(has_result):
    instructions = [I32_CONST + unsigned(0)] if has_result else []
    content = vector([]) + b"".join(instructions) + END
    return unsigned(len(content)) + content


def export(name, index):
    return unsigned(len(name)) + name + b"\x00" + unsigned(index)


def contract(bodies):
    """The bodies, of two i32 to one, and behind them the functions that a host calls."""
    first = len(bodies)
    types = [func_type(2, True)] + [func_type(params, result) for _, params, result in ENTRY_POINTS]
    used = [unsigned(0)] * first + [unsigned(1 + at) for at in range(len(ENTRY_POINTS))]
    exports = [export(name, first + at) for at, (name, _, _) in enumerate(ENTRY_POINTS)]
    codes = [code(instructions) for instructions in bodies]
    codes += [entry_code(result) for _, _, result in ENTRY_POINTS]
    return (
        HEADER
        + section(1, vector(types))
        + section(3, vector(used))
        + section(5, vector([b"\x00" + unsigned(16)]))
        + section(6, vector([I32 + b"\x01" + I32_CONST + modules.signed(1 << 20) + END]))
        + section(7, vector(exports))
        + section(10, vector(codes))
    )


# ---- codes that are made to be slow to check

MOST_BYTES = 819_200
GZIP = b"\x1f\x8b\x08"
UNREACHABLE, BR_TABLE = b"\x00", b"\x0e"
CALL_INDIRECT, BR, IF, ELSE = b"\x11", b"\x0c", b"\x04\x40", b"\x05"


def body_of(instructions, locals_=()):
    content = vector(list(locals_)) + instructions + END
    return unsigned(len(content)) + content


EMPTY = body_of(b"")


def worst(types=(), bodies=((0, EMPTY),), exports=(), tables=b"", elements=b"", segments=b"", imports=()):
    """A contract that has these besides what a host calls.

    A body stands beside the number of its type, which is 0 for () to () and then counts the types given.
    """
    entries = [func_type(params, result) for _, params, result in ENTRY_POINTS]
    first = len(imports)
    used = [unsigned(at) for at in range(len(entries))] + [unsigned(len(entries) + ty) for ty, _ in bodies]
    names = [export(name, first + at) for at, (name, _, _) in enumerate(ENTRY_POINTS)] + list(exports)
    codes = [entry_code(result) for _, _, result in ENTRY_POINTS] + [body for _, body in bodies]
    return (
        HEADER
        + section(1, vector(entries + [func_type(0, False)] + list(types)))
        + (section(2, vector(list(imports))) if imports else b"")
        + section(3, vector(used))
        + tables
        + section(5, vector([b"\x00" + unsigned(16)]))
        + section(7, vector(names))
        + elements
        + section(10, vector(codes))
        + segments
    )


def filled(make):
    """make(n) of the greatest n at which it has at most MOST_BYTES bytes."""
    high = 1
    while len(make(high)) <= MOST_BYTES and high < MOST_BYTES:
        high *= 2
    low = high // 2
    while low + 1 < high:
        middle = (low + high) // 2
        if len(make(middle)) <= MOST_BYTES:
            low = middle
        else:
            high = middle
    return make(low)


def many_params(count):
    return b"\x60" + vector([I32] * count) + vector([])


def calls_behind_a_branch(n):
    """Half of the code is a type's parameters, and half are calls of it where the operands are of any type."""
    call = CALL + unsigned(len(ENTRY_POINTS) + 1)
    body = UNREACHABLE + call * (n // 2)
    return worst(types=[many_params(n)], bodies=[(0, body_of(body)), (1, EMPTY)])


def indirect_calls_behind_a_branch(n):
    call = CALL_INDIRECT + unsigned(len(ENTRY_POINTS) + 1) + b"\x00"
    table = section(4, vector([b"\x70\x01" + unsigned(1) + unsigned(1)]))
    return worst(types=[many_params(n)], bodies=[(0, body_of(UNREACHABLE + call * (n // 3)))], tables=table)


def calls_with_one_operand(n):
    """Each call finds one operand behind a branch."""
    call = I32_CONST + unsigned(0) + CALL + unsigned(len(ENTRY_POINTS) + 1)
    return worst(types=[many_params(n)], bodies=[(0, body_of(UNREACHABLE + call * (n // 4))), (1, EMPTY)])


def exports_of(name):
    """Exports of one function under these names."""
    return lambda n: worst(exports=[export(name(n, at), 0) for at in range(n)])


def counted_name(n, at):
    return b"%06x" % at


def falling_name(n, at):
    return b"%06x" % (n - at)


def long_name(n, at):
    """Names that begin alike."""
    return b"a" * 200 + b"%06x" % at


def tables_of_labels(n):
    """One table, whose labels are those of 50 blocks."""
    depth = 50
    labels = unsigned(n) + bytes(at % depth for at in range(n)) + unsigned(0)
    body = modules.BLOCK * depth + I32_CONST + unsigned(0) + BR_TABLE + labels + END * depth
    return worst(bodies=[(0, body_of(body))])


def tables_of_one_label(n):
    each = I32_CONST + unsigned(0) + BR_TABLE + vector([]) + unsigned(0)
    return worst(bodies=[(0, body_of(each * n))])


def nested_blocks(n):
    return worst(bodies=[(0, body_of(modules.BLOCK * n + END * n))])


def nested_ifs(n):
    each = I32_CONST + unsigned(0) + IF
    return worst(bodies=[(0, body_of(each * n + (ELSE + END) * n))])


def operands_cleared(n):
    """Operands are pushed and then left behind by a branch, again and again."""
    each = modules.BLOCK + (I32_CONST + unsigned(0)) * 8 + BR + unsigned(0) + END
    return worst(bodies=[(0, body_of(each * n))])


def small_functions(n):
    return worst(bodies=[(0, EMPTY)] * n)


def functions_with_locals(n):
    declared = [unsigned(4096) + I32]
    return worst(bodies=[(0, body_of(b"", declared))] * min(n, 20_000))


def many_types(n):
    return worst(types=[func_type(0, False)] * n)


def many_elements(n):
    table = section(4, vector([b"\x70\x01" + unsigned(1) + unsigned(1)]))
    each = b"\x00" + I32_CONST + unsigned(0) + END + vector([unsigned(0)])
    return worst(tables=table, elements=section(9, vector([each] * n)))


def many_segments(n):
    each = b"\x00" + I32_CONST + unsigned(0) + END + vector([b"a"])
    return worst(segments=section(11, vector([each] * n)))


def many_imports(n):
    """Refused, since they are more than a hundred."""
    each = unsigned(3) + b"env" + unsigned(5) + b"abort" + b"\x00" + unsigned(2)
    return worst(imports=[each] * n)


WORST = [
    ("calls with many parameters behind a branch", calls_behind_a_branch),
    ("the same by a table", indirect_calls_behind_a_branch),
    ("the same with one operand for each call", calls_with_one_operand),
    ("names of exports, rising", exports_of(counted_name)),
    ("names of exports, falling", exports_of(falling_name)),
    ("long names of exports that begin alike", exports_of(long_name)),
    ("a br_table of all", tables_of_labels),
    ("many br_tables", tables_of_one_label),
    ("blocks, each in the one before", nested_blocks),
    ("ifs, each in the one before", nested_ifs),
    ("operands that branches leave behind", operands_cleared),
    ("functions without instructions", small_functions),
    ("functions of 4,096 locals", functions_with_locals),
    ("types", many_types),
    ("element segments", many_elements),
    ("data segments", many_segments),
    ("imports", many_imports),
]


def line_of(content):
    return base64.b64encode(content) + b"\n"


def time_worst():
    """The time of a check is that of the process less that for as many bytes that are refused at their first three."""
    slow = False
    for name, make in WORST:
        content = filled(make)
        answer = run([NODE, "check"], line_of(content))[0]
        one = least([KERNELS, "read_module", "1"], content)
        some = least([KERNELS, "read_module", "11"], content)
        reading = max((some - one) / 10, 1e-6)
        checking = least([NODE, "check"], line_of(content)) - least([NODE, "check"], line_of(GZIP + content[3:]))
        slow = slow or checking > 10 * reading
        times = f"reading {reading * 1000:7.1f} ms  check {checking * 1000:7.1f} ms"
        print(f"{name:45} {len(content):7} bytes  {times}  {answer}")
    sys.exit(1 if slow else 0)


def least(words, given=b""):
    return min(run(words, given)[1] for _ in range(RUNS))


def main():
    if sys.argv[1:] == ["worst"]:
        time_worst()
    if len(sys.argv) != 2 or not sys.argv[1].isdigit():
        sys.exit(__doc__)
    module = contract(modules.bodies_of(int(sys.argv[1]) * 1000))
    line = base64.b64encode(module) + b"\n"
    answer, _, memory = run([NODE, "check"], line)
    print(f"{len(module)} bytes: {answer}, {memory:.0f} MiB")
    one = least([KERNELS, "read_module", "1"], module)
    many = least([KERNELS, "read_module", str(1 + READINGS)], module)
    print(f"reading         {(many - one) / READINGS * 1000:8.1f} ms")
    print(f"wasmnode check  {least([NODE, 'check'], line) * 1000:8.1f} ms")
    if shutil.which("wasm-validate") is None:
        return
    with tempfile.NamedTemporaryFile(suffix=".wasm") as kept:
        kept.write(module)
        kept.flush()
        print(f"wasm-validate   {least(['wasm-validate', kept.name]) * 1000:8.1f} ms")


if __name__ == "__main__":
    main()
