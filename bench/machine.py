#!/usr/bin/env python3
"""Times the machine on four small modules, beside wasm-interp of wabt on the same ones.

usage: bench/machine.py [PROGRAM]

PROGRAM is crates/bench_kernels/out/bench_kernels if it isn't given. Each module exports `run`, which turns so often;
both programs have to give the same number. A time is the least processor time of three runs, less that of a run of the
same module with few turns, divided by the instructions between the two, `end` and `else` not counted. wasm-interp is left
out where it isn't on the machine. Then a memory is grown to 512 pages, and the program's greatest memory is told.
"""

import shutil
import sys
import tempfile

sys.dont_write_bytecode = True
from modules import BLOCK, END, GET, HEADER, I32, I32_ADD, I32_CONST, I32_MUL, SET, TEE  # noqa: E402
from modules import section, signed, unsigned, vector  # noqa: E402
from processes import run  # noqa: E402

PROGRAM = "crates/bench_kernels/out/bench_kernels"
RUNS = 3

LOOP, IF_I32, ELSE, BR_IF, BR_TABLE, CALL = b"\x03\x40", b"\x04\x7f", b"\x05", b"\x0d\x00", b"\x0e", b"\x10"
LOAD, STORE = b"\x28\x02\x00", b"\x36\x02\x00"
I32_SUB, I32_AND, I32_LT_U = b"\x6b", b"\x71", b"\x49"
DROP, SIZE, GROW = b"\x1a", b"\x3f\x00", b"\x40\x00"

TURN, SUM = GET + b"\x00", GET + b"\x01"


def const(number):
    return I32_CONST + signed(number)


def code(declared, instructions):
    content = vector([unsigned(declared) + I32]) + b"".join(instructions) + END
    return unsigned(len(content)) + content


def module(codes):
    """The first code is `run`, without parameters; one more has a parameter. All give an i32."""
    types = [b"\x60" + vector([I32] * params) + vector([I32]) for params in range(2)]
    return (
        HEADER
        + section(1, vector(types))
        + section(3, vector([unsigned(at) for at in range(len(codes))]))
        + section(5, vector([b"\x00" + unsigned(2)]))
        + section(7, vector([unsigned(3) + b"run" + b"\x00" + unsigned(0)]))
        + section(10, vector(codes))
    )


def loop(turns, instructions):
    """Turns so often, with the turns to come in local 0, and gives local 1."""
    again = [TURN, const(1), I32_SUB, TEE + b"\x00", BR_IF, END]
    return module([code(2, [const(turns), SET + b"\x00", LOOP] + instructions + again + [SUM])])


def arithmetic(turns):
    return loop(turns, [SUM, const(31), I32_MUL, TURN, I32_ADD, SET + b"\x01"]), 11 * turns


def loads_and_stores(turns):
    place = [TURN, const(0xFFF8), I32_AND]
    return loop(turns, place + [TURN, STORE, SUM] + place + [LOAD, I32_ADD, SET + b"\x01"]), 17 * turns


def table_jumps(turns):
    """A jump into one of four cases, each of which falls into the next: ten instructions on average."""
    jump = [BLOCK] * 4 + [TURN, const(3), I32_AND, BR_TABLE + vector([b"\x00", b"\x01", b"\x02"]) + b"\x03"]
    cases = [END + SUM + const(number) + I32_ADD + SET + b"\x01" for number in (1, 3, 5, 7)]
    return loop(turns, jump + cases), 23 * turns


def recursion(depth):
    """Fibonacci's numbers by their recursion."""
    leaf = [TURN, const(2), I32_LT_U, IF_I32, TURN, ELSE]
    inner = [TURN, const(1), I32_SUB, CALL + b"\x01", TURN, const(2), I32_SUB, CALL + b"\x01", I32_ADD, END]
    leaves, before = 1, 1
    for _ in range(depth - 1):
        leaves, before = leaves + before, leaves
    return module([code(0, [const(depth), CALL + b"\x01"]), code(0, leaf + inner)]), 5 * leaves + 13 * (leaves - 1)


def grown_at_once():
    """Grows the memory from 2 to 512 pages, and gives their number."""
    return module([code(0, [const(510), GROW, DROP, SIZE])])


def grown_by_pages():
    again = [TURN, const(1), I32_SUB, TEE + b"\x00", BR_IF, END]
    return module([code(1, [const(510), SET + b"\x00", LOOP, const(1), GROW, DROP] + again + [SIZE])])


KINDS = [
    ("arithmetic", arithmetic, 4, 4_000_000),
    ("loads and stores", loads_and_stores, 4, 4_000_000),
    ("br_table", table_jumps, 4, 4_000_000),
    ("recursion", recursion, 4, 27),
]


def ours(program, code):
    answer, seconds, memory = run([program, "run_module", "1"], code)
    return int(answer), seconds, memory


def theirs(_, code):
    with tempfile.NamedTemporaryFile(suffix=".wasm") as kept:
        kept.write(code)
        kept.flush()
        answer, seconds, memory = run(["wasm-interp", kept.name, "--run-all-exports"])
        return int(answer.rsplit(":", 1)[1]), seconds, memory


def measured(runner, program, make, few, many):
    """The number that comes out, nanoseconds per instruction, and the greatest memory."""
    (small, less), (large, more) = make(few), make(many)
    base = min(runner(program, small)[1] for _ in range(RUNS))
    runs = [runner(program, large) for _ in range(RUNS)]
    nanoseconds = (min(seconds for _, seconds, _ in runs) - base) / (more - less) * 1e9
    return runs[0][0], nanoseconds, max(memory for _, _, memory in runs)


def main():
    program = sys.argv[1] if len(sys.argv) > 1 else PROGRAM
    for name, make, few, many in KINDS:
        number, nanoseconds, memory = measured(ours, program, make, few, many)
        print(f"{name:18} {nanoseconds:7.1f} ns per instruction, {memory:.0f} MiB", end="")
        if shutil.which("wasm-interp") is not None:
            other, theirs_ns, _ = measured(theirs, program, make, few, many)
            if other != number:
                sys.exit(f"\n{name}: {number}, and wasm-interp says {other}")
            print(f"; wasm-interp {theirs_ns:.1f} ns", end="")
        print()
    for name, make in [("grown at once", grown_at_once), ("grown by pages", grown_by_pages)]:
        pages, _, memory = ours(program, make())
        print(f"{name:18} {pages} pages, {memory:.0f} MiB")


if __name__ == "__main__":
    main()
