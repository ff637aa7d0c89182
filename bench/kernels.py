#!/usr/bin/env python3
"""Times the kernels of a built bench_kernels, and prints nanoseconds per call, or megabytes per second.

usage: bench/kernels.py [PROGRAM]

PROGRAM is crates/bench_kernels/out/bench_kernels if it isn't given: `rt run -- binary_add 1000` in
crates/bench_kernels leaves it there. First the checksum of each kernel at a small count is compared with
what Python makes of the same work. Each time is the least processor time of five runs, less that of a run
that only prepares. The time of layers_keep includes that of putting each change into its layer first.
"""

import os
import subprocess
import sys
import tempfile

sys.dont_write_bytecode = True
import modules  # noqa: E402

PROGRAM = "crates/bench_kernels/out/bench_kernels"
RUNS = 5
MASK_32, MASK_64 = (1 << 32) - 1, (1 << 64) - 1
MEMORY = 1 << 20
SPREAD = 0x9E3779B97F4A7C15
SPREAD_32 = 0x9E3779B1

CALLS = 10_000_000
CHARGES = 100_000_000
MODULES = [(10, 3000), (100, 300), (800, 40)]
KEYS = [100_000, 1_000_000]
LAYERS, CHANGES, ROUNDS = 32, 100, 10
RUNS_OF_MAPS, DELTAS, MERGES = [1, 4, 16], 10_000, 10


def run(program, kernel, count, given=b""):
    """The checksum, and the processor time in seconds."""
    with tempfile.TemporaryFile() as stdin, tempfile.TemporaryFile() as stdout:
        stdin.write(given)
        stdin.seek(0)
        process = subprocess.Popen([program, kernel, str(count)], stdin=stdin, stdout=stdout)
        _, status, usage = os.wait4(process.pid, 0)
        process.returncode = os.waitstatus_to_exitcode(status)
        if process.returncode != 0:
            sys.exit(f"{kernel} {count}: status {process.returncode}")
        stdout.seek(0)
        return int(stdout.read()), usage.ru_utime + usage.ru_stime


def least(program, kernel, count, given=b""):
    return min(run(program, kernel, count, given)[1] for _ in range(RUNS))


# ---- what the checksums should be


def added(count):
    return count * (count - 1) // 2 & MASK_32


def divided(count):
    return sum(-((1 << 63) // divisor) for divisor in range(1, count + 1)) & MASK_64


def places(count):
    return [turn * 61 * 8 & 0xFFFF8 for turn in range(count)]


def filled():
    numbers = (number * SPREAD & MASK_64 for number in range(MEMORY // 8))
    return bytearray(b"".join(number.to_bytes(8, "little") for number in numbers))


def loaded(width, count):
    memory = filled()
    return sum(int.from_bytes(memory[at : at + width], "little") for at in places(count)) & MASK_64


def stored(count):
    memory = filled()
    for turn, at in enumerate(places(count)):
        memory[at : at + 8] = turn.to_bytes(8, "little")
    return sum(int.from_bytes(memory[at : at + 8], "little") for at in range(0, MEMORY, 8)) & MASK_64


def changed(count):
    """The map under the layers' changes, and the changes that differ from the base."""
    base = {key: key for key in range(count)}
    changes = {}
    for turn in range(LAYERS * CHANGES):
        value = int.from_bytes((turn % CHANGES).to_bytes(4, "big"), "little")
        changes[turn * SPREAD_32 % (1 << 32) % count] = value
    return base | changes, {key: value for key, value in changes.items() if base[key] != value}


def in_runs(count, runs):
    """The map in so many runs, of which each but the oldest has a hundred changes."""
    entries = {key: key for key in range(count)}
    for turn in range(CHANGES, runs * CHANGES):
        value = int.from_bytes((turn % CHANGES).to_bytes(4, "big"), "little")
        entries[turn * SPREAD_32 % (1 << 32) % count] = value
    return entries


def got(count, entries):
    return sum(entries[turn * SPREAD_32 % (1 << 32) % count] for turn in range(count)) & MASK_64


def wanted(count):
    return {
        "binary_add": added(count),
        "binary_div": divided(count),
        "load_1": loaded(1, count),
        "load_2": loaded(2, count),
        "load_4": loaded(4, count),
        "load_8": loaded(8, count),
        "store_8": stored(count),
        "charge": count,
        "layers_new": LAYERS,
        "layers_get": got(count, changed(count)[0]),
        "layers_next": sum(changed(count)[0].values()) & MASK_64,
        "layers_keep": len(changed(count)[1]),
        "plain_get": got(count, in_runs(count, 1)),
        "plain_next": sum(in_runs(count, 1).values()) & MASK_64,
    }


def wanted_of_runs(count, runs):
    return {
        "runs_new": runs,
        "runs_get": got(count, in_runs(count, runs)),
        "runs_next": sum(in_runs(count, runs).values()) & MASK_64,
        "runs_change": (runs + 1) * DELTAS,
        "runs_merge": MERGES,
    }


def compare(program, kernel, count, given, expected):
    checksum = run(program, kernel, count, given)[0]
    if checksum != expected:
        sys.exit(f"{kernel} {count}: checksum {checksum}, expected {expected}")


def compare_all(program):
    for count in [1, 1000, 70_000]:
        for kernel, expected in wanted(count).items():
            compare(program, kernel, count, b"", expected)
    for count, runs in [(1000, 1), (1000, 17), (70_000, 4)]:
        for kernel, expected in wanted_of_runs(count, runs).items():
            compare(program, kernel, count, str(runs).encode(), expected)
    bodies = modules.bodies_of(10_000)
    compare(program, "read_module", 3, modules.module(bodies), 3 * sum(map(len, bodies)))
    print("checksums: as expected")


# ---- times


def time_calls(program, kernel, count):
    seconds = least(program, kernel, count) - least(program, kernel, 0)
    print(f"{kernel:<12} {count:>11,} calls {seconds / count * 1e9:>9.2f} ns per call")


def time_modules(program, size, count):
    bodies = modules.bodies_of(size * 1000)
    module = modules.module(bodies)
    seconds = least(program, "read_module", count, module) - least(program, "read_module", 0, module)
    speed = count * len(module) / seconds / 1e6
    each = seconds / count / sum(map(len, bodies)) * 1e9
    print(f"{'read_module':<12} {len(module):>11,} bytes {speed:>9.1f} MB per second, {each:.1f} ns per instruction")


def moves():
    """How many changes one round moves: the newest of 32 layers has 100, and is kept onto the next."""
    return sum(layer * CHANGES for layer in range(1, LAYERS + 1))


def time_layers(program, keys):
    new = least(program, "layers_new", keys)
    print(f"{'layers_new':<12} {keys:>11,} keys  {new / keys * 1e9:>9.0f} ns per key")
    for kernel in ["layers_get", "layers_next"]:
        seconds = least(program, kernel, keys) - new
        print(f"{kernel:<12} {keys:>11,} keys  {seconds / keys * 1e9:>9.0f} ns per call")
    seconds = least(program, "layers_keep", keys) - new
    each = seconds / (ROUNDS + 1) / moves() * 1e9
    print(f"{'layers_keep':<12} {keys:>11,} keys  {each:>9.0f} ns per change that is moved")


def time_reads(program, keys):
    """A map of so many keys as one sorted map, and as runs."""
    new = least(program, "runs_new", keys, b"1")
    for kernel in ["plain_get", "plain_next"]:
        seconds = least(program, kernel, keys) - new
        print(f"{kernel:<12} {keys:>11,} keys  {seconds / keys * 1e9:>9.0f} ns per call")
    for runs in RUNS_OF_MAPS:
        given = str(runs).encode()
        new = least(program, "runs_new", keys, given)
        for kernel in ["runs_get", "runs_next"]:
            seconds = least(program, kernel, keys, given) - new
            print(f"{kernel:<12} {keys:>11,} keys  {seconds / keys * 1e9:>9.0f} ns per call, {runs} runs")


def time_writes(program):
    for keys in [1000, 1_000_000]:
        seconds = least(program, "runs_change", keys, b"1") - least(program, "runs_new", keys, b"1")
        print(f"{'runs_change':<12} {keys:>11,} keys  {seconds / DELTAS * 1e9:>9.0f} ns for 100 changes")
    keys, runs = 100_000, b"17"
    seconds = least(program, "runs_merge", keys, runs) - least(program, "runs_new", keys, runs)
    print(f"{'runs_merge':<12} {keys:>11,} keys  {seconds / MERGES * 1e3:>9.2f} ms for 17 runs")


def main():
    if len(sys.argv) > 2:
        sys.exit(__doc__)
    program = os.path.abspath(sys.argv[1] if len(sys.argv) == 2 else PROGRAM)
    compare_all(program)
    for kernel in ["binary_add", "binary_div", "load_1", "load_2", "load_4", "load_8", "store_8"]:
        time_calls(program, kernel, CALLS)
    time_calls(program, "charge", CHARGES)
    for size, count in MODULES:
        time_modules(program, size, count)
    for keys in KEYS:
        time_layers(program, keys)
    time_reads(program, 1_000_000)
    time_writes(program)


if __name__ == "__main__":
    main()
