#!/usr/bin/env python3
"""Compares `wasmnode check` with wasm-validate of wabt on codes with changed bytes.

usage: tools/compare_check.py COUNT

It needs the built programs crates/wasmnode/out/wasmnode and crates/sample_codes/out/sample_codes, and wasm-validate. A code
counts as valid where the answer is other than `Read` and `Invalid`. Codes with floats are left out: this host refuses them.
The same count gives the same codes. Each disagreement is printed, and a last line with what was answered how often.
"""

import base64
import collections
import random
import subprocess
import sys
import tempfile

NODE = "crates/wasmnode/out/wasmnode"
SAMPLES = "crates/sample_codes/out/sample_codes"
NAMES = ["echo", "spin", "keeper", "common", "sign"]
HEADER = 8

# what WebAssembly 1.0 with sign extension doesn't have
LATER = [
    "mutable-globals",
    "saturating-float-to-int",
    "simd",
    "multi-value",
    "bulk-memory",
    "reference-types",
]

# bytes that mean something in many places: opcodes, types and small numbers
COMMON = bytes.fromhex("00010b0c0d0e0f101a1b202122232428364142456a7c020304057f7e40")


def sample(name):
    return subprocess.run([SAMPLES, name], stdout=subprocess.PIPE, check=True).stdout


def changed(rng, code):
    """The code with one to three bytes other than before, behind its header."""
    new = bytearray(code)
    for _ in range(rng.randint(1, 3)):
        at = rng.randrange(HEADER, len(new))
        near = (new[at] + rng.choice([-1, 1])) & 0xFF
        new[at] = rng.choice([near, rng.randrange(256), rng.choice(COMMON)])
    return bytes(new)


def answer(code):
    line = base64.b64encode(code) + b"\n"
    written = subprocess.run([NODE, "check"], input=line, stdout=subprocess.PIPE, check=True).stdout
    return written.decode().strip().removeprefix('{"check":"').removesuffix('"}')


def is_valid(code):
    with tempfile.NamedTemporaryFile(suffix=".wasm") as kept:
        kept.write(code)
        kept.flush()
        words = ["wasm-validate"] + ["--disable-" + feature for feature in LATER] + [kept.name]
        return subprocess.run(words, stderr=subprocess.DEVNULL).returncode == 0


def main():
    if len(sys.argv) != 2 or not sys.argv[1].isdigit():
        sys.exit(__doc__)
    rng = random.Random(int(sys.argv[1]))
    codes = [sample(name) for name in NAMES]
    answers = collections.Counter()
    for _ in range(int(sys.argv[1])):
        code = changed(rng, rng.choice(codes))
        said = answer(code)
        words = said.split()
        answers[" ".join(words[:2]) if words[0] in ("Read", "Invalid") else words[0]] += 1
        if words[:2] != ["Read", "Float"] and is_valid(code) == (words[0] in ("Read", "Invalid")):
            print(f"{said}: {code.hex()}")
    print(", ".join(f"{name} {count}" for name, count in answers.most_common()))


if __name__ == "__main__":
    main()
