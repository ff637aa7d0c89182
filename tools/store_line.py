#!/usr/bin/env python3
"""Prints the message that stores a code: tools/store_line.py FILE.wasm [ADDRESS..]

Without addresses everybody may instantiate the code, and else these alone. The message is one of the messages of a
transaction of a block."""
import base64
import json
import sys


def message(code, allow):
    """The message that stores these bytes."""
    return {"store_code": {"allow": allow or None, "code": base64.b64encode(code).decode()}}


def main(words):
    if not words or words[0].startswith("-"):
        sys.exit("usage: tools/store_line.py FILE.wasm [ADDRESS..]")
    try:
        with open(words[0], "rb") as file:
            code = file.read()
    except OSError as fault:
        sys.exit(f"store_line.py: {words[0]}: {fault.strerror}")
    print(json.dumps(message(code, words[1:]), separators=(",", ":"), sort_keys=True))


if __name__ == "__main__":
    main(sys.argv[1:])
