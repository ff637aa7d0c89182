#!/usr/bin/env python3
"""Writes a genesis and lines of a mebibyte of blanks, so many bytes in all.

usage: long_input.py BYTES
"""
import json
import sys

genesis = {"genesis": {
    "authority": None, "balances": [], "capabilities": [], "chain_id": "bench-1", "prefix": "bench",
    "query_gas": 1000000, "time": "0",
}}
left = int(sys.argv[1])
blank = b" " * (2**20 - 1) + b"\n"
text = json.dumps(genesis, separators=(",", ":")).encode() + b"\n"
while left > 0:
    piece = text[:left]
    sys.stdout.buffer.write(piece)
    left -= len(piece)
    text = blank
