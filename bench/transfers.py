#!/usr/bin/env python3
"""Writes a run of blocks of bank sends among so many accounts, with a query after each block: of the newest height, or of
the one so many blocks before it.

usage: transfers.py ACCOUNTS BLOCKS SENDS [BEFORE]
"""
import json
import random
import sys

LETTERS = "qpzry9x8gf2tvdw0s3jn54khce6mua7l"
GENERATORS = [0x3B6A57B2, 0x26508E6D, 0x1EA119FA, 0x3D4233DD, 0x2A1462B3]


def remainder(values):
    """The remainder of bech32's checksum (BIP 173)."""
    state = 1
    for value in values:
        top = state >> 25
        state = (state & 0x1FFFFFF) << 5 ^ value
        for bit, generator in enumerate(GENERATORS):
            if top >> bit & 1:
                state ^= generator
    return state


def address(prefix, data):
    """The text of an address of so many bytes, a multiple of five."""
    number = int.from_bytes(data, "big")
    count = len(data) * 8 // 5
    groups = [number >> 5 * (count - 1 - place) & 31 for place in range(count)]
    name = [ord(c) >> 5 for c in prefix] + [0] + [ord(c) & 31 for c in prefix]
    rest = remainder(name + groups + [0] * 6) ^ 1
    check = [rest >> 5 * (5 - place) & 31 for place in range(6)]
    return prefix + "1" + "".join(LETTERS[value] for value in groups + check)


def line(value):
    print(json.dumps(value, separators=(",", ":")))


def main():
    accounts, blocks, sends, *before = map(int, sys.argv[1:])
    chance = random.Random(1)
    names = [address("bench", number.to_bytes(5, "big")) for number in range(accounts)]
    line({"genesis": {
        "authority": None,
        "balances": [{"address": name, "coins": [{"amount": "1000000", "denom": "utok"}]} for name in names],
        "capabilities": [], "chain_id": "bench-1", "prefix": "bench", "query_gas": 1000000, "time": "0",
    }})
    for height in range(1, blocks + 1):
        txs = []
        for _ in range(sends):
            coins = [{"amount": str(chance.randint(1, 9)), "denom": "utok"}]
            send = {"bank": {"send": {"amount": coins, "to_address": chance.choice(names)}}}
            txs.append({"gas": 5000, "msgs": [send], "sender": chance.choice(names)})
        line({"block": {"time": str(height), "txs": txs}})
        balance = {"bank": {"balance": {"address": chance.choice(names), "denom": "utok"}}}
        asked = max(0, height - before[0]) if before else None
        line({"query": {"client": 1, "height": asked, "request": balance}})


main()
