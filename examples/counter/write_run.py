#!/usr/bin/env python3
"""Writes run.jsonl anew, with the code of counter.wasm: examples/counter/write_run.py"""
import base64
import json
import os
import sys

HERE = os.path.dirname(os.path.abspath(__file__))
sys.path.insert(0, os.path.join(HERE, "..", "..", "tools"))
import store_line

ALICE = "wasm1qyqszqgpqyqszqgpqyqszqgpqyqszqgpc0styh"
BOB = "wasm1qgpqyqszqgpqyqszqgpqyqszqgpqyqszftkw0p"
# The address of the first contract, where it has the first code. The event of its instantiation tells it.
COUNTER = "wasm14hj2tavq8fpesdwxxcu44rty3hh90vhujrvcmstl4zr3txmfvw9s0phg4d"


def binary(value):
    return base64.b64encode(json.dumps(value, separators=(",", ":")).encode()).decode()


def holding(address, amount):
    return {"address": address, "coins": [{"amount": amount, "denom": "utok"}]}


def genesis():
    return {"genesis": {"authority": None, "balances": [holding(ALICE, "1000"), holding(BOB, "1000")], "capabilities": [],
                        "chain_id": "counter-1", "prefix": "wasm", "query_gas": 1000000, "time": "0"}}


def transaction(sender, message):
    return {"gas": 200000, "msgs": [message], "sender": sender}


def block(time, *transactions):
    return {"block": {"time": time, "txs": list(transactions)}}


def store():
    with open(os.path.join(HERE, "counter.wasm"), "rb") as file:
        return store_line.message(file.read(), [])


def instantiate(value):
    return {"wasm": {"instantiate": {"admin": None, "code_id": 1, "funds": [], "label": "counter", "msg": binary(value)}}}


def execute(value):
    return {"wasm": {"execute": {"contract_addr": COUNTER, "funds": [], "msg": binary(value)}}}


def count_at(height):
    smart = {"contract_addr": COUNTER, "msg": binary({"count": {}})}
    return {"query": {"client": 1, "height": height, "request": {"wasm": {"smart": smart}}}}


def lines():
    """A code is stored, a contract made of it, counted up twice, and reset by one who may not."""
    return [
        genesis(),
        block("1000000000", transaction(ALICE, store())),
        block("2000000000", transaction(ALICE, instantiate({"count": 5}))),
        block("3000000000", transaction(BOB, execute({"increment": {}}))),
        block("4000000000", transaction(ALICE, execute({"increment": {}})), transaction(BOB, execute({"reset": {"count": 0}}))),
        count_at(None),
        count_at(2),
    ]


if __name__ == "__main__":
    with open(os.path.join(HERE, "run.jsonl"), "w") as out:
        for line in lines():
            out.write(json.dumps(line, separators=(",", ":"), sort_keys=True) + "\n")
