#!/usr/bin/env python3
"""Runs the built programs on whole inputs, and compares what they write and their statuses with what is
wanted: each kind of bad line, addresses in either case, limits, what fails in a transaction, queries of kept
heights, reads and writes that fail on the way, the run of the example contract, and blocks of sends beside a plain map of balances. Run it after rt ci. It writes nothing where all is as it should be."""
import base64
import hashlib
import json
import os
import random
import resource
import socket
import subprocess
import sys
import tempfile

TOP = os.path.dirname(os.path.dirname(os.path.abspath(__file__)))


def built(crate, word):
    """The program of a crate, which is built if it isn't there."""
    folder = os.path.join(TOP, "crates", crate)
    program = os.path.join(folder, "out", crate)
    if not os.access(program, os.X_OK):
        log = subprocess.run(["rt", "run", "--", word], cwd=folder, stdin=subprocess.DEVNULL, stdout=subprocess.PIPE, stderr=subprocess.STDOUT)
        if not os.access(program, os.X_OK):
            sys.exit(log.stdout.decode(errors="replace"))
    return program


NODE = built("wasmnode", "serial")
SAMPLES = built("sample_codes", "echo")

DONE, USAGE, BAD_LINE, READ_FAULT, WRITE_FAULT = 0, 2, 3, 5, 6

A = "abcdef1qpzry9x8gf2tvdw0s3jn54khce6mua7lmqqqxw"
B = "abcdef1qpzry9x8gf2tvdw0s3jn54khce6mua77xk54mu"
C = "abcdef1qpzry9x8gf2tvdw0s3jn54khce6mua7ag9pr4r"

failed = False


def complain(what, told):
    global failed
    failed = True
    print(f"check_answers: {what}: {told}")


def compare(what, found, status, wanted):
    """A program's status and output beside those that are wanted."""
    if found.returncode != status:
        complain(what, f"the status is {found.returncode}, and not {status}")
    if found.stdout != wanted:
        place = next((i for i, (a, b) in enumerate(zip(found.stdout, wanted)) if a != b), min(len(found.stdout), len(wanted)))
        complain(what, f"other bytes from {place} on: {found.stdout[place:place + 200]} and not {wanted[place:place + 200]}")


def expect(what, words, given, status, wanted, program=NODE):
    compare(what, subprocess.run([program, *words], input=given, stdout=subprocess.PIPE), status, wanted)


def text(value):
    """A value as the node writes it: no blanks, and keys that rise."""
    return json.dumps(value, separators=(",", ":"), sort_keys=True)


def lines(*values):
    """A line for each; what is no text yet is written as the node would."""
    return b"".join((v if isinstance(v, str) else text(v)).encode() + b"\n" for v in values)


def coins(*pairs):
    return [{"amount": str(amount), "denom": denom} for amount, denom in pairs]


def genesis(authority=None, balances=()):
    return {"genesis": {"authority": authority, "balances": [{"address": who, "coins": coins(*held)} for who, held in balances],
                        "capabilities": [], "chain_id": "t-1", "prefix": "abcdef", "query_gas": 1000000, "time": "0"}}


def tx_of(gas, sender, *msgs):
    return {"gas": gas, "msgs": msgs, "sender": sender}


def send(recipient, *sent_coins):
    return {"bank": {"send": {"amount": coins(*sent_coins), "to_address": recipient}}}


def tx(gas, sender, recipient, *sent_coins):
    return tx_of(gas, sender, send(recipient, *sent_coins))


def block(time, *txs):
    return {"block": {"time": str(time), "txs": txs}}


def balance_request(address, denom="utok"):
    return {"bank": {"balance": {"address": address, "denom": denom}}}


def asks(request, height=None):
    return {"query": {"client": 1, "height": height, "request": request}}


def query(address, denom="utok", height=None):
    return asks(balance_request(address, denom), height)


def done(gas, *events):
    """A transaction that was done, whose messages have an event each."""
    told = [{"attributes": [{"key": k, "value": v} for k, v in attributes], "type": kind} for kind, *attributes in events]
    return {"code": 0, "codespace": "", "data": [None] * len(events), "detail": "", "events": told, "gas": gas}


def transfer(sender, recipient, amount):
    return ("transfer", ("recipient", recipient), ("sender", sender), ("amount", amount))


def sent(gas, sender, recipient, amount):
    return done(gas, transfer(sender, recipient, amount))


def not_sent(code, gas, detail, codespace="sdk"):
    return {"code": code, "codespace": codespace, "data": [], "detail": detail, "events": [], "gas": gas}


class Digests:
    """The answers to blocks, each with the digest of the one before it and of its own body."""

    def __init__(self):
        self.last = bytes(32)
        self.height = 0

    def answer(self, *results):
        self.height += 1
        body = {"height": self.height, "results": results}
        self.last = hashlib.sha256(self.last + text(body).encode()).digest()
        return {"block": {"body": body, "digest": self.last.hex()}}


def in_base64(value):
    return base64.b64encode(text(value).encode()).decode()


def replied(n, gas, result, height=None):
    """A query's answer, which saw n as the newest height and asked this one, or the newest."""
    return {"query": {"client": 1, "gas": gas, "height": n if height is None else height, "n": n, "result": result}}


def balance(n, amount, denom="utok", height=None):
    return replied(n, 1000, {"ok": {"ok": in_base64({"amount": {"amount": str(amount), "denom": denom}})}}, height)


def invalid(n, error, request):
    return replied(n, 1000, {"error": {"invalid_request": {"error": error, "request": in_base64(request)}}})


def bad(kind, number):
    return {"bad_line": {"kind": kind, "line": number}}


GENESIS = genesis(A, [(A, [(10, "utok")])])
OPENED = {"genesis": {"chain_id": "t-1", "height": 0}}
BLOCK = block(1, tx(5000, A, B, (3, "utok")))
BLOCK_ANSWER = Digests().answer(sent(1100, A, B, "3utok"))
QUERY = query(A)
QUERY_ANSWER = balance(1, 7)
# of a repeated field the last one counts
REPEATED = text(QUERY).replace('"client":1', '"client":2,"client":1')


def each_line_is_answered():
    digests = Digests()
    first = digests.answer(sent(1100, A, B, "3utok"))
    if first["block"]["digest"] != "26c90ca225e9726b90811a2ec3833dcfe7437bd2763ca9c982c0f2203fc4033c":
        complain("the first block", "its digest isn't the one that was computed elsewhere")
    # one has too little gas by one, and one sends a coin more than there is
    failing = block(2, tx(1099, A, B, (1, "utok")), tx(1100, A, B, (8, "utok")))
    second = digests.answer(not_sent(11, 1099, "OutOfGas"), not_sent(5, 1100, "NotEnough utok 7 8"))
    given = lines("", GENESIS, " \t\r", BLOCK, REPEATED, failing, QUERY)
    expect("each kind of line", ["serial"], given, DONE, lines(OPENED, first, QUERY_ANSWER, second, balance(2, 7)))
    expect("no line feed at the end", ["serial"], lines(GENESIS)[:-1], DONE, lines(OPENED))


def a_send_to_oneself_changes_nothing():
    given = block(1, tx(1100, A, A, (10, "utok")), tx(1100, A, A, (11, "utok")))
    wanted = Digests().answer(sent(1100, A, A, "10utok"), not_sent(5, 1100, "NotEnough utok 10 11"))
    expect("a send to oneself", ["serial"], lines(GENESIS, given), DONE, lines(OPENED, wanted))


def a_bad_line_ends_the_run():
    fraction = text(block(1, tx(1, A, B, (1, "utok")))).replace('"gas":1', '"gas":1.0')
    greatest = 2**128 - 1
    none = [(0, "utok")]
    too_much = [(A, [(greatest, "utok")]), (B, [(1, "utok")])]
    # lines, the answers to them before the bad one, its kind and its number
    for given, answers, kind, number in [
        ([], [], "missing", 1),
        (["", " \t\r"], [], "missing", 3),
        ([GENESIS, BLOCK, "", "{"], [OPENED, BLOCK_ANSWER], "json", 4),
        ([GENESIS, fraction], [OPENED], "number", 2),
        ([GENESIS, '{"block":{}}'], [OPENED], "shape", 2),
        ([GENESIS, '{"transfer":{}}'], [OPENED], "shape", 2),
        ([BLOCK], [], "order", 1),
        (["", QUERY], [], "order", 2),
        ([GENESIS, GENESIS], [OPENED], "order", 2),
        # two holdings of one address, in two spellings, a coin of nothing, and a supply of 2^128
        ([genesis(None, [(A, []), (A.upper(), [])])], [], "address", 1),
        ([genesis(None, [(A, none)])], [], "coins", 1),
        ([genesis(None, too_much)], [], "supply", 1),
        # two kinds in one line, of which the earlier is answered
        (["[1.5"], [], "json", 1),
        (["[1.5]"], [], "number", 1),
        ([GENESIS, '{"query":{"client":1,"more":-1.5}}'], [OPENED], "number", 2),
        (['{"block":{}}'], [], "shape", 1),
        ([GENESIS, '{"genesis":{}}'], [OPENED], "shape", 2),
        ([GENESIS, genesis("zz")], [OPENED], "order", 2),
        ([genesis("zz", [(A, none)])], [], "address", 1),
        ([genesis(None, [(A, []), (B, none), (A, [])])], [], "address", 1),
        ([genesis(None, [*too_much, (C, none)])], [], "coins", 1),
    ]:
        expect(f"a bad line of {given}", ["serial"], lines(*given), BAD_LINE, lines(*answers, bad(kind, number)))
    expect("a long line that is no JSON", ["serial"], lines(GENESIS) + b"{" * (8 * 2**20 + 1), BAD_LINE, lines(OPENED, bad("long", 2)))


def an_address_is_read_in_either_case():
    wanted = lines(OPENED, BLOCK_ANSWER, QUERY_ANSWER)
    given = lines(genesis(None, [(A.upper(), [(10, "utok")])]), block(1, tx(5000, A.upper(), B, (3, "utok"))), query(A.upper()))
    expect("addresses in upper case", ["serial"], given, DONE, wanted)
    given = lines(GENESIS, block(1, tx(5000, A, B.upper(), (3, "utok"))), QUERY)
    expect("a recipient in upper case", ["serial"], given, DONE, wanted)
    # nothing, no separator, a letter that bech32 lacks, a wrong checksum, letters in both cases, another prefix, no
    # bytes, 65 bytes, bits that fill no byte, and bits other than 0 behind the last byte
    for none in ["", "a", "abcdef1bpzry9x8gf2tvdw0s3jn54khce6mua7lmqqqxw", "abcdef1qpzry9x8gf2tvdw0s3jn54khce6mua7lmqqqxq",
                 "Abcdef1qpzry9x8gf2tvdw0s3jn54khce6mua7lmqqqxw", "abcdeg1qpzry9x8gf2tvdw0s3jn54khce6mua7ls7htt9", "abcdef1hu3qdg",
                 "abcdef1qqqqqqqqqqqqqqqqqqqqqqqqqqqqqqqqqqqqqqqqqqqqqqqqqqqqqqqqqqqqqqqqqqqqqqqqqqqqqqqqqqqqqqqqqqqqqqqqqqqeumj02",
                 "abcdef1qqqlewqfh", "abcdef1qp2a4y4w"]:
        for first in [genesis(none), genesis(None, [(none, [(10, "utok")])])]:
            expect(f"the address {none}", ["serial"], lines(first), BAD_LINE, lines(bad("address", 1)))
        given = lines(GENESIS, block(1, tx(5000, none, B, (3, "utok")), tx(5000, A, none, (3, "utok"))), query(none))
        results = Digests().answer(not_sent(7, 0, "AddressBad"), not_sent(7, 1000, "AddressBad"))
        expect(f"the address {none}", ["serial"], given, DONE, lines(OPENED, results, invalid(1, "address", balance_request(none))))


def what_fails_in_a_transaction_is_told_with_its_gas():
    one = send(B, (1, "utok"))
    staking = {"staking": {"delegate": {}}}
    txs, results = zip(*[
        (tx_of(5000, A), not_sent(18, 0, "NoMessages")),
        (tx_of(5000, "zz"), not_sent(7, 0, "AddressBad")),
        (tx_of(5000, A, staking), not_sent(20, 1000, "Unsupported staking", "wasm")),
        (tx_of(5000, A, {"bank": {"send": {}}}), not_sent(18, 0, "MessageBad")),
        (tx_of(5000, A, send(B, (0, "utok"))), not_sent(10, 1000, "CoinsBad")),
        (tx_of(5000, A, send(B)), not_sent(10, 1000, "CoinsBad")),
        # what the first message did is undone
        (tx_of(5000, A, one, send(B, (10, "utok"))), not_sent(5, 2200, "NotEnough utok 9 10")),
        (tx_of(5000, A, one, {"bank": 1}), not_sent(18, 1100, "MessageBad")),
        (tx_of(2199, A, one, one), not_sent(11, 2199, "OutOfGas")),
        (tx_of(2200, A, one, one), done(2200, transfer(A, B, "1utok"), transfer(A, B, "1utok"))),
    ])
    given = lines(GENESIS, block(1, *txs), QUERY)
    expect("transactions that fail", ["serial"], given, DONE, lines(OPENED, Digests().answer(*results), balance(1, 8)))


def a_burn_is_seen_by_queries():
    burn = tx_of(5000, A, {"bank": {"burn": {"amount": coins((4, "utok"))}}})
    wanted = Digests().answer(done(1100, ("burn", ("burner", A), ("amount", "4utok"))))
    left = {"amount": "6", "denom": "utok"}
    requests = [
        ({"bank": {"supply": {"denom": "utok"}}}, 1000, {"ok": {"ok": in_base64({"amount": left})}}),
        ({"bank": {"all_balances": {"address": A}}}, 1100, {"ok": {"ok": in_base64({"amount": [left]})}}),
        ({"bank": {"all_balances": {"address": B}}}, 1000, {"ok": {"ok": in_base64({"amount": []})}}),
        ({"bank": {"params": 1}}, 1000, {"error": {"unsupported_request": {"kind": "bank.params"}}}),
    ]
    given = lines(GENESIS, block(1, burn), *(asks(request) for request, _, _ in requests), asks({"bank": {}}))
    answers = [replied(1, gas, result) for _, gas, result in requests]
    expect("a burn", ["serial"], given, DONE, lines(OPENED, wanted, *answers, invalid(1, "shape", {"bank": {}})))


def queries_find_no_contract_and_no_code():
    """On a chain on which no code was stored."""
    requests = [
        ({"smart": {"contract_addr": A, "msg": ""}}, {"no_such_contract": {"addr": A}}),
        ({"smart": {"contract_addr": A.upper(), "msg": "e30="}}, {"no_such_contract": {"addr": A}}),
        ({"raw": {"contract_addr": B, "key": ""}}, {"no_such_contract": {"addr": B}}),
        ({"contract_info": {"contract_addr": B}}, {"no_such_contract": {"addr": B}}),
        ({"code_info": {"code_id": 0}}, {"no_such_code": {"code_id": 0}}),
        ({"code_info": {"code_id": 2**64 - 1}}, {"no_such_code": {"code_id": 2**64 - 1}}),
        ({"mint": {"code_id": 1}}, {"unsupported_request": {"kind": "wasm.mint"}}),
    ]
    bad = [
        ("shape", {"smart": {"contract_addr": "zz"}}),
        ("shape", {"raw": {"contract_addr": "zz", "key": "e"}}),
        ("shape", {"contract_info": {"contract_addr": None}}),
        ("shape", {"code_info": {"code_id": "1"}}),
        ("shape", {"code_info": {"code_id": 1}, "raw": 1}),
        ("address", {"smart": {"contract_addr": "zz", "msg": ""}}),
        ("address", {"raw": {"contract_addr": "zz", "key": ""}}),
        ("address", {"contract_info": {"contract_addr": "zz"}}),
    ]
    given = lines(GENESIS, *(asks({"wasm": request}) for request, _ in requests), *(asks({"wasm": request}) for _, request in bad))
    answers = [replied(0, 1000, {"error": error}) for _, error in requests]
    refused = [invalid(0, kind, {"wasm": request}) for kind, request in bad]
    expect("contracts and codes that aren't there", ["serial"], given, DONE, lines(OPENED, *answers, *refused))


def kept_heights_can_be_asked():
    """A utok is sent in each block, and 64 heights are kept."""
    for newest in [0, 1, 63, 64, 65, 130]:
        digests, amount = Digests(), 1000
        blocks = [block(k, tx(5000, A, B, (1, "utok"))) for k in range(newest)]
        results = [digests.answer(sent(1100, A, B, "1utok")) for _ in blocks]
        oldest = max(0, newest - 63)
        asked, answers = [], []
        for height in sorted({0, oldest - 1, oldest, oldest + 1, newest - 1, newest, newest + 1, 2**64 - 1} - {-1}):
            asked.append(query(A, height=height))
            if height > newest:
                answers.append(replied(newest, 0, {"not_yet": {"newest": newest}}, height))
            elif height < oldest:
                answers.append(replied(newest, 0, {"pruned": {"newest": newest, "oldest": oldest}}, height))
            else:
                answers.append(balance(newest, amount - height, height=height))
        given = lines(genesis(None, [(A, [(amount, "utok")])]), *blocks, *asked)
        expect(f"heights after {newest} blocks", ["serial"], given, DONE, lines(OPENED, *results, *answers))


def limits_are_kept():
    mebibytes = 8 * 2**20
    for what, line, status, answers in [
        ("a byte that is no text", b"\xff", BAD_LINE, [bad("json", 2)]),
        ("a line of eight mebibytes", b" " * mebibytes, DONE, []),
        ("a line of a byte more", b" " * (mebibytes + 1), BAD_LINE, [bad("long", 2)]),
    ]:
        expect(what, ["serial"], lines(GENESIS) + line, status, lines(OPENED, *answers))
    for lists, status, answer in [(125, DONE, Digests().answer()), (126, BAD_LINE, bad("json", 2))]:
        nested = '{"block":{"time":"1","txs":[],"x":' + "[" * lists + "]" * lists + "}}"
        expect(f"{lists} lists in one another", ["serial"], lines(GENESIS, nested), status, lines(OPENED, answer))
    blanks = b" " * 16383 + b"\n"
    node = subprocess.Popen([NODE, "serial"], stdin=subprocess.PIPE, stdout=subprocess.PIPE)
    for _ in range(2**30 // len(blanks)):
        node.stdin.write(blanks)
    found, _ = node.communicate(b"\n")
    compare("a gibibyte and a byte", subprocess.CompletedProcess([], node.returncode, found), BAD_LINE, lines(bad("total", 65537)))


def a_failed_read_ends_the_run_after_the_answers_before_it():
    given, answers = lines(GENESIS, BLOCK, QUERY), [OPENED, BLOCK_ANSWER, QUERY_ANSWER]
    for taken in [*range(0, len(given), 50), len(given)]:
        here, there = socket.socketpair()
        # what the other end leaves unread makes the read behind its last byte fail
        here.send(b"x")
        there.sendall(given[:taken])
        there.close()
        found = subprocess.run([NODE, "serial"], stdin=here, stdout=subprocess.PIPE)
        here.close()
        whole = given[:taken].count(b"\n")
        compare(f"a read that fails behind {taken} bytes", found, READ_FAULT, lines(*answers[:whole]))


def limited(program, words, given, size):
    """Runs with an output that takes no more bytes than this."""
    with tempfile.TemporaryFile() as out:
        found = subprocess.run([program, *words], input=given, stdout=out, restore_signals=False,
                               preexec_fn=lambda: resource.setrlimit(resource.RLIMIT_FSIZE, (size, size)))
        out.seek(0)
        return subprocess.CompletedProcess([], found.returncode, out.read())


def a_failed_write_ends_the_run_after_the_bytes_before_it():
    given, whole = lines(GENESIS, BLOCK, QUERY), lines(OPENED, BLOCK_ANSWER, QUERY_ANSWER)
    for size in range(len(whole)):
        compare(f"a write that fails behind {size} bytes", limited(NODE, ["serial"], given, size), WRITE_FAULT, whole[:size])


def blocks_of_sends_beside_a_plain_map():
    amounts = {(A, "utok"): 60, (A, "atok"): 50, (B, "utok"): 40}
    given, answers = [genesis(None, [(A, [(60, "utok"), (50, "atok")]), (B, [(40, "utok")])])], [OPENED]
    chance, digests = random.Random(1), Digests()

    def result(gas, sender, recipient, sent_coins):
        cost = 1000 + 100 * len(sent_coins)
        if gas < cost:
            return not_sent(11, gas, "OutOfGas")
        for amount, denom in sent_coins:
            have = amounts.get((sender, denom), 0)
            if have < amount:
                return not_sent(5, cost, f"NotEnough {denom} {have} {amount}")
        for amount, denom in sent_coins:
            amounts[sender, denom] -= amount
            amounts[recipient, denom] = amounts.get((recipient, denom), 0) + amount
        return sent(cost, sender, recipient, ",".join(f"{amount}{denom}" for amount, denom in sent_coins))

    for height in range(1, 41):
        rows = []
        for _ in range(20):
            sent_coins = [(chance.randrange(1, 20), denom) for denom in chance.choice([["atok"], ["utok"], ["atok", "utok"]])]
            rows.append((1050 + 50 * chance.randrange(8), chance.choice([A, B, C]), chance.choice([A, B, C]), sent_coins))
        given.append(block(height, *(tx(gas, sender, recipient, *sent_coins) for gas, sender, recipient, sent_coins in rows)))
        answers.append(digests.answer(*(result(*row) for row in rows)))
        for who in [A, B, C]:
            for denom in ["atok", "utok"]:
                given.append(query(who, denom))
                answers.append(balance(height, amounts.get((who, denom), 0), denom))
    expect("blocks of sends beside a plain map", ["serial"], lines(*given), DONE, lines(*answers))


def codes_are_checked():
    for line, status, answer in [
        (b"", DONE, {"check": "Read Cut 0"}),
        (b"H4sI\nH4sI\n", DONE, {"check": "Gzip"}),
        (b"AGFzbQEAAAA=", DONE, {"check": "MemoryMissing"}),
        (b"AGFzbQEAAAAFAwEAAQ==\n", DONE, {"check": "ExportMissing interface_version_8"}),
        (b"A", BAD_LINE, bad("base64", 1)),
        (b" \t", BAD_LINE, bad("base64", 1)),
        (b"H4sI\r\n", BAD_LINE, bad("base64", 1)),
        (b"H4sI ", BAD_LINE, bad("base64", 1)),
    ]:
        expect(f"check of {line}", ["check", "--caps", "a,,staking"], line, status, lines(answer))


def other_words_are_answered_with_the_usage():
    usage = "usage: wasmnode run|serial|check|gen N|soak N [options]"
    for words in [[], ["serial", "--stats"], ["Serial"]]:
        expect(f"the words {words}", words, lines(GENESIS), USAGE, lines(usage))


def the_counter_counts():
    """The run of the example contract is answered as it is shown."""
    folder = os.path.join(TOP, "examples", "counter")
    read = {name: open(os.path.join(folder, name), "rb").read() for name in ["run.jsonl", "run.out", "counter.wasm"]}
    expect("the counter", ["serial"], read["run.jsonl"], DONE, read["run.out"])
    expect("the counter's code", ["check"], base64.b64encode(read["counter.wasm"]) + b"\n", DONE, b'{"check":"Ok"}\n')


def samples_are_named_by_one_word():
    usage = b"usage: sample_codes echo|spin|keeper|common|sign\n"
    codes = {name: subprocess.run([SAMPLES, name], stdout=subprocess.PIPE).stdout for name in ["echo", "spin", "keeper", "common", "sign"]}
    if len(set(codes.values())) != 5 or not all(code.startswith(b"\0asm\1\0\0\0") for code in codes.values()):
        complain("the samples", "they aren't five codes")
    for name, code in codes.items():
        expect(f"the sample {name}", [name], b"", DONE, code, SAMPLES)
    for words in [[], [""], ["Echo"], ["echo "], ["echo", "spin"]]:
        expect(f"the words {words}", words, b"", USAGE, usage, SAMPLES)
    for name, whole in [("sign", codes["sign"]), ("sing", usage)]:
        compare(f"{name}, and a full output", limited(SAMPLES, [name], b"", 20), WRITE_FAULT, whole[:20])


each_line_is_answered()
the_counter_counts()
a_send_to_oneself_changes_nothing()
a_bad_line_ends_the_run()
an_address_is_read_in_either_case()
what_fails_in_a_transaction_is_told_with_its_gas()
a_burn_is_seen_by_queries()
queries_find_no_contract_and_no_code()
kept_heights_can_be_asked()
limits_are_kept()
a_failed_read_ends_the_run_after_the_answers_before_it()
a_failed_write_ends_the_run_after_the_bytes_before_it()
blocks_of_sends_beside_a_plain_map()
codes_are_checked()
other_words_are_answered_with_the_usage()
samples_are_named_by_one_word()
sys.exit(failed)
