#!/usr/bin/env python3
"""Prints the node's output for a person: ./wasmnode serial < run.jsonl | tools/decode.py

Blocks are shown by their transactions, with gas, data and events, and queries by their answers. Bytes are shown as
the JSON that they are, and else in base64. A line that is none of the node's is shown as it is."""
import base64
import binascii
import json
import signal
import sys


def compact(value):
    return json.dumps(value, ensure_ascii=False, separators=(",", ":"))


def one_line(text):
    """A text of a contract, which may hold line feeds and the like: then it is quoted."""
    return text if text.isprintable() else json.dumps(text)


def bytes_text(text):
    """Bytes that are written in base64: the JSON that they are, or else their base64."""
    if text == "":
        return "no bytes"
    try:
        return one_line(compact(json.loads(base64.b64decode(text, validate=True).decode())))
    except (binascii.Error, ValueError, RecursionError):
        return f"base64 {text}"


def event_lines(event):
    yield one_line(event["type"])
    for attribute in event["attributes"]:
        yield f"    {one_line(attribute['key'])}: {one_line(attribute['value'])}"


def result_lines(number, result):
    """A transaction's result."""
    if result["code"] != 0:
        yield f"transaction {number} failed, {result['gas']} gas"
        yield f"    {result['codespace']} {result['code']}: {one_line(result['detail'])}"
        return
    yield f"transaction {number} done, {result['gas']} gas"
    for place, data in enumerate(result["data"]):
        if data is not None:
            yield f"    data of message {place}: {bytes_text(data)}"
    for event in result["events"]:
        for line in event_lines(event):
            yield "    " + line


def block_lines(block):
    body = block["body"]
    yield f"block {body['height']}, digest {block['digest']}"
    for number, result in enumerate(body["results"]):
        for line in result_lines(number, result):
            yield "    " + line


def error_text(error):
    """Why the node has no answer to a request."""
    kind, fields = next(iter(error.items()))
    told = {name: one_line(str(value)) for name, value in fields.items()}
    if "request" in told:
        told["request"] = bytes_text(fields["request"])
    return kind + ", " + ", ".join(f"{name} {value}" for name, value in told.items())


def answer_text(result):
    """What came of a query."""
    if result == "out_of_gas":
        return "out of gas"
    kind, value = next(iter(result.items()))
    if kind == "not_yet":
        return f"this height isn't there yet, the newest is {value['newest']}"
    if kind == "pruned":
        return f"this height isn't kept any more, the oldest is {value['oldest']} and the newest {value['newest']}"
    if kind == "error":
        return f"no answer: {error_text(value)}"
    if "ok" in value:
        return f"answer: {bytes_text(value['ok'])}"
    return f"error of the contract: {one_line(value['error'])}"


def query_lines(query):
    yield f"query of client {query['client']} at height {query['height']} of {query['n']}, {query['gas']} gas"
    yield "    " + answer_text(query["result"])


def genesis_lines(genesis):
    yield f"chain {genesis['chain_id']}, height {genesis['height']}"


def check_lines(check):
    yield "the code is taken" if check == "Ok" else f"the code is refused: {check}"


def bad_lines(bad):
    yield f"line {bad['line']} is bad: {bad['kind']}"


FORMS = {"genesis": genesis_lines, "block": block_lines, "query": query_lines, "check": check_lines, "bad_line": bad_lines}


def shown(line):
    """The lines that show one line of the node's."""
    try:
        (kind, value), = json.loads(line).items()
        return list(FORMS[kind](value))
    except (ValueError, AttributeError, KeyError, TypeError, StopIteration, RecursionError):
        return [line]


def main():
    signal.signal(signal.SIGPIPE, signal.SIG_DFL)
    for line in sys.stdin:
        for text in shown(line.rstrip("\n")):
            print(text, flush=True)


if __name__ == "__main__":
    main()
