#!/usr/bin/env python3
"""Packs the lists of calls for the program replay: oracle/replay/pack.py [--only NAME,NAME..] LIST.. > crates/replay/stdin

A call of a list (oracle/README.md, 'The fixed lists') becomes eleven little-endian words of 4 bytes: kind, a particle or a number, minimum or edition,
bytes of the image, of the arguments, of the rooms, of the expected result and of the expected log, bytes lent for result and log, refusal;
then those bytes. A call that only reads has no rooms and no log.
"""
import struct
import sys

KINDS = ["bench_root", "bench_blade_hit", "bench_groups", "bench_rest_measure", "bench_rest_measure_of",
         "bench_opens_without_confetti", "bench_pieces", "bench_split", "bench_straddlers", "bench_cut", "bench_crack",
         "bench_fan", "bench_sheet", "bench_sheet_write", "bench_list_cut", "bench_layout"]


def raw(text):
    return b"" if text == "-" else bytes.fromhex(text)


def words(text):
    return b"".join(struct.pack("<I", int(w, 16)) for w in text.split())


def decimal(text):
    return int(text)


def hexadecimal(text):
    return int(text, 16)


# What stands between the name and the bytes lent, by kind: the parts of a call, each with its reader.
IMAGE, ARGS, ROOMS = ("image", raw), ("args", raw), ("rooms", raw)
NUMBER, BITS, MINIMUM = ("number", decimal), ("number", hexadecimal), ("minimum", decimal)
# The edition of a cut stands in the place of a minimum.
EDITION = MINIMUM
PARTS = {
    "bench_root": [BITS],
    "bench_blade_hit": [ARGS],
    "bench_groups": [IMAGE, NUMBER, ARGS],
    "bench_rest_measure": [IMAGE],
    "bench_rest_measure_of": [IMAGE, ARGS],
    "bench_opens_without_confetti": [IMAGE, NUMBER, ARGS, MINIMUM],
    "bench_pieces": [IMAGE],
    "bench_split": [IMAGE, NUMBER, ARGS, ROOMS],
    "bench_straddlers": [IMAGE, ROOMS],
    "bench_cut": [IMAGE, ARGS, EDITION, BITS, ROOMS],
    "bench_crack": [IMAGE, ARGS, MINIMUM, ROOMS],
    "bench_fan": [IMAGE, NUMBER],
    "bench_sheet": [ARGS],
    "bench_sheet_write": [ARGS],
    "bench_list_cut": [ARGS],
    "bench_layout": [],
}


def packed(line):
    given, wanted = line.split("=")
    name, *given = given.split()
    parts = PARTS[name]
    if len(given) != len(parts) + (2 if ROOMS in parts else 1):
        sys.exit("a call of %s with %d parts" % (name, len(given)))
    c = {"number": 0, "minimum": 0, "image": b"", "args": b"", "rooms": b""}
    for (part, read), text in zip(parts, given):
        c[part] = read(text)
    lent = [int(n) for n in given[len(parts):]] + [0]
    refusal, _, answer = wanted.strip().partition(" ")
    result, _, log = answer.partition("|")
    # Bytes that were lent are told as words: the last may have bytes of 0 behind them.
    runs = [c["image"], c["args"], c["rooms"], words(result)[:lent[0]], words(log)]
    head = [KINDS.index(name), c["number"], c["minimum"]] + [len(r) for r in runs] + lent[:2] + [int(refusal)]
    return struct.pack("<11I", *head) + b"".join(runs)


args, only = sys.argv[1:], KINDS
if args[:1] == ["--only"]:
    only, args = args[1].split(","), args[2:]
for name in args:
    for text in open(name):
        if text.split(" ")[0] in only:
            sys.stdout.buffer.write(packed(text))
