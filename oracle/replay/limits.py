#!/usr/bin/env python3
"""Writes limits.txt: every refusal that a reading entry can meet, at the limit and one past it, in the form of the fixed list.

The expected refusals are those of docs/RULES.md, R3, by hand; `oracle/run replay read oracle/replay/limits.txt` holds every answer to the
Rust. f32 next above 1,048,576 is 1,048,576.125, next above 4,194,304 is 4,194,304.5.
"""
import struct

INF, NAN, NEXT, NEXT_VOLUME, TINY = float("inf"), float("nan"), 1048576.125, 4194304.5, -1e-45


def number(x):
    return struct.pack("<f", x)


def word(n):
    return struct.pack("<I", n)


def square():
    """The square of R15.7: the columns of its blocks, each a list of numbers."""
    return {
        "points": [[0, 4, 4, 0], [0, 0, 4, 4], [0, 4, 4, 0], [0, 0, 4, 4], [1] * 4, [1] * 4, [1, 0, -1, 0], [0, 2, 0, -2]],
        "roots": [[0, 1, 2, 3], [0] * 4],
        "corners": [[0, 0], [1, 2], [2, 3]],
        "volumes": [[8, -8], [0, 0]],
        "ends": [[0, 1], [2, 3], [1, 0], [0, 0]],
        "lengths": [[0, 0], [0, 0], [0, 0], [0, 0]],
        "outline": [[0, 1, 2, 3], [1, 2, 3, 0]],
    }


def image(m):
    counts = [len(m[block][0]) for block in ("points", "corners", "ends", "outline")]
    out = b"".join(word(n) for n in counts)
    for block in ("points", "roots", "corners", "volumes", "ends", "lengths", "outline"):
        write = number if block in ("points", "volumes", "lengths") else word
        out += b"".join(write(x) for column in m[block] for x in column)
    return out


def hexed(b):
    return b.hex() if b else "-"


def call(name, args, lent, refusal, words=()):
    print(" ".join([name] + args + [str(lent), "=", str(refusal)] + ["%08x" % w for w in words]))


def pieces(m, refusal, count=None):
    call("bench_pieces", [hexed(image(m))], 4, refusal, [] if refusal else [count])


def changed(block, column, row, x):
    m = square()
    m[block][column][row] = x
    return m


def empty(particles):
    m = {block: [[] for _ in columns] for block, columns in square().items()}
    m["points"] = [[0] * particles for _ in range(8)]
    m["roots"] = [list(range(particles)) if particles < 5 else [0] * particles, [0] * particles]
    return m


def many(block, partner, n, columns, others):
    m = empty(4)
    m[block], m[partner] = columns, others
    return m


print("# Refusals of the reading entries at the limit and one past it; limits.py beside this file writes it.")
for n, refusal in ((1024, 0), (1025, 1)):
    pieces(empty(n), refusal, 0)
    t = empty(4)
    t["corners"], t["volumes"] = [[0] * n, [1] * n, [2] * n], [[0] * n, [0] * n]
    pieces(t, refusal, 1)
for n, refusal in ((2048, 0), (2049, 1)):
    e = empty(4)
    e["ends"], e["lengths"] = [[0] * n, [1] * n, [1] * n, [0] * n], [[1] * n] * 4
    pieces(e, refusal, 1)
    b = empty(4)
    b["outline"] = [[0] * n, [1] * n]
    pieces(b, refusal, 0)
whole = image(square())
for cut in (0, 15, 16, len(whole) - 1):
    call("bench_pieces", [hexed(whole[:cut])], 4, 1)
call("bench_pieces", [hexed(whole + b"\0")], 4, 1)
# The last word of each block in turn is missing.
end = 16
for block, columns in square().items():
    end += 4 * sum(len(column) for column in columns)
    call("bench_pieces", [hexed(whole[:end - 4] + whole[end:])], 4, 1)
for column, x, refusal in ((0, 1048576, 0), (0, -1048576, 0), (0, NEXT, 2), (1, -NEXT, 2), (2, NEXT, 2), (2, -NEXT, 2), (3, NEXT, 2), (4, NEXT, 2),
                           (5, 1e30, 0), (5, INF, 2), (4, NAN, 2), (0, INF, 2), (5, NAN, 2),
                           (6, 1048576, 0), (6, NEXT, 2), (6, -1048576, 0), (6, -NEXT, 2), (7, 1048576, 0), (7, NEXT, 2), (7, -1048576, 0), (7, -NEXT, 2),
                           (6, NAN, 2), (7, INF, 2), (6, 1e30, 2), (7, -0.0, 0)):
    pieces(changed("points", column, 0, x), refusal, 1)
for column, x, refusal in ((0, -4194304, 0), (0, 4194304, 0), (0, NEXT_VOLUME, 2), (1, NEXT, 2), (1, NAN, 2)):
    pieces(changed("volumes", column, 0, x), refusal, 1)
for column, x, refusal in ((0, -0.0, 0), (0, TINY, 2), (1, TINY, 2), (1, -1, 2), (0, 1048576, 0), (1, NEXT, 2), (2, NEXT, 2), (2, -NEXT, 2), (3, -INF, 2)):
    pieces(changed("lengths", column, 0, x), refusal, 1)
for block, column, x, refusal in (("roots", 1, 1, 0), ("roots", 1, 2, 2), ("ends", 2, 2, 2), ("ends", 3, 1, 0), ("ends", 3, 2, 2),
                                  ("roots", 0, 3, 0), ("roots", 0, 4, 3), ("corners", 0, 3, 0), ("corners", 0, 4, 3), ("corners", 0, 1, 3),
                                  ("ends", 1, 4, 3), ("ends", 1, 0, 3), ("outline", 0, 3, 0), ("outline", 0, 4, 3), ("outline", 0, 1, 3)):
    pieces(changed(block, column, 0, x), refusal, 1)
both = changed("roots", 1, 0, 2)
both["corners"][0][0] = 4
pieces(both, 2)
call("bench_pieces", [hexed(whole)], 3, 4)
call("bench_pieces", [hexed(image(changed("corners", 0, 0, 4)))], 3, 3)
for v, sides, lent, refusal, words in ((0, [0, 0], 12, 0, [1, 0, 0]), (0, [0, 1], 12, 0, [2, 0, 1]), (0, [1, 0], 12, 0, [2, 1, 0]),
                                       (1, [1], 12, 0, [1, 0]), (0, [0, 1], 11, 4, []), (0, [0, 2], 12, 4, []), (0, [0, 255], 12, 4, []),
                                       (0, [0], 12, 4, []), (0, [0, 0, 0], 16, 4, []), (3, [0], 8, 0, [1, 0]), (4, [], 8, 4, []),
                                       (4294967295, [], 8, 4, [])):
    call("bench_groups", [hexed(whole), str(v), hexed(bytes(sides))], lent, refusal, words)
for v, sides, minimum, lent, refusal, words in ((0, [0, 1], 0, 4, 0, [1]), (0, [0, 1], 1, 4, 0, [1]), (0, [0, 1], 2, 4, 0, [0]),
                                                (0, [0, 0], 2, 4, 0, [1]), (0, [0, 0], 3, 4, 0, [0]), (0, [0, 2], 1, 4, 4, []),
                                                (4, [], 1, 4, 4, []), (0, [0, 1], 1, 3, 4, []), (0, [0, 1], 4294967295, 4, 0, [0])):
    call("bench_opens_without_confetti", [hexed(whole), str(v), hexed(bytes(sides)), str(minimum)], lent, refusal, words)
call("bench_rest_measure", [hexed(whole)], 4, 0, [0x41800000])
call("bench_rest_measure", [hexed(whole)], 3, 4)
for listed, refusal, words in (([0, 1, 2], 0, [0x41000000]), ([], 0, [0]), ([0, 1, 2, 3], 0, [0x41800000]), ([0, 2, 1], 4, []), ([0, 1, 1], 4, []),
                               ([0, 1, 4], 4, []), ([4294967295], 4, [])):
    call("bench_rest_measure_of", [hexed(whole), hexed(b"".join(word(p) for p in listed))], 4, refusal, words)
nothing = image(empty(4))
call("bench_pieces", [hexed(nothing)], 4, 0, [0])
call("bench_rest_measure", [hexed(nothing)], 4, 0, [0])
call("bench_groups", [hexed(nothing), "0", "-"], 4, 0, [0])
call("bench_groups", [hexed(nothing), "0", "00"], 8, 4)
call("bench_opens_without_confetti", [hexed(nothing), "0", "-", "3"], 4, 0, [1])
for bits, lent, refusal, words in ((0, 4, 0, [0]), (0x40800000, 4, 0, [0x40000000]), (0x3e800000, 4, 0, [0x3f000000]), (0x80000000, 4, 0, [0x80000000]),
                                   (0x80000001, 4, 4, []), (0x7f800000, 4, 4, []), (0xff800000, 4, 4, []), (0x7fc00000, 4, 4, []), (0x40800000, 3, 4, [])):
    call("bench_root", ["%08x" % bits], lent, refusal, words)
for x, lent, refusal, words in ((2, 16, 0, [1, 0x3e800000, 0x40000000, 0]), (2, 15, 4, []), (9, 16, 0, [0] * 4), (1048576, 16, 0, [0] * 4), (9, 15, 4, []),
                                (NEXT, 16, 2, []), (NAN, 16, 2, []), (-INF, 16, 2, [])):
    call("bench_blade_hit", [b"".join(number(c) for c in (x, -1, x, 1, 0, 0, 8, 0)).hex()], lent, refusal, words)
