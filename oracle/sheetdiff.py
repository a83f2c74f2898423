#!/usr/bin/env python3
"""The program sheetdiff, as it is proved and built (host/built), beside a second writing of docs/RULES.md, R13 and R23.
  oracle/sheetdiff.py [COUNT [SEED [PROGRAM]]]    pairs of sheets that differ in little; then three faults that must be seen"""
import os, random, subprocess, sys, tempfile

ROOT = os.path.dirname(os.path.dirname(os.path.abspath(__file__)))
PROGRAM = sys.argv[3] if len(sys.argv) > 3 else ""
NAMES = ("particle", "triangle", "edge", "boundary")
PLURALS = ("particles", "triangles", "edges", "boundary")


def pack(sheet, edition):
    rows, bits = sheet, ""
    field = lambda v, w: format(v & ((1 << w) - 1), "0%db" % w)
    if edition == 2:
        bits += "1" * 11
    for k, w in enumerate((11, 11, 12, 12)[: 5 - edition]):
        bits += field(len(rows[k]), w)
    for k, ws in enumerate(((11, 11, 1), (10, 10, 10), (10, 10, 1), (10, 10))[: 5 - edition]):
        for row in rows[k]:
            bits += "".join(field(v, w) for v, w in zip(row, ws))
    bits += "".join(field(v, 11) for v in rows[4])
    bits += "0" * (-len(bits) % 8)
    return bytes(int(bits[i : i + 8], 2) for i in range(0, len(bits), 8))


def outline(triangles, edges):
    if not triangles:
        return [(a, b) for a, b, s in edges if s]
    sides = []
    for a, b, c in triangles:
        for side in ((a, b), (b, c), (c, a)):
            if sum(1 for t in triangles if side[0] in t and side[1] in t) == 1:
                sides.append(side)
    return sides


def read(data):
    """The sheet as it is read, or the number of its refusal."""
    if len(data) < 6:
        return 9
    bits = "".join(format(b, "08b") for b in data)
    second = bits[:11] == "1" * 11
    at = 11 if second else 0

    def take(w):
        nonlocal at
        at += w
        return int(bits[at - w : at] or "0", 2)

    counts = [take(11), take(11), take(12), 0 if second else take(12)]
    if any(n > m for n, m in zip(counts, (128, 128, 256, 256))):
        return 1
    widths = ((11, 11, 1), (10, 10, 10), (10, 10, 1), (10, 10))
    end = at + sum(n * sum(ws) for n, ws in zip(counts, widths)) + 44
    if len(data) != (end + 7) // 8 or "1" in bits[end:]:
        return 9
    lists = [[tuple(take(w) for w in ws) for _ in range(n)] for n, ws in zip(counts, widths)]
    blade = [take(11) for _ in range(4)]
    for k, names in ((1, 3), (2, 2), (3, 2)):
        for row in lists[k]:
            if len(set(row[:names])) < names or max(row[:names]) >= counts[0]:
                return 3
    own = outline(lists[1], lists[2])
    same = lambda a: {frozenset(s) for s in a}
    if second or same(lists[3]) != same(own):
        lists[3] = own
    return 1 if len(lists[3]) > 256 else lists + [blade]


def differ(first, second, fault=""):
    a, b = read(first), read(second)
    for sheet in (b, a) if fault == "second first" else (a, b):
        if isinstance(sheet, int):
            return "refused %d\n" % sheet
    signed = lambda v: str(v - 2048 if v > 1023 else v)
    lines = ["count %s %d / %d" % (PLURALS[k], len(a[k]), len(b[k])) for k in range(4) if len(a[k]) != len(b[k])]

    def shown(k, row):
        if row is None:
            return "-"
        return " ".join(signed(v) if k == 0 and i < 2 else str(v) for i, v in enumerate(row))

    for k in range(4):
        n = (min if fault == "to the shorter" else max)(len(a[k]), len(b[k]))
        for i in range(n):
            r, s = (x[k][i] if i < len(x[k]) else None for x in (a, b))
            if r != s:
                r, s = (s, r) if fault == "readings exchanged" else (r, s)
                lines.append("%s %d %s / %s" % (NAMES[k], i, shown(k, r), shown(k, s)))
    if a[4] != b[4]:
        lines.append("blade %s / %s" % tuple(" ".join(map(signed, x[4])) for x in (a, b)))
    return "".join(l + "\n" for l in lines) + "%d\n" % len(lines)


def some_sheet(rng):
    n = rng.choice((0, 1, 3, 4, 5, 8, 20, 127, 128))
    pick = lambda k: tuple(rng.sample(range(n), k))
    coord = lambda: rng.choice((-1024, -1, 0, 1, 1023, rng.randrange(-1024, 1024)))
    ps = [(coord(), coord(), rng.randrange(2)) for _ in range(n)]
    ts = [pick(3) for _ in range(rng.choice((0, 1, 2, 6)))] if n > 2 else []
    es = [pick(2) + (rng.randrange(2),) for _ in range(rng.choice((0, 1, 3, 7)))] if n > 1 else []
    bs = rng.choice((outline(ts, es), [pick(2) for _ in range(rng.randrange(4))] if n > 1 else []))
    return [ps, ts, es, list(bs), [coord() for _ in range(4)]]


def changed(rng, sheet):
    for _ in range(8):
        s = one_change(rng, sheet)
        if s != sheet:
            break
    return s


def one_change(rng, sheet):
    s = [list(x) for x in sheet]
    k = rng.randrange(5)
    kind = rng.randrange(6)
    if k == 4:
        s[4][rng.randrange(4)] = rng.randrange(-1024, 1024)
    elif s[k] and kind == 0:
        i = rng.randrange(len(s[k]))
        row = list(s[k][i])
        j = rng.randrange(len(row))
        row[j] = rng.randrange(-1024, 1024) if k == 0 and j < 2 else rng.randrange(2) if j == 2 and k != 1 else rng.randrange(max(1, len(s[0])))
        s[k][i] = tuple(row)
    elif s[k] and kind == 1:
        s[k].append(rng.choice(s[k]))
    elif s[k] and kind == 2:
        s[k].pop(rng.randrange(len(s[k])))
    elif s[k] and kind == 3:
        rng.shuffle(s[k])
    elif s[k] and kind == 4 and k:
        i = rng.randrange(len(s[k]))
        row = s[k][i]
        s[k][i] = (row[1], row[2], row[0]) if k == 1 else (row[1], row[0]) + tuple(row[2:])
    return s


def damaged(rng, data):
    kind = rng.randrange(20)
    if kind == 0:
        return data[: rng.randrange(len(data) + 1)]
    if kind == 1:
        return data + bytes(rng.randrange(1, 3000))
    if kind == 2 and data:
        i = rng.randrange(len(data))
        return data[:i] + bytes([data[i] ^ 1 << rng.randrange(8)]) + data[i + 1 :]
    return data


def main():
    count, seed = int((sys.argv + ["50000"])[1]), int((sys.argv + ["", "1"])[2])
    program = PROGRAM or subprocess.run([os.path.join(ROOT, "host", "built"), "sheetdiff"], capture_output=True, text=True).stdout.strip()
    if not os.path.exists(program):
        sys.exit("sheetdiff.py: nothing was compared: no program %s" % program)
    rng = random.Random(seed)
    seen = {"to the shorter": 0, "readings exchanged": 0, "second first": 0}
    zeros = refused = wrong = 0
    with tempfile.TemporaryDirectory() as folder:
        paths = [os.path.join(folder, n) for n in ("first", "second")]
        for _ in range(count):
            sheet = some_sheet(rng)
            pair = [sheet, changed(rng, sheet) if rng.randrange(8) else sheet]
            rng.shuffle(pair)
            data = [damaged(rng, pack(s, rng.choice((1, 2)))) for s in pair]
            for path, bytes_ in zip(paths, data):
                with open(path, "wb") as f:
                    f.write(bytes_)
            said = subprocess.run([program] + paths, capture_output=True).stdout.decode()
            zeros += said == "0\n"
            refused += said.startswith("refused")
            if said != differ(*data):
                wrong += 1
                print("differs:", [d.hex() for d in data], repr(said), repr(differ(*data)))
            for fault in seen:
                seen[fault] += said != differ(*data, fault)
    print("%d pairs, %d of them 0, %d refused: %d differences; faults seen: %s" % (count, zeros, refused, wrong, seen))
    sys.exit(1 if wrong or not all(seen.values()) else 0)


main()
