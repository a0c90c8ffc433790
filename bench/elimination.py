#!/usr/bin/env python3
"""How fast equations are reduced: elimination.py [RUNS]. rt builds bench/elimination.rt.in as a crate of a clone, gcc bench/elimination.c.

Reduced forms of 1,000 rows and 144 columns; rows added to what is known of 40, 360 and 6,615 columns, dense or with runs of
coefficients; and windows that move on by 9 columns at each slot, in two of three of which 9 columns are told one by one before
the parities come. Symbols of 20 and of 148 bytes. The programs take turns. Nanoseconds for an added row (for a whole matrix),
the best rounds of C and of ours, and ours over C by these, with the ratio by the middle rounds in brackets.
"""
import os
import random
import shutil
import statistics
import struct
import subprocess
import sys
import tempfile

from common import times

runs = int(sys.argv[1]) if len(sys.argv) > 1 else 6
here = os.path.dirname(os.path.abspath(__file__))
product = [bytes(times(c, x) for x in range(256)) for c in range(256)]


def right(row, symbols, first, width):
    """The sum of the row's coefficients times the symbols from one on."""
    total = 0
    for i, c in enumerate(row):
        if c:
            total ^= int.from_bytes(symbols[first + i].translate(product[c]), "little")
    return total.to_bytes(width, "little")


def written(path, steps, rows, rights):
    with open(path, "wb") as file:
        file.write(struct.pack("<I", len(steps)) + bytes(steps) + b"".join(rows) + b"".join(rights))


def runs_of(cols, length, places, draw):
    return [bytes(at) + bytes(draw.randint(1, 255) for _ in range(length)) + bytes(cols - at - length) for at in places]


def adding(path, cols, width, rows, draw):
    symbols = [draw.randbytes(width) for _ in range(cols)]
    written(path, [0] * len(rows), rows, [right(row, symbols, 0, width) for row in rows])


def moving(path, cols, width, parities, span, slots, draw):
    symbols = [draw.randbytes(width) for _ in range(cols + 9 * slots)]
    steps, rows, rights = [], [], []
    for slot in range(1, slots + 1):
        steps.append(9)
        told = [bytes(cols - 9 + i) + b"\1" + bytes(8 - i) for i in range(9)] if slot % 3 else []
        told += [bytes(cols - span) + bytes(draw.randint(1, 255) for _ in range(span)) for _ in range(parities)]
        steps += [0] * len(told)
        rows += told
        rights += [right(row, symbols, 9 * slot, width) for row in told]
    written(path, steps, rows, rights)


with tempfile.TemporaryDirectory() as folder:
    path = lambda name: os.path.join(folder, name)
    subprocess.run(["gcc", "-O3", "-march=x86-64-v2", "-o", path("c"), os.path.join(here, "elimination.c")], check=True)
    subprocess.run(["git", "clone", "-q", os.path.dirname(here), path("clone")], check=True)
    crate = path("clone/crates/elimination")
    os.makedirs(os.path.join(crate, "src"))
    shutil.copy(os.path.join(here, "elimination.rt.in"), os.path.join(crate, "src/main.rt"))
    with open(path("clone/crates.txt"), "a") as file:
        file.write("elimination: sc_field sc_outside sc_matrix sc_echelon\n")
    print("proving and building bench/elimination.rt.in", file=sys.stderr)
    subprocess.run(["rt", "run"], cwd=crate, stdin=subprocess.DEVNULL, stdout=subprocess.DEVNULL, check=True)
    ours = os.path.join(crate, "out/elimination")

    draw = random.Random(1)
    cases = {}
    written(path("of"), [0] * 1000, [draw.randbytes(144) for _ in range(1000)], [])
    cases["of 1,000 by 144"] = ["of", "1000", "144", "9"], path("of")
    for width in (20, 148):
        made = {
            "40 columns, dense": (40, [draw.randbytes(40) for _ in range(40)], 400),
            "360 columns, runs of 90": (360, runs_of(360, 90, [draw.randint(0, 270) for _ in range(360)], draw), 20),
            "6,615 columns, runs of 90": (6615, runs_of(6615, 90, [draw.randint(0, 1199) for _ in range(600)], draw), 7),
            "6,615 columns, runs of 20": (6615, runs_of(6615, 20, [draw.randint(0, 6594) for _ in range(600)], draw), 7),
        }
        for name, (cols, rows, rounds) in made.items():
            adding(path(f"{name} {width}"), cols, width, rows, draw)
            cases[f"{name}, width {width}"] = ["knowledge", str(cols), str(width), str(rounds)], path(f"{name} {width}")
        for cols, parities, span, slots in ((189, 4, 99, 1500), (117, 6, 117, 1500), (360, 6, 360, 700)):
            name = f"a window of {cols} columns, {parities} parities over {span}"
            moving(path(f"{name} {width}"), cols, width, parities, span, slots, draw)
            cases[f"{name}, width {width}"] = ["knowledge", str(cols), str(width), "7"], path(f"{name} {width}")
    for name, (words, data) in cases.items():
        seen = {"C": [], "ours": []}
        for _ in range(runs):
            for who, program in (("C", path("c")), ("ours", ours)):
                done = subprocess.run([program, *words], stdin=open(data, "rb"), stdout=subprocess.PIPE, check=True)
                seen[who].append([int(word) for word in done.stdout.split()])
        assert len({row[2] for rows in seen.values() for row in rows}) == 1, f"{name}: other answers"
        best = {who: min(row[0] for row in rows) for who, rows in seen.items()}
        middle = {who: statistics.median(row[1] for row in rows) for who, rows in seen.items()}
        print(f"{name}: {best['C']:,} / {best['ours']:,} {best['ours'] / best['C']:.2f} ({middle['ours'] / middle['C']:.2f})", flush=True)
