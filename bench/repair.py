#!/usr/bin/env python3
"""How fast protected captures are repaired: repair.py PROGRAM [RUNS]. PROGRAM is the built program; gcc builds bench/repair.c.

Two codes, k = 9 and r = 4 with the deadline 10, and the burst code k = 30 and r = 10 with the deadline 30, each on 200,000 records of
172 bytes and on 50,000 of 1,200, protected and then thinned by a loss that the channel admits, and as they were protected. From a file
to /dev/null. The programs take turns. Seconds of processor time, best and median, the greatest resident memory, and ours over C by the
best and by the median. Both outputs are compared with the capture first.
"""
import json
import os
import statistics
import subprocess
import sys
import tempfile

from common import burst, memory, timed

program, runs = os.path.abspath(sys.argv[1]), int(sys.argv[2]) if len(sys.argv) > 2 else 7
here = os.path.dirname(os.path.abspath(__file__))


def losses(count, channel):
    """A loss that the channel admits: in turn a burst of b slots and, where n is more than 1, n slots apart, each w slots behind the last."""
    w, b, n, _ = channel
    flags, at, kind = [0] * count, 5, 0
    while at + w < count:
        lost = range(b) if kind == 0 or n == 1 else [i * (w - 1) // (n - 1) for i in range(n)]
        for i in lost:
            flags[at + i] = 1
        at += lost[-1] + w
        kind = 1 - kind
    return flags


def ours(words, stdin, out):
    subprocess.run([program, *words], stdin=open(stdin, "rb") if stdin else None, stdout=open(out, "wb"), stderr=subprocess.DEVNULL, check=True)


with tempfile.TemporaryDirectory() as folder:
    path = lambda name: os.path.join(folder, name)
    subprocess.run(["gcc", "-O3", "-march=x86-64-v2", "-o", path("c"), os.path.join(here, "repair.c")], check=True)
    ours(["design", "optimal", "11", "4", "2", "10"], None, path("k9r4.json"))
    json.dump(burst, open(path("k30r10.json"), "w"), separators=(",", ":"), sort_keys=True)
    codes = {name: json.load(open(path(name + ".json"))) for name in ["k9r4", "k30r10"]}
    for name, code in codes.items():
        numbers = [code["k"], code["r"], code["channel"][3], len(code["lags"])]
        numbers += [x for lag in code["lags"] for row in lag for x in row]
        open(path(name), "w").write(" ".join(map(str, numbers)))
    for count, size in [(200000, 172), (50000, 1200)]:
        ours(["gen", "7", str(count), str(size)], None, path("plain"))
        for name, code in codes.items():
            ours(["protect", path(name + ".json"), str(size)], path("plain"), path("whole"))
            flags = losses(count + code["channel"][3], code["channel"])
            json.dump({"loss": "".join(map(str, flags))}, open(path("loss.json"), "w"))
            ours(["lose", path(name + ".json"), path("loss.json")], path("whole"), path("thinned"))
            for what in ["whole", "thinned"]:
                jobs = {"C": [path("c"), path(name)], "ours": [program, "repair", path(name + ".json")]}
                same = True
                for words in jobs.values():
                    timed(words, path(what), open(path("back"), "wb"))
                    same = same and subprocess.run(["cmp", path("back"), path("plain")]).returncode == 0
                seen = {who: [] for who in jobs}
                for _ in range(runs):
                    for who, words in jobs.items():
                        seen[who].append(timed(words, path(what), open(os.devnull, "wb")))
                best = {who: min(x[0] for x in rows) for who, rows in seen.items()}
                middle = {who: statistics.median(x[0] for x in rows) for who, rows in seen.items()}
                for who, rows in seen.items():
                    wall = min(x[1] for x in rows)
                    print(f"{name} {count} x {size} {what} {who}: best {best[who]:.3f} s, median {middle[who]:.3f} s, wall {wall:.3f} s, {memory(jobs[who], path(what))} kB")
                print(f"ratio {name} {size} {what}: best {best['ours'] / best['C']:.2f}, median {middle['ours'] / middle['C']:.2f}, {'same bytes' if same else 'OTHER BYTES'}", flush=True)
