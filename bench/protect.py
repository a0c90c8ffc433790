#!/usr/bin/env python3
"""How fast captures are protected: protect.py PROGRAM [RUNS]. PROGRAM is the built program; gcc builds bench/protect.c.

Two codes, k = 9 and r = 4 with the deadline 10, and the burst code k = 30 and r = 10 with the deadline 30, each on 200,000 records of
172 bytes and on 50,000 of 1,200, from a file to /dev/null. The programs take turns. Seconds of processor time, best and median, the
greatest resident memory, and ours over C by the best and by the median. Both outputs are compared first.
"""
import json
import os
import random
import statistics
import subprocess
import sys
import tempfile

from common import burst, interleaved, memory, timed

program, runs = os.path.abspath(sys.argv[1]), int(sys.argv[2]) if len(sys.argv) > 2 else 7
here = os.path.dirname(os.path.abspath(__file__))


draw = random.Random(1)
dense = interleaved([[draw.randint(1, 255) for _ in range(4)] for _ in range(9)], [11, 4, 2, 10])


with tempfile.TemporaryDirectory() as folder:
    path = lambda name: os.path.join(folder, name)
    subprocess.run(["gcc", "-O3", "-march=x86-64-v2", "-o", path("c"), os.path.join(here, "protect.c")], check=True)
    for name, code in [("k9r4", dense), ("k30r10", burst)]:
        numbers = [code["k"], code["r"], code["channel"][3], len(code["lags"])]
        numbers += [x for lag in code["lags"] for row in lag for x in row]
        open(path(name), "w").write(" ".join(map(str, numbers)))
        json.dump(code, open(path(name + ".json"), "w"), separators=(",", ":"), sort_keys=True)
    for count, size in [(200000, 172), (50000, 1200)]:
        capture = path(f"{size}.rtp")
        subprocess.run([program, "gen", "7", str(count), str(size)], stdout=open(capture, "wb"), stderr=subprocess.DEVNULL, check=True)
        for name in ["k9r4", "k30r10"]:
            jobs = {"C": [path("c"), path(name), str(size)], "ours": [program, "protect", path(name + ".json"), str(size)]}
            for who, words in jobs.items():
                timed(words, capture, open(path(who), "wb"))
            same = subprocess.run(["cmp", path("C"), path("ours")]).returncode == 0
            seen = {who: [] for who in jobs}
            for _ in range(runs):
                for who, words in jobs.items():
                    seen[who].append(timed(words, capture, open(os.devnull, "wb")))
            best = {who: min(x[0] for x in rows) for who, rows in seen.items()}
            middle = {who: statistics.median(x[0] for x in rows) for who, rows in seen.items()}
            for who, rows in seen.items():
                wall = min(x[1] for x in rows)
                print(f"{name} {count} x {size} {who}: best {best[who]:.3f} s, median {middle[who]:.3f} s, wall {wall:.3f} s, {memory(jobs[who], capture)} kB")
            print(f"ratio {name} {size}: best {best['ours'] / best['C']:.2f}, median {middle['ours'] / middle['C']:.2f}, {'same bytes' if same else 'OTHER BYTES'}")
