#!/usr/bin/env python3
"""How fast codes are checked: check.py PROGRAM [RUNS]. PROGRAM is the built program; gcc builds bench/check.c.

Four codes: a layered one (k = 40, r = 12) of the channel 41 10 4 40, a dense one (k = 9, r = 4) with the deadline 20, and of the channel
33 6 6 32, with 201,377 classes, a general one (k = 8, r = 2), which is decided late, and a diagonal one (k = 27, r = 6). The programs
take turns: C, and ours with 1, 2 and 4 workers; the first two codes, whose checks are short, five times as often. Seconds by the clock,
best and median, and ours over C by both.
"""
import json
import os
import random
import statistics
import subprocess
import sys
import tempfile
import time

from common import inverse

program, runs = os.path.abspath(sys.argv[1]), int(sys.argv[2]) if len(sys.argv) > 2 else 5
here = os.path.dirname(os.path.abspath(__file__))


def words_of(seed):
    """The words of a PCG generator with 64 bits of state and 32 of output, on stream 54."""
    state, step = 0, 54 << 1 | 1
    advance = lambda state: (state * 6364136223846793005 + step) % 2**64
    state = advance((advance(state) + seed) % 2**64)
    while True:
        mixed, turn = ((state >> 18 ^ state) >> 27) % 2**32, state >> 59
        yield (mixed >> turn | mixed << (-turn & 31)) % 2**32
        state = advance(state)


def layered(w, b, n, t, seed):
    words = words_of(seed)
    draw = lambda: 1 + next(words) % 255
    more = -(-b * n // (t - n + 1))
    lags = [[[0] * (b + more) for _ in range(t)] for _ in range(t + 1)]
    for j in range(b):
        for lag in range(t):
            for i in range(b, t):
                lags[lag][i][j] = draw()
        lags[t][j][j] = 1
    for q in range(more):
        for lag in range(t + 1):
            for i in range(b):
                lags[lag][i][b + q] = draw()
    return {"channel": [w, b, n, t], "k": t, "lags": lags, "r": b + more}


def dense(channel, k, r, seed):
    draw = random.Random(seed)
    lags = [[[draw.randint(0, 255) for _ in range(r)] for _ in range(k)] for _ in range(channel[3] + 1)]
    return {"channel": channel, "k": k, "lags": lags, "r": r}


def diagonal(channel, k, r):
    """The rows of a Cauchy matrix along the diagonals of slots: of k + r slots any k are enough."""
    lags = [[[0] * r for _ in range(k)] for _ in range(k + r)]
    for i in range(k):
        for j in range(r):
            lags[k + j - i][i][j] = inverse[(i + r) ^ j]
    return {"channel": channel, "k": k, "lags": lags, "r": r}


codes = {
    "layered": layered(41, 10, 4, 40, 0),
    "dense": dense([21, 5, 5, 20], 9, 4, 1),
    "general": dense([33, 6, 6, 32], 8, 2, 2),
    "diagonal": diagonal([33, 6, 6, 32], 27, 6),
}


def timed(words):
    start = time.monotonic()
    done = subprocess.run(words, stdin=subprocess.DEVNULL, stdout=subprocess.PIPE, stderr=subprocess.DEVNULL)
    return time.monotonic() - start, done.stdout.decode().split()[:3]


with tempfile.TemporaryDirectory() as folder:
    path = lambda name: os.path.join(folder, name)
    subprocess.run(["gcc", "-O3", "-march=x86-64-v2", "-o", path("c"), os.path.join(here, "check.c")], check=True)
    for name, code in codes.items():
        numbers = code["channel"] + [code["k"], code["r"], len(code["lags"])]
        numbers += [x for lag in code["lags"] for row in lag for x in row]
        open(path(name), "w").write(" ".join(map(str, numbers)))
        json.dump(code, open(path(name + ".json"), "w"), separators=(",", ":"), sort_keys=True)
        jobs = {"C": [path("c"), path(name)]}
        jobs.update({workers: [program, "check", path(name + ".json"), str(workers)] for workers in (1, 2, 4)})
        seen = {who: [] for who in jobs}
        answers = {}
        for _ in range(runs if name in ("general", "diagonal") else 5 * runs):
            for who, words in jobs.items():
                seconds, answers[who] = timed(words)
                seen[who].append(seconds)
        of_c = answers.pop("C")
        want = ["meets"] if of_c == ["MEETS"] else ["fails", "class"] + of_c
        same = all(answer[: len(want)] == want for answer in answers.values())
        for who, rows in seen.items():
            best, middle = min(rows), statistics.median(rows)
            ratio = f", over C {best / min(seen['C']):.3f} and {middle / statistics.median(seen['C']):.3f}" if who != "C" else ""
            print(f"{name} {who}: best {best:.4f} s, median {middle:.4f} s{ratio}", flush=True)
        print(f"{name}: {'same answers' if same else 'OTHER ANSWERS'}, {' '.join(want)}", flush=True)
