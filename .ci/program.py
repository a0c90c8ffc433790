#!/usr/bin/env python3
"""Runs the built program as its user does: program.py PROGRAM. Quiet where all is as the pages say.

What is wanted is worked out from the format alone, by a few lines of another language.
"""
import functools
import itertools
import json
import operator
import os
import random
import struct
import subprocess
import sys
import tempfile
import time

program = os.path.abspath(sys.argv[1])
top = os.path.dirname(os.path.dirname(os.path.abspath(__file__)))
failed = 0


def thinned(data, loss):
    """The preamble and the records of a capture whose flag isn't 1. A record begins with its length in two bytes."""
    at = data.index(b"\n") + 17
    out = [data[:at]]
    for flag in loss:
        end = at + int.from_bytes(data[at : at + 2], "big")
        if flag == "0":
            out.append(data[at:end])
        at = end
    assert at == len(data), "the loss has a flag for each record"
    return b"".join(out)


def words_of(seed):
    """The words of PCG32 that is started from a seed on the sequence 54 (O'Neill's reference code)."""
    mask = (1 << 64) - 1
    step = lambda state: (state * 6364136223846793005 + 2 * 54 + 1) & mask
    state = step((step(0) + seed) & mask)
    while True:
        mixed = (state >> 18 ^ state) >> 27 & 0xFFFFFFFF
        turn = state >> 59
        yield (mixed >> turn | mixed << (-turn & 31)) & 0xFFFFFFFF
        state = step(state)


def generated(seed, count, size):
    """The standard preamble, and records of RTP packets with the low bytes of drawn words."""
    words = words_of(seed)
    out = [b"#!rtpplay1.0 127.0.0.1/5004\n", bytes(8), bytes([127, 0, 0, 1]), (5004).to_bytes(2, "big"), bytes(2)]
    for i in range(count):
        out.append(struct.pack(">HHI", 8 + size, size, 20 * i))
        out.append(struct.pack(">BBHII", 0x80, 0, i % 65536, 160 * i % 2**32, 0x12345678))
        out.append(bytes(next(words) & 0xFF for _ in range(size - 12)))
    return b"".join(out)


def times(x, y):
    """The product of GF(256), bit by bit, reduced by x^8 + x^4 + x^3 + x^2 + 1."""
    product = 0
    for bit in range(8):
        if y >> bit & 1:
            product ^= x << bit
    for bit in range(14, 7, -1):
        if product >> bit & 1:
            product ^= 0x11D << (bit - 8)
    return product


MULTIPLES = [bytes(times(c, x) for x in range(256)) for c in range(256)]


def kind(plen, body):
    """What a record holds, by RFC 3550, 5.1: RTCP where the length is 0, then cut, strange and RTP."""
    if plen == 0:
        return "rtcp"
    if len(body) < plen:
        return "cut"
    head = 12 + 4 * (body[0] & 15) if body else 0
    if len(body) > plen or len(body) < 12 or body[0] >> 6 != 2 or len(body) < head:
        return "strange"
    if body[0] & 16:
        if len(body) < head + 4:
            return "strange"
        head += 4 + 4 * int.from_bytes(body[head + 2 : head + 4], "big")
    if len(body) < head or body[0] & 32 and not 1 <= body[-1] <= len(body) - head:
        return "strange"
    return "rtp"


def protected(data, code, size):
    """The preamble and a protected packet for each RTP packet, and for each slot of the deadline; and the note."""
    k, r, lags, deadline = code["k"], code["r"], code["lags"], code["channel"][3]
    m = -(-(size + 6) // k)
    at = data.index(b"\n") + 17
    out, blocks, counts = [data[:at]], [], dict(rtp=0, rtcp=0, cut=0, strange=0)
    offset = timestamp = 0

    def put(block, end):
        blocks.append(block)
        t = len(blocks) - 1
        parity = b""
        for j in range(r):
            total = 0
            for lag, rows in enumerate(lags):
                for i in range(k):
                    if rows[i][j] and lag <= t:
                        symbol = blocks[t - lag][i * m : (i + 1) * m]
                        total ^= int.from_bytes(symbol.translate(MULTIPLES[rows[i][j]]), "big")
            parity += total.to_bytes(m, "big")
        packet = struct.pack(">BBHII", 0x80, 96, t % 65536, timestamp, 0x53434431)
        packet += struct.pack(">2sBBBBHI", b"SC", 1, k, r, end, m, t) + block + parity
        out.append(struct.pack(">HHI", 8 + len(packet), len(packet), offset) + packet)

    while at < len(data):
        length, plen, when = struct.unpack(">HHI", data[at : at + 8])
        body = data[at + 8 : at + length]
        at += length
        counts[kind(plen, body)] += 1
        if kind(plen, body) == "rtp":
            offset, timestamp = when, int.from_bytes(body[4:8], "big")
            put((struct.pack(">HI", plen, when) + body).ljust(k * m, b"\0"), 0)
    for end in range(1, deadline + 1):
        put(bytes(k * m), end)
    return b"".join(out), b"slots %d rtcp %d cut %d strange %d\n" % (len(blocks), counts["rtcp"], counts["cut"], counts["strange"])


def rtp_part(data):
    """The preamble of a capture and its RTP records, and how many these are."""
    at = data.index(b"\n") + 17
    out = [data[:at]]
    while at < len(data):
        length, plen, _ = struct.unpack(">HHI", data[at : at + 8])
        if kind(plen, data[at + 8 : at + length]) == "rtp":
            out.append(data[at : at + length])
        at += length
    return b"".join(out), len(out) - 1


def admitted(seed, channel, count):
    """A loss of so many flags that a channel admits: each flag is drawn, and dropped where its window isn't fine with it."""
    w, b, n, _ = channel
    drawn, flags = random.Random(seed), ""
    for _ in range(count):
        lost = [i for i, flag in enumerate((flags + "1")[-w:]) if flag == "1"]
        fine = len(lost) <= n or lost[-1] - lost[0] < b
        flags += "1" if fine and drawn.random() < (0.75 if flags.endswith("1") else 0.3) else "0"
    return flags


def repeated(data, flags):
    """What comes back where each slot repeats the block two slots before: status, bytes and note."""
    start, count = rtp_part(data)
    came = {t for t, flag in enumerate(flags) if flag == "0"}
    last = max(came, default=-1)
    end = count if last >= count else last + 1
    lost = [t for t in range(end) if t not in came and t + 2 not in came]
    kept = "".join("01"[t >= end or t in lost] for t in range(count))
    return 5 if lost else 0, thinned(start, kept), b"slots %d missed %d strangers 0 repeats 0\n" % (end, len(lost))


def decided(code, unknown, kept, target):
    """Whether kept slots leave a block of a stream over GF(256) no choice where these blocks aren't known: elimination, that block last."""
    k, r, lags = code["k"], code["r"], code["lags"]
    columns = [(t, i) for t in sorted(unknown - {target}) + [target] for i in range(k)]
    rows = [bytes(lags[u - t][i][j] if 0 <= u - t < len(lags) else 0 for t, i in columns) for u in kept for j in range(r)]
    for column, (t, _) in enumerate(columns):
        pivot = next((row for row in rows if row[column]), None)
        if pivot is None:
            if t == target:
                return False
            continue
        rows.remove(pivot)
        pivot = pivot.translate(MULTIPLES[MULTIPLES[pivot[column]].index(1)])
        rows = [bytes(map(operator.xor, row, pivot.translate(MULTIPLES[row[column]]))) for row in rows]
    return True


def drawn_loss(seed, channel, count):
    """The generated loss: a slot is lost where its word is divisible by 3 and its window is fine with it."""
    w, b, n, _ = channel
    flags = ""
    for word in itertools.islice(words_of(seed), count):
        lost = [i for i, flag in enumerate((flags + "1")[-w:]) if flag == "1"]
        fine = len(lost) <= n or lost[-1] - lost[0] < b
        flags += "1" if word % 3 == 0 and fine else "0"
    return flags


def tried(code, seed, count):
    """Status, line and note of a trial: a packet comes back where what is known by its deadline leaves its block no choice."""
    deadline = code["channel"][3]
    flags = drawn_loss(seed, code["channel"], count + deadline)
    missed = set()
    for t in range(count):
        if flags[t] == "1":
            unknown = missed | {u for u in range(t, t + deadline + 1) if flags[u] == "1"}
            kept = [u for u in range(min(unknown), t + deadline + 1) if flags[u] == "0"]
            if not decided(code, unknown, kept, t):
                missed.add(t)
    line = "slots %d lost %d equal %d missed %d\n" % (len(flags), flags.count("1"), count - len(missed), len(missed))
    return 5 if missed else 0, line.encode(), b"trial done\n"


def classes(channel):
    """The burst, and slot 0 with each choice of N - 1 later slots, in lexicographic order."""
    _, b, n, t = channel
    yield [i < b for i in range(t + 1)]
    for places in itertools.combinations(range(1, t + 1), n - 1):
        yield [i == 0 or i in places for i in range(t + 1)]


def checked(code):
    """The lines of a code that meets its channel, or the first class that isn't decided."""
    every = list(classes(code["channel"]))
    for index, loss in enumerate(every):
        lost = {t for t, flag in enumerate(loss) if flag}
        if not decided(code, lost, [t for t in range(len(loss)) if t not in lost], 0):
            return index, loss
    return "meets %d %d %d %d " % tuple(code["channel"]) + "rate %d/%d classes %d\n" % (code["k"], code["k"] + code["r"], len(every))


def interleaved(channel, rows):
    """The code of a parity matrix that is laid over the diagonals of the stream."""
    k, r = len(rows), len(rows[0])
    lags = [[[rows[i][j] if lag + i == k + j else 0 for j in range(r)] for i in range(k)] for lag in range(k + r)]
    return {"channel": channel, "k": k, "lags": lags, "r": r}


def candidate(kind, channel, x):
    """The candidate of this number, drawn as the page of formats says."""
    _, b, n, t = channel
    words = words_of(x)
    draw = lambda: 1 + next(words) % 255
    if kind == "ms":
        below = lambda i: [next(y for y in range(256) if times(i ^ j, y) == 1) for j in range(b)]
        return interleaved(channel, [[int(i == j) for j in range(b)] if i < b else below(i) for i in range(t)])
    if kind == "layered":
        q = -(-b * n // (t - n + 1))
        lags = [[[0] * (b + q) for _ in range(t)] for _ in range(t + 1)]
        for j, lag, i in itertools.product(range(b), range(t), range(b, t)):
            lags[lag][i][j] = draw()
        for j, lag, i in itertools.product(range(q), range(t + 1), range(b)):
            lags[lag][i][b + j] = draw()
        for j in range(b):
            lags[t][j][j] = 1
        return {"channel": channel, "k": t, "lags": lags, "r": b + q}
    k = t - n + 1
    g = max(0, b - k)
    h = n - 1 - g
    rows = [[0] * b for _ in range(k)]
    for j, i in itertools.product(range(g), range(k)):
        rows[i][j] = draw()
    left = [[draw() for _ in range(h)] for _ in range(min(k, b))]
    right = [[draw() for _ in range(b - g)] for _ in range(h)]
    for i, j in itertools.product(range(min(k, b)), range(g, b)):
        rows[i][j] = functools.reduce(lambda a, x: a ^ times(left[i][x], right[x][j - g]), range(h), 0)
    for i in range(b - n + 1):
        rows[i][i + n - 1] ^= draw()
    for i, j in itertools.product(range(b, k), range(g, b)):
        rows[i][j] = draw()
    return interleaved(channel, rows)


def designed(kind, channel):
    """The code file of the first candidate that meets the channel, and the note."""
    for x in itertools.count():
        code = candidate(kind, channel, x)
        if isinstance(checked(code), str):
            note = "candidate %d rate %d/%d\n" % (x, code["k"], code["k"] + code["r"])
            return json.dumps(code, separators=(",", ":")).encode() + b"\n", note.encode()


def expect(what, got, wanted):
    global failed
    if got != wanted:
        failed += 1
        print(f"{what}: {got!r:.120}, and not {wanted!r:.120}", file=sys.stderr)


def run(words, stdin, stdout=subprocess.PIPE, name=program):
    return subprocess.run([name, *words], stdin=stdin, stdout=stdout, stderr=subprocess.PIPE, timeout=60)


def answers(what, words, stdin, status, given, note, name=program):
    done = run(words, stdin, name=name)
    expect(f"{what}: status", done.returncode, status)
    expect(f"{what}: bytes", done.stdout, given)
    expect(f"{what}: note", done.stderr, note)


def record(body):
    return (8 + len(body)).to_bytes(2, "big") + len(body).to_bytes(2, "big") + bytes(4) + body


capture = open(os.path.join(top, "examples", "voice-opus.rtp"), "rb").read()
optimal = os.path.join(top, "examples", "optimal.json")
sample = os.path.join(top, "examples", "voice-opus-loss.json")
loss = json.load(open(sample))["loss"]
lose = ["lose", optimal, sample]
start = capture[: capture.index(b"\n") + 17]

with tempfile.TemporaryDirectory() as folder:

    def held(data):
        path = os.path.join(folder, "input")
        with open(path, "wb") as file:
            file.write(data)
        return open(path, "rb")

    def named(name, text):
        path = os.path.join(folder, name)
        with open(path, "w") as file:
            file.write(text)
        return path

    def losing(flags):
        """The words of `lose` for the example's code and a loss file with these flags."""
        return ["lose", optimal, named(f"loss-{flags[:20]}.json", json.dumps({"loss": flags}))]

    note = f"records {len(loss)} lost {loss.count('1')}\n".encode()
    answers("a capture", lose, held(capture), 0, thinned(capture, loss), note)
    answers("a refused loss", losing("111110"), held(capture), 1, b"", b"loss refused at window 0\n")
    answers("a loss for another channel", ["lose", os.path.join(top, "examples", "burst.json"), sample], held(capture), 1, b"", b"loss refused at window 15\n")
    for what, words in [
        ("no words", []),
        ("other words", ["loose", optimal, sample]),
        ("one file", ["lose", optimal]),
        ("a channel and a word", ["lose", "11", "4", "2", "10", loss]),
    ]:
        answers(what, words, held(capture), 2, b"", b"usage\n")
    answers("a word that isn't UTF-8", [b"lose", b"\xff", sample], held(capture), 2, b"", b"usage\n")
    answers("files exchanged", ["lose", sample, optimal], held(capture), 3, b"", b"code shape other\n")
    for what, text, told in [
        ("no JSON", "0110", b"loss not json\n"),
        ("no text", '{"loss":[0]}', b"loss shape loss\n"),
        ("another character", '{"loss":"012"}', b"loss range loss\n"),
    ]:
        answers(f"a loss with {what}", ["lose", optimal, named("bad.json", text)], held(capture), 3, b"", told)
    answers("a long loss", ["lose", optimal, named("long.json", " " * 4194305)], held(capture), 4, b"", b"loss limit 4194305\n")
    answers("no loss", ["lose", optimal, os.path.join(folder, "none.json")], held(capture), 7, b"", b"read fault\n")
    answers("no preamble", losing("0"), held(b"RIFF"), 3, b"", b"preamble\n")
    cut = start + record(b"one") + record(b"two")[:-1]
    answers("a cut record", losing("00"), held(cut), 3, start + record(b"one"), b"record 1 cut\n")
    two = start + record(b"one") + record(b"two")
    answers("more records", losing("0"), held(two), 3, start + record(b"one"), b"flags 1 more records\n")
    answers("fewer records", losing("0010"), held(two), 3, two, b"flags 4 records 2\n")
    # A burst of 4 in each 100 records; so many flags would be no word of a command line.
    many = ("1111" + "0" * 96) * 2000
    long = start + b"".join(record(b"") for _ in many)
    answers("many flags", losing(many), held(long), 0, thinned(long, many), b"records 200000 lost 8000\n")

    # Generated captures. They leave the input alone, a folder too, which can't be read.
    directory = os.open(folder, os.O_RDONLY)
    for seed, count, size in [(42, 1, 16), (42, 0, 12), (7, 1200, 172), (2**32 + 2, 3, 1472), (2**64 - 1, 66000, 12)]:
        words = ["gen", str(seed), str(count), str(size)]
        answers(" ".join(words), words, directory, 0, generated(seed, count, size), b"records %d\n" % count)
    os.close(directory)
    for line in ["gen 42 1 11", "gen 42 1 1473", "gen 42 3999961 12", "gen 18446744073709551616 1 12", "gen 042 1 12", "gen 42 1"]:
        answers(line, line.split(), held(capture), 2, b"", b"usage\n")

    # Protected captures, by the example's code and by one that repeats the block two slots before.
    burst = os.path.join(top, "examples", "burst.json")
    repeats = named("repeats.json", '{"channel":[3,2,1,2],"k":1,"lags":[[[0]],[[0]],[[1]]],"r":1}')
    for what, name, size, data in [
        ("protect", burst, 200, capture),
        ("protect the widest", burst, 1472, generated(3, 40, 1472)),
        ("protect an empty capture", repeats, 12, start),
        ("protect few", repeats, 12, generated(3, 1, 12) + record(b"\x80") + record(b"") + struct.pack(">HHI", 10, 3, 0) + b"ab"),
    ]:
        given, told = protected(data, json.load(open(name)), size)
        answers(what, ["protect", name, str(size)], held(data), 0, given, told)
    given, _ = protected(generated(3, 2, 12), json.load(open(repeats)), 12)
    longer = generated(3, 2, 12) + generated(3, 1, 13)[44:]
    answers("a packet over the size", ["protect", repeats, "12"], held(longer), 4, given[: -2 * 68], b"limit size 2 13\n")
    wide = named("wide.json", json.dumps({"channel": [2, 1, 1, 1], "k": 1, "lags": [[[1] * 63]], "r": 63}))
    answers("a packet that no record holds", ["protect", wide, "1472"], held(capture), 4, b"", b"limit packet 94616\n")
    for what, text, told in [
        ("no JSON", "{", b"code not json\n"),
        ("no keys", '{"k":1}', b"code shape channel\n"),
        ("too large", '{"channel":[3,2,1,2],"k":1,"lags":[[[256]]],"r":1}', b"code range lags\n"),
    ]:
        answers(what, ["protect", named("other.json", text), "12"], held(capture), 3, b"", told)
    answers("a long file", ["protect", named("long.json", " " * 4194305), "12"], held(capture), 4, b"", b"code limit 4194305\n")
    answers("no file", ["protect", os.path.join(folder, "none.json"), "12"], held(capture), 7, b"", b"read fault\n")
    for line in ["protect x", "protect x 11", "protect x 1473", "protect x 012", "protect x 12 12"]:
        answers(line, line.split(), held(capture), 2, b"", b"usage\n")

    # Repaired captures. What a channel admits to be lost comes back; of the code that repeats, also what else there is to know.
    flags = json.load(open(os.path.join(top, "examples", "voice-opus-slots.json")))["loss"]
    voice, count = rtp_part(capture)
    given, _ = protected(capture, json.load(open(optimal)), 200)
    answers("repair the example", ["repair", optimal], held(thinned(given, flags)), 0, voice, b"slots %d missed 0 strangers 0 repeats 0\n" % count)
    rtcp = json.load(open(os.path.join(top, "examples", "voice-opus-rtcp.json")))["loss"]
    expect("the example without its RTCP", thinned(capture, rtcp), voice)
    for seed, name, size, data in [
        (1, optimal, 200, capture),
        (2, burst, 200, capture),
        (3, burst, 1472, generated(3, 40, 1472)),
        (4, repeats, 172, generated(4, 3000, 172)),
        (5, optimal, 100, generated(5, 500, 100)),
    ]:
        code = json.load(open(name))
        back, count = rtp_part(data)
        given, _ = protected(data, code, size)
        came = thinned(given, admitted(seed, code["channel"], count + code["channel"][3]))
        answers(f"repair {seed}", ["repair", name], held(came), 0, back, b"slots %d missed 0 strangers 0 repeats 0\n" % count)
    data = generated(6, 30, 40)
    given, _ = protected(data, json.load(open(repeats)), 40)
    for seed in range(20):
        drawn = random.Random(seed)
        flags = "".join(drawn.choice("0011") for _ in range(32))
        answers(f"repair by luck {seed}", ["repair", repeats], held(thinned(given, flags)), *repeated(data, flags))
    answers("repair nothing", ["repair", repeats], held(capture), 0, start, b"slots 0 missed 0 strangers 303 repeats 0\n")
    two, _ = protected(generated(6, 2, 12), json.load(open(repeats)), 12)
    clean = generated(6, 2, 12)
    for what, place, byte, status, back, told in [
        ("another k", 67, 2, 3, 0, b"record 0 wrong code\n"),
        ("another sequence", 55, 1, 3, 0, b"record 0 bad shape\n"),
        ("another parity", 111, 1, 6, 0, b"slot 0 clash\n"),
        ("another parity of slot 2", 247, 1 ^ two[247], 6, 2, b"slot 2 clash\n"),
        ("another frame", 77, 11, 3, 0, b"slot 0 bad block\n"),
        ("another end", 205, 2, 3, 2, b"slot 2 other end\n"),
    ]:
        changed = two[:place] + bytes([byte]) + two[place + 1 :]
        answers(f"repair {what}", ["repair", repeats], held(changed), status, clean[: 44 + 20 * back], told)
    answers("repair a cut record", ["repair", repeats], held(two[:-1]), 3, clean, b"record 3 cut\n")
    far = two[:54] + (4000000 % 65536).to_bytes(2, "big") + two[56:72] + (4000000).to_bytes(4, "big") + two[76:]
    answers("repair a great number", ["repair", repeats], held(far), 4, clean[:44], b"limit slots 4000000\n")
    answers("repair by no code", ["repair", sample], held(two), 3, b"", b"code shape other\n")
    answers("repair by no file", ["repair", os.path.join(folder, "none.json")], held(two), 7, b"", b"read fault\n")
    for line in ["repair", "repair x 12", "repairs x"]:
        answers(line, line.split(), held(capture), 2, b"", b"usage\n")

    # Codes, judged again by elimination. Of one that fails the class is compared, and that its stream refutes it.
    drawn = random.Random(5)
    tried_codes = [json.load(open(burst)), json.load(open(repeats))]
    for w, b, n, t, k, r in [(4, 3, 2, 3, 2, 2), (4, 3, 2, 3, 2, 3), (6, 3, 3, 4, 2, 3), (5, 2, 2, 4, 3, 3), (9, 4, 2, 6, 3, 3), (9, 2, 2, 6, 4, 2)] * 3:
        rows = lambda: [[drawn.choice([0, 1, drawn.randrange(256)]) for _ in range(r)] for _ in range(k)]
        tried_codes.append({"channel": [w, b, n, t], "k": k, "lags": [rows() for _ in range(drawn.randrange(1, t + 2))], "r": r})
    met = 0
    for number, code in enumerate(tried_codes):
        name, wanted = named("code.json", json.dumps(code)), checked(code)
        if isinstance(wanted, str):
            met += 1
            answers(f"check of code {number}", ["check", name, "3"], held(capture), 0, wanted.encode(), b"accepted\n")
            continue
        done = run(["check", name, "2"], held(capture))
        expect(f"check of code {number}: status", (done.returncode, done.stderr), (1, b"refused\n"))
        lines = done.stdout.decode().split("\n")
        flags = "".join("01"[lost] for lost in wanted[1])
        expect(f"check of code {number}: class", lines[:2], [f"fails class {wanted[0]}", f"loss {flags}"])
        stream = [[int(x) for x in block.split(",")] for block in lines[2].split()[1:]]
        parity = lambda u, j: functools.reduce(
            lambda a, x: a ^ x,
            [times(code["lags"][lag][i][j], stream[u - lag][i]) for lag in range(min(u + 1, len(code["lags"]))) for i in range(code["k"])],
        )
        zero = [not any(stream[u]) and not any(parity(u, j) for j in range(code["r"])) for u, lost in enumerate(wanted[1]) if not lost]
        expect(f"check of code {number}: the stream refutes", (len(stream), any(stream[0]), all(zero)), (code["channel"][3] + 1, True, True))
        expect(f"check of code {number}: the other", lines[3:], ["other " + " ".join(",".join("0" * code["k"]) for _ in stream), ""])
    expect("codes that meet their channel, and codes that don't", 2 <= met <= len(tried_codes) - 5, True)
    answers("many classes", ["check", named("many.json", json.dumps({"channel": [41, 7, 7, 40], "k": 1, "lags": [[[1]]], "r": 1})), "1"], held(capture), 11, b"", b"classes 3838381\n")

    # Certificates.
    standard = named("standard.json", '{"lost":[0,1],"period":4}\n')
    answers("bound", ["bound", "3", "2", "1", "2"], held(capture), 0, b'{"lost":[0,1],"period":4}\n', b"bound 2/4\n")
    answers("certify", ["certify", repeats, standard], held(capture), 0, b"bound 2/4 code 1/2 equal\n", b"accepted\n")
    short = named("short.json", '{"lost":[0,1],"period":3}')
    answers("a refused certificate", ["certify", repeats, short], held(capture), 1, b"", b"certificate refused at residue 1\n")
    answers("no certificate", ["certify", repeats, repeats], held(capture), 3, b"", b"certificate shape other\n")

    # Designs. The entry of the one layered code is drawn by words 0 and 1; a designed code meets its channel.
    empty = lambda: held(b"")
    answers("design optimal", ["design", "optimal", "2", "1", "1", "1"], empty(), 0, b'{"channel":[2,1,1,1],"k":1,"lags":[[[0]],[[42]]],"r":1}\n', b"candidate 0 rate 1/2\n")
    of_bursts = b'{"channel":[3,2,1,2],"k":2,"lags":[[[0,0],[0,0]],[[0,0],[0,0]],[[1,0],[0,1]],[[0,0],[0,0]]],"r":2}\n'
    answers("design ms", ["design", "ms", "3", "2", "1", "2"], empty(), 0, of_bursts, b"candidate 0 rate 2/4\n")
    single = b'{"channel":[4,1,1,3],"k":3,"lags":[[[0],[0],[0]],[[0],[0],[142]],[[0],[1],[0]],[[1],[0],[0]]],"r":1}\n'
    answers("design ms of one", ["design", "ms", "4", "1", "1", "3"], empty(), 0, single, b"candidate 0 rate 3/4\n")
    answers("design ms of two", ["design", "ms", "3", "2", "2", "2"], empty(), 10, b"", b"no code\n")
    answers("design ms too wide", ["design", "ms", "41", "25", "1", "40"], empty(), 4, b"", b"limit symbols 65\n")
    answers("design layered", ["design", "layered", "2", "1", "1", "1"], empty(), 0, b'{"channel":[2,1,1,1],"k":1,"lags":[[[0,42]],[[1,219]]],"r":2}\n', b"candidate 0 rate 1/3\n")
    answers("design of none", ["design", "optimal", "13", "6", "6", "12"], empty(), 10, b"", b"no code\n")
    for maker, channel in [
        ("ms", [6, 3, 1, 5]),
        ("layered", [5, 2, 2, 4]),
        ("layered", [7, 4, 3, 6]),
        ("optimal", [5, 4, 2, 4]),
        ("optimal", [7, 6, 3, 6]),
        ("optimal", [8, 4, 3, 7]),
        ("optimal", [9, 5, 5, 8]),
        ("optimal", [11, 4, 2, 10]),
    ]:
        line = ["design", maker, *map(str, channel)]
        answers(" ".join(line), line, empty(), 0, *designed(maker, channel))
    text, _ = designed("optimal", [11, 4, 2, 10])
    expect("the example's code", open(optimal, "rb").read(), text)
    answers("it meets its channel", ["check", optimal, "4"], empty(), 0, b"meets 11 4 2 10 rate 9/13 classes 11\n", b"accepted\n")

    # Trials of codes that meet their channel, and of codes that don't.
    trials = [(json.load(open(name)), *words) for name, *words in [(repeats, 42, 4, 12), (repeats, 7, 10000, 172), (optimal, 7, 500, 172), (burst, 42, 200, 1472)]]
    trials += [(code, seed, 60, 30) for code in tried_codes for seed in (42, 2**64 - 1)]
    statuses = set()
    for code, seed, count, size in trials:
        wanted = tried(code, seed, count)
        statuses.add(wanted[0])
        line = ["trial", named("code.json", json.dumps(code)), str(seed), str(count), str(size)]
        answers(" ".join(line), line, empty(), *wanted)
    expect("trials that miss nothing, and trials that do", statuses, {0, 5})
    expect("the trial of 42", tried(json.load(open(repeats)), 42, 4)[1], b"slots 6 lost 2 equal 4 missed 0\n")
    expect("the trial of 7", tried(json.load(open(repeats)), 7, 10000)[1], b"slots 10002 lost 2521 equal 10000 missed 0\n")
    expect("the example's trial", tried(json.load(open(optimal)), 7, 500)[1], b"slots 510 lost 83 equal 500 missed 0\n")
    example = os.path.join(top, "examples", "repeat.json")
    answers("a trial that misses", ["trial", example, "42", "40", "172"], empty(), 5, b"slots 42 lost 19 equal 37 missed 3\n", b"trial done\n")
    wide = {"channel": [2, 1, 1, 1], "k": 1, "lags": [[[0] * 63]], "r": 63}
    answers("a wide trial", ["trial", named("wide.json", json.dumps(wide)), "42", "4", "1472"], empty(), 4, b"", b"limit packet 94616\n")
    answers("a trial of no code", ["trial", sample, "42", "4", "12"], empty(), 3, b"", b"code shape other\n")
    answers("a trial of no file", ["trial", os.path.join(folder, "none.json"), "42", "4", "12"], empty(), 7, b"", b"read fault\n")
    for line in ["trial x 42 10001 12", "trial x 42 4 11", "trial x 42 4", "trials x 42 4 12"]:
        answers(line, line.split(), empty(), 2, b"", b"usage\n")

    # A folder can't be read, and nothing can be written to a device that is full.
    directory = os.open(folder, os.O_RDONLY)
    answers("a failed read", losing("0"), directory, 7, b"", b"read fault\n")
    os.close(directory)
    if os.path.exists("/dev/full"):
        with open("/dev/full", "wb") as full:
            for words in [lose, ["gen", "7", "3", "20"], ["protect", burst, "200"], ["repair", repeats], ["check", repeats, "1"], ["bound", "3", "2", "1", "2"], ["trial", repeats, "7", "3", "20"]]:
                done = run(words, held(capture), stdout=full)
                expect(f"{words[0]}, a failed write: status", done.returncode, 8)
                expect(f"{words[0]}, a failed write: note", done.stderr, b"write fault\n")

    # The program's own name isn't read.
    other = os.path.join(folder.encode(), b"\xff\xfe")
    os.symlink(program.encode(), other)
    answers("another name", lose, held(capture), 0, thinned(capture, loss), note, name=other)

# On a live pipe what is due for a record comes out before the next one goes in.
def streams(what, words, start, pieces, due):
    live = subprocess.Popen([program, *words], stdin=subprocess.PIPE, stdout=subprocess.PIPE, stderr=subprocess.PIPE)
    os.set_blocking(live.stdout.fileno(), False)
    came = b""
    for count, piece in enumerate([start, *pieces]):
        live.stdin.write(piece)
        live.stdin.flush()
        end = time.monotonic() + 10
        while len(came) < len(due[count]) and time.monotonic() < end:
            came += live.stdout.read() or b""
            time.sleep(0.001)
        expect(f"{what}, on a live pipe: after {count} records", came, due[count])
    live.stdin.close()
    expect(f"{what}, on a live pipe: status", live.wait(timeout=60), 0)


records = [record(b"%d" % i) for i in range(5)]
with tempfile.TemporaryDirectory() as folder:
    path = os.path.join(folder, "loss.json")
    with open(path, "w") as file:
        file.write('{"loss":"00000"}')
    streams("lose", ["lose", optimal, path], start, records, [start + b"".join(records[:n]) for n in range(6)])
whole = generated(7, 5, 172)
packets = [whole[44 + 180 * i : 44 + 180 * (i + 1)] for i in range(5)]
slots = [protected(whole[: 44 + 180 * n], json.load(open(burst)), 172)[0] for n in range(6)]
slot = (len(slots[1]) - len(slots[0]))
streams("protect", ["protect", burst, "172"], whole[:44], packets, [slots[n][: 44 + slot * n] for n in range(6)])

# Of the slots 0 and 1, which are lost, each is known once the slot two behind it came.
with tempfile.TemporaryDirectory() as folder:
    path = os.path.join(folder, "code.json")
    with open(path, "w") as file:
        file.write('{"channel":[3,2,1,2],"k":1,"lags":[[[0]],[[0]],[[1]]],"r":1}')
    given, _ = protected(whole, json.load(open(path)), 172)
    size = (len(given) - 44) // 7
    pieces = [given[44 + size * t : 44 + size * (t + 1)] for t in range(2, 7)]
    streams("repair", ["repair", path], given[:44], pieces, [whole[: 44 + 180 * n] for n in (0, 1, 4, 5, 5, 5)])

sys.exit(1 if failed else 0)
