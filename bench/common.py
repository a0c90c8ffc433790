"""What the measures share: codes along the diagonals of slots, products of bytes, and the time and the memory of a program."""
import os
import subprocess
import time


def times(x, y):
    product = 0
    for bit in range(8):
        product ^= x << bit if y >> bit & 1 else 0
    for bit in range(14, 7, -1):
        product ^= 0x11D << (bit - 8) if product >> bit & 1 else 0
    return product


def interleaved(matrix, channel):
    """A matrix of k rows and r columns along the diagonals of slots."""
    k, r = len(matrix), len(matrix[0])
    lags = [[[0] * r for _ in range(k)] for _ in range(k + r)]
    for i in range(k):
        for j in range(r):
            lags[k + j - i][i][j] = matrix[i][j]
    return {"channel": channel, "k": k, "lags": lags, "r": r}


inverse = {x: next(y for y in range(1, 256) if times(x, y) == 1) for x in range(1, 256)}
burst = interleaved([[int(i == j) if i < 10 else inverse[i ^ j] for j in range(10)] for i in range(30)], [31, 10, 1, 30])


def timed(words, stdin, out):
    start = time.monotonic()
    process = subprocess.Popen(words, stdin=open(stdin, "rb"), stdout=out, stderr=subprocess.DEVNULL)
    _, status, used = os.wait4(process.pid, 0)
    process.returncode = status
    assert status == 0, words
    return used.ru_utime + used.ru_stime, time.monotonic() - start


def memory(words, stdin):
    """The greatest resident memory in kB, once all of an input was taken that doesn't end."""
    process = subprocess.Popen(words, stdin=subprocess.PIPE, stdout=subprocess.DEVNULL, stderr=subprocess.DEVNULL)
    process.stdin.write(open(stdin, "rb").read())
    process.stdin.flush()
    time.sleep(0.3)
    peak = next(line.split()[1] for line in open(f"/proc/{process.pid}/status") if line.startswith("VmHWM"))
    process.stdin.close()
    process.wait()
    return peak
