// Classes of losses decided one by one, by elimination on rows of bytes over GF(256) with the polynomial 0x11D.
//   gcc -O3 -march=x86-64-v2 check.c -o check; ./check FILE
// FILE has W B N T, k r, the number of matrices, and their entries. It prints MEETS, or the index of the first class that the code
// doesn't decide. A class has a column for each lost symbol, those of block 0 last, and its rows come in the order of time: it is
// decided once the rows so far span the columns of block 0.
#include <immintrin.h>
#include <stdint.h>
#include <stdio.h>
#include <stdlib.h>
#include <string.h>

typedef uint8_t u8;
typedef struct { u8 low[16], high[16]; } Tables;

static u8 products[256][256], inverse[256];
static Tables tables[256] __attribute__((aligned(64)));
static int window, burst, most, deadline, k, r, lags;
static u8 *entries, *by_parity, *zero, *rows[64 * 41], *room;
static int where[64 * 41];

static u8 times(int x, int y) {
    int sum = 0;
    for (; y; y >>= 1, x = x << 1 ^ (x & 128 ? 0x11D : 0)) if (y & 1) sum ^= x;
    return sum;
}

// dst += c * src, in whole vectors: rows have room behind them.
static inline void add(u8 *dst, const u8 *src, int c, int n) {
    __m128i mask = _mm_set1_epi8(15), low = _mm_load_si128((void *)tables[c].low), high = _mm_load_si128((void *)tables[c].high);
    for (int x = 0; x < n; x += 16) {
        __m128i v = _mm_loadu_si128((void *)(src + x));
        v = _mm_xor_si128(_mm_shuffle_epi8(low, _mm_and_si128(v, mask)), _mm_shuffle_epi8(high, _mm_and_si128(_mm_srli_epi16(v, 4), mask)));
        _mm_storeu_si128((void *)(dst + x), _mm_xor_si128(v, _mm_loadu_si128((void *)(dst + x))));
    }
}

// The first column from c on at which the row isn't zero, of so many.
static inline int next_set(const u8 *row, int c, int cols) {
    for (int from = c & ~15; from < cols; from += 16, c = from) {
        int set = 65535 & ~_mm_movemask_epi8(_mm_cmpeq_epi8(_mm_loadu_si128((void *)(row + from)), _mm_setzero_si128())) & -1 << (c - from);
        if (set) return from + __builtin_ctz(set);
    }
    return cols;
}

// One class: the lost slots in order, slot 0 first.
static int decided(const int *lost, int count, const u8 *flags) {
    int cols = count * k, used = 0, known = 0;
    memset(where, 255, cols * sizeof *where);
    for (int t = 0; t <= deadline; t++) {
        if (flags[t]) continue;
        for (int j = 0; j < r; j++) {
            u8 *row = rows[used];
            memset(row, 0, cols + 16);
            int some = 0;
            for (int a = 0; a < count && lost[a] <= t; a++) {
                int lag = t - lost[a], at = (count - 1 - a) * k;
                if (lag >= lags) continue;
                if (!zero[lag * r + j]) memcpy(row + at, by_parity + (lag * r + j) * k, k), some = 1;
            }
            if (!some) continue;
            for (int c = 0; c < cols; c++) {
                if (!row[c] && (c = next_set(row, c, cols)) == cols) break;
                if (where[c] >= 0) {
                    int from = c & ~15;
                    add(row + from, rows[where[c]] + from, row[c], cols - from);
                    continue;
                }
                u8 by = inverse[row[c]];
                for (int x = c; x < cols; x++) row[x] = products[by][row[x]];
                where[c] = used++;
                known += c >= cols - k;
                break;
            }
            if (known == k) return 1;
        }
    }
    return known == k;
}

static int next_class(int *lost) {
    for (int a = most - 1; a > 0; a--) {
        if (lost[a] == deadline - (most - 1 - a)) continue;
        lost[a]++;
        for (int b = a + 1; b < most; b++) lost[b] = lost[b - 1] + 1;
        return 1;
    }
    return 0;
}

int main(int argc, char **argv) {
    FILE *file = argc > 1 ? fopen(argv[1], "r") : NULL;
    if (!file || fscanf(file, "%d %d %d %d %d %d %d", &window, &burst, &most, &deadline, &k, &r, &lags) != 7) return 2;
    entries = malloc(lags * k * r);
    for (int i = 0; i < lags * k * r; i++) {
        int x;
        if (fscanf(file, "%d", &x) != 1) return 2;
        entries[i] = x;
    }
    by_parity = malloc(lags * k * r), zero = calloc(lags * r, 1);
    for (int lag = 0; lag < lags; lag++)
        for (int j = 0; j < r; j++) {
            int some = 0;
            for (int i = 0; i < k; i++) some |= by_parity[(lag * r + j) * k + i] = entries[(lag * k + i) * r + j];
            zero[lag * r + j] = !some;
        }
    for (int x = 0; x < 256; x++)
        for (int y = 0; y < 256; y++) if ((products[x][y] = times(x, y)) == 1) inverse[x] = y;
    for (int c = 0; c < 256; c++)
        for (int x = 0; x < 16; x++) tables[c].low[x] = products[c][x], tables[c].high[x] = products[c][x << 4];
    int stride = 41 * k + 32;
    room = aligned_alloc(64, (size_t)64 * 41 * ((stride + 63) / 64 * 64));
    for (int i = 0; i < 64 * 41; i++) rows[i] = room + (size_t)i * ((stride + 63) / 64 * 64);
    int lost[41];
    u8 flags[41];
    for (int a = 0; a < burst; a++) lost[a] = a;
    for (int t = 0; t <= deadline; t++) flags[t] = t < burst;
    if (!decided(lost, burst, flags)) { puts("0"); return 1; }
    for (int a = 0; a < most; a++) lost[a] = a;
    for (int index = 1;; index++) {
        memset(flags, 0, sizeof flags);
        for (int a = 0; a < most; a++) flags[lost[a]] = 1;
        if (!decided(lost, most, flags)) { printf("%d\n", index); return 1; }
        if (!next_class(lost)) break;
    }
    puts("MEETS");
    return 0;
}
