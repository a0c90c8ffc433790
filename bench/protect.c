/* Protects a capture as streamcode does, for a comparison of speed. It checks nothing: protect CODE SIZE <capture >protected.
   CODE is a text of numbers: k, r, T, the number of lags, and then the matrices, row by row. The parity of a slot is one pass for each
   of its symbols: all sources are looked up in two 16-entry tables in vectors of 16 bytes, and summed in a register. */
#include <immintrin.h>
#include <stdint.h>
#include <stdio.h>
#include <stdlib.h>
#include <string.h>
#include <unistd.h>

enum { IN = 1 << 16, OUT = 196608 };
typedef struct { int lag, i; uint8_t low[16], high[16]; } Term;

static uint8_t in[IN], out[OUT];
static size_t at, end, waits;
static int k, r, deadline, lags, m, counts[64];
static Term *terms[64];
static uint8_t *ring;
static size_t block_len, stride;
static uint32_t number;

static uint8_t times(int x, int y) {
    int p = 0;
    for (int b = 0; b < 8; b++) p ^= (y >> b & 1) ? x << b : 0;
    for (int b = 14; b > 7; b--) if (p >> b & 1) p ^= 0x11D << (b - 8);
    return p;
}

static void flush(void) {
    for (size_t n = 0; n < waits;) {
        ssize_t w = write(1, out + n, waits - n);
        if (w <= 0) exit(8);
        n += w;
    }
    waits = 0;
}

static size_t take(uint8_t *to, size_t len) {
    size_t n = 0;
    while (n < len) {
        if (at == end) {
            ssize_t got = read(0, in, IN);
            if (got <= 0) break;
            at = 0, end = got;
        }
        size_t part = end - at < len - n ? end - at : len - n;
        memcpy(to + n, in + at, part);
        at += part, n += part;
    }
    return n;
}

static void put16(uint8_t *p, unsigned v) { p[0] = v >> 8, p[1] = v; }
static void put32(uint8_t *p, uint32_t v) { put16(p, v >> 16), put16(p + 2, v & 65535); }

static void parity(uint8_t *to, const Term *t, int n) {
    const __m128i nibble = _mm_set1_epi8(15);
    const uint8_t *from[64 * 65];
    for (int s = 0; s < n; s++) from[s] = ring + ((number + lags - t[s].lag) % lags) * stride + (size_t)t[s].i * m;
    for (int c = 0; c < m; c += 16) {
        int place = c + 16 <= m ? c : (m >= 16 ? m - 16 : 0);
        __m128i sum = _mm_setzero_si128();
        for (int s = 0; s < n; s++) {
            __m128i x = _mm_loadu_si128((const __m128i *)(from[s] + place));
            __m128i low = _mm_shuffle_epi8(_mm_loadu_si128((const __m128i *)t[s].low), _mm_and_si128(x, nibble));
            __m128i high = _mm_shuffle_epi8(_mm_loadu_si128((const __m128i *)t[s].high), _mm_and_si128(_mm_srli_epi16(x, 4), nibble));
            sum = _mm_xor_si128(sum, _mm_xor_si128(low, high));
        }
        uint8_t last[16];
        if (m >= 16) _mm_storeu_si128((__m128i *)(to + place), sum);
        else _mm_storeu_si128((__m128i *)last, sum), memcpy(to, last, m);
    }
}

static void slot(uint32_t offset, uint32_t timestamp, int ends) {
    size_t len = 24 + block_len + (size_t)r * m;
    if (waits + 8 + len > OUT) flush();
    uint8_t *p = out + waits;
    put16(p, 8 + len), put16(p + 2, len), put32(p + 4, offset);
    p[8] = 0x80, p[9] = 96, put16(p + 10, number & 65535), put32(p + 12, timestamp), memcpy(p + 16, "SCD1SC\1", 7);
    p[23] = k, p[24] = r, p[25] = ends, put16(p + 26, m), put32(p + 28, number);
    memcpy(p + 32, ring + (number % lags) * stride, block_len);
    for (int j = 0; j < r; j++) parity(p + 32 + block_len + (size_t)j * m, terms[j], counts[j]);
    waits += 8 + len, number++;
}

int main(int argc, char **argv) {
    FILE *code = fopen(argv[1], "r");
    if (argc != 3 || !code || fscanf(code, "%d %d %d %d", &k, &r, &deadline, &lags) != 4) return 2;
    m = (atoi(argv[2]) + 6 + k - 1) / k, block_len = (size_t)k * m, stride = block_len + 32;
    ring = calloc(lags, stride);
    for (int j = 0; j < r; j++) terms[j] = malloc(sizeof(Term) * k * lags);
    for (int lag = 0; lag < lags; lag++)
        for (int i = 0; i < k; i++)
            for (int j = 0; j < r; j++) {
                int c;
                if (fscanf(code, "%d", &c) != 1) return 2;
                if (!c) continue;
                Term *t = &terms[j][counts[j]++];
                t->lag = lag, t->i = i;
                for (int x = 0; x < 16; x++) t->low[x] = times(c, x), t->high[x] = times(c, x << 4);
            }
    uint8_t head[8], line[1];
    while (take(line, 1) && line[0] != '\n') out[waits++] = line[0];
    out[waits++] = '\n', waits += take(out + waits, 16);
    uint32_t offset = 0, timestamp = 0;
    while (take(head, 8) == 8) {
        size_t len = (head[0] << 8 | head[1]) - 8;
        uint8_t *block = ring + (number % lags) * stride;
        memcpy(block, head + 2, 6);
        take(block + 6, len), memset(block + 6 + len, 0, block_len - 6 - len);
        offset = (uint32_t)head[4] << 24 | head[5] << 16 | head[6] << 8 | head[7];
        timestamp = (uint32_t)block[10] << 24 | block[11] << 16 | block[12] << 8 | block[13];
        slot(offset, timestamp, 0);
    }
    for (int e = 1; e <= deadline; e++) memset(ring + (number % lags) * stride, 0, block_len), slot(offset, timestamp, e);
    flush();
}
