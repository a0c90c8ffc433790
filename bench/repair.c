/* Repairs a protected capture as streamcode does, for a comparison of speed: repair CODE <protected >capture. It checks the parities, and
   no form of a record. CODE is a text of numbers: k, r, T, the number of lags, and then the matrices, row by row. Known symbols stand in
   a ring; what a parity says of the others is a row of coefficients and bytes, and the rows are kept reduced. Sums over known symbols are
   one pass with two 16-entry tables a term, in a register; a row is added to another 16 bytes at a time. What a record lets out is one
   write. */
#include <immintrin.h>
#include <stdint.h>
#include <stdio.h>
#include <stdlib.h>
#include <string.h>
#include <unistd.h>

enum { IN = 1 << 16, OUT = 1 << 20 };
typedef struct { uint8_t low[16], high[16]; } Table;
typedef struct { int lag, i, c; } Term;
typedef struct { uint8_t *at; int pivot; } Row;

static uint8_t in[IN], out[OUT], body[1 << 16];
static size_t at, end, waits;
static int k, r, deadline, lags, m, places, cols, width, counts[64], used;
static Term *terms[64];
static Table tables[256];
static uint8_t inverse[256], product[256][256];
static uint8_t *ring, *known, *work;
static Row *rows;
static size_t stride;
static long passed, next, last_end = -1;
static long missed;

static void flush(void) {
    for (size_t n = 0; n < waits;) {
        ssize_t w = write(1, out + n, waits - n);
        if (w <= 0) exit(8);
        n += w;
    }
    waits = 0;
}

static size_t take(uint8_t *to, size_t len) {
    size_t n = 0;
    while (n < len) {
        if (at == end) {
            ssize_t got = read(0, in, IN);
            if (got <= 0) break;
            at = 0, end = got;
        }
        size_t part = end - at < len - n ? end - at : len - n;
        memcpy(to + n, in + at, part);
        at += part, n += part;
    }
    return n;
}

static inline __m128i times(__m128i x, const Table *t) {
    const __m128i nibble = _mm_set1_epi8(15);
    return _mm_xor_si128(_mm_shuffle_epi8(_mm_loadu_si128((const __m128i *)t->low), _mm_and_si128(x, nibble)),
                         _mm_shuffle_epi8(_mm_loadu_si128((const __m128i *)t->high), _mm_and_si128(_mm_srli_epi16(x, 4), nibble)));
}

/* to ^= c * from; both have room for a vector more */
static void add(uint8_t *to, const uint8_t *from, int c, int n) {
    const Table *t = tables + c;
    for (int x = 0; x < n; x += 16) {
        __m128i sum = _mm_xor_si128(_mm_loadu_si128((const __m128i *)(to + x)), times(_mm_loadu_si128((const __m128i *)(from + x)), t));
        _mm_storeu_si128((__m128i *)(to + x), sum);
    }
}

static uint8_t *symbol(long slot, int i) { return ring + (slot % places) * stride + (size_t)i * m; }
static int column(long slot, int i) { return (int)(slot % places) * k + i; }

/* the coefficients of a row stand before its bytes */
static void learn(uint8_t *row, long first) {
    for (int n = 0; n < used; n++) if (row[rows[n].pivot]) add(row, rows[n].at, row[rows[n].pivot], width);
    int pivot = 0;
    while (pivot < cols && !row[pivot]) pivot++;
    if (pivot == cols) {
        for (int x = 0; x < m; x++) if (row[cols + x]) exit(6);
        return;
    }
    uint8_t *to = rows[used].at;
    memset(to, 0, width + 16);
    add(to, row, inverse[row[pivot]], width);
    for (int n = 0; n < used; n++) if (rows[n].at[pivot]) add(rows[n].at, to, rows[n].at[pivot], width);
    rows[used++].pivot = pivot;
    for (int n = 0; n < used; n++) {
        int others = 0;
        for (int x = 0; x < cols && others < 2; x++) others += rows[n].at[x] != 0;
        if (others > 1) continue;
        pivot = rows[n].pivot;
        long slot = first + ((pivot / k - first % places) + places) % places;
        memcpy(symbol(slot, pivot % k), rows[n].at + cols, m), known[pivot] = 1;
        Row gone = rows[n];
        rows[n--] = rows[--used], rows[used] = gone;
    }
}

static void forget(long slot) {
    for (int i = 0; i < k; i++) {
        int col = column(slot, i);
        for (int n = 0; n < used; n++) {
            if (!rows[n].at[col]) continue;
            Row gone = rows[n];
            rows[n] = rows[--used], rows[used] = gone;
            int c = inverse[gone.at[col]];
            for (int o = 0; o < used; o++) if (rows[o].at[col]) add(rows[o].at, gone.at, product[c][rows[o].at[col]], width);
            break;
        }
        known[col] = 0;
    }
}

static void put16(uint8_t *p, unsigned v) { p[0] = v >> 8, p[1] = v; }

static int put(long slot) {
    for (int i = 0; i < k; i++) if (!known[column(slot, i)]) return 0;
    uint8_t *block = symbol(slot, 0), *p = out + waits;
    unsigned len = block[0] << 8 | block[1];
    if (len) put16(p, 8 + len), put16(p + 2, len), memcpy(p + 4, block + 2, 4 + len), waits += 8 + len;
    return 1;
}

static void put_all(void) {
    for (; next < passed; next++) {
        if (put(next)) continue;
        if (passed - next <= deadline) return;
        missed++;
    }
}

static void pass(void) {
    if (passed >= places) forget(passed - places);
    memset(known + column(passed, 0), 0, k);
}

int main(int argc, char **argv) {
    FILE *code = fopen(argv[1], "r");
    if (argc != 2 || !code || fscanf(code, "%d %d %d %d", &k, &r, &deadline, &lags) != 4) return 2;
    for (int a = 0; a < 256; a++)
        for (int b = 0; b < 256; b++) {
            int p = 0;
            for (int bit = 0; bit < 8; bit++) p ^= (b >> bit & 1) ? a << bit : 0;
            for (int bit = 14; bit > 7; bit--) if (p >> bit & 1) p ^= 0x11D << (bit - 8);
            product[a][b] = p;
            if (p == 1) inverse[a] = b;
            if (b < 16) tables[a].low[b] = p;
            if (!(b & 15)) tables[a].high[b >> 4] = p;
        }
    for (int j = 0; j < r; j++) terms[j] = malloc(sizeof(Term) * k * lags);
    for (int lag = 0; lag < lags; lag++)
        for (int i = 0; i < k; i++)
            for (int j = 0; j < r; j++) {
                int c;
                if (fscanf(code, "%d", &c) != 1) return 2;
                if (c) terms[j][counts[j]++] = (Term){lag, i, c};
            }
    places = (lags - 1 > deadline ? lags - 1 : deadline) + 1, cols = places * k;
    uint8_t head[8], line[1];
    while (take(line, 1) && line[0] != '\n') out[waits++] = line[0];
    out[waits++] = '\n', waits += take(out + waits, 16), flush();
    const uint8_t *from[64 * 65];
    int with[64 * 65];
    while (take(head, 8) == 8) {
        size_t len = (head[0] << 8 | head[1]) - 8;
        take(body, len);
        if (!m) {
            m = body[18] << 8 | body[19], width = cols + m, stride = (size_t)k * m + 32;
            ring = calloc(places, stride), known = calloc(cols, 1), work = calloc(width + 32, 1), rows = calloc(cols + 1, sizeof(Row));
            for (int n = 0; n <= cols; n++) rows[n].at = calloc(width + 32, 1);
        }
        long number = (long)body[20] << 24 | body[21] << 16 | body[22] << 8 | body[23];
        if (number < passed) continue;
        if (body[17]) last_end = number + 1 - body[17];
        for (; passed < number;) pass(), passed++, put_all();
        pass();
        memcpy(symbol(number, 0), body + 24, (size_t)k * m), memset(known + column(number, 0), 1, k);
        passed++;
        for (int j = 0; j < r; j++) {
            int sources = 0, unknown = 0;
            for (int t = 0; t < counts[j]; t++) {
                Term *term = terms[j] + t;
                long slot = number - term->lag;
                if (slot < 0) continue;
                int col = column(slot, term->i);
                if (known[col]) from[sources] = symbol(slot, term->i), with[sources++] = term->c;
                else {
                    if (!unknown++) memset(work, 0, width + 16);
                    work[col] = term->c;
                }
            }
            uint8_t *to = work + cols;
            const uint8_t *own = body + 24 + (size_t)(k + j) * m;
            if (!unknown) {
                __m128i any = _mm_setzero_si128();
                for (int c = 0; c < m; c += 16) {
                    int place = c + 16 <= m ? c : (m >= 16 ? m - 16 : 0);
                    __m128i sum = _mm_loadu_si128((const __m128i *)(own + place));
                    for (int s = 0; s < sources; s++) sum = _mm_xor_si128(sum, times(_mm_loadu_si128((const __m128i *)(from[s] + place)), tables + with[s]));
                    if (m < 16) for (int x = 0; x < m; x++) { if (((uint8_t *)&sum)[x]) exit(6); }
                    else any = _mm_or_si128(any, sum);
                }
                if (_mm_movemask_epi8(_mm_cmpeq_epi8(any, _mm_setzero_si128())) != 65535) exit(6);
                continue;
            }
            memcpy(to, own, m), memset(to + m, 0, 16);
            for (int c = 0; c < m; c += 16) {
                __m128i sum = _mm_loadu_si128((const __m128i *)(to + c));
                for (int s = 0; s < sources; s++) sum = _mm_xor_si128(sum, times(_mm_loadu_si128((const __m128i *)(from[s] + c)), tables + with[s]));
                _mm_storeu_si128((__m128i *)(to + c), sum);
            }
            learn(work, passed > places ? passed - places : 0);
        }
        put_all();
        if (waits) flush();
    }
    long known_end = last_end < 0 ? passed : last_end;
    for (; next < passed; next++) if (!put(next) && next < known_end) missed++;
    flush();
    fprintf(stderr, "slots %ld missed %ld\n", known_end, missed);
}
