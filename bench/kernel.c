// Sums of multiples over GF(256) with the polynomial 0x11D: the speeds that C and ISA-L reach, to set others beside.
//   gcc -O3 -march=x86-64-v2 kernel.c -o kernel                    plain C alone
//   gcc -O3 -march=x86-64-v2 -DISAL kernel.c -o kernel -lisal      and ISA-L's AVX2 kernels
// It prints a line for each way of working, job and number of bytes. README.md says what its columns are.
#include <immintrin.h>
#include <stdint.h>
#include <stdio.h>
#include <stdlib.h>
#include <string.h>
#include <time.h>

typedef uint8_t u8;

#define NOINLINE __attribute__((noinline))

// The longest slice, the most sources, and the bytes by which a vector may be read past an end.
enum { LONGEST = 65503, MOST = 10, ROOM = 64, ROUNDS = 9 };

// A coefficient's products with the 16 low halves and the 16 high halves of a byte.
typedef struct { u8 low[16], high[16]; } Tables;

static u8 product(unsigned a, unsigned b) {
    unsigned sum = 0;
    for (; b; b >>= 1) {
        if (b & 1) sum ^= a;
        a = a << 1 ^ (a & 128 ? 0x11D : 0);
    }
    return (u8)sum;
}

static u8 out[LONGEST + ROOM], in[MOST * LONGEST + ROOM];
static Tables tables[256] __attribute__((aligned(64)));
// ISA-L's form of the same tables, and its pointers to the sources.
static u8 isal_tables[256 * 32] __attribute__((aligned(64)));
static u8 *sources[MOST];

// ---- plain C: 16 lanes, with the sum of all sources in a register

static inline __m128i times(__m128i v, const Tables *t) {
    __m128i mask = _mm_set1_epi8(15), low = _mm_load_si128((void *)t->low), high = _mm_load_si128((void *)t->high);
    return _mm_xor_si128(_mm_shuffle_epi8(low, _mm_and_si128(v, mask)),
                         _mm_shuffle_epi8(high, _mm_and_si128(_mm_srli_epi16(v, 4), mask)));
}

static inline __m128i vector_at(__m128i sum, const Tables *t, const u8 *src, size_t k, size_t n, size_t x) {
    for (size_t j = 0; j < k; j++) sum = _mm_xor_si128(sum, times(_mm_loadu_si128((void *)(src + j * n + x)), t + j));
    return sum;
}

// The last vector is laid over the one before, so what it begins with is read first. Fewer than 16 bytes are read a vector
// wide, since there is room behind, and stored as they are.
static inline void sum_of(u8 *dst, const Tables *t, const u8 *src, size_t k, size_t n, int fresh) {
    __m128i none = _mm_setzero_si128();
    if (n < 16) {
        u8 last[16];
        _mm_storeu_si128((void *)last, vector_at(fresh ? none : _mm_loadu_si128((void *)dst), t, src, k, n, 0));
        memcpy(dst, last, n);
        return;
    }
    __m128i end = fresh ? none : _mm_loadu_si128((void *)(dst + n - 16));
    for (size_t x = 0; x + 16 < n; x += 16)
        _mm_storeu_si128((void *)(dst + x), vector_at(fresh ? none : _mm_loadu_si128((void *)(dst + x)), t, src, k, n, x));
    _mm_storeu_si128((void *)(dst + n - 16), vector_at(end, t, src, k, n, n - 16));
}

NOINLINE static void c_add(size_t first, size_t k, size_t n) { (void)k; sum_of(out, tables + first, in, 1, n, 0); }

NOINLINE static void c_combine(size_t first, size_t k, size_t n) { sum_of(out, tables + first, in, k, n, 1); }

// ---- ISA-L. Under 32 bytes it goes a byte at a time.
#ifdef ISAL
#include <isa-l/erasure_code.h>

extern void ec_encode_data_avx2(int, int, int, u8 *, u8 **, u8 **);
extern void ec_encode_data_update_avx2(int, int, int, int, u8 *, u8 *, u8 **);

static u8 *outs[1] = { out };

NOINLINE static void isal_add(size_t first, size_t k, size_t n) {
    (void)k;
    ec_encode_data_update_avx2((int)n, 1, 1, 0, isal_tables + 32 * first, in, outs);
}

NOINLINE static void isal_combine(size_t first, size_t k, size_t n) {
    ec_encode_data_avx2((int)n, (int)k, 1, isal_tables + 32 * first, sources, outs);
}
#endif

typedef void Job(size_t first, size_t k, size_t n);

static const struct { const char *name; size_t k; Job *run; } jobs[] = {
    { "C-16-lanes add", 1, c_add }, { "C-16-lanes combine", 4, c_combine }, { "C-16-lanes combine", 10, c_combine },
#ifdef ISAL
    { "ISA-L-AVX2 add", 1, isal_add }, { "ISA-L-AVX2 combine", 4, isal_combine }, { "ISA-L-AVX2 combine", 10, isal_combine },
#endif
};

static const size_t lengths[] = { 6, 20, 41, 134, 148, 512, 1472, LONGEST };

static double now(void) {
    struct timespec t;
    clock_gettime(CLOCK_MONOTONIC, &t);
    return (double)t.tv_sec + 1e-9 * (double)t.tv_nsec;
}

static int by_size(const void *a, const void *b) {
    double x = *(const double *)a, y = *(const double *)b;
    return (x > y) - (x < y);
}

static void print_speeds(const char *name, size_t k, Job *run, size_t n) {
    size_t calls = 5000000 / (k * (n + 30)) + 1, sets = 256 / k;
    double rounds[ROUNDS], bytes = (double)(k * n) * (double)calls;
    for (size_t j = 0; j < k; j++) sources[j] = in + j * n;
    for (int r = 0; r < ROUNDS; r++) {
        double start = now();
        for (size_t i = 0; i < calls; i++) run(i % sets * k, k, n);
        rounds[r] = now() - start;
    }
#ifdef ISAL
    // ISA-L leaves the upper halves of the vector registers set, and this slows SSE code down from then on.
    __asm__ volatile("vzeroupper" ::: "memory");
#endif
    qsort(rounds, ROUNDS, sizeof *rounds, by_size);
    printf("%s %zu %zu %.0f %.0f\n", name, k, n, bytes / rounds[0] / 1e6, bytes / rounds[ROUNDS / 2] / 1e6);
}

int main(void) {
    for (unsigned c = 0; c < 256; c++) {
        for (unsigned i = 0; i < 16; i++) {
            tables[c].low[i] = product(c, i);
            tables[c].high[i] = product(c, 16 * i);
        }
        memcpy(isal_tables + 32 * c, &tables[c], 32);
    }
    for (size_t i = 0; i < sizeof in; i++) in[i] = (u8)(11 + 37 * i);
    for (size_t i = 0; i < sizeof out; i++) out[i] = (u8)(200 + 37 * i);
    for (size_t l = 0; l < sizeof lengths / sizeof *lengths; l++)
        for (size_t j = 0; j < sizeof jobs / sizeof *jobs; j++) print_speeds(jobs[j].name, jobs[j].k, jobs[j].run, lengths[l]);
    return 0;
}
