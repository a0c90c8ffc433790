// Elimination on rows of bytes over GF(256), beside which the proved one is measured:
//
//     elimination knowledge COLS WIDTH ROUNDS < FILE
//     elimination of ROWS COLS ROUNDS < FILE
//
// FILE is as bench/elimination.py writes it: the number of steps in four bytes, lowest first, a byte for each step (0 adds a
// row, another number forgets so many columns in front), the coefficients of all rows, and their right sides. Prints the best
// and the middle round in nanoseconds an added row (or a whole matrix), and a number made of all answers.
//
// A row's bytes are padded to whole vectors of 16, and the tables of all coefficients are made before the clock starts. The
// rows in use stand in a list with rising pivots, and beside them where each ends, so that a new row looks only at those that
// reach its pivot. Columns that are forgotten move by an index.
#include <stdint.h>
#include <stdio.h>
#include <stdlib.h>
#include <string.h>
#include <time.h>
#include <tmmintrin.h>

typedef struct {
    uint8_t *coeffs, *right;
    size_t from, end;
} Row;

static uint8_t low[256][16] __attribute__((aligned(16))), high[256][16] __attribute__((aligned(16))), inverse[256];
static size_t cols, width, room, shift, count;
static Row **heads, *work;
static size_t *pivots, *ends;
static uint8_t *memory;
static Row *all;

static uint8_t times(uint8_t x, uint8_t y) {
    unsigned product = 0;
    for (int bit = 0; bit < 8; bit++)
        if (y >> bit & 1) product ^= (unsigned)x << bit;
    for (int bit = 14; bit > 7; bit--)
        if (product >> bit & 1) product ^= 0x11Du << (bit - 8);
    return (uint8_t)product;
}

static void make_tables(void) {
    for (int c = 0; c < 256; c++) {
        for (int i = 0; i < 16; i++) {
            low[c][i] = times((uint8_t)c, (uint8_t)i);
            high[c][i] = times((uint8_t)c, (uint8_t)(i << 4));
        }
        for (int d = 1; d < 256; d++)
            if (times((uint8_t)c, (uint8_t)d) == 1) inverse[c] = (uint8_t)d;
    }
}

static inline __m128i product(const uint8_t *src, __m128i lows, __m128i highs) {
    const __m128i mask = _mm_set1_epi8(15);
    __m128i bytes = _mm_loadu_si128((const __m128i *)src);
    return _mm_xor_si128(_mm_shuffle_epi8(lows, _mm_and_si128(bytes, mask)),
                         _mm_shuffle_epi8(highs, _mm_and_si128(_mm_srli_epi16(bytes, 4), mask)));
}

// Whole vectors: what stands behind the `n` bytes is zero, or is not looked at.
static inline void add(uint8_t *dst, const uint8_t *src, size_t n, uint8_t c) {
    __m128i lows = _mm_load_si128((const __m128i *)low[c]), highs = _mm_load_si128((const __m128i *)high[c]);
    for (size_t i = 0; i < n; i += 16) {
        __m128i *at = (__m128i *)(dst + i);
        _mm_storeu_si128(at, _mm_xor_si128(_mm_loadu_si128(at), product(src + i, lows, highs)));
    }
}

static inline void scale(uint8_t *dst, size_t n, uint8_t c) {
    __m128i lows = _mm_load_si128((const __m128i *)low[c]), highs = _mm_load_si128((const __m128i *)high[c]);
    for (size_t i = 0; i < n; i += 16) _mm_storeu_si128((__m128i *)(dst + i), product(dst + i, lows, highs));
}

static void reserve(size_t rows, size_t spare) {
    size_t stride_c = (cols + spare + 31) / 16 * 16, stride_r = (width + 15) / 16 * 16;
    room = spare;
    memory = aligned_alloc(64, ((rows + 1) * (stride_c + stride_r) + 63) / 64 * 64);
    all = calloc(rows + 1, sizeof(Row));
    heads = calloc(rows + 1, sizeof(Row *));
    pivots = calloc(rows + 1, sizeof(size_t));
    ends = calloc(rows + 1, sizeof(size_t));
    if (!memory || !all || !heads || !pivots || !ends) exit(1);
    memset(memory, 0, (rows + 1) * (stride_c + stride_r));
    for (size_t i = 0; i <= rows; i++) {
        all[i].coeffs = memory + i * stride_c;
        all[i].right = memory + (rows + 1) * stride_c + i * stride_r;
        if (i < rows) heads[i] = &all[i];
    }
    work = &all[rows];
    count = shift = 0;
}

static void release(void) {
    free(memory), free(all), free(heads), free(pivots), free(ends);
}

// Where the row's bytes begin and end that are not zero, looked for 16 at a time.
static void touched(Row *row) {
    const uint8_t *bytes = row->coeffs + shift;
    const __m128i zero = _mm_setzero_si128();
    size_t from = cols, end = 0;
    for (size_t i = 0; i < cols; i += 16) {
        int some = 0xFFFF & ~_mm_movemask_epi8(_mm_cmpeq_epi8(_mm_loadu_si128((const __m128i *)(bytes + i)), zero));
        if (cols - i < 16) some &= (1 << (cols - i)) - 1;
        if (some) {
            from = i + (size_t)__builtin_ctz((unsigned)some);
            break;
        }
    }
    for (size_t i = (cols + 15) / 16 * 16; i > from / 16 * 16; i -= 16) {
        int some = 0xFFFF & ~_mm_movemask_epi8(_mm_cmpeq_epi8(_mm_loadu_si128((const __m128i *)(bytes + i - 16)), zero));
        if (i > cols) some &= (1 << (cols - (i - 16))) - 1;
        if (some) {
            end = i - 16 + 32 - (size_t)__builtin_clz((unsigned)some);
            break;
        }
    }
    row->from = from, row->end = end > from ? end : from;
}

// The first place in the list whose pivot is `column` or lies behind it.
static size_t place_of(size_t column) {
    size_t first = 0, last = count;
    while (first < last) {
        size_t middle = (first + last) / 2;
        if (pivots[middle] < column) first = middle + 1;
        else last = middle;
    }
    return first;
}

static inline void add_row_to(Row *to, const Row *by, uint8_t c) {
    add(to->coeffs + shift + by->from, by->coeffs + shift + by->from, by->end - by->from, c);
    add(to->right, by->right, width, c);
    if (by->from < to->from) to->from = by->from;
    if (by->end > to->end) to->end = by->end;
}

static void clear_pivots(void) {
    for (size_t i = place_of(work->from); i < count && pivots[i] < work->end; i++) {
        uint8_t c = work->coeffs[shift + pivots[i]];
        if (c) add_row_to(work, heads[i], c);
    }
}

// Puts the work row into the list: its pivot is its first column that is not zero, or its last. 0 says that it is zero.
static int insert(int first_pivot) {
    size_t p;
    touched(work);
    if (work->from >= work->end) return 0;
    p = first_pivot ? work->from : work->end - 1;
    uint8_t c = inverse[work->coeffs[shift + p]];
    scale(work->coeffs + shift + work->from, work->end - work->from, c);
    scale(work->right, width, c);
    size_t place = place_of(p);
    if (first_pivot) {
        for (size_t i = 0; i < place; i++)
            if (ends[i] > p) {
                uint8_t d = heads[i]->coeffs[shift + p];
                if (d) {
                    add_row_to(heads[i], work, d);
                    ends[i] = heads[i]->end;
                }
            }
    } else {
        for (size_t i = place; i < count; i++)
            if (heads[i]->from <= p) {
                uint8_t d = heads[i]->coeffs[shift + p];
                if (d) add_row_to(heads[i], work, d);
            }
    }
    Row *spare = heads[count];
    memmove(heads + place + 1, heads + place, (count - place) * sizeof *heads);
    memmove(pivots + place + 1, pivots + place, (count - place) * sizeof *pivots);
    memmove(ends + place + 1, ends + place, (count - place) * sizeof *ends);
    heads[place] = work, pivots[place] = p, ends[place] = work->end;
    work = spare;
    count++;
    return 1;
}

static int add_row(const uint8_t *coeffs, const uint8_t *right) {
    memcpy(work->coeffs + shift, coeffs, cols);
    memcpy(work->right, right, width);
    touched(work);
    clear_pivots();
    if (insert(1)) return 0;
    for (size_t i = 0; i < width; i++)
        if (work->right[i]) return 2;
    return 1;
}

static void forget(size_t columns) {
    size_t gone = place_of(columns);
    Row *dropped[256];
    for (size_t i = 0; i < gone; i++) dropped[i] = heads[i];
    memmove(heads, heads + gone, (count - gone) * sizeof *heads);
    for (size_t i = gone; i < count; i++) {
        pivots[i - gone] = pivots[i] - columns;
        ends[i - gone] = ends[i] - columns;
    }
    count -= gone;
    for (size_t i = 0; i < gone; i++) heads[count + i] = dropped[i];
    size_t moved = shift + columns <= room ? 0 : shift + columns;
    for (size_t i = 0; i < count; i++) {
        Row *row = heads[i];
        row->from -= columns, row->end -= columns;
        if (moved) {
            memmove(row->coeffs, row->coeffs + moved, cols - columns);
            memset(row->coeffs + cols - columns, 0, room + columns);
        }
    }
    // What stands behind a window is zero in each row: a row that isn't in use was written no further behind.
    if (moved) {
        for (size_t i = count; i < cols; i++) memset(heads[i]->coeffs, 0, cols + room);
        memset(work->coeffs, 0, cols + room);
        shift = 0;
    } else {
        shift += columns;
    }
}

static uint64_t now(void) {
    struct timespec t;
    clock_gettime(CLOCK_MONOTONIC, &t);
    return (uint64_t)t.tv_sec * 1000000000u + (uint64_t)t.tv_nsec;
}

static int by_number(const void *a, const void *b) {
    uint64_t x = *(const uint64_t *)a, y = *(const uint64_t *)b;
    return (x > y) - (x < y);
}

int main(int argc, char **argv) {
    if (argc != 5) return 2;
    make_tables();
    int of = strcmp(argv[1], "of") == 0;
    size_t rows = 0, rounds = (size_t)atoi(argv[4]);
    cols = (size_t)atoi(argv[of ? 3 : 2]);
    width = of ? 0 : (size_t)atoi(argv[3]);
    size_t size = 0, held = 1 << 20;
    uint8_t *input = malloc(held);
    for (size_t n; (n = fread(input + size, 1, held - size, stdin)) > 0;) {
        size += n;
        if (size == held) input = realloc(input, held *= 2);
    }
    uint32_t steps;
    memcpy(&steps, input, 4);
    const uint8_t *step = input + 4, *coeffs = step + steps;
    for (size_t i = 0; i < steps; i++) rows += step[i] == 0;
    const uint8_t *rights = coeffs + rows * cols;
    uint64_t *spent = calloc(rounds, sizeof *spent), sum = 0;
    for (size_t round = 0; round < rounds; round++) {
        sum = 0;
        if (of) {
            uint64_t start = now();
            reserve(cols, 0);
            for (size_t i = 0; i < rows; i++) {
                memcpy(work->coeffs, coeffs + i * cols, cols);
                touched(work);
                clear_pivots();
                insert(0);
            }
            spent[round] = now() - start;
            sum = count;
        } else {
            reserve(cols, cols);
            const uint8_t *row = coeffs, *right = rights;
            uint64_t start = now();
            for (size_t i = 0; i < steps; i++) {
                if (step[i]) {
                    forget(step[i]);
                } else {
                    sum = sum * 3 + (uint64_t)add_row(row, right);
                    row += cols, right += width;
                }
            }
            spent[round] = (now() - start) / (rows ? rows : 1);
            for (size_t i = 0; i < count; i++) {
                touched(heads[i]);
                if (heads[i]->end - heads[i]->from != 1) continue;
                for (size_t x = 0; x < width; x++) sum = sum * 31 + heads[i]->right[x];
            }
        }
        release();
    }
    qsort(spent, rounds, sizeof *spent, by_number);
    printf("%llu %llu %llu\n", (unsigned long long)spent[0], (unsigned long long)spent[rounds / 2], (unsigned long long)sum);
    return 0;
}
