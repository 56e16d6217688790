/* The baseline of the leaf kernels: the same loops on the same blocks in C, with __int128.
 *
 *     cc -O3 -o /tmp/leaf_kernels bench/leaf_kernels.c && /tmp/leaf_kernels
 *
 * Each line has a side, how full the blocks are, and the nanoseconds of one call, the least of 25 rounds. A call takes the memory
 * of its result and gives it back. `dot` is the product with a transpose by dot products, which can skip no zero. */
#include <stdint.h>
#include <stdio.h>
#include <stdlib.h>
#include <string.h>
#include <time.h>

typedef __int128 i128;

static i128 *block_of_zeros(long n) {
    i128 *out = malloc(sizeof(i128) * n * n);
    memset(out, 0, sizeof(i128) * n * n);
    return out;
}

static void add_scaled(i128 *restrict row, i128 factor, const i128 *restrict other, long n) {
    for (long j = 0; j < n; j++)
        row[j] += factor * other[j];
}

static void product(i128 *out, const i128 *a, const i128 *b, long n) {
    for (long i = 0; i < n; i++)
        for (long k = 0; k < n; k++)
            if (a[i * n + k] != 0)
                add_scaled(out + i * n, a[i * n + k], b + k * n, n);
}

static void transpose_into(i128 *restrict out, const i128 *restrict a, long n) {
    for (long i = 0; i < n; i++)
        for (long j = 0; j < n; j++)
            out[i * n + j] = a[j * n + i];
}

static i128 *mul(const i128 *a, const i128 *b, long n) {
    i128 *out = block_of_zeros(n);
    product(out, a, b, n);
    return out;
}

static i128 *tmul(const i128 *a, const i128 *b, long n) {
    i128 *out = block_of_zeros(n);
    for (long k = 0; k < n; k++)
        for (long i = 0; i < n; i++)
            if (a[k * n + i] != 0)
                add_scaled(out + i * n, a[k * n + i], b + k * n, n);
    return out;
}

static i128 *mult(const i128 *a, const i128 *b, long n) {
    i128 *turned = malloc(sizeof(i128) * n * n);
    transpose_into(turned, b, n);
    i128 *out = block_of_zeros(n);
    product(out, a, turned, n);
    free(turned);
    return out;
}

static i128 *dot(const i128 *a, const i128 *b, long n) {
    i128 *out = malloc(sizeof(i128) * n * n);
    for (long i = 0; i < n; i++)
        for (long j = 0; j < n; j++) {
            i128 sum = 0;
            for (long k = 0; k < n; k++)
                sum += a[i * n + k] * b[j * n + k];
            out[i * n + j] = sum;
        }
    return out;
}

/* Symmetric blocks are their upper triangles, row after row: row i has its columns from i on. */
static long row_start(long n, long i) {
    return i * n + i - i * (i + 1) / 2;
}

static i128 *full(const i128 *s, const i128 *b, long n) {
    (void)b;
    i128 *out = malloc(sizeof(i128) * n * n);
    for (long i = 0; i < n; i++)
        for (long j = i; j < n; j++)
            out[i * n + j] = out[j * n + i] = s[row_start(n, i) + j - i];
    return out;
}

static i128 *upper_product(const i128 *a, const i128 *b, long n) {
    i128 *out = malloc(sizeof(i128) * (n * (n + 1) / 2));
    memset(out, 0, sizeof(i128) * (n * (n + 1) / 2));
    for (long i = 0; i < n; i++)
        for (long k = 0; k < n; k++)
            if (a[i * n + k] != 0)
                add_scaled(out + row_start(n, i), a[i * n + k], b + k * n + i, n - i);
    return out;
}

static i128 *sym_square(const i128 *s, const i128 *b, long n) {
    i128 *whole = full(s, b, n);
    i128 *out = upper_product(whole, whole, n);
    free(whole);
    return out;
}

static i128 *rank_rows(const i128 *x, const i128 *b, long n) {
    (void)b;
    i128 *turned = malloc(sizeof(i128) * n * n);
    transpose_into(turned, x, n);
    i128 *out = upper_product(x, turned, n);
    free(turned);
    return out;
}

static i128 *rank_columns(const i128 *x, const i128 *b, long n) {
    (void)b;
    i128 *out = malloc(sizeof(i128) * (n * (n + 1) / 2));
    memset(out, 0, sizeof(i128) * (n * (n + 1) / 2));
    for (long k = 0; k < n; k++)
        for (long i = 0; i < n; i++)
            if (x[k * n + i] != 0)
                add_scaled(out + row_start(n, i), x[k * n + i], x + k * n + i, n - i);
    return out;
}

static i128 *sym_mul(const i128 *s, const i128 *x, long n) {
    i128 *whole = full(s, x, n);
    i128 *out = mul(whole, x, n);
    free(whole);
    return out;
}

static i128 *mul_sym(const i128 *s, const i128 *x, long n) {
    i128 *whole = full(s, x, n);
    i128 *out = mul(x, whole, n);
    free(whole);
    return out;
}

static i128 *sym_add(const i128 *restrict s, const i128 *restrict t, long n) {
    i128 *restrict out = malloc(sizeof(i128) * (n * (n + 1) / 2));
    for (long i = 0; i < n * (n + 1) / 2; i++)
        out[i] = s[i] + t[i];
    return out;
}

static i128 *add(const i128 *restrict a, const i128 *restrict b, long n) {
    i128 *restrict out = malloc(sizeof(i128) * n * n);
    for (long i = 0; i < n * n; i++)
        out[i] = a[i] + b[i];
    return out;
}

static i128 *transpose(const i128 *a, const i128 *b, long n) {
    (void)b;
    i128 *out = malloc(sizeof(i128) * n * n);
    transpose_into(out, a, n);
    return out;
}

/* Random numbers between -1000000 and 1000000; with one_in above 1 all but one in so many are 0. */
static i128 *random_numbers(long count, uint64_t one_in, uint64_t state) {
    i128 *out = malloc(sizeof(i128) * count);
    for (long p = 0; p < count; p++) {
        state ^= state << 13;
        state ^= state >> 7;
        state ^= state << 17;
        out[p] = (state >> 33) % one_in == 0 ? (i128)(state % 2000001) - 1000000 : 0;
    }
    return out;
}

static uint64_t now(void) {
    struct timespec t;
    clock_gettime(CLOCK_MONOTONIC, &t);
    return (uint64_t)t.tv_sec * 1000000000u + (uint64_t)t.tv_nsec;
}

static volatile uint64_t sink;

static uint64_t time_of(i128 *(*call)(const i128 *, const i128 *, long), const i128 *a, const i128 *b, long n, int calls) {
    uint64_t best = UINT64_MAX;
    for (int round = 0; round < 25; round++) {
        uint64_t start = now();
        for (int i = 0; i < calls; i++) {
            i128 *out = call(a, b, n);
            sink += (uint64_t)out[0];
            free(out);
        }
        uint64_t time = (now() - start) / calls;
        if (time < best)
            best = time;
    }
    return best;
}

int main(void) {
    /* The operands of a call: two blocks, 0 and 1, or the upper triangles 2 and 3. */
    const struct { const char *name; i128 *(*call)(const i128 *, const i128 *, long); int first, second; } calls[] = {
        {"mul", mul, 0, 1}, {"tmul", tmul, 0, 1}, {"mult", mult, 0, 1}, {"dot", dot, 0, 1}, {"add", add, 0, 1},
        {"transpose", transpose, 0, 1}, {"sym_square", sym_square, 2, 2}, {"rank", rank_rows, 1, 1}, {"trank", rank_columns, 1, 1},
        {"sym_mul", sym_mul, 2, 1}, {"mul_sym", mul_sym, 2, 1}, {"sym_add", sym_add, 2, 3}, {"full", full, 2, 2}};
    const struct { long side; int calls; } sizes[] = {{16, 1000}, {32, 200}, {64, 30}};
    const struct { const char *name; uint64_t one_in; } fills[] = {{"dense", 1}, {"sparse", 20}};
    for (int s = 0; s < 3; s++)
        for (int f = 0; f < 2; f++) {
            long n = sizes[s].side;
            long triangle = n * (n + 1) / 2;
            i128 *blocks[] = {
                random_numbers(n * n, fills[f].one_in, 88172645463325252u), random_numbers(n * n, fills[f].one_in, 123456789123u),
                random_numbers(triangle, fills[f].one_in, 88172645463325252u), random_numbers(triangle, fills[f].one_in, 123456789123u)};
            printf("%ld %s", n, fills[f].name);
            for (int c = 0; c < 13; c++)
                printf(" %s %llu", calls[c].name,
                    (unsigned long long)time_of(calls[c].call, blocks[calls[c].first], blocks[calls[c].second], n, sizes[s].calls));
            printf("\n");
            for (int b = 0; b < 4; b++)
                free(blocks[b]);
        }
    return 0;
}
