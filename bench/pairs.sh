# All pairs in plain C, what a clustering from scratch costs at least. A script sources this after `set -eu` with a
# folder "$work": it builds "$work/pairs" there, or says that clang is missing.
cat >"$work/pairs.c" <<'C'
// Sizes by all pairs, then the labels of the cores by joining those that are near: METRIC WIDTH N EPS MINPTS FILE.
#include <stdint.h>
#include <stdio.h>
#include <stdlib.h>
#include <string.h>

#define INLINE static inline __attribute__((always_inline))

static uint8_t *rows;
static uint32_t *size, *root;

INLINE int near_bits(const uint8_t *a, const uint8_t *b, size_t width, uint32_t eps) {
    uint32_t total = 0;
    for (size_t i = 0; i < width; i += 8) {
        uint64_t x, y;
        memcpy(&x, a + i, 8);
        memcpy(&y, b + i, 8);
        total += __builtin_popcountll(x ^ y);
    }
    return total <= eps;
}

INLINE int near_sum(const uint8_t *a, const uint8_t *b, size_t width, uint32_t eps) {
    uint32_t total = 0;
    size_t part = width < 32 ? width : 32;
    for (size_t i = 0; i < width; i += part) {
        for (size_t j = 0; j < part; j++) total += abs((int)a[i + j] - (int)b[i + j]);
        if (total > eps) return 0;
    }
    return 1;
}

static uint32_t find(uint32_t i) {
    while (root[i] != i) i = root[i] = root[root[i]];
    return i;
}

#define CLUSTER(name, near, width) \
    __attribute__((noinline)) static void name(uint32_t n, uint32_t eps, uint32_t minpts) { \
        for (uint32_t i = 0; i < n; i++) { \
            size[i]++; \
            root[i] = i; \
            for (uint32_t j = 0; j < i; j++) \
                if (near(rows + (size_t)i * width, rows + (size_t)j * width, width, eps)) size[i]++, size[j]++; \
        } \
        for (uint32_t i = 0; i < n; i++) \
            for (uint32_t j = 0; size[i] >= minpts && j < i; j++) \
                if (size[j] >= minpts && near(rows + (size_t)i * width, rows + (size_t)j * width, width, eps)) { \
                    uint32_t a = find(i), b = find(j); \
                    root[a > b ? a : b] = a > b ? b : a; \
                } \
    }
CLUSTER(cluster_bits, near_bits, 8)
CLUSTER(cluster_sums, near_sum, 8)
CLUSTER(cluster_long_sums, near_sum, 128)

int main(int count, char **words) {
    int bits = words[1][0] == 'h';
    size_t width = atoi(words[2]);
    uint32_t n = atoi(words[3]), eps = atoi(words[4]), minpts = atoi(words[5]), cores = 0, clusters = 0;
    rows = malloc(n * width);
    size = calloc(n, 4);
    root = malloc(4 * n);
    FILE *file = fopen(words[6], "rb");
    if (!file || fread(rows, width, n, file) != n) return 1;
    if (bits) cluster_bits(n, eps, minpts);
    else if (width == 8) cluster_sums(n, eps, minpts);
    else cluster_long_sums(n, eps, minpts);
    for (uint32_t i = 0; i < n; i++) {
        cores += size[i] >= minpts;
        clusters += size[i] >= minpts && find(i) == i;
    }
    printf("cores %u clusters %u\n", cores, clusters);
    return 0;
}
C
clang -O3 -march=native -o "$work/pairs" "$work/pairs.c" 2>/dev/null || echo "without clang: no rival in C"
