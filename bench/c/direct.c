/* The plain ways: unions sorted or merged, products multiplied out, blocks bit by bit. */
#include "peers.h"

#include <stdlib.h>
#include <string.h>

size_t sorting_multiply(const poly *a, const poly *b, uint64_t *out) {
    size_t n = 0;
    for (size_t i = 0; i < a->t; i++)
        for (size_t j = 0; j < b->t; j++) out[n++] = a->terms[i] | b->terms[j];
    sort_terms(out, n);
    return n;
}

static void merge(const uint64_t *x, size_t xn, const uint64_t *y, size_t yn, uint64_t *out) {
    size_t i = 0, j = 0;
    while (i < xn && j < yn) *out++ = x[i] < y[j] ? x[i++] : y[j++];
    while (i < xn) *out++ = x[i++];
    while (j < yn) *out++ = y[j++];
}

/* Rows of the shorter list's terms, each ascending, merged two by two. */
size_t merge_multiply(const poly *a, const poly *b, uint64_t *out) {
    uint64_t other[LONGEST], *from = out, *to = other;
    if (a->t > b->t) return merge_multiply(b, a, out);
    size_t n = a->t * b->t, row = b->t;
    for (size_t i = 0; i < a->t; i++)
        for (size_t j = 0; j < row; j++) out[i * row + j] = a->terms[i] | b->terms[j];
    for (; row < n; row *= 2) {
        for (size_t at = 0; at < n; at += 2 * row) {
            size_t first = row < n - at ? row : n - at, second = n - at - first < row ? n - at - first : row;
            merge(from + at, first, from + at + first, second, to + at);
        }
        uint64_t *swap = from;
        from = to, to = swap;
    }
    if (from != out) memcpy(out, from, n * sizeof *out);
    return n;
}

/* Exponents of a product of two terms. */
typedef struct {
    uint64_t twice, once;
} monomial;

static int by_exponents(const void *p, const void *q) {
    const monomial *x = p, *y = q;
    if (x->twice != y->twice) return x->twice < y->twice ? -1 : 1;
    return (x->once > y->once) - (x->once < y->once);
}

/* The product's monomials with odd count, ascending; returns how many. */
static size_t multiplied_out(monomial *out, const poly *f, const poly *g) {
    size_t n = 0, kept = 0;
    for (size_t i = 0; i < f->t; i++)
        for (size_t j = 0; j < g->t; j++) {
            monomial m = {f->terms[i] & g->terms[j], f->terms[i] ^ g->terms[j]};
            out[n++] = m;
        }
    qsort(out, n, sizeof *out, by_exponents);
    for (size_t i = 0; i < n;) {
        size_t end = i;
        while (end < n && by_exponents(&out[i], &out[end]) == 0) end++;
        if ((end - i) % 2) out[kept++] = out[i];
        i = end;
    }
    return kept;
}

int direct_same(const poly *a, const poly *d, const poly *b, const poly *c) {
    size_t left_most = a->t * d->t + 1, right_most = b->t * c->t + 1;
    monomial *left = malloc(left_most * sizeof *left), *right = malloc(right_most * sizeof *right);
    size_t l = multiplied_out(left, a, d), r = multiplied_out(right, b, c);
    int same = l == r && memcmp(left, right, l * sizeof *left) == 0;
    free(left);
    free(right);
    return same;
}

size_t bitwise_read(const uint8_t *bytes, size_t len, uint64_t *out) {
    size_t n = 0, t = 0, at = 24;
    for (int i = 4; i < 11; i++) n = n * 2 + (bytes[i / 8] >> (7 - i % 8) & 1);
    for (int i = 11; i < 24; i++) t = t * 2 + (bytes[i / 8] >> (7 - i % 8) & 1);
    if (len != 3 + (n * t + 7) / 8) return 0;
    for (size_t i = 0; i < t; i++) {
        uint64_t v = 0;
        for (size_t k = 0; k < n; k++, at++) v = v * 2 + (bytes[at / 8] >> (7 - at % 8) & 1);
        out[i] = v;
    }
    return t;
}

static void put_bits(uint8_t *out, size_t *at, uint64_t v, size_t n) {
    for (size_t k = n; k-- > 0; ++*at) out[*at / 8] |= (uint8_t)((v >> k & 1) << (7 - *at % 8));
}

size_t bitwise_write(const poly *f, uint8_t *out) {
    uint64_t last = f->t ? f->terms[f->t - 1] : 0;
    size_t n = last ? 64 - (size_t)__builtin_clzll(last) : 0, bytes = 3 + (n * f->t + 7) / 8, at = 0;
    memset(out, 0, bytes);
    put_bits(out, &at, 1, 4);
    put_bits(out, &at, n, 7);
    put_bits(out, &at, f->t, 13);
    for (size_t i = 0; i < f->t; i++) put_bits(out, &at, f->terms[i], n);
    return bytes;
}
