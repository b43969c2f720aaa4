/* The first paper's algorithm 3 (FDSZ) with k = 63 and two points, and its algorithm 5 for the multiplication, as the paper
 * gives them. It may err, with a probability that the paper bounds. */
#include "peers.h"

/* z^63 + z + 1, irreducible over GF(2). */
static const uint64_t MODULUS = ((uint64_t)1 << 63) | 3, DEGREE_BIT = (uint64_t)1 << 63;

static uint64_t gf_multiply(uint64_t a, uint64_t b) {
    uint64_t c = 0;
    if (a == 0 || b == 0) return 0;
    for (uint64_t bit = (uint64_t)1 << 63 >> __builtin_clzll(b); bit; bit >>= 1) {
        c <<= 1;
        if (c & DEGREE_BIT) c ^= MODULUS;
        if (b & bit) c ^= a;
    }
    return c;
}

static uint64_t points[2][64];

static uint64_t value(const poly *f, const uint64_t *point) {
    uint64_t sum = 0;
    for (size_t i = 0; i < f->t; i++) {
        uint64_t v = 1;
        for (uint64_t rest = f->terms[i]; rest; rest &= rest - 1) v = gf_multiply(v, point[__builtin_ctzll(rest)]);
        sum ^= v;
    }
    return sum;
}

static uint64_t variables(const poly *f) {
    uint64_t v = 0;
    for (size_t i = 0; i < f->t; i++) v |= f->terms[i];
    return v;
}

/* Terms do not stay in order under projection, so they are sorted and repeats dropped. */
static void project(poly *out, const poly *f, uint64_t onto) {
    size_t kept = 0;
    for (size_t i = 0; i < f->t; i++) out->terms[i] = f->terms[i] & onto;
    sort_terms(out->terms, f->t);
    for (size_t i = 0; i < f->t; i++)
        if (i == 0 || out->terms[i] != out->terms[kept - 1]) out->terms[kept++] = out->terms[i];
    out->t = kept;
}

/* Lines 3 to 8: the variables of the part that holds x. */
static uint64_t together_with(const poly *f, int x, uint64_t vars) {
    poly a, b, c, d;
    uint64_t part = (uint64_t)1 << x, at_a[2], at_b[2];
    at_zero(&a, f, x);
    derivative(&b, f, x);
    for (int k = 0; k < 2; k++) at_a[k] = value(&a, points[k]), at_b[k] = value(&b, points[k]);
    for (uint64_t rest = vars & ~part; rest; rest &= rest - 1) {
        int y = __builtin_ctzll(rest), apart = 1;
        derivative(&c, &a, y);
        derivative(&d, &b, y);
        for (int k = 0; k < 2 && apart; k++)
            apart = gf_multiply(at_a[k], value(&d, points[k])) == gf_multiply(at_b[k], value(&c, points[k]));
        if (!apart) part |= (uint64_t)1 << y;
    }
    return part;
}

size_t algorithm3_split(const poly *f) {
    uint64_t content = UINT64_MAX;
    size_t parts = 0;
    poly rest, next;
    for (int k = 0; k < 2; k++)
        for (int i = 0; i < 64; i++) points[k][i] = random_word() >> 1;
    for (size_t i = 0; i < f->t; i++) content &= f->terms[i];
    parts += (size_t)__builtin_popcountll(content);
    project(&rest, f, ~content);
    for (uint64_t vars = variables(&rest); vars; parts++) {
        uint64_t part = together_with(&rest, __builtin_ctzll(vars), vars);
        poly found;
        project(&found, &rest, part);
        vars &= ~part;
        project(&next, &rest, vars);
        rest = next;
    }
    return parts;
}
