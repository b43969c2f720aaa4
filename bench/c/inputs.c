#include "inputs.h"

#include <stdlib.h>
#include <string.h>

static uint64_t state = 1;

void random_seed(uint64_t seed) { state = seed; }

uint64_t random_word(void) { /* SplitMix64 */
    uint64_t z = state += 0x9e3779b97f4a7c15u;
    z = (z ^ z >> 30) * 0xbf58476d1ce4e5b9u;
    z = (z ^ z >> 27) * 0x94d049bb133111ebu;
    return z ^ z >> 31;
}

static int by_value(const void *a, const void *b) {
    uint64_t x = *(const uint64_t *)a, y = *(const uint64_t *)b;
    return (x > y) - (x < y);
}

void sort_terms(uint64_t *terms, size_t t) { qsort(terms, t, sizeof *terms, by_value); }

void ascending(poly *f) {
    size_t kept = 0;
    sort_terms(f->terms, f->t);
    for (size_t i = 0; i < f->t; i++)
        if (i == 0 || f->terms[i] != f->terms[i - 1]) f->terms[kept++] = f->terms[i];
    f->t = kept;
}

uint64_t random_variables(uint64_t of, int count) {
    uint64_t set = 0;
    while (count > 0) {
        uint64_t bit = (uint64_t)1 << (random_word() & 63);
        if (!(of & bit) || (set & bit)) continue;
        set |= bit;
        count--;
    }
    return set;
}

void random_list(poly *f, uint64_t vars, size_t t) {
    f->t = 0;
    while (f->t < t) {
        while (f->t < t) f->terms[f->t++] = random_word() & vars;
        ascending(f);
    }
}

void product_of(poly *out, const poly *f, const poly *g) {
    size_t n = 0;
    for (size_t i = 0; i < f->t; i++)
        for (size_t j = 0; j < g->t; j++) out->terms[n++] = f->terms[i] | g->terms[j];
    out->t = n;
    ascending(out);
}

void random_product(poly *f, int wide, int k, const size_t *counts) {
    uint64_t free = random_variables(UINT64_MAX, wide);
    poly whole = {{0}, 1}, factor, next;
    for (int i = 0; i < k; i++) {
        uint64_t vars = i + 1 < k ? random_variables(free, wide / k) : free;
        free &= ~vars;
        random_list(&factor, vars, counts[i]);
        product_of(&next, &whole, &factor);
        whole = next;
    }
    *f = whole;
}

void flip_one(poly *f) {
    size_t before = f->t;
    poly old = *f;
    do {
        *f = old;
        f->terms[random_word() % f->t] ^= (uint64_t)1 << (random_word() & 63);
        ascending(f);
    } while (f->t != before);
}

void sums_of_two(poly *f, int k) {
    poly next;
    f->t = 1, f->terms[0] = 0;
    for (int i = 0; i < k; i++) {
        poly two = {{(uint64_t)1 << 2 * i, (uint64_t)2 << 2 * i}, 2};
        product_of(&next, f, &two);
        *f = next;
    }
}

void cube_without(poly *f, size_t t, size_t missing) {
    f->t = 0;
    for (size_t i = 0; i < t; i++)
        if (i != missing) f->terms[f->t++] = i;
}

void path_sets(poly *f, int vertices) {
    f->t = 0;
    for (uint64_t s = 0; s >> vertices == 0 && f->t < LONGEST; s++)
        if (!(s & s << 1)) f->terms[f->t++] = s;
}

void staircase(poly *f, int n) {
    f->t = 0;
    for (int i = 0; i < n; i++)
        for (int j = 0; j < n; j++)
            f->terms[f->t++] = ((uint64_t)1 << 2 * i) + (j ? (uint64_t)1 << (2 * j + 1) : 0);
    ascending(f);
}

void chains(poly *f, int n) {
    poly even = {{0}, 1}, odd = {{0}, 1};
    for (int i = 0; i + 1 < n; i++) {
        even.terms[even.t] = even.terms[even.t - 1] | (uint64_t)1 << 2 * i, even.t++;
        odd.terms[odd.t] = odd.terms[odd.t - 1] | (uint64_t)2 << 2 * i, odd.t++;
    }
    product_of(f, &even, &odd);
}

void mirror(poly *f, int wide) { mirror_on(f, wide < 64 ? ((uint64_t)1 << wide) - 1 : UINT64_MAX); }

void mirror_on(poly *f, uint64_t vars) {
    for (size_t i = 0; i < f->t; i++) f->terms[i] ^= vars;
    ascending(f);
}

/* The lowest variable of a set that is not empty, taken out of it. */
static uint64_t take_lowest(uint64_t *vars) {
    uint64_t x = *vars & -*vars;
    *vars ^= x;
    return x;
}

void interval(poly *f, uint64_t vars, uint64_t from, size_t t) {
    for (f->t = 0; f->t < t; f->t++) {
        uint64_t number = from + f->t, rest = vars, term = 0;
        for (; number && rest; number >>= 1) {
            uint64_t x = take_lowest(&rest);
            if (number & 1) term |= x;
        }
        f->terms[f->t] = term;
    }
}

void chain_on(poly *f, uint64_t vars, size_t t) {
    f->terms[0] = 0;
    for (f->t = 1; f->t < t && vars; f->t++) f->terms[f->t] = f->terms[f->t - 1] | take_lowest(&vars);
}

void one_and_sum_on(poly *f, uint64_t vars, size_t t) {
    f->terms[0] = 0;
    for (f->t = 1; f->t < t && vars; f->t++) f->terms[f->t] = take_lowest(&vars);
}

void graph(poly *f, uint64_t vars, size_t t) {
    for (f->t = 0; f->t < t; ascending(f)) f->terms[f->t++] = random_variables(vars, 2);
}

void code(poly *f, uint64_t vars, int words) {
    f->terms[0] = random_word() & vars, f->t = 1;
    while (words > 0) {
        uint64_t word = random_word() & vars, before = f->t;
        for (size_t i = 0; i < before; i++) f->terms[f->t++] = f->terms[i] ^ word;
        ascending(f);
        if (f->t == 2 * before) words--;
    }
}

void sum_of_all(poly *f, int wide) {
    f->terms[0] = 0, f->t = 1;
    for (int i = 0; i < wide; i++) f->terms[f->t++] = (uint64_t)1 << i;
}

void derivative(poly *out, const poly *f, int x) {
    out->t = 0;
    for (size_t i = 0; i < f->t; i++)
        if (f->terms[i] >> x & 1) out->terms[out->t++] = f->terms[i] ^ (uint64_t)1 << x;
}

void at_zero(poly *out, const poly *f, int x) {
    out->t = 0;
    for (size_t i = 0; i < f->t; i++)
        if (!(f->terms[i] >> x & 1)) out->terms[out->t++] = f->terms[i];
}
