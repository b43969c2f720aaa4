/* The input families of each call; what each stresses is told by its name. */
#include "families.h"

#include <math.h>
#include <string.h>

/* ---- split */

static void two_10_100(job *j, int size) {
    size_t counts[2] = {10, (size_t)size / 10};
    random_product(&j->a, 64, 2, counts);
}
static void two_square(job *j, int size) {
    size_t side = (size_t)sqrt(size), counts[2] = {side, (size_t)size / side};
    random_product(&j->a, 64, 2, counts);
}
static void two_flipped(job *j, int size) {
    two_square(j, size);
    flip_one(&j->a);
}
static void ten_sums(job *j, int size) { sums_of_two(&j->a, 31 - __builtin_clz((unsigned)size)); }
static void whole_cube(job *j, int size) { cube_without(&j->a, (size_t)size, (size_t)size); }
static void cube_no_last(job *j, int size) { cube_without(&j->a, (size_t)size, (size_t)size - 1); }
static void cube_no_first(job *j, int size) { cube_without(&j->a, (size_t)size, 0); }
static void cube_no_middle(job *j, int size) { cube_without(&j->a, (size_t)size, (size_t)size / 2 + 5); }
static void any_11(job *j, int size) { random_list(&j->a, random_variables(UINT64_MAX, 11), (size_t)size); }
static void any_20(job *j, int size) { random_list(&j->a, random_variables(UINT64_MAX, 20), (size_t)size); }
static void any_64(job *j, int size) { random_list(&j->a, UINT64_MAX, (size_t)size); }
static void three(job *j, int size) {
    size_t counts[3] = {10, 10, (size_t)size / 100};
    random_product(&j->a, 64, 3, counts);
}
static void four(job *j, int size) {
    size_t counts[4] = {5, 5, 6, (size_t)size / 150};
    random_product(&j->a, 64, 4, counts);
}
static void five(job *j, int size) {
    size_t counts[5] = {4, 4, 4, 4, (size_t)size / 256};
    random_product(&j->a, 64, 5, counts);
}
static void six(job *j, int size) {
    size_t counts[6] = {3, 3, 3, 3, 3, (size_t)size / 243};
    random_product(&j->a, 64, 6, counts);
}
static void path(job *j, int size) {
    int vertices = 1;
    for (int now = 2, before = 1; now + before <= size; vertices++) now += before, before = now - before;
    path_sets(&j->a, vertices);
}
static void stairs(job *j, int size) { staircase(&j->a, (int)sqrt(size)); }
static void stairs_flipped(job *j, int size) {
    stairs(j, size);
    flip_one(&j->a);
}
static void stairs_mirrored(job *j, int size) {
    stairs(j, size);
    mirror(&j->a, 64);
}
static void two_chains(job *j, int size) { chains(&j->a, (int)sqrt(size)); }
static void chains_flipped(job *j, int size) {
    two_chains(j, size);
    flip_one(&j->a);
}
static void all_variables(job *j, int size) { sum_of_all(&j->a, size); }
/* One plus a sum of variables, on the even or on the odd variables. */
static void one_and_sum(poly *f, int n, int odd) {
    f->terms[0] = 0, f->t = 1;
    for (int i = 0; i + 1 < n; i++) f->terms[f->t++] = (uint64_t)1 << (2 * i + odd);
}
static void sums_without_two(job *j, int size) {
    poly p, q;
    one_and_sum(&p, (int)sqrt(size), 0), one_and_sum(&q, (int)sqrt(size), 1);
    product_of(&j->a, &p, &q);
    for (int lost = 0; lost < 2; lost++) {
        size_t at = 1 + random_word() % (j->a.t - 1);
        memmove(&j->a.terms[at], &j->a.terms[at + 1], (--j->a.t - at) * sizeof *j->a.terms);
    }
}
/* (1 + x0)(1 + a sum)(1 + a sum) with one term flipped. */
static void three_sums_flipped(job *j, int size) {
    int n = (int)sqrt(size);
    poly two = {{0, (uint64_t)1 << 62}, 2}, p, q, pq;
    one_and_sum(&p, n / 2, 0), one_and_sum(&q, n, 1);
    product_of(&pq, &p, &q);
    product_of(&j->a, &two, &pq);
    flip_one(&j->a);
}

const family split_families[] = {
    {"two random factors 10 x 100, 64 variables", two_10_100, 1000, 5},
    {"two random factors 32 x 32, 64 variables", two_square, 1024, 5},
    {"ten (x + y)", ten_sums, 1024, 1},
    {"{0..1023}", whole_cube, 1024, 1},
    {"random over 11 variables", any_11, 1024, 5},
    {"random over 20 variables", any_20, 1024, 5},
    {"random over 64 variables", any_64, 1024, 5},
    {"three factors 10 x 10 x 10, interleaved", three, 1000, 5},
    {"four factors 5 x 5 x 6 x 6, interleaved", four, 900, 5},
    {"five factors 4 x 4 x 4 x 4 x 4, interleaved", five, 1024, 5},
    {"six factors 3 x 3 x 3 x 3 x 3 x 4, interleaved", six, 972, 5},
    {"32 x 32 with one term flipped", two_flipped, 1024, 5},
    {"{0..1023} without 1023", cube_no_last, 1024, 1},
    {"{0..1023} without 0", cube_no_first, 1024, 1},
    {"{0..1023} without 517", cube_no_middle, 1024, 1},
    {"independent sets of a path", path, 1024, 1},
    {"staircase 32 x 32", stairs, 1024, 1},
    {"staircase mirrored", stairs_mirrored, 1024, 1},
    {"staircase with one term flipped", stairs_flipped, 1024, 5},
    {"two chains 32 x 32", two_chains, 1024, 1},
    {"two chains with one term flipped", chains_flipped, 1024, 5},
    {"1 + the sum of 64 variables", all_variables, 64, 1},
    {"(1 + sum)(1 + sum) without two terms", sums_without_two, 1024, 5},
    {"(1 + x)(1 + sum)(1 + sum), one term flipped", three_sums_flipped, 1024, 5},
};
const int split_families_count = (int)(sizeof split_families / sizeof *split_families);

/* ---- audit: the families of split */

void give_parts(job *j) {
    size_t k, at = 0;
    j->given_parts = plain_split(LIST(j->a), j->given, j->a.t + 64, j->given_lengths, 64, j->work, 4 * j->a.t).count;
    for (j->given_words = 0, k = 0; k < j->given_parts; k++) j->given_words += j->given_lengths[k];
    if (j->right) return;
    do k = random_word() % j->given_parts;
    while (j->given_lengths[k] == 1); /* a part of one term would be lost as a whole */
    for (size_t i = 0; i < k; i++) at += j->given_lengths[i];
    at += random_word() % j->given_lengths[k]--;
    memmove(&j->given[at], &j->given[at + 1], (--j->given_words - at) * sizeof *j->given);
}

/* ---- deploy: families of split that come in every size */

static void linear_code(job *j, int size) { code(&j->a, UINT64_MAX, 31 - __builtin_clz((unsigned)size)); }

const family deploy_families[] = {
    {"two random factors, 64 variables", two_square, 1024, 64},
    {"two random factors with one term flipped", two_flipped, 1024, 64},
    {"factors (x + y)", ten_sums, 1024, 1},
    {"{0..t-1}", whole_cube, 1024, 1},
    {"{0..t-1} without the last", cube_no_last, 1024, 1},
    {"random over 64 variables", any_64, 1024, 64},
    {"independent sets of a path", path, 1024, 1},
    {"staircase", stairs, 1024, 1},
    {"staircase with one term flipped", stairs_flipped, 1024, 64},
    {"(1 + sum)(1 + sum) without two terms", sums_without_two, 1024, 64},
    {"(1 + x)(1 + sum)(1 + sum), one term flipped", three_sums_flipped, 1024, 64},
    {"random linear code, 64 variables", linear_code, 1024, 64},
};
const int deploy_families_count = (int)(sizeof deploy_families / sizeof *deploy_families);

/* ---- multiply */

static void interleaved(job *j, int size) {
    uint64_t some = random_variables(UINT64_MAX, 32);
    size_t side = (size_t)sqrt(size);
    random_list(&j->a, some, side);
    random_list(&j->b, ~some, (size_t)size / side);
}
static void ten_by_hundred(job *j, int size) {
    uint64_t some = random_variables(UINT64_MAX, 32);
    random_list(&j->a, some, 10);
    random_list(&j->b, ~some, (size_t)size / 10);
}
static void one_by_all(job *j, int size) {
    uint64_t some = random_variables(UINT64_MAX, 32);
    random_list(&j->a, some, 1);
    random_list(&j->b, ~some, (size_t)size);
}
static void sorted_apart(job *j, int size) {
    (void)size;
    cube_without(&j->a, 32, 32);
    cube_without(&j->b, 32, 32);
    for (size_t i = 0; i < 32; i++) j->b.terms[i] *= 32;
}
static void every_second(job *j, int size) {
    (void)size;
    uint64_t spread = 0x155;
    j->a.t = j->b.t = 0;
    for (uint64_t s = 0; s < 1024; s++) {
        if (!(s & ~spread)) j->a.terms[j->a.t++] = s;
        if (!(s & spread)) j->b.terms[j->b.t++] = s;
    }
}

const family multiply_families[] = {
    {"32 x 32, random, interleaved", interleaved, 1024, 5},
    {"32 x 32, cubes on every second variable", every_second, 1024, 1},
    {"32 x 32, all of the one below the other", sorted_apart, 1024, 1},
    {"10 x 100", ten_by_hundred, 1000, 5},
    {"1 x 1,024", one_by_all, 1024, 5},
};
const int multiply_families_count = (int)(sizeof multiply_families / sizeof *multiply_families);

/* ---- same products */

/* A = PQ, D = RS, B = PR, C = QS with P, S on some of the variables and Q, R on the others. */
static void refined(job *j, int size) {
    uint64_t some = random_variables(UINT64_MAX, 32);
    size_t side = (size_t)sqrt(size);
    poly p, q, r, s;
    random_list(&p, some, side), random_list(&s, some, side);
    random_list(&q, ~some, side), random_list(&r, ~some, side);
    product_of(&j->a, &p, &q), product_of(&j->d, &r, &s);
    product_of(&j->b, &p, &r), product_of(&j->c, &q, &s);
}
static void refined_flipped(job *j, int size) {
    refined(j, size);
    flip_one(&j->c);
}
/* No list alike, equal products, few variables: the refinement from dense factors. */
static void refined_dense(job *j, int size) {
    size_t side = (size_t)sqrt(size);
    int wide = 34 - __builtin_clz((unsigned)side - 1);
    uint64_t some = 0, others = 0;
    for (int i = 0; i < wide; i++) some |= (uint64_t)1 << 2 * i, others |= (uint64_t)2 << 2 * i;
    poly p, q, r, s;
    random_list(&p, some, side), random_list(&s, some, side);
    random_list(&q, others, side), random_list(&r, others, side);
    product_of(&j->a, &p, &q), product_of(&j->d, &r, &s);
    product_of(&j->b, &p, &r), product_of(&j->c, &q, &s);
}
static void dense_flipped(job *j, int size) {
    refined_dense(j, size);
    flip_one(&j->c);
}
static void four_random(job *j, int size) {
    random_list(&j->a, UINT64_MAX, (size_t)size), random_list(&j->d, UINT64_MAX, (size_t)size);
    random_list(&j->b, UINT64_MAX, (size_t)size), random_list(&j->c, UINT64_MAX, (size_t)size);
}
/* The four lists of the second paper's rule for two variables of F, which stands in j->a. */
static void rule_of(job *j, int x, int y) {
    poly f = j->a;
    derivative(&j->a, &f, x);
    at_zero(&j->b, &f, x);
    derivative(&j->c, &j->a, y);
    derivative(&j->d, &j->b, y);
}
static void rule_apart(job *j, int size) {
    sums_of_two(&j->a, 31 - __builtin_clz((unsigned)size));
    rule_of(j, 0, 2);
}
static void rule_cube(job *j, int size) {
    cube_no_last(j, size);
    rule_of(j, 0, 1);
}
static void rule_path(job *j, int size) {
    path(j, size);
    rule_of(j, 0, 5);
}
static void four_alike(job *j, const poly *f) { j->a = j->d = j->b = j->c = *f; }
static void same_stairs(job *j, int size) {
    stairs(j, size);
    poly f = j->a;
    four_alike(j, &f);
}
static void same_stairs_mirrored(job *j, int size) {
    stairs_mirrored(j, size);
    poly f = j->a;
    four_alike(j, &f);
}
/* Staircases of which no two lists are alike: sums of variables P, S on the even and 1 plus sums Q, R on the odd variables. */
static void sums(poly *f, int n, int parity, int with_one, int skip) {
    f->t = 0;
    if (with_one) f->terms[f->t++] = 0;
    for (int i = 0; f->t < (size_t)n && 2 * i + parity < 64; i++)
        if (i != skip) f->terms[f->t++] = (uint64_t)1 << (2 * i + parity);
}
static void unlike_stairs(job *j, int size) {
    int n = (int)sqrt(size) - 1;
    poly p, q, r, s;
    sums(&p, n, 0, 0, n), sums(&s, n, 0, 0, 3);
    sums(&q, n, 1, 1, n), sums(&r, n, 1, 1, 5);
    product_of(&j->a, &p, &q), product_of(&j->d, &r, &s);
    product_of(&j->b, &p, &r), product_of(&j->c, &q, &s);
}
static void unlike_stairs_mirrored(job *j, int size) {
    unlike_stairs(j, size);
    mirror(&j->a, 64), mirror(&j->d, 64), mirror(&j->b, 64), mirror(&j->c, 64);
}
static void unlike_stairs_flipped(job *j, int size) {
    unlike_stairs(j, size);
    flip_one(&j->d);
}
/* Hard for ours and for the papers' choice: P one plus a sum and S a chain on the even variables, Q and R random on the odd ones. */
static void sum_and_chain(job *j, int size) {
    int n = (int)sqrt(size);
    poly p, q, r, s = {{0}, 1};
    one_and_sum(&p, n, 0);
    for (int i = 0; i + 1 < n; i++, s.t++) s.terms[s.t] = s.terms[s.t - 1] | (uint64_t)1 << 2 * i;
    random_list(&q, 0xaaaaaaaaaaaaaaaa, (size_t)n), random_list(&r, 0xaaaaaaaaaaaaaaaa, (size_t)n);
    product_of(&j->a, &p, &q), product_of(&j->d, &r, &s);
    product_of(&j->b, &p, &r), product_of(&j->c, &q, &s);
}
static void sum_and_chain_mirrored(job *j, int size) {
    sum_and_chain(j, size);
    mirror(&j->a, 64), mirror(&j->d, 64), mirror(&j->b, 64), mirror(&j->c, 64);
}
static void sum_and_chain_flipped(job *j, int size) {
    sum_and_chain(j, size);
    flip_one(&j->a);
}
/* Hard quadruples, found by climbing (bench/c/climb_same.c): A = PQ, D = RS, B = PR, C = QS, with P and S on the even variables and Q and R
 * on the odd ones. */
static const uint64_t EVEN = 0x5555555555555555, ODD = 0xaaaaaaaaaaaaaaaa;
static void four_factors(job *j, const poly *p, const poly *q, const poly *r, const poly *s) {
    product_of(&j->a, p, q), product_of(&j->d, r, s);
    product_of(&j->b, p, r), product_of(&j->c, q, s);
}
static void hard_codes(job *j, int size) {
    int words = (31 - __builtin_clz((unsigned)size)) / 2;
    poly p, q, r, s;
    code(&p, EVEN, words), code(&q, ODD, words), code(&r, ODD, words), code(&s, EVEN, words);
    four_factors(j, &p, &q, &r, &s);
}
static void hard_graphs(job *j, int size) {
    size_t n = (size_t)sqrt(size);
    poly p, q, r, s;
    graph(&p, EVEN & 0xffffffffff, n), graph(&q, ODD & 0xffffffffff, n), graph(&r, ODD & 0xffffffffff, n), graph(&s, EVEN & 0xffffffffff, n);
    mirror_on(&p, EVEN), mirror_on(&s, EVEN);
    four_factors(j, &p, &q, &r, &s);
}
static void hard_sums(job *j, int size) {
    size_t n = (size_t)sqrt(size);
    poly p, q, r, s;
    one_and_sum_on(&p, EVEN, n), chain_on(&q, ODD, n), one_and_sum_on(&r, ODD, n), chain_on(&s, EVEN, n);
    mirror_on(&p, EVEN), mirror_on(&q, ODD), mirror_on(&r, ODD), mirror_on(&s, EVEN);
    four_factors(j, &p, &q, &r, &s);
}
static void hard_intervals(job *j, int size) {
    size_t n = (size_t)sqrt(size);
    poly p, q, r, s;
    interval(&p, EVEN, 1, n), interval(&q, ODD, 1, n), interval(&r, ODD, 2, n), interval(&s, EVEN, 2, n);
    four_factors(j, &p, &q, &r, &s);
}
/* P a sum times a chain, Q a sum, R a chain, S two chains. */
static void hard_pieces(job *j, int size) {
    size_t n = (size_t)sqrt(size), few = n / 8;
    uint64_t low = EVEN & 0xffff, high = EVEN & ~low;
    poly p, q, r, s, some, more;
    one_and_sum_on(&some, high, n / few), chain_on(&more, low, few), product_of(&p, &some, &more);
    one_and_sum_on(&q, ODD, n), chain_on(&r, ODD, n);
    chain_on(&some, high, n / few), chain_on(&more, low, few), product_of(&s, &some, &more);
    four_factors(j, &p, &q, &r, &s);
}
static void same_chains(job *j, int size) {
    int n = (int)sqrt(size);
    chains(&j->a, n);
    j->b = j->a;
    mirror(&j->a, 2 * (n - 1));
    j->c = j->a, j->d = j->b;
}

const family same_families[] = {
    {"equal: PQ RS = PR QS, random, 256", refined, 256, 5},
    {"equal: PQ RS = PR QS, random", refined, 1024, 5},
    {"unequal: the same with a bit turned, 256", refined_flipped, 256, 5},
    {"unequal: the same with a bit turned", refined_flipped, 1024, 5},
    {"equal: PQ RS = PR QS, dense, 256", refined_dense, 256, 5},
    {"equal: PQ RS = PR QS, dense", refined_dense, 1024, 5},
    {"unequal: dense with a bit turned", dense_flipped, 1024, 5},
    {"unequal: four random lists, 256", four_random, 256, 5},
    {"unequal: four random lists", four_random, 1024, 5},
    {"equal: rule for ten (x + y)", rule_apart, 1024, 1},
    {"unequal: rule for the cube without its last", rule_cube, 1024, 1},
    {"unequal: rule for sets of a path", rule_path, 1024, 1},
    {"equal: staircase, four alike, 256", same_stairs, 256, 1},
    {"equal: staircase, four alike", same_stairs, 1024, 1},
    {"equal: staircase mirrored, four alike", same_stairs_mirrored, 1024, 1},
    {"equal: staircases, none alike, 225", unlike_stairs, 256, 1},
    {"equal: staircases, none alike", unlike_stairs, 1024, 1},
    {"equal: the same mirrored", unlike_stairs_mirrored, 1024, 1},
    {"unequal: staircases with a bit turned", unlike_stairs_flipped, 1024, 5},
    {"equal: chains and their mirrors", same_chains, 1024, 1},
    {"equal: sum, chain and two random, 256", sum_and_chain, 256, 5},
    {"equal: sum, chain and two random", sum_and_chain, 1024, 5},
    {"equal: the same mirrored", sum_and_chain_mirrored, 1024, 5},
    {"unequal: the same with a bit turned", sum_and_chain_flipped, 1024, 5},
    {"equal: hard, four linear codes", hard_codes, 1024, 5},
    {"equal: hard, four graphs", hard_graphs, 1024, 5},
    {"equal: hard, sums and chains mirrored", hard_sums, 1024, 1},
    {"equal: hard, four intervals", hard_intervals, 1024, 1},
    {"equal: hard, products of sums and chains", hard_pieces, 1024, 1},
};
const int same_families_count = (int)(sizeof same_families / sizeof *same_families);

/* ---- blocks */

static void block(job *j, int wide, size_t t) {
    uint64_t vars = wide < 64 ? ((uint64_t)1 << wide) - 1 : UINT64_MAX;
    do random_list(&j->a, vars, t);
    while (!(j->a.terms[t - 1] >> (wide - 1) & 1));
    j->block_bytes = plain_write(LIST(j->a), j->block, sizeof j->block).count;
}
static void wide_block(job *j, int size) { block(j, 64, (size_t)size); }
static void odd_block(job *j, int size) { block(j, 37, (size_t)size); }
static void small_block(job *j, int size) { block(j, 6, (size_t)size); }

const family block_families[] = {
    {"64 variables, 1,024 terms", wide_block, 1024, 5},
    {"37 variables, 1,024 terms", odd_block, 1024, 5},
    {"6 variables, 20 terms", small_block, 20, 5},
};
const int block_families_count = (int)(sizeof block_families / sizeof *block_families);

/* ---- texts */

/* The list, and its text with the terms in any order. */
static void text(job *j) {
    poly typed = j->a;
    for (size_t i = typed.t; i > 1; i--) {
        size_t k = random_word() % i;
        uint64_t term = typed.terms[k];
        typed.terms[k] = typed.terms[i - 1], typed.terms[i - 1] = term;
    }
    j->text_bytes = plain_spell(LIST(typed), j->text);
}

/* Terms of so many variables out of those. */
static void terms_of(poly *f, uint64_t vars, int least, int most, size_t t) {
    for (f->t = 0; f->t < t;) {
        while (f->t < t) f->terms[f->t++] = random_variables(vars, least + (int)(random_word() % (uint64_t)(most - least + 1)));
        ascending(f);
    }
}

/* 16 variables of x10 to x63 and their signs take 64 bytes. */
static void long_text(job *j, int size) { terms_of(&j->a, UINT64_MAX << 10, 16, 16, (size_t)size), text(j); }
static void short_text(job *j, int size) { terms_of(&j->a, UINT64_MAX, 1, 3, (size_t)size), text(j); }
static void small_text(job *j, int size) {
    poly f = {{0, 4, 9}, (size_t)size};
    j->a = f;
    j->text_bytes = sizeof "x0*x3+x2+1\n" - 1;
    memcpy(j->text, "x0*x3+x2+1\n", j->text_bytes);
}

const family text_families[] = {
    {"1,024 terms, 65,536 bytes", long_text, 1024, 5},
    {"1,024 terms of 1 to 3 variables", short_text, 1024, 5},
    {"x0*x3+x2+1", small_text, 3, 1},
};
const int text_families_count = (int)(sizeof text_families / sizeof *text_families);

/* ---- growth */

const growing growing_inputs[] = {
    {"split: two random factors", two_square, 1, 1},
    {"split: random over 64 variables (irreducible)", any_64, 1, 1},
    {"split: {0..t-1}", whole_cube, 1, 0},
    {"split: cube without its last", cube_no_last, 1, 0},
    {"split: staircase", stairs, 1, 0},
    {"split: (1 + sum)(1 + sum) without two", sums_without_two, 1, 0},
    {"same products: PQ RS = PR QS, random", refined, 0, 0},
    {"same products: PQ RS = PR QS, dense", refined_dense, 0, 1},
    {"same products: staircase, four alike", same_stairs, 0, 0},
    {"same products: staircases, none alike", unlike_stairs, 0, 0},
    {"same products: the same mirrored", unlike_stairs_mirrored, 0, 0},
    {"same products: sum, chain and two random", sum_and_chain, 0, 1},
    {"same products: hard, four linear codes", hard_codes, 0, 0},
    {"same products: hard, four graphs", hard_graphs, 0, 0},
    {"same products: hard, sums and chains mirrored", hard_sums, 0, 0},
    {"same products: hard, products of sums and chains", hard_pieces, 0, 0},
};
const int growing_inputs_count = (int)(sizeof growing_inputs / sizeof *growing_inputs);
