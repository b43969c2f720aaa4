/* A second set of families for split and same products, from mathematics and from what a designer of release logic might
 * type. It was written down when the methods of both calls were chosen, before any of it was timed, and no family was
 * changed since. Variables count from 0 within a shape; a shape is then placed on variables of its own. */
#include "families.h"

#include <stdio.h>
#include <stdlib.h>
#include <string.h>

static const uint64_t EVEN = 0x5555555555555555, ODD = 0xaaaaaaaaaaaaaaaa;

/* ---- building lists */

static void add(poly *f, uint64_t term) {
    if (f->t == LONGEST) {
        fprintf(stderr, "bench: a list of the second set is too long\n");
        exit(1);
    }
    f->terms[f->t++] = term;
}
static void times(poly *f, const poly *g) {
    poly old = *f;
    if (old.t * g->t > LONGEST) add(&(poly){.t = LONGEST}, 0);
    product_of(f, &old, g);
}
/* Variable i of a term becomes the i-th lowest of the set. */
static uint64_t placed(uint64_t term, uint64_t vars) {
    uint64_t out = 0;
    for (; term; term >>= 1, vars &= vars - 1)
        if (term & 1) out |= vars & -vars;
    return out;
}
static void place(poly *f, uint64_t vars) {
    for (size_t i = 0; i < f->t; i++) f->terms[i] = placed(f->terms[i], vars);
    sort_terms(f->terms, f->t);
}
/* Every k-th variable; so many neighbours. */
static uint64_t every(int k, int from) {
    uint64_t set = 0;
    for (int v = from; v < 64; v += k) set |= (uint64_t)1 << v;
    return set;
}
static uint64_t next_to(int wide, int from) { return (((uint64_t)1 << wide) - 1) << from; }
/* The product of k copies, on interleaved variables or, wide variables each, one beside the other. */
static void copies_interleaved(poly *f, const poly *g, int k) {
    poly copy;
    f->t = 1, f->terms[0] = 0;
    for (int i = 0; i < k; i++) copy = *g, place(&copy, every(k, i)), times(f, &copy);
}
static void copies_beside(poly *f, const poly *g, int wide, int k) {
    poly copy;
    f->t = 1, f->terms[0] = 0;
    for (int i = 0; i < k; i++) copy = *g, place(&copy, next_to(wide, wide * i)), times(f, &copy);
}
static void remove_one(poly *f) {
    size_t at = random_word() % f->t;
    memmove(&f->terms[at], &f->terms[at + 1], (--f->t - at) * sizeof *f->terms);
}
static void random_permutation(int *to, int n) {
    for (int i = 0; i < n; i++) {
        int j = (int)(random_word() % (uint64_t)(i + 1));
        to[i] = to[j], to[j] = i;
    }
}
/* The variables below n renamed at random. */
static void shuffle(poly *f, int n) {
    int to[64];
    random_permutation(to, n);
    for (size_t i = 0; i < f->t; i++) {
        uint64_t out = 0;
        for (int v = 0; v < n; v++) out |= (f->terms[i] >> v & 1) << to[v];
        f->terms[i] = out;
    }
    sort_terms(f->terms, f->t);
}

/* ---- shapes */

/* All sets of n variables of a size between the two: elementary symmetric sums. */
static void sizes(poly *f, int n, int least, int most) {
    f->t = 0;
    for (uint64_t s = 0; s >> n == 0; s++)
        if (__builtin_popcountll(s) >= least && __builtin_popcountll(s) <= most) add(f, s);
}
/* The sum of products of a formula of n variables, from its truth table: the Moebius transform. */
typedef int truth(uint64_t set, int k);
static void formula(poly *f, int n, truth *holds, int k) {
    static uint8_t table[1 << 16];
    for (uint64_t s = 0; s >> n == 0; s++) table[s] = holds(s, k) != 0;
    for (int v = 0; v < n; v++)
        for (uint64_t s = 0; s >> n == 0; s++)
            if (s >> v & 1) table[s] ^= table[s ^ (uint64_t)1 << v];
    f->t = 0;
    for (uint64_t s = 0; s >> n == 0; s++)
        if (table[s]) add(f, s);
}
static int at_least(uint64_t s, int k) { return __builtin_popcountll(s) >= k; }
static int any_of(uint64_t s, int k) { return (void)k, s != 0; }
/* Two numbers of k bits, bit by bit beside each other. */
static int greater(uint64_t s, int k) {
    uint64_t a = 0, b = 0;
    for (int i = 0; i < k; i++) a |= (s >> 2 * i & 1) << i, b |= (s >> (2 * i + 1) & 1) << i;
    return a > b;
}
static void threshold(poly *f, int n, int k) { formula(f, n, at_least, k); }
/* The carry out of an adder of so many bits, with a carry in. */
static void carry(poly *f, int bits) {
    f->t = 1, f->terms[0] = 1;
    for (int i = 0; i < bits; i++) {
        poly old = *f;
        uint64_t a = (uint64_t)2 << 2 * i, b = (uint64_t)4 << 2 * i;
        f->t = 0, add(f, a | b);
        for (size_t j = 0; j < old.t; j++) add(f, old.terms[j] | a), add(f, old.terms[j] | b);
    }
    sort_terms(f->terms, f->t);
}
/* One of 2^k inputs, chosen by k selecting variables. */
static void multiplexer(poly *f, int k) {
    f->t = 0;
    for (uint64_t i = 0; i >> k == 0; i++)
        for (uint64_t s = 0; s >> k == 0; s++)
            if ((s & i) == i) add(f, s | (uint64_t)1 << ((uint64_t)k + i));
    sort_terms(f->terms, f->t);
}

/* The determinant of an n x n matrix of variables, with entries where the question says so. */
typedef int entry(int n, int row, int column);
static int everywhere(int n, int row, int column) { return (void)n, (void)row, (void)column, 1; }
static int on_three_diagonals(int n, int row, int column) { return (void)n, abs(row - column) <= 1; }
static int around(int n, int row, int column) { return (row - column + n + 1) % n <= 2; }
/* Variables are numbered row by row, so the first of a row is the number of entries above it. */
static void expand_rows(poly *f, int n, entry *is_there, int row, int first, uint64_t used, uint64_t term) {
    if (row == n) {
        add(f, term);
        return;
    }
    int entries = 0, variable = first;
    for (int c = 0; c < n; c++) entries += is_there(n, row, c);
    for (int c = 0; c < n; c++) {
        if (!is_there(n, row, c)) continue;
        if (!(used >> c & 1))
            expand_rows(f, n, is_there, row + 1, first + entries, used | (uint64_t)1 << c, term | (uint64_t)1 << variable);
        variable++;
    }
}
static void determinant(poly *f, int n, entry *is_there) {
    f->t = 0;
    expand_rows(f, n, is_there, 0, 0, 0, 0);
    sort_terms(f->terms, f->t);
}
/* The perfect matchings of n points; a variable for each pair. */
static void match(poly *f, int n, uint64_t left, uint64_t term) {
    if (!left) {
        add(f, term);
        return;
    }
    int i = __builtin_ctzll(left);
    for (int j = i + 1; j < n; j++)
        if (left >> j & 1) match(f, n, left & ~((uint64_t)1 << i | (uint64_t)1 << j), term | (uint64_t)1 << (j * (j - 1) / 2 + i));
}
static void matchings(poly *f, int n) {
    f->t = 0;
    match(f, n, ((uint64_t)1 << n) - 1, 0);
    sort_terms(f->terms, f->t);
}
/* The sets of n vertices with no two neighbours. */
static void independent(poly *f, int n, int edges, const int (*edge)[2]) {
    f->t = 0;
    for (uint64_t s = 0; s >> n == 0; s++) {
        int none = 1;
        for (int e = 0; e < edges; e++) none &= !(s >> edge[e][0] & s >> edge[e][1] & 1);
        if (none) add(f, s);
    }
}
static void ring_sets(poly *f, int n) {
    int edge[32][2];
    for (int i = 0; i < n; i++) edge[i][0] = i, edge[i][1] = (i + 1) % n;
    independent(f, n, n, edge);
}
static void star_sets(poly *f, int leaves) {
    int edge[32][2];
    for (int i = 0; i < leaves; i++) edge[i][0] = 0, edge[i][1] = i + 1;
    independent(f, leaves + 1, leaves, edge);
}
static void tree_sets(poly *f, int n) { /* vertex i hangs below (i - 1) / 2 */
    int edge[32][2];
    for (int i = 1; i < n; i++) edge[i - 1][0] = i, edge[i - 1][1] = (i - 1) / 2;
    independent(f, n, n - 1, edge);
}
static void grid_sets(poly *f, int rows, int columns) {
    int edge[32][2], edges = 0;
    for (int r = 0; r < rows; r++)
        for (int c = 0; c < columns; c++) {
            if (c + 1 < columns) edge[edges][0] = r * columns + c, edge[edges++][1] = r * columns + c + 1;
            if (r + 1 < rows) edge[edges][0] = r * columns + c, edge[edges++][1] = (r + 1) * columns + c;
        }
    independent(f, rows * columns, edges, edge);
}
/* The spanning trees of a wheel; its variables are the spokes and the pieces of the rim. */
static void wheel_trees(poly *f, int spokes) {
    f->t = 0;
    for (uint64_t s = 0; s >> 2 * spokes == 0; s++) {
        int group[32], joined = 0;
        if (__builtin_popcountll(s) != spokes) continue;
        for (int v = 0; v <= spokes; v++) group[v] = v;
        for (int e = 0; e < 2 * spokes; e++) {
            if (!(s >> e & 1)) continue;
            int u = group[e < spokes ? spokes : e - spokes], w = group[e < spokes ? e : (e - spokes + 1) % spokes];
            joined += u != w;
            for (int v = 0; v <= spokes; v++) group[v] = group[v] == u ? w : group[v];
        }
        if (joined == spokes) add(f, s);
    }
}
/* The words of the first-order Reed-Muller code of 16 bits; the even words of the Hamming code of 15 bits; all even words. */
static void reed_muller(poly *f) {
    f->t = 0;
    for (int a = 0; a < 32; a++) {
        uint64_t word = 0;
        for (int x = 0; x < 16; x++) word |= (uint64_t)__builtin_parity((unsigned)(a & (2 * x + 1))) << x;
        add(f, word);
    }
    sort_terms(f->terms, f->t);
}
static void hamming_even(poly *f) {
    f->t = 0;
    for (uint64_t s = 0; s >> 15 == 0; s++) {
        int sum = 0;
        for (int i = 0; i < 15; i++) sum ^= s >> i & 1 ? i + 1 : 0;
        if (!sum && !__builtin_parityll(s)) add(f, s);
    }
}
static void even_words(poly *f, int n) {
    f->t = 0;
    for (uint64_t s = 0; s >> n == 0; s++)
        if (!__builtin_parityll(s)) add(f, s);
}
/* Sums of t random products of three variables. */
static void triples(poly *f, uint64_t vars, size_t t) {
    f->t = 0;
    while (f->t < t) {
        uint64_t term = random_variables(vars, 3);
        size_t i = 0;
        while (i < f->t && f->terms[i] != term) i++;
        if (i == f->t) add(f, term);
    }
    sort_terms(f->terms, f->t);
}
/* The list of the given terms. */
#define TERMS(f, ...)                                                                                                 \
    do {                                                                                                              \
        static const uint64_t given[] = {__VA_ARGS__};                                                                \
        memcpy((f)->terms, given, sizeof given);                                                                      \
        (f)->t = sizeof given / sizeof *given;                                                                        \
        sort_terms((f)->terms, (f)->t);                                                                               \
    } while (0)

/* ---- split */

static void x_and_yz(job *j, int size) { (void)size; TERMS(&j->a, 1, 6); }
static void ring_of_five(job *j, int size) { (void)size; TERMS(&j->a, 3, 6, 12, 24, 17); }
static void sensors_and_keys(job *j, int size) {
    (void)size;
    poly keys;
    threshold(&j->a, 4, 2), formula(&keys, 2, any_of, 0);
    place(&keys, next_to(2, 4));
    times(&j->a, &keys);
}
static void twenty(job *j, int size) {
    (void)size;
    poly sum;
    TERMS(&j->a, 3, 12, 48, 64);
    TERMS(&sum, 0, 1 << 7, 1 << 8, 1 << 9, 1 << 10);
    times(&j->a, &sum);
}
static void three_of_four(job *j, int size) {
    (void)size;
    poly f;
    sizes(&f, 4, 3, 3), copies_beside(&j->a, &f, 4, 3);
}
static void any_20_few(job *j, int size) { random_list(&j->a, random_variables(UINT64_MAX, 20), (size_t)size); }
static void one_multiplexer(job *j, int size) { multiplexer(&j->a, size); }
static void five_of_twelve(job *j, int size) { (void)size; sizes(&j->a, 12, 5, 5); }
static void two_of_ten_two_of_seven(job *j, int size) {
    (void)size;
    poly g;
    sizes(&j->a, 10, 2, 2), sizes(&g, 7, 2, 2);
    place(&j->a, EVEN), place(&g, ODD);
    times(&j->a, &g);
}
static void at_most_four(job *j, int size) { (void)size; sizes(&j->a, 12, 0, 4); }
static void majority(job *j, int size) { threshold(&j->a, size, size / 2 + 1); }
static void six_majorities(job *j, int size) {
    (void)size;
    poly f;
    threshold(&f, 3, 2), copies_beside(&j->a, &f, 3, 6);
}
static void full_determinant(job *j, int size) { determinant(&j->a, size, everywhere); }
static void two_determinants(job *j, int size) {
    poly f;
    determinant(&f, size, everywhere), copies_interleaved(&j->a, &f, 2);
}
static void three_diagonals(job *j, int size) { determinant(&j->a, size, on_three_diagonals); }
static void ring_determinant(job *j, int size) { determinant(&j->a, size, around); }
static void perfect_matchings(job *j, int size) { matchings(&j->a, size); }
static void wheel_and_ring(job *j, int size) {
    (void)size;
    poly ring;
    wheel_trees(&j->a, 5), sizes(&ring, 8, 7, 7);
    place(&ring, next_to(8, 10));
    times(&j->a, &ring);
    shuffle(&j->a, 18);
}
static void sets_of_ring(job *j, int size) { ring_sets(&j->a, size); }
static void sets_of_grid(job *j, int size) { grid_sets(&j->a, 3, size); }
static void sets_of_star(job *j, int size) { star_sets(&j->a, size); }
static void sets_of_tree_and_path(job *j, int size) {
    poly path;
    tree_sets(&j->a, size), path_sets(&path, size - 1);
    place(&j->a, EVEN), place(&path, ODD);
    times(&j->a, &path);
}
static void ten_one_and_pair(job *j, int size) {
    poly f;
    TERMS(&f, 0, 3);
    copies_beside(&j->a, &f, 2, size);
}
static void six_sums_of_three(job *j, int size) {
    poly f;
    TERMS(&f, 1, 2, 4);
    copies_interleaved(&j->a, &f, size);
}
static void four_one_and_products(job *j, int size) {
    poly f;
    TERMS(&f, 0, 3, 12, 48, 192);
    copies_beside(&j->a, &f, 8, size);
}
static void five_mixed_sums(job *j, int size) {
    poly f;
    TERMS(&f, 3, 12, 48, 64);
    copies_interleaved(&j->a, &f, size);
}
static void two_graphs_of(poly *f, size_t left, size_t right) {
    poly g;
    graph(f, EVEN & 0xfffffff, left), graph(&g, ODD & 0xfffffff, right);
    times(f, &g);
}
static void two_graphs(job *j, int size) { (void)size; two_graphs_of(&j->a, 32, 32); }
static void two_graphs_and_edge(job *j, int size) { /* all other terms have four variables */
    (void)size;
    two_graphs_of(&j->a, 31, 32);
    add(&j->a, random_variables(0xfffffff, 2));
    sort_terms(j->a.terms, j->a.t);
}
static void interval_from(job *j, int size) { interval(&j->a, UINT64_MAX, (uint64_t)size, LONGEST); }
static void high_variables(job *j, int size) { random_list(&j->a, UINT64_MAX << 40, (size_t)size); }
static void with_constants(job *j, int size) {
    (void)size;
    size_t counts[2] = {32, 32};
    uint64_t used = 0;
    random_product(&j->a, 44, 2, counts);
    for (size_t i = 0; i < j->a.t; i++) used |= j->a.terms[i];
    for (size_t i = 0; i < j->a.t; i++) j->a.terms[i] |= ~used;
    sort_terms(j->a.terms, j->a.t);
}
static void times_reversal(job *j, int size) {
    poly f, g;
    random_list(&f, next_to(32, 0), (size_t)size);
    g.t = f.t;
    for (size_t i = 0; i < f.t; i++) {
        g.terms[i] = 0;
        for (int v = 0; v < 32; v++) g.terms[i] |= (f.terms[i] >> v & 1) << (31 - v);
    }
    place(&f, EVEN), place(&g, ODD);
    j->a = f, times(&j->a, &g);
}
static void linear_code(job *j, int size) {
    code(&j->a, UINT64_MAX, size);
    uint64_t word = j->a.terms[0];
    for (size_t i = 0; i < j->a.t; i++) j->a.terms[i] ^= word;
    sort_terms(j->a.terms, j->a.t);
}
static void two_cosets(job *j, int size) {
    poly g;
    code(&j->a, EVEN, size), code(&g, ODD, size);
    times(&j->a, &g);
}
static void two_reed_mullers(job *j, int size) {
    (void)size;
    poly f;
    reed_muller(&f), copies_interleaved(&j->a, &f, 2);
}
static void hamming(job *j, int size) { (void)size; hamming_even(&j->a); }
static void all_even(job *j, int size) { even_words(&j->a, size); }
/* Random terms s with their pieces on one half of the variables and on the other: every mix with the first term is there. */
static void mixes_with_first(job *j, int size) {
    poly s;
    random_list(&s, UINT64_MAX, (size_t)size / 3);
    uint64_t half = random_variables(UINT64_MAX, 32);
    j->a.t = 0, add(&j->a, 0);
    for (size_t i = 0; i < s.t; i++) add(&j->a, s.terms[i]), add(&j->a, s.terms[i] & half), add(&j->a, s.terms[i] & ~half);
    sort_terms(j->a.terms, j->a.t);
}
static void square_without_one(job *j, int size) {
    poly f;
    random_list(&f, next_to(32, 0), (size_t)size), copies_interleaved(&j->a, &f, 2);
    remove_one(&j->a);
}
static void once_each(job *j, int size) {
    uint64_t many = random_variables(UINT64_MAX, 32);
    random_list(&j->a, many, (size_t)size);
    for (uint64_t rest = ~many; rest; rest &= rest - 1) j->a.terms[random_word() % j->a.t] |= rest & -rest;
    sort_terms(j->a.terms, j->a.t);
}
static void most_over_ten(job *j, int size) { random_list(&j->a, random_variables(UINT64_MAX, 10), (size_t)size); }
static void or_of_ands(job *j, int size) {
    ten_one_and_pair(j, size);
    memmove(j->a.terms, j->a.terms + 1, --j->a.t * sizeof *j->a.terms);
}
static void and_of_ors(job *j, int size) {
    poly f;
    formula(&f, 2, any_of, 0), copies_beside(&j->a, &f, 2, size);
}
static void adder_carry(job *j, int size) { carry(&j->a, size); }
static void comparator(job *j, int size) { formula(&j->a, 2 * size, greater, size); }
static void equal_numbers(job *j, int size) {
    poly f;
    TERMS(&f, 0, 1, 2);
    copies_interleaved(&j->a, &f, size);
}
static void two_multiplexers(job *j, int size) {
    poly f;
    multiplexer(&f, size), copies_interleaved(&j->a, &f, 2);
}
static void random_triples(job *j, int size) { triples(&j->a, UINT64_MAX, (size_t)size); }
static void triples_and_factor(job *j, int size) {
    poly g;
    TERMS(&g, 0, (uint64_t)1 << 31);
    triples(&j->a, ~((uint64_t)1 << 31), (size_t)size / 2), times(&j->a, &g);
}

const family split_second_families[] = {
    {"x + y z", x_and_yz, 2, 1},
    {"ring of five: a b + b c + c d + d e + e a", ring_of_five, 5, 1},
    {"(a b + c d + e f + g)(1 + h + i + j + k)", twenty, 20, 1},
    {"2 of 4 sensors, and one of two keys", sensors_and_keys, 21, 1},
    {"multiplexer of eight inputs", one_multiplexer, 3, 1},
    {"sums of 3 of 4, three of them", three_of_four, 64, 1},
    {"random over 20 variables, 64 terms", any_20_few, 64, 5},
    {"all 5 of 12 variables", five_of_twelve, 792, 1},
    {"all 2 of 10 times all 2 of 7, interleaved", two_of_ten_two_of_seven, 945, 1},
    {"all sets of at most 4 of 12", at_most_four, 794, 1},
    {"majority of 11", majority, 11, 1},
    {"six majorities of 3 multiplied", six_majorities, 729, 1},
    {"determinant 6 x 6", full_determinant, 6, 1},
    {"two determinants 4 x 4, interleaved", two_determinants, 4, 1},
    {"determinant of three diagonals, 15 x 15", three_diagonals, 15, 1},
    {"determinant of a ring, 14 x 14", ring_determinant, 14, 1},
    {"perfect matchings of ten points", perfect_matchings, 10, 1},
    {"spanning trees of a wheel and a ring, shuffled", wheel_and_ring, 968, 5},
    {"independent sets of a ring of 14", sets_of_ring, 14, 1},
    {"independent sets of a grid 3 x 5", sets_of_grid, 5, 1},
    {"independent sets of a star of 9 leaves", sets_of_star, 9, 1},
    {"independent sets of a tree and a path, interleaved", sets_of_tree_and_path, 7, 1},
    {"ten (1 + x y)", ten_one_and_pair, 10, 1},
    {"six (x + y + z), interleaved", six_sums_of_three, 6, 1},
    {"four (1 + a b + c d + e f + g h)", four_one_and_products, 4, 1},
    {"five (a b + c d + e f + g), interleaved", five_mixed_sums, 5, 1},
    {"two graphs of 32 edges multiplied", two_graphs, 1024, 5},
    {"two graphs multiplied, one edge more", two_graphs_and_edge, 993, 5},
    {"{333..1356}", interval_from, 333, 1},
    {"{12345..13368}", interval_from, 12345, 1},
    {"random over the 24 highest variables", high_variables, 1024, 5},
    {"32 x 32 and 20 variables in every term", with_constants, 1024, 5},
    {"random times its reversal, interleaved", times_reversal, 32, 5},
    {"linear code of ten generators", linear_code, 10, 5},
    {"two cosets of 32 words, interleaved", two_cosets, 5, 5},
    {"two Reed-Muller codes of 16 bits, interleaved", two_reed_mullers, 1024, 1},
    {"Hamming code of 15 bits, its even words", hamming, 1024, 1},
    {"even words of 11 bits", all_even, 11, 1},
    {"random, with all mixes with the first term", mixes_with_first, 1024, 5},
    {"random times its copy, without one term", square_without_one, 32, 5},
    {"random, 32 variables in one term each", once_each, 1024, 5},
    {"1,000 of the 1,024 terms of ten variables", most_over_ten, 1000, 5},
    {"OR of ten ANDs", or_of_ands, 10, 1},
    {"AND of six ORs", and_of_ors, 6, 1},
    {"carry of nine bits", adder_carry, 9, 1},
    {"a > b, six bits each", comparator, 6, 1},
    {"a = b, six bits each", equal_numbers, 6, 1},
    {"two multiplexers of eight inputs, interleaved", two_multiplexers, 3, 1},
    {"multiplexer of 32 inputs", one_multiplexer, 5, 1},
    {"random products of 3 of 64 variables", random_triples, 1024, 5},
    {"random products of 3 of 63 variables, times (1 + x)", triples_and_factor, 1024, 5},
};
const int split_second_families_count = (int)(sizeof split_second_families / sizeof *split_second_families);

/* ---- same products */

/* A = PQ, D = RS, B = PR, C = QS with P, S on the even variables and Q, R on the odd ones. */
static void four_of(job *j, poly *p, poly *q, poly *r, poly *s) {
    place(p, EVEN), place(q, ODD), place(r, ODD), place(s, EVEN);
    j->a = *p, times(&j->a, q);
    j->d = *r, times(&j->d, s);
    j->b = *p, times(&j->b, r);
    j->c = *q, times(&j->c, s);
}
static void symmetric_four(job *j, int size) {
    (void)size;
    poly p, q, r, s;
    sizes(&p, 8, 2, 2), sizes(&q, 9, 2, 2), sizes(&r, 7, 3, 3), sizes(&s, 8, 6, 6);
    four_of(j, &p, &q, &r, &s);
}
static void thresholds_four(job *j, int size) {
    (void)size;
    poly p, q, r, s;
    threshold(&p, 5, 3), threshold(&q, 7, 4), threshold(&r, 6, 3), threshold(&s, 5, 2);
    four_of(j, &p, &q, &r, &s);
}
static void paths_and_rings(job *j, int size) {
    (void)size;
    poly p, q, r, s;
    path_sets(&p, 6), path_sets(&q, 7), ring_sets(&r, 7), ring_sets(&s, 7);
    four_of(j, &p, &q, &r, &s);
}
static void determinants_and_graphs(job *j, int size) {
    (void)size;
    poly p, q, r, s;
    determinant(&p, 4, everywhere), determinant(&q, 4, everywhere);
    graph(&r, next_to(16, 0), 32), graph(&s, next_to(16, 0), 32);
    four_of(j, &p, &q, &r, &s);
}
static void sums_of_three(job *j, int size) {
    (void)size;
    poly sum, p, q, r, s;
    TERMS(&sum, 1, 2, 4);
    copies_beside(&p, &sum, 3, 3), copies_interleaved(&q, &sum, 3);
    r = p, s = q;
    for (size_t i = 0; i < s.t; i++) s.terms[i] <<= 1;
    four_of(j, &p, &q, &r, &s);
}
static void codes_and_intervals(job *j, int size) {
    poly p, q, r, s;
    code(&p, next_to(20, 0), size), code(&r, next_to(20, 0), size);
    interval(&q, UINT64_MAX, 333, 32), interval(&s, UINT64_MAX, 77, 32);
    four_of(j, &p, &q, &r, &s);
}
static void codes_and_intervals_less_one(job *j, int size) {
    codes_and_intervals(j, size);
    remove_one(&j->a);
}
static void graphs_changed(job *j, int size) {
    determinants_and_graphs(j, size);
    flip_one(&j->b);
}
/* The four lists of the second paper's rule for two variables of F, which stands in j->a. */
static void rule_for(job *j, int x, int y) {
    poly f = j->a;
    derivative(&j->a, &f, x), at_zero(&j->b, &f, x);
    derivative(&j->c, &j->a, y), derivative(&j->d, &j->b, y);
}
static void rule_two_determinants(job *j, int size) { two_determinants(j, size), rule_for(j, 0, 5); }
static void rule_one_determinant(job *j, int size) { full_determinant(j, size), rule_for(j, 0, 14); }
static void rule_comparator(job *j, int size) { comparator(j, size), rule_for(j, 0, 7); }
static void rule_carry(job *j, int size) { adder_carry(j, size), rule_for(j, 0, 18); }
static void rule_ten_pairs(job *j, int size) { ten_one_and_pair(j, size), rule_for(j, 19, 2); }
static void rule_two_graphs(job *j, int size) { two_graphs(j, size), rule_for(j, 0, 1); }
static void other_order(job *j, int size) {
    random_list(&j->a, UINT64_MAX, (size_t)size), random_list(&j->d, UINT64_MAX, (size_t)size);
    j->b = j->d, j->c = j->a;
}
static void other_order_changed(job *j, int size) {
    other_order(j, size);
    flip_one(&j->c);
}
static void list_and_factors(job *j, int size) {
    graph(&j->b, EVEN, (size_t)size), graph(&j->c, ODD, (size_t)size);
    j->a = j->b, times(&j->a, &j->c);
    j->d.t = 1, j->d.terms[0] = 0;
}
static void list_less_one_and_factors(job *j, int size) {
    list_and_factors(j, size);
    remove_one(&j->a);
}
/* Ten variables, in every term of A and of none of B; in every term of C and of none of D. */
static void variables_moved(job *j, int size) {
    uint64_t moved = random_variables(UINT64_MAX, 10);
    random_list(&j->b, ~moved, (size_t)size), random_list(&j->d, ~moved, (size_t)size);
    j->a = j->b, j->c = j->d;
    for (size_t i = 0; i < j->a.t; i++) j->a.terms[i] |= moved;
    for (size_t i = 0; i < j->c.t; i++) j->c.terms[i] |= moved;
    sort_terms(j->a.terms, j->a.t), sort_terms(j->c.terms, j->c.t);
}
static void four_pairs(job *j, int size) {
    (void)size;
    poly p, q, r, s;
    TERMS(&p, 1, 2);
    TERMS(&q, 0, 3);
    TERMS(&r, 1, 6);
    TERMS(&s, 0, 5);
    four_of(j, &p, &q, &r, &s);
}

const family same_second_families[] = {
    {"equal: four factors of two terms", four_pairs, 4, 1},
    {"equal: elementary symmetric sums", symmetric_four, 1008, 1},
    {"equal: thresholds", thresholds_four, 525, 1},
    {"equal: independent sets of paths and rings", paths_and_rings, 714, 1},
    {"equal: determinants and graphs", determinants_and_graphs, 576, 5},
    {"unequal: determinants and graphs, a bit turned", graphs_changed, 576, 5},
    {"equal: products of (x + y + z)", sums_of_three, 729, 1},
    {"equal: codes and intervals", codes_and_intervals, 5, 5},
    {"unequal: codes and intervals, one term less", codes_and_intervals_less_one, 5, 5},
    {"equal: rule for two determinants", rule_two_determinants, 4, 1},
    {"unequal: rule within a determinant", rule_one_determinant, 6, 1},
    {"unequal: rule for a > b", rule_comparator, 6, 1},
    {"unequal: rule for the carry", rule_carry, 9, 1},
    {"equal: rule for ten (1 + x y)", rule_ten_pairs, 10, 1},
    {"equal: rule for two graphs", rule_two_graphs, 1024, 5},
    {"equal: two random lists in the other order", other_order, 1024, 5},
    {"unequal: the same with a bit turned", other_order_changed, 1024, 5},
    {"equal: a list, one, and its two factors", list_and_factors, 32, 5},
    {"unequal: the same, one term less", list_less_one_and_factors, 32, 5},
    {"equal: ten variables moved across", variables_moved, 1024, 5},
};
const int same_second_families_count = (int)(sizeof same_second_families / sizeof *same_second_families);
