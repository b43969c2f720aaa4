/* Input families of the benchmark, from fixed seeds. Every function writes a strictly ascending list and returns its
 * length. */
#ifndef INPUTS_H
#define INPUTS_H

#include <stddef.h>
#include <stdint.h>

enum { LONGEST = 1024 };

typedef struct {
    uint64_t terms[LONGEST];
    size_t t;
} poly;

uint64_t random_word(void);
void random_seed(uint64_t seed);

/* so many of the given variables, at random */
uint64_t random_variables(uint64_t of, int count);
/* t random terms over the variables, each variable in a term with probability one half */
void random_list(poly *f, uint64_t vars, size_t t);
/* all unions, ascending; out must be neither of the two */
void product_of(poly *out, const poly *f, const poly *g);
/* the product of k random factors on interleaved variables, wide together; counts[i] terms each */
void random_product(poly *f, int wide, int k, const size_t *counts);
/* one bit of one term turned, so that the list is no product any more */
void flip_one(poly *f);

/* k factors x + y; t = 2^k */
void sums_of_two(poly *f, int k);
/* 0, 1, .., t - 1, without one number (t and above: without none) */
void cube_without(poly *f, size_t t, size_t missing);
/* the sets of vertices of a path with no two neighbours */
void path_sets(poly *f, int vertices);
/* 2^(2i) + w_j with w_0 = 0, w_j = 2^(2j+1), for i, j < n: a sum of variables times one plus a sum */
void staircase(poly *f, int n);
/* 1, x0, x0 x1, x0 x1 x2, .. on every second variable times the same on the others */
void chains(poly *f, int n);
/* every term complemented within so many variables */
void mirror(poly *f, int wide);
/* 1 + x0 + x1 + .. of so many variables */
void sum_of_all(poly *f, int wide);
/* t numbers from the given one on, their bits on the variables of the set, lowest on lowest */
void interval(poly *f, uint64_t vars, uint64_t from, size_t t);
/* 1, x, x y, .. on the variables of the set, at most t terms; 1 + x + y + .. on them */
void chain_on(poly *f, uint64_t vars, size_t t);
void one_and_sum_on(poly *f, uint64_t vars, size_t t);
/* t random products of two different variables of the set: the edges of a graph */
void graph(poly *f, uint64_t vars, size_t t);
/* all sums of so many random words over the variables, added to a random word: a coset of a linear code */
void code(poly *f, uint64_t vars, int words);
/* every term complemented within the variables */
void mirror_on(poly *f, uint64_t vars);
/* the terms of f that hold the variable, with it cleared; those that do not hold it */
void derivative(poly *out, const poly *f, int x);
void at_zero(poly *out, const poly *f, int x);
void sort_terms(uint64_t *terms, size_t t);
/* the terms ascending, equal ones once */
void ascending(poly *f);

#endif
