/* FLINT's multivariate polynomials over GF(2). The variables are renumbered without gaps first; making the polynomial
 * is not timed apart, it is a small part of the whole. */
#include "peers.h"

#include <flint/nmod_mpoly.h>
#include <flint/nmod_mpoly_factor.h>

static uint64_t variables(const poly *f) {
    uint64_t v = 0;
    for (size_t i = 0; i < f->t; i++) v |= f->terms[i];
    return v;
}

static void make(nmod_mpoly_t out, const poly *f, uint64_t vars, const nmod_mpoly_ctx_t ctx) {
    ulong exponents[64] = {0};
    nmod_mpoly_zero(out, ctx);
    for (size_t i = 0; i < f->t; i++) {
        int at = 0;
        for (uint64_t rest = vars; rest; rest &= rest - 1) exponents[at++] = f->terms[i] >> __builtin_ctzll(rest) & 1;
        nmod_mpoly_push_term_ui_ui(out, 1, exponents, ctx);
    }
    nmod_mpoly_sort_terms(out, ctx);
}

static void context(nmod_mpoly_ctx_t ctx, uint64_t vars) {
    int n = __builtin_popcountll(vars);
    nmod_mpoly_ctx_init(ctx, n ? n : 1, ORD_LEX, 2);
}

size_t flint_split(const poly *f) {
    nmod_mpoly_ctx_t ctx;
    nmod_mpoly_t p;
    nmod_mpoly_factor_t factors;
    uint64_t vars = variables(f);
    context(ctx, vars);
    nmod_mpoly_init(p, ctx);
    nmod_mpoly_factor_init(factors, ctx);
    make(p, f, vars, ctx);
    size_t found = nmod_mpoly_factor(factors, p, ctx) ? (size_t)nmod_mpoly_factor_length(factors, ctx) : 0;
    nmod_mpoly_factor_clear(factors, ctx);
    nmod_mpoly_clear(p, ctx);
    nmod_mpoly_ctx_clear(ctx);
    return found;
}

size_t flint_multiply(const poly *a, const poly *b) {
    nmod_mpoly_ctx_t ctx;
    nmod_mpoly_t p, q, r;
    uint64_t vars = variables(a) | variables(b);
    context(ctx, vars);
    nmod_mpoly_init(p, ctx), nmod_mpoly_init(q, ctx), nmod_mpoly_init(r, ctx);
    make(p, a, vars, ctx), make(q, b, vars, ctx);
    nmod_mpoly_mul(r, p, q, ctx);
    size_t n = (size_t)nmod_mpoly_length(r, ctx);
    nmod_mpoly_clear(p, ctx), nmod_mpoly_clear(q, ctx), nmod_mpoly_clear(r, ctx);
    nmod_mpoly_ctx_clear(ctx);
    return n;
}

int flint_same(const poly *a, const poly *d, const poly *b, const poly *c) {
    nmod_mpoly_ctx_t ctx;
    nmod_mpoly_t p, q, r, s;
    uint64_t vars = variables(a) | variables(d) | variables(b) | variables(c);
    context(ctx, vars);
    nmod_mpoly_init(p, ctx), nmod_mpoly_init(q, ctx), nmod_mpoly_init(r, ctx), nmod_mpoly_init(s, ctx);
    make(p, a, vars, ctx), make(q, d, vars, ctx);
    nmod_mpoly_mul(r, p, q, ctx);
    make(p, b, vars, ctx), make(q, c, vars, ctx);
    nmod_mpoly_mul(s, p, q, ctx);
    int same = nmod_mpoly_equal(r, s, ctx);
    nmod_mpoly_clear(p, ctx), nmod_mpoly_clear(q, ctx), nmod_mpoly_clear(r, ctx), nmod_mpoly_clear(s, ctx);
    nmod_mpoly_ctx_clear(ctx);
    return same;
}
