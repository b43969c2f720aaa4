/* Same products by the second paper's recursion, IsEqual, with its one fixed choice: cut at the highest variable, multiply
 * the middle equation by A1 A0. The corrections of docs/RULES.md are made, so that it is exact; what it lacks is a choice
 * of questions, and it can take longer than anyone waits. */
#include "peers.h"

typedef struct {
    const uint64_t *p;
    size_t n;
} run;

static unsigned long questions_left;

static run low_half(run a, uint64_t z) {
    run h = {a.p, 0};
    while (h.n < a.n && !(a.p[h.n] & z)) h.n++;
    return h;
}

static run high_half(run a, uint64_t z) {
    run low = low_half(a, z), h = {a.p + low.n, a.n - low.n};
    return h;
}

static int both(run low, run high) { return low.n && high.n; }

static int same(run a, run d, run b, run c, int k) {
    if (questions_left == 0) return -1;
    questions_left--;
    if (!a.n || !d.n || !b.n || !c.n) return (!a.n || !d.n) == (!b.n || !c.n);
    if (k == 0) return 1;
    uint64_t z = (uint64_t)1 << (k - 1);
    run a1 = high_half(a, z), a0 = low_half(a, z), d1 = high_half(d, z), d0 = low_half(d, z);
    run b1 = high_half(b, z), b0 = low_half(b, z), c1 = high_half(c, z), c0 = low_half(c, z);
    if (!both(a0, a1)) { /* the multiplier must be an operand in which z occurs and which it does not divide */
        if (both(d0, d1)) return same(d, a, b, c, k);
        if (both(b0, b1)) return same(b, c, a, d, k);
        if (both(c0, c1)) return same(c, b, a, d, k);
        if (!a0.n + !d0.n != !b0.n + !c0.n) return 0;
        return same(a0.n ? a0 : a1, d0.n ? d0 : d1, b0.n ? b0 : b1, c0.n ? c0 : c1, k - 1);
    }
    int first = same(a1, d1, b1, c1, k - 1);
    if (first != 1) return first;
    int second = same(a0, d0, b0, c0, k - 1);
    if (second != 1) return second;
    int third = same(a1, b0, a0, b1, k - 1);
    return third != 0 ? third : same(a1, c0, a0, c1, k - 1);
}

int papers_same(const poly *a, const poly *d, const poly *b, const poly *c, unsigned long most_questions) {
    run ra = {a->terms, a->t}, rd = {d->terms, d->t}, rb = {b->terms, b->t}, rc = {c->terms, c->t};
    questions_left = most_questions;
    return same(ra, rd, rb, rc, 64);
}
