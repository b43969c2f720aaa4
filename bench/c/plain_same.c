/* Same products by ratios: AD = BC says A/B = C/D. The four lists are cut at the highest variable that is not constant
 * inside each of them; which of the equal ratios are asked about decides between microseconds and minutes. */
#include "plain.h"

unsigned long plain_questions;

/* A run of a lent list whose terms agree above the bits of the mask that goes with the question. */
typedef struct {
    const uint64_t *p;
    size_t n;
} run;

/* The halves of a run at a variable: without it, and with it. */
typedef struct {
    run low, high;
} halves;

static int same(run a, run d, run b, run c, uint64_t mask);

static int equal(run a, run b, uint64_t mask) {
    if (a.n != b.n) return 0;
    for (size_t i = 0; i < a.n; i++)
        if ((a.p[i] ^ b.p[i]) & mask) return 0;
    return 1;
}

static halves cut(run a, uint64_t z) {
    size_t low = 0, high = a.n; /* terms before low lack z, terms from high on have it */
    while (low < high) {
        size_t mid = low + (high - low) / 2;
        if (a.p[mid] & z) high = mid;
        else low = mid + 1;
    }
    halves h = {{a.p, low}, {a.p + low, a.n - low}};
    return h;
}

/* P/Q = R/S, all four nonzero. */
typedef struct {
    run over, under;
} ratio;

static size_t size(ratio r) { return r.over.n + r.under.n; }

static int alike(ratio p, ratio q, uint64_t mask) { return same(p.over, q.under, p.under, q.over, mask); }

static void exchange(ratio *p, ratio *q) {
    ratio r = *p;
    *p = *q;
    *q = r;
}

/* Three ratios: the smallest against the other two, the smaller of them first. */
static int three_alike(ratio p, ratio q, ratio r, uint64_t mask) {
    if (size(q) <= size(p) && size(q) <= size(r)) exchange(&p, &q);
    else if (size(r) <= size(p)) exchange(&p, &r), exchange(&q, &r);
    if (size(r) < size(q)) exchange(&q, &r);
    return alike(p, q, mask) && alike(p, r, mask);
}

/* Of p, which is known to be like also: NONE if it is unlike q, ALL if it is like q and r, and SOME if it is like q alone. The
 * smaller of p and also is the one that is asked about. */
enum likeness { NONE, SOME, ALL };

static enum likeness like_both(ratio p, ratio also, ratio q, ratio r, uint64_t mask) {
    if (size(also) < size(p)) p = also;
    if (!alike(p, q, mask)) return NONE;
    return alike(p, r, mask) ? ALL : SOME;
}

/* Four equal ratios, in one of two ways. The smaller of A1 D1 = B1 C1 and A0 D0 = B0 C0 belongs to both and comes first; its
 * smaller ratio is then held against the other two. Where it is like just one of them the other equation fails. */
static int all_full(halves a, halves d, halves b, halves c, uint64_t mask) {
    ratio ab1 = {a.high, b.high}, cd1 = {c.high, d.high}, ab0 = {a.low, b.low}, cd0 = {c.low, d.low};
    ratio ac1 = {a.high, c.high}, bd1 = {b.high, d.high}, ac0 = {a.low, c.low}, bd0 = {b.low, d.low};
    if (size(ab0) + size(cd0) < size(ab1) + size(cd1)) {
        exchange(&ab0, &ab1), exchange(&cd0, &cd1);
        exchange(&ac0, &ac1), exchange(&bd0, &bd1);
    }
    if (!alike(ab1, cd1, mask)) return 0;
    enum likeness first = like_both(ab1, cd1, ab0, cd0, mask);
    if (first != NONE) return first == ALL;
    return like_both(ac1, bd1, ac0, bd0, mask) == ALL;
}

/* How the variable stands in a list: it divides it, does not occur, or neither. */
static int shape(halves h) { return !h.low.n ? 1 : !h.high.n ? 0 : 2; }
static run only(halves h) { return h.low.n ? h.low : h.high; }

/* a and b have one shape, d and c another or the same. */
static int opposed(halves a, halves d, halves b, halves c, uint64_t mask) {
    if (shape(a) != 2) {
        ratio rest = {only(a), only(b)}, high = {c.high, d.high}, low = {c.low, d.low};
        return three_alike(rest, high, low, mask);
    }
    if (shape(d) != 2) {
        ratio rest = {only(d), only(c)}, high = {b.high, a.high}, low = {b.low, a.low};
        return three_alike(rest, high, low, mask);
    }
    return all_full(a, d, b, c, mask);
}

static int cut_at(run ra, run rd, run rb, run rc, uint64_t z) {
    halves a = cut(ra, z), d = cut(rd, z), b = cut(rb, z), c = cut(rc, z);
    if (shape(a) == shape(b) && shape(d) == shape(c)) return opposed(a, d, b, c, z - 1);
    if (shape(a) == shape(c) && shape(d) == shape(b)) return opposed(a, d, c, b, z - 1);
    return 0;
}

/* The variables that do not stand equally often in p times q and in r times s. */
static uint64_t uneven(uint64_t p, uint64_t q, uint64_t r, uint64_t s) { return (p ^ q ^ r ^ s) | ((p & q) ^ (r & s)); }

/* Whether u times the one list is v times the other, term by term. */
static int matched(uint64_t u, uint64_t v, run d, run c, uint64_t mask) {
    if (d.n != c.n) return 0;
    for (size_t i = 0; i < d.n; i++)
        if (uneven(u, d.p[i], v, c.p[i]) & mask) return 0;
    return 1;
}

static uint64_t spread(run a) { return a.p[0] ^ a.p[a.n - 1]; }

static int same(run a, run d, run b, run c, uint64_t mask) {
    PLAIN_ONE_MORE(plain_questions);
    if (!a.n || !d.n || !b.n || !c.n) return (!a.n || !d.n) == (!b.n || !c.n);
    if (a.n == 1 && b.n == 1) return matched(a.p[0], b.p[0], d, c, mask);
    if (a.n == 1 && c.n == 1) return matched(a.p[0], c.p[0], d, b, mask);
    if (d.n == 1 && b.n == 1) return matched(d.p[0], b.p[0], a, c, mask);
    if (d.n == 1 && c.n == 1) return matched(d.p[0], c.p[0], a, b, mask);
    uint64_t differ = (spread(a) | spread(d) | spread(b) | spread(c)) & mask;
    uint64_t z = differ ? (uint64_t)1 << 63 >> __builtin_clzll(differ) : 0, left = differ ? z | (z - 1) : 0;
    if (uneven(a.p[0], d.p[0], b.p[0], c.p[0]) & mask & ~left) return 0; /* in the constant variables on top */
    if (!differ) return 1;
    if (equal(a, b, left)) return equal(d, c, left);
    if (equal(a, c, left)) return equal(d, b, left);
    return cut_at(a, d, b, c, z);
}

apfelruder_answer plain_same_products(const uint64_t *a, size_t an, const uint64_t *d, size_t dn, const uint64_t *b,
                                      size_t bn, const uint64_t *c, size_t cn) {
    run lists[4] = {{a, an}, {d, dn}, {b, bn}, {c, cn}};
    for (int i = 0; i < 4; i++)
        if (lists[i].n > APFELRUDER_MAX_TERMS) return plain_refuse(APFELRUDER_TOO_MANY, (uint64_t)i + 1, 0);
    for (int i = 0; i < 4; i++) {
        size_t bad = plain_unordered(lists[i].p, lists[i].n);
        if (bad < lists[i].n) return plain_refuse(APFELRUDER_ORDER, (uint64_t)i + 1, bad);
    }
    plain_questions = 0;
    return plain_accept((uint64_t)same(lists[0], lists[1], lists[2], lists[3], UINT64_MAX));
}
