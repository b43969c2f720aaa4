/* Split by straight passes. The variables of a part grow from its lowest one. Counting puts variables together: if v is
 * apart from x, the terms with both are to the terms with x as the terms with v are to all terms. What counting gives is
 * held against the list: the picks on y and the picks off y are multiplied, beside the list, up to the first difference.
 * No difference: the list splits along y. Else the differing term hands over variables that belong to the part. */
#include "plain.h"

#include <string.h>

enum { PLANES = 11 }; /* a count of up to 1,024 terms has 11 bits */

/* ---- counting: plane j holds bit j of every variable's count */

static inline void full_add(uint64_t *low, uint64_t *high, uint64_t a, uint64_t b) {
    uint64_t c = *low, ab = a ^ b;
    *low = ab ^ c;
    *high = (a & b) | (ab & c);
}

static inline void carry_into(uint64_t *planes, int from, uint64_t carry) {
    for (int j = from; j < PLANES; j++) {
        uint64_t both = planes[j] & carry;
        planes[j] ^= carry;
        carry = both;
    }
}

/* Adds eight terms to the first three planes; returns the variables whose count of eights grows by one. */
static inline uint64_t eight_more(uint64_t *ones, uint64_t *twos, uint64_t *fours, const uint64_t *f) {
    uint64_t two_a, two_b, four_a, four_b, eight;
    full_add(ones, &two_a, f[0], f[1]);
    full_add(ones, &two_b, f[2], f[3]);
    full_add(twos, &four_a, two_a, two_b);
    full_add(ones, &two_a, f[4], f[5]);
    full_add(ones, &two_b, f[6], f[7]);
    full_add(twos, &four_b, two_a, two_b);
    full_add(fours, &eight, four_a, four_b);
    return eight;
}

/* For every variable the number of terms that hold it; sixteen terms at a time. */
static void count(const uint64_t *f, size_t n, uint64_t planes[PLANES]) {
    uint64_t p[PLANES] = {0}, ones = 0, twos = 0, fours = 0, eights = 0, sixteen;
    size_t i = 0;
    for (; i + 16 <= n; i += 16) {
        uint64_t eight_a = eight_more(&ones, &twos, &fours, f + i), eight_b = eight_more(&ones, &twos, &fours, f + i + 8);
        full_add(&eights, &sixteen, eight_a, eight_b);
        carry_into(p, 4, sixteen);
    }
    p[0] = ones, p[1] = twos, p[2] = fours, p[3] = eights;
    for (; i < n; i++) carry_into(p, 0, f[i]);
    memcpy(planes, p, sizeof p);
}

/* The count of v, of at most n terms. */
static inline uint64_t count_of(const uint64_t planes[PLANES], unsigned v, size_t n) {
    uint64_t c = 0;
    for (unsigned j = plain_width(n); j-- > 0;) c = 2 * c + (planes[j] >> v & 1);
    return c;
}

/* What is counted once, for the whole list: its length and how many terms hold each variable. */
typedef struct {
    uint64_t t, with[64], variables, constant;
} whole;

static whole count_whole(const uint64_t *terms, size_t t) {
    whole w = {.t = t, .constant = UINT64_MAX};
    uint64_t planes[PLANES];
    count(terms, t, planes);
    for (int j = 0; j < PLANES; j++) {
        w.variables |= planes[j];
        w.constant &= t >> j & 1 ? planes[j] : ~planes[j];
    }
    for (uint64_t rest = w.variables; rest; rest &= rest - 1) {
        unsigned v = (unsigned)__builtin_ctzll(rest);
        w.with[v] = count_of(planes, v, t);
    }
    return w;
}

/* Those of the asked variables that counting puts into x's part. The rest f of the whole list has the same shares: of its
 * terms as many in a hundred hold v as of all terms. The terms that hold x are laid out in the given room: each is written,
 * and the next one over it unless it holds x. */
static uint64_t tied(const uint64_t *f, size_t n, unsigned x, uint64_t asked, const whole *w, uint64_t *room) {
    uint64_t both[PLANES], found = 0;
    size_t k = 0;
    for (size_t i = 0; i < n; i++) {
        room[k] = f[i];
        k += f[i] >> x & 1;
    }
    count(room, k, both);
    for (; asked; asked &= asked - 1) {
        unsigned v = (unsigned)__builtin_ctzll(asked);
        if (w->t * count_of(both, v, k) != k * w->with[v]) found |= (uint64_t)1 << v;
    }
    return found;
}

/* ---- comparing */

/* A list and the place up to which a product was found along it; at the first difference the product has the term made. */
typedef struct {
    const uint64_t *end, *at;
    uint64_t made;
} walker;

/* Holds one row of the product against the list; returns what follows it, or NULL at a difference. */
static inline const uint64_t *along_row(walker *w, const uint64_t *at, uint64_t one, const uint64_t *many, size_t m) {
    size_t there = (size_t)(w->end - at), k = there < m ? there : m, i = 0;
    uint64_t differ = 0;
    for (size_t j = 0; j < k; j++) differ |= at[j] ^ (one | many[j]);
    if (differ == 0 && k == m) return at + m;
    while (i < k && at[i] == (one | many[i])) i++;
    w->at = at + i, w->made = one | many[i];
    return NULL;
}

/* Holds the product of a and b against the list, in ascending order: the one that varies in the higher variable is cut into
 * runs that vary at most as high as the other. */
static const uint64_t *along(walker *w, const uint64_t *at, const uint64_t *a, size_t an, const uint64_t *b, size_t bn) {
    if (an == 1) return along_row(w, at, a[0], b, bn);
    if (bn == 1) return along_row(w, at, b[0], a, an);
    uint64_t a_varies = a[0] ^ a[an - 1], b_varies = b[0] ^ b[bn - 1];
    if (a_varies < b_varies) {
        const uint64_t *c = a;
        size_t cn = an;
        a = b, an = bn, b = c, bn = cn, b_varies = a_varies;
    }
    uint64_t above = (uint64_t)2 << (63 - __builtin_clzll(b_varies));
    for (size_t i = 0, next; at && i < an; i = next) {
        for (next = i + 1; next < an && (a[i] ^ a[next]) < above; next++) {}
        at = next == i + 1 ? along_row(w, at, a[i], b, bn) : along(w, at, b, bn, a + i, next - i);
    }
    return at;
}

/* Writes the picks on y and off y, the terms that are the first term elsewhere, in one pass without branches. */
static inline void pick(const uint64_t *f, size_t n, uint64_t y, uint64_t *p, size_t *pn, uint64_t *q, size_t *qn) {
    uint64_t on = f[0] & y, off = f[0] & ~y;
    size_t i = 0, j = 0;
    for (size_t k = 0; k < n; k++) {
        uint64_t t_on = f[k] & y, t_off = f[k] & ~y;
        p[i] = t_on, q[j] = t_off;
        i += t_off == off, j += t_on == on;
    }
    *pn = i, *qn = j;
}

/* The smallest difference off y between t and a term that is s on y, as a number. It lies in every set that holds y and
 * splits the list, for the mix of such a term with t along that set is one of these terms too; and it is 0 exactly if the
 * list holds s on y with t off y. */
static inline uint64_t least(const uint64_t *f, size_t n, uint64_t y, uint64_t s, uint64_t t) {
    uint64_t smallest = UINT64_MAX;
    for (size_t i = 0; i < n; i++) {
        uint64_t is_other = -(uint64_t)(((f[i] ^ s) & y) != 0), d = ((f[i] ^ t) & ~y) | is_other;
        if (d < smallest) smallest = d;
    }
    return smallest;
}

/* Lays out the picks and returns variables off y that belong to the part of y, or 0 if the list is the picks' product. The
 * first difference is a term r of one of the two only. Missing in the list: r on y was picked, and off y too. Missing in
 * the product: r off y was not picked, or r on y was not. The first is asked of the picks, which are fewer. */
static uint64_t one_step(const uint64_t *f, size_t n, uint64_t y, uint64_t *p, size_t *pn, uint64_t *q, size_t *qn) {
    pick(f, n, y, p, pn, q, qn);
    walker w = {.end = f + n};
    const uint64_t *at = along(&w, f, p, *pn, q, *qn);
    if (at == w.end) return 0;
    if (!at && (w.at == w.end || w.made < *w.at)) return least(f, n, y, w.made, w.made);
    uint64_t r = at ? *at : *w.at, d = least(q, *qn, y, 0, r);
    return d ? d : least(f, n, y, r, f[0]);
}

/* The variables of x's part, of those that are left; p and q become the two projections. */
static uint64_t part_of(const uint64_t *f, size_t n, unsigned x, uint64_t left, const whole *w, uint64_t *p, size_t *pn,
                        uint64_t *q, size_t *qn, uint64_t *room) {
    uint64_t y = (uint64_t)1 << x, d;
    if (n < 4) y = left; /* lengths multiply, and a part without constant variable has two terms or more */
    else y |= tied(f, n, x, left & ~y, w, room);
    while (y != left && (d = one_step(f, n, y, p, pn, q, qn)) != 0) {
        y |= d;
        if (y != left) y |= tied(f, n, (unsigned)__builtin_ctzll(d), left & ~y, w, room);
    }
    if (y == left) { /* nothing is left to hold it against */
        for (size_t i = 0; i < n; i++) p[i] = f[i] & y;
        *pn = n, *qn = 1, q[0] = f[0] & ~y;
    }
    return y;
}

apfelruder_answer plain_split(const uint64_t *terms, size_t t, uint64_t *part_terms, size_t part_terms_len,
                              uint64_t *part_lengths, size_t part_lengths_len, uint64_t *work, size_t work_len) {
    if (t > APFELRUDER_MAX_TERMS) return plain_refuse(APFELRUDER_TOO_MANY, 1, 0);
    if (t == 0) return plain_refuse(APFELRUDER_ZERO, 1, 0);
    size_t bad = plain_unordered(terms, t), parts = 0, n = t, pn, qn;
    if (bad < t) return plain_refuse(APFELRUDER_ORDER, 1, bad);
    if (part_terms_len < t + 64) return plain_refuse(APFELRUDER_ROOM, 1, 0);
    if (part_lengths_len < 64) return plain_refuse(APFELRUDER_ROOM, 1, 0);
    if (work_len < 4 * t) return plain_refuse(APFELRUDER_WORK, 1, 0);
    uint64_t *f = work, *p = work + t, *q = work + 2 * t, *room = work + 3 * t;
    memcpy(f, terms, t * sizeof *f);
    whole w = count_whole(terms, t);
    for (uint64_t left = w.variables; left; parts++) {
        uint64_t y = left & -left;
        if (w.constant & y) pn = 1, p[0] = y;
        else {
            y = part_of(f, n, (unsigned)__builtin_ctzll(left), left & ~w.constant, &w, p, &pn, q, &qn, room);
            uint64_t *rest = q;
            q = f, f = rest, n = qn;
        }
        memcpy(part_terms, p, pn * sizeof *p);
        part_terms += pn;
        part_lengths[parts] = pn;
        left &= ~y;
    }
    memset(work, 0, work_len * sizeof *work);
    return plain_accept(parts);
}
