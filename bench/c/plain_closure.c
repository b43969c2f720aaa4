/* Split by bad pairs, closure by search: what plain_split.c replaced. A part's variables grow from one variable: as long as
 * the list does not split along Y, there are terms s, t whose mix (s on Y, t elsewhere) is missing, and for a minimal such
 * pair the variables outside Y in which they differ belong to the same part. Terms are asked for by binary search. */
#include "plain.h"

#include <string.h>

unsigned long plain_searches, plain_rounds;

typedef struct {
    const uint64_t *terms;
    size_t t;
} list;

static inline int holds(list f, uint64_t x) {
    PLAIN_ONE_MORE(plain_searches);
    const uint64_t *base = f.terms;
    size_t n = f.t;
    while (n > 1) {
        size_t half = n / 2;
        base += base[half] <= x ? half : 0;
        n -= half;
    }
    return *base == x;
}

static inline uint64_t mix(uint64_t y, uint64_t s, uint64_t t) { return (s & y) | (t & ~y); }

/* Stores a term t with which some term makes a bad pair for y and returns 1, or returns 0 if the list splits along y.
 * chosen is scratch of 2 t words. */
static int bad_pair(list f, uint64_t y, uint64_t *chosen, uint64_t *with) {
    uint64_t first = f.terms[0], *on_y = chosen, *off_y = chosen + f.t;
    list on = {on_y, 0}, off = {off_y, 0};
    for (size_t i = 0; i < f.t; i++) {
        uint64_t differ = f.terms[i] ^ first;
        on_y[on.t] = off_y[off.t] = f.terms[i];
        on.t += (differ & ~y) == 0;
        off.t += (differ & y) == 0;
    }
    for (size_t i = 0; i < f.t; i++) {
        uint64_t t = f.terms[i];
        if (!holds(off, mix(y, first, t))) return *with = t, 1;
        if (!holds(on, mix(y, t, first))) return *with = first, 1;
    }
    if (on.t * off.t == f.t) return 0;
    for (size_t i = 0; i < on.t; i++)
        for (size_t j = 0; j < off.t; j++)
            if (!holds(f, mix(y, on.terms[i], off.terms[j]))) return *with = off.terms[j], 1;
    return 0;
}

/* The smallest difference outside y between t and a term that makes a bad pair with it. */
static uint64_t smallest_difference(list f, uint64_t y, uint64_t t) {
    uint64_t least = UINT64_MAX;
    for (size_t i = 0; i < f.t; i++) {
        uint64_t d = (f.terms[i] ^ t) & ~y;
        if (d < least && !holds(f, mix(y, f.terms[i], t))) least = d;
    }
    return least;
}

static uint64_t part_of(list f, unsigned x, uint64_t vars, uint64_t *scratch) {
    uint64_t y = (uint64_t)1 << x, with;
    while (y != vars && bad_pair(f, y, scratch, &with)) {
        PLAIN_ONE_MORE(plain_rounds);
        y |= smallest_difference(f, y, with);
    }
    return y;
}

/* Writes the part on y and keeps in rest what is left to split; returns the part's length. */
static size_t take_out(uint64_t *rest, size_t *t, uint64_t y, uint64_t *part) {
    uint64_t first = rest[0];
    size_t written = 0, kept = 0;
    for (size_t i = 0; i < *t; i++)
        if (((rest[i] ^ first) & ~y) == 0) part[written++] = rest[i] & y;
    for (size_t i = 0; i < *t; i++)
        if (((rest[i] ^ first) & y) == 0) rest[kept++] = rest[i] & ~y;
    *t = kept;
    return written;
}

apfelruder_answer closure_split(const uint64_t *terms, size_t t, uint64_t *part_terms, size_t part_terms_len,
                                uint64_t *part_lengths, size_t part_lengths_len, uint64_t *work, size_t work_len) {
    if (t > APFELRUDER_MAX_TERMS) return plain_refuse(APFELRUDER_TOO_MANY, 1, 0);
    if (t == 0) return plain_refuse(APFELRUDER_ZERO, 1, 0);
    size_t bad = plain_unordered(terms, t), parts = 0;
    if (bad < t) return plain_refuse(APFELRUDER_ORDER, 1, bad);
    if (part_terms_len < t + 64) return plain_refuse(APFELRUDER_ROOM, 1, 0);
    if (part_lengths_len < 64) return plain_refuse(APFELRUDER_ROOM, 1, 0);
    if (work_len < 4 * t) return plain_refuse(APFELRUDER_WORK, 1, 0);
    uint64_t *rest = work, *scratch = work + t, vars = plain_variables(terms, t);
    memcpy(rest, terms, t * sizeof *rest);
    for (size_t left = t; vars; parts++) {
        list f = {rest, left};
        uint64_t y = part_of(f, (unsigned)__builtin_ctzll(vars), vars, scratch);
        size_t length = take_out(rest, &left, y, part_terms);
        part_terms += length;
        part_lengths[parts] = length;
        vars &= ~y;
    }
    memset(work, 0, work_len * sizeof *work);
    return plain_accept(parts);
}
