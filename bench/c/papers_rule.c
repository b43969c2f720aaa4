/* Split by the papers' rule, pair by pair: the lowest variable x left, and each other variable y left, ask whether AD = BC; those for
 * which it does not hold are in x's part. The four lists are formed here, the question is the library's same products. */
#include "peers.h"

#include "plain.h"

size_t papers_rule_split(const poly *f) {
    static poly a, b, c, d;
    uint64_t left = 0;
    size_t parts = 0;
    for (size_t i = 0; i < f->t; i++) left |= f->terms[i];
    for (; left; parts++) {
        int x = __builtin_ctzll(left);
        left &= left - 1;
        derivative(&a, f, x);
        at_zero(&b, f, x);
        for (uint64_t rest = left; rest; rest &= rest - 1) {
            int y = __builtin_ctzll(rest);
            derivative(&c, &a, y);
            derivative(&d, &b, y);
            if (!apfelruder_same_products(a.terms, a.t, d.terms, d.t, b.terms, b.t, c.terms, c.t).count)
                left &= ~((uint64_t)1 << y);
        }
    }
    return parts;
}
