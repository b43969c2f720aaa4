/* Multiply without a work area: cut the list that holds the highest bit in which its terms differ at the first term
 * that has it; the low half's product stands wholly before the high half's. */
#include "plain.h"

static uint64_t *product(const uint64_t *a, size_t an, const uint64_t *b, size_t bn, uint64_t *out) {
    if (an == 1) {
        for (size_t i = 0; i < bn; i++) out[i] = a[0] | b[i];
        return out + bn;
    }
    if (bn == 1) {
        for (size_t i = 0; i < an; i++) out[i] = a[i] | b[0];
        return out + an;
    }
    uint64_t da = a[0] ^ a[an - 1], db = b[0] ^ b[bn - 1];
    if (da < db) return product(b, bn, a, an, out);
    uint64_t top = (uint64_t)1 << 63 >> __builtin_clzll(da);
    size_t low = 0, high = an - 1; /* a[low] lacks the bit, a[high] has it */
    while (high - low > 1) {
        size_t mid = low + (high - low) / 2;
        if (a[mid] & top) high = mid;
        else low = mid;
    }
    out = product(a, high, b, bn, out);
    return product(a + high, an - high, b, bn, out);
}

apfelruder_answer plain_multiply(const uint64_t *a, size_t an, const uint64_t *b, size_t bn, uint64_t *out,
                                 size_t room) {
    if (an > APFELRUDER_MAX_TERMS) return plain_refuse(APFELRUDER_TOO_MANY, 1, 0);
    if (bn > APFELRUDER_MAX_TERMS) return plain_refuse(APFELRUDER_TOO_MANY, 2, 0);
    size_t bad = plain_unordered(a, an);
    if (bad < an) return plain_refuse(APFELRUDER_ORDER, 1, bad);
    bad = plain_unordered(b, bn);
    if (bad < bn) return plain_refuse(APFELRUDER_ORDER, 2, bad);
    if (plain_variables(a, an) & plain_variables(b, bn)) return plain_refuse(APFELRUDER_SHARED, 0, 0);
    if (an * bn > APFELRUDER_MAX_TERMS) return plain_refuse(APFELRUDER_TOO_LARGE, 0, 0);
    if (room < an * bn) return plain_refuse(APFELRUDER_ROOM, 0, 0);
    if (an && bn) product(a, an, b, bn, out);
    return plain_accept(an * bn);
}
