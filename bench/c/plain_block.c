/* Read and write in byte steps: a field of n bits at any bit is the first byte masked, whole bytes, and the last
 * byte shifted. Read goes through the block twice, since a refusal must leave the output alone. */
#include "plain.h"

/* The n bits at bit offset at, highest first; n is 0 to 64 and the bytes reach that far. */
static inline uint64_t field(const uint8_t *bytes, size_t at, unsigned n) {
    if (n == 0) return 0;
    const uint8_t *p = bytes + at / 8;
    unsigned skip = at % 8, have = 8 - skip;
    uint64_t v = *p++ & (0xffu >> skip);
    if (n <= have) return v >> (have - n);
    unsigned left = n - have;
    for (; left >= 8; left -= 8) v = v << 8 | *p++;
    return left ? v << left | *p >> (8 - left) : v;
}

apfelruder_answer plain_read(const uint8_t *bytes, size_t len, uint64_t *out, size_t room) {
    if (len < 3) return plain_refuse(APFELRUDER_SHORT, 1, 0);
    if (bytes[0] >> 4 != 1) return plain_refuse(APFELRUDER_FORM, 1, 0);
    unsigned n = (unsigned)field(bytes, 4, 7);
    size_t t = field(bytes, 11, 13);
    if (n > 64) return plain_refuse(APFELRUDER_WIDE, 1, 0);
    if (t > APFELRUDER_MAX_TERMS) return plain_refuse(APFELRUDER_TOO_MANY, 1, 0);
    size_t need = 3 + (n * t + 7) / 8;
    if (len < need) return plain_refuse(APFELRUDER_SHORT, 1, 0);
    if (len > need) return plain_refuse(APFELRUDER_EXTRA, 1, 0);
    if (room < t) return plain_refuse(APFELRUDER_ROOM, 1, 0);
    uint64_t last = 0;
    size_t at = 24;
    for (size_t i = 0; i < t; i++, at += n) {
        uint64_t v = field(bytes, at, n);
        if (i > 0 && v <= last) return plain_refuse(APFELRUDER_ORDER, 1, i);
        last = v;
    }
    if (n > plain_width(last)) return plain_refuse(APFELRUDER_MISFIT, 1, 0);
    if (field(bytes, at, (unsigned)(8 * len - at)) != 0) return plain_refuse(APFELRUDER_PAD, 1, 0);
    at = 24;
    for (size_t i = 0; i < t; i++, at += n) out[i] = field(bytes, at, n);
    return plain_accept(t);
}

/* What is written so far: whole bytes at p, and fewer than 8 bits that wait in carry. */
typedef struct {
    uint8_t *p;
    unsigned waiting, carry;
} writer;

static inline void put(writer *w, uint64_t v, unsigned n) {
    unsigned need = 8 - w->waiting;
    if (n < need) {
        w->carry = w->carry << n | (unsigned)v;
        w->waiting += n;
        return;
    }
    n -= need;
    *w->p++ = (uint8_t)(w->carry << need | (unsigned)(v >> n));
    for (; n >= 8; n -= 8) *w->p++ = (uint8_t)(v >> (n - 8));
    w->carry = (unsigned)(v & ((1u << n) - 1));
    w->waiting = n;
}

apfelruder_answer plain_write(const uint64_t *terms, size_t t, uint8_t *out, size_t room) {
    if (t > APFELRUDER_MAX_TERMS) return plain_refuse(APFELRUDER_TOO_MANY, 1, 0);
    size_t bad = plain_unordered(terms, t);
    if (bad < t) return plain_refuse(APFELRUDER_ORDER, 1, bad);
    unsigned n = t ? plain_width(terms[t - 1]) : 0;
    size_t need = 3 + (n * t + 7) / 8;
    if (room < need) return plain_refuse(APFELRUDER_ROOM, 1, 0);
    writer w = {out, 0, 0};
    put(&w, 1, 4);
    put(&w, n, 7);
    put(&w, t, 13);
    for (size_t i = 0; i < t; i++) put(&w, terms[i], n);
    if (w.waiting) put(&w, 0, 8 - w.waiting);
    return plain_accept(need);
}
