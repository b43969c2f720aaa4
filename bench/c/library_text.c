/* Texts by the C library: strtoul and qsort, snprintf. No checks. */
#include "peers.h"

#include <stdio.h>
#include <stdlib.h>

size_t library_read_text(const uint8_t *text, uint64_t *out) {
    const char *p = (const char *)text;
    size_t t = 0, left = 0;
    uint64_t term = 0;
    if (*p == '0') return 0;
    for (;;) {
        if (*p == '1') p++;
        else {
            char *end;
            term |= (uint64_t)1 << strtoul(p + 1, &end, 10);
            p = end;
        }
        if (*p == '*') {
            p++;
            continue;
        }
        out[t++] = term, term = 0;
        if (*p++ == '\n') break;
    }
    sort_terms(out, t);
    for (size_t i = 0; i < t;) {
        if (i + 1 < t && out[i] == out[i + 1]) i += 2;
        else out[left++] = out[i++];
    }
    return left;
}

size_t library_write_text(const poly *f, uint8_t *out, size_t room) {
    size_t at = 0;
    if (f->t == 0) at += (size_t)snprintf((char *)out, room, "0\n");
    for (size_t i = 0; i < f->t; i++) {
        const char *between = "";
        if (f->terms[i] == 0) at += (size_t)snprintf((char *)out + at, room - at, "1");
        for (int v = 0; v < 64; v++)
            if (f->terms[i] >> v & 1) {
                at += (size_t)snprintf((char *)out + at, room - at, "%sx%d", between, v);
                between = "*";
            }
        at += (size_t)snprintf((char *)out + at, room - at, i + 1 < f->t ? "+" : "\n");
    }
    return at;
}
