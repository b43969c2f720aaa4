/* Plain C baselines of all calls: the same methods as the proved library, written without proofs, for
 * the benchmark alone. Same signatures and same answers as include/apfelruder.h, under the prefix plain_. */
#ifndef PLAIN_H
#define PLAIN_H

#include "../../include/apfelruder.h"

apfelruder_answer plain_split(const uint64_t *terms, size_t t, uint64_t *part_terms, size_t part_terms_len,
                              uint64_t *part_lengths, size_t part_lengths_len, uint64_t *work, size_t work_len);
apfelruder_answer plain_multiply(const uint64_t *a, size_t a_len, const uint64_t *b, size_t b_len,
                                 uint64_t *out, size_t out_len);
apfelruder_answer plain_same_products(const uint64_t *a, size_t a_len, const uint64_t *d, size_t d_len,
                                      const uint64_t *b, size_t b_len, const uint64_t *c, size_t c_len);
apfelruder_answer plain_read(const uint8_t *bytes, size_t bytes_len, uint64_t *out, size_t out_len);
apfelruder_answer plain_write(const uint64_t *terms, size_t t, uint8_t *out, size_t out_len);
apfelruder_answer plain_read_text(const uint8_t *text, size_t text_len, uint64_t *out, size_t out_len);
apfelruder_answer plain_write_text(const uint64_t *terms, size_t t, uint8_t *out, size_t out_len);
apfelruder_answer plain_audit(const uint64_t *terms, size_t t, const uint64_t *given, size_t given_len,
                              const uint64_t *lengths, size_t parts, uint64_t *part_terms, size_t part_terms_len,
                              uint64_t *part_lengths, size_t part_lengths_len, uint64_t *work, size_t work_len);
apfelruder_answer plain_deploy(const uint64_t *words, size_t words_len, const uint64_t *lengths, size_t boards,
                               uint64_t *answers, size_t answers_len, uint64_t *part_terms, size_t part_terms_len,
                               uint64_t *part_lengths, size_t part_lengths_len, uint64_t *work, size_t work_len);

/* The text of terms in any order; there must be room for it. Its bytes come back. */
size_t plain_spell(const uint64_t *terms, size_t t, uint8_t *out);

/* Split as it was before: closure under mixing, asked for by binary search (bench/c/plain_closure.c). */
apfelruder_answer closure_split(const uint64_t *terms, size_t t, uint64_t *part_terms, size_t part_terms_len,
                                uint64_t *part_lengths, size_t part_lengths_len, uint64_t *work, size_t work_len);

/* The auditor's questions asked of the given parts, up to the first no (bench/c/plain_audit.c): multiplied one by one, are they the
 * list; are they in order; is each, split, one part. It refuses nothing and leaves no parts. */
apfelruder_answer questions_audit(const uint64_t *terms, size_t t, const uint64_t *given, size_t given_len,
                                  const uint64_t *lengths, size_t parts, uint64_t *part_terms, size_t part_terms_len,
                                  uint64_t *part_lengths, size_t part_lengths_len, uint64_t *work, size_t work_len);

/* The number of questions that the last plain_same_products asked, and of membership searches and rounds that the
 * last closure_split made; counted only if compiled with -DPLAIN_COUNT. */
extern unsigned long plain_questions, plain_searches, plain_rounds;
#ifdef PLAIN_COUNT
#define PLAIN_ONE_MORE(counter) ((counter)++)
#else
#define PLAIN_ONE_MORE(counter) ((void)0)
#endif

static inline apfelruder_answer plain_refuse(uint64_t code, uint64_t operand, uint64_t place) {
    apfelruder_answer r = {code, operand, place, 0};
    return r;
}

static inline apfelruder_answer plain_accept(uint64_t count) {
    apfelruder_answer r = {0, 0, 0, count};
    return r;
}

/* The first index whose term is not above the one before it, or the length. */
static inline size_t plain_unordered(const uint64_t *terms, size_t t) {
    for (size_t i = 1; i < t; i++)
        if (terms[i] <= terms[i - 1]) return i;
    return t;
}

static inline uint64_t plain_variables(const uint64_t *terms, size_t t) {
    uint64_t v = 0;
    for (size_t i = 0; i < t; i++) v |= terms[i];
    return v;
}

/* One more than the highest set bit. */
static inline unsigned plain_width(uint64_t m) { return m ? 64 - (unsigned)__builtin_clzll(m) : 0; }

#endif
