/* Audit in two ways. Plain: the approved list is split, and the words are compared with the given ones. By questions: the auditor's
 * own, asked of the given parts with what the other calls offer. */
#include "plain.h"

#include <string.h>

/* The checks up to the order of the given parts. That of the approved list comes before it, but split checks it anyway: here it is
 * looked at only if a given part is out of order. */
static apfelruder_answer check_given(const uint64_t *terms, size_t t, const uint64_t *given, size_t given_len,
                                     const uint64_t *lengths, size_t parts) {
    if (parts > 64) return plain_refuse(APFELRUDER_TOO_MANY, 0, 0);
    for (size_t k = 0; k < parts; given_len -= lengths[k++])
        if (lengths[k] > given_len) return plain_refuse(APFELRUDER_SHORT, 0, 0);
    if (given_len > 0) return plain_refuse(APFELRUDER_EXTRA, 0, 0);
    if (t > APFELRUDER_MAX_TERMS) return plain_refuse(APFELRUDER_TOO_MANY, 1, 0);
    for (size_t k = 0; k < parts; k++)
        if (lengths[k] > APFELRUDER_MAX_TERMS) return plain_refuse(APFELRUDER_TOO_MANY, k + 2, 0);
    if (t == 0) return plain_refuse(APFELRUDER_ZERO, 1, 0);
    for (size_t k = 0; k < parts; given += lengths[k++]) {
        size_t bad = plain_unordered(given, lengths[k]);
        if (bad == lengths[k]) continue;
        size_t first = plain_unordered(terms, t);
        return first < t ? plain_refuse(APFELRUDER_ORDER, 1, first) : plain_refuse(APFELRUDER_ORDER, k + 2, bad);
    }
    return plain_accept(0);
}

apfelruder_answer plain_audit(const uint64_t *terms, size_t t, const uint64_t *given, size_t given_len,
                              const uint64_t *lengths, size_t parts, uint64_t *part_terms, size_t part_terms_len,
                              uint64_t *part_lengths, size_t part_lengths_len, uint64_t *work, size_t work_len) {
    apfelruder_answer answer = check_given(terms, t, given, given_len, lengths, parts);
    if (answer.code) return answer;
    answer = plain_split(terms, t, part_terms, part_terms_len, part_lengths, part_lengths_len, work, work_len);
    if (answer.code) return answer;
    return plain_accept(answer.count == parts && !memcmp(lengths, part_lengths, parts * sizeof *lengths) &&
                        !memcmp(given, part_terms, given_len * sizeof *given));
}

/* Whether the given parts multiply, one by one, to the list. */
static int multiply_back(const uint64_t *terms, size_t t, const uint64_t *given, const uint64_t *lengths, size_t parts) {
    static const uint64_t one[1] = {0};
    uint64_t made[2][APFELRUDER_MAX_TERMS];
    const uint64_t *product = parts ? given : one;
    size_t n = parts ? lengths[0] : 1;
    for (size_t k = 1; k < parts; k++) {
        given += lengths[k - 1];
        apfelruder_answer answer = plain_multiply(product, n, given, lengths[k], made[k % 2], APFELRUDER_MAX_TERMS);
        if (answer.code) return 0;
        product = made[k % 2], n = answer.count;
    }
    return n == t && !memcmp(product, terms, t * sizeof *terms);
}

static uint64_t lowest_variable(const uint64_t *part, size_t n) {
    uint64_t variables = plain_variables(part, n);
    return variables & -variables;
}

apfelruder_answer questions_audit(const uint64_t *terms, size_t t, const uint64_t *given, size_t given_len,
                                  const uint64_t *lengths, size_t parts, uint64_t *part_terms, size_t part_terms_len,
                                  uint64_t *part_lengths, size_t part_lengths_len, uint64_t *work, size_t work_len) {
    (void)given_len, (void)work_len;
    if (!multiply_back(terms, t, given, lengths, parts)) return plain_accept(0);
    for (size_t k = 0; k < parts; given += lengths[k++]) {
        size_t n = lengths[k];
        if (k > 0 && lowest_variable(given - lengths[k - 1], lengths[k - 1]) >= lowest_variable(given, n)) return plain_accept(0);
        apfelruder_answer answer = plain_split(given, n, part_terms, part_terms_len, part_lengths, part_lengths_len, work, 4 * n);
        if (answer.code || answer.count != 1) return plain_accept(0);
    }
    return plain_accept(1);
}
