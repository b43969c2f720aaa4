/* Deploy in plain C: split after split, each with the room that is left. */
#include "plain.h"

static apfelruder_answer check_all(const uint64_t *lengths, size_t boards, size_t words_len, size_t answers_len) {
    if (boards > APFELRUDER_MAX_BOARDS) return plain_refuse(APFELRUDER_TOO_MANY, 0, 0);
    for (size_t k = 0; k < boards; words_len -= lengths[k++])
        if (lengths[k] > words_len) return plain_refuse(APFELRUDER_SHORT, 0, 0);
    if (words_len > 0) return plain_refuse(APFELRUDER_EXTRA, 0, 0);
    if (answers_len < APFELRUDER_DEPLOY_ANSWERS_WORDS(boards)) return plain_refuse(APFELRUDER_ROOM, 0, 0);
    return plain_accept(boards);
}

apfelruder_answer plain_deploy(const uint64_t *words, size_t words_len, const uint64_t *lengths, size_t boards,
                               uint64_t *answers, size_t answers_len, uint64_t *part_terms, size_t part_terms_len,
                               uint64_t *part_lengths, size_t part_lengths_len, uint64_t *work, size_t work_len) {
    apfelruder_answer all = check_all(lengths, boards, words_len, answers_len);
    if (all.code) return all;
    for (size_t k = 0; k < boards; words += lengths[k++], answers += APFELRUDER_ANSWER_WORDS) {
        apfelruder_answer one =
            plain_split(words, lengths[k], part_terms, part_terms_len, part_lengths, part_lengths_len, work, work_len);
        answers[0] = one.code, answers[1] = one.operand, answers[2] = one.place, answers[3] = one.count;
        part_lengths_len -= one.count;
        while (one.count-- > 0) part_terms_len -= *part_lengths, part_terms += *part_lengths++;
    }
    return all;
}
