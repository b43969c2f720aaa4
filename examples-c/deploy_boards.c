/* Splits the boards of a small deployment in one call and prints each board's answer and parts. On x86-64:
 *
 *   scripts/static-archive
 *   cc -O2 -Iinclude examples-c/deploy_boards.c target/staticlib/libapfelruder.a -o target/deploy_boards
 *   target/deploy_boards
 *
 * prints
 *   board 1: parts 2
 *   x0+x1
 *   1+x2
 *   board 2: refused 3 1 2
 *   board 3: parts 2
 *   x0
 *   1+x1+x2
 *
 * The list of the second board is out of order at place 2. It is refused and takes no room; the third board's parts lie directly
 * behind the first one's.
 *
 * Status: 0 if every board was accepted, 1 if one was refused, as here, 2 if the output cannot be written, with a line on
 * standard error. Words behind the name are not looked at. On another machine link target/native/libapfelruder.a, which
 * scripts/native-archive makes.
 */
#include "apfelruder.h"

#include <stdio.h>

enum { ACCEPTED = 0, REFUSED = 1, TROUBLE = 2 };

enum { BOARDS = 3, WORDS = 10, LONGEST = 4 };

/* The lists of all boards, one directly behind the other, and their lengths. */
static const uint64_t words[WORDS] = {
    1, 2, 5, 6, /* x0 + x1 + x0 x2 + x1 x2 */
    1, 4, 3,    /* x0, x2, and then x0 x1, which is not above x2 */
    1, 3, 5,    /* x0 + x0 x1 + x0 x2 */
};
static const uint64_t lengths[BOARDS] = {4, 3, 3};

/* Enough room for every board, whatever the lists. */
static uint64_t answers[APFELRUDER_DEPLOY_ANSWERS_WORDS(BOARDS)];
static uint64_t part_terms[APFELRUDER_DEPLOY_PART_TERMS_WORDS(WORDS, BOARDS)];
static uint64_t part_lengths[APFELRUDER_DEPLOY_PART_LENGTHS_WORDS(BOARDS)];
static uint64_t work[APFELRUDER_WORK_WORDS(LONGEST)];

#define SLICE(array) array, sizeof array / sizeof *array

static void print_term(uint64_t term) {
    const char *between = "";
    if (term == 0) printf("1");
    for (int i = 0; i < APFELRUDER_MAX_VARS; i++)
        if (term >> i & 1) {
            printf("%sx%d", between, i);
            between = "*";
        }
}

static void print_part(const uint64_t *part, uint64_t length) {
    for (uint64_t i = 0; i < length; i++) {
        if (i > 0) printf("+");
        print_term(part[i]);
    }
    printf("\n");
}

/* The four words of a board as the answer that a split of it gives. */
static apfelruder_answer answer_of(size_t board) {
    const uint64_t *its = answers + APFELRUDER_ANSWER_WORDS * board;
    apfelruder_answer answer = {its[0], its[1], its[2], its[3]};
    return answer;
}

static void print_refused(apfelruder_answer why) {
    printf("refused %llu %llu %llu\n", (unsigned long long)why.code, (unsigned long long)why.operand,
           (unsigned long long)why.place);
}

/* The answers in the order of the boards. The parts are walked along with them: only an accepted board has some. */
static int print_boards(size_t boards) {
    const uint64_t *part = part_terms, *length = part_lengths;
    int status = ACCEPTED;
    for (size_t board = 0; board < boards; board++) {
        apfelruder_answer answer = answer_of(board);
        printf("board %llu: ", (unsigned long long)board + 1);
        if (answer.code != APFELRUDER_ACCEPTED) {
            print_refused(answer);
            status = REFUSED;
            continue;
        }
        printf("parts %llu\n", (unsigned long long)answer.count);
        for (uint64_t i = 0; i < answer.count; i++) {
            print_part(part, *length);
            part += *length++;
        }
    }
    return status;
}

/* What printf could not write may show only now. */
static int delivered(int status) {
    if (!ferror(stdout) && fclose(stdout) == 0) return status;
    perror("standard output");
    return TROUBLE;
}

int main(void) {
    apfelruder_answer all =
        apfelruder_deploy(SLICE(words), SLICE(lengths), SLICE(answers), SLICE(part_terms), SLICE(part_lengths), SLICE(work));
    if (all.code != APFELRUDER_ACCEPTED) {
        print_refused(all);
        return delivered(REFUSED);
    }
    return delivered(print_boards(all.count));
}
