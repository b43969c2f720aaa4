/* Deploy beside as many splits of the same lists, in the same program, by turns, into the same rooms. */
#include "deploys.h"
#include "families.h"
#include "measure.h"

#include <stdio.h>
#include <stdlib.h>
#include <string.h>

enum { BOARDS = APFELRUDER_MAX_BOARDS };

/* A deployment, the room that is lent, and what came back. */
typedef struct {
    uint64_t words[BOARDS * (LONGEST + 1)], lengths[BOARDS];
    size_t words_len, boards, longest, part_terms_len;
    uint64_t answers[4 * BOARDS], part_terms[BOARDS * (LONGEST + 1 + 64)], part_lengths[64 * BOARDS], work[4 * LONGEST];
    size_t result;
} ship;

#define LISTS s->words, s->words_len, s->lengths, s->boards
#define ROOM                                                                                                          \
    s->answers, APFELRUDER_DEPLOY_ANSWERS_WORDS(s->boards), s->part_terms, s->part_terms_len, s->part_lengths,        \
        APFELRUDER_DEPLOY_PART_LENGTHS_WORDS(s->boards), s->work, APFELRUDER_WORK_WORDS(s->longest)

#if defined HAVE_SPLIT && !defined BEFORE
#define BESIDE_SPLIT
/* What a caller writes who has no deploy: each list is split with the room that is left, and its answer is kept. */
static void split_by_split(ship *s) {
    const uint64_t *words = s->words;
    uint64_t *answers = s->answers, *part_terms = s->part_terms, *part_lengths = s->part_lengths;
    size_t terms_left = s->part_terms_len, lengths_left = APFELRUDER_DEPLOY_PART_LENGTHS_WORDS(s->boards);
    for (size_t k = 0; k < s->boards; words += s->lengths[k++], answers += 4) {
        apfelruder_answer one = apfelruder_split(words, s->lengths[k], part_terms, terms_left, part_lengths, lengths_left,
                                                 s->work, APFELRUDER_WORK_WORDS(s->longest));
        answers[0] = one.code, answers[1] = one.operand, answers[2] = one.place, answers[3] = one.count;
        lengths_left -= one.count;
        while (one.count-- > 0) terms_left -= *part_lengths, part_terms += *part_lengths++;
    }
    s->result = s->boards;
}
#endif

#define METHOD(name, body)                                                                                            \
    static void name(void *with) {                                                                                    \
        ship *s = with;                                                                                               \
        body;                                                                                                         \
    }
#ifdef BESIDE_SPLIT
METHOD(splits_ours, split_by_split(s))
#endif
#ifdef HAVE_DEPLOY
METHOD(deploy_ours, s->result = apfelruder_deploy(LISTS, ROOM).count)
#endif
#ifndef BEFORE
METHOD(deploy_plain, s->result = plain_deploy(LISTS, ROOM).count)
#endif
#ifdef BEFORE_DEPLOY
extern __typeof__(apfelruder_deploy) before_deploy;
METHOD(deploy_before, s->result = before_deploy(LISTS, ROOM).count)
#endif

/* The first is what the others are held to. Beside an earlier library, which may have no deploy, stands nothing else. */
static const char *const names[] = {
#ifdef BESIDE_SPLIT
    "ours, split by split",
#endif
#ifdef HAVE_DEPLOY
    "ours, deploy",
#endif
#ifndef BEFORE
    "plain C, deploy",
#endif
#ifdef BEFORE_DEPLOY
    "before, deploy",
#endif
};
static void (*const methods[])(void *) = {
#ifdef BESIDE_SPLIT
    splits_ours,
#endif
#ifdef HAVE_DEPLOY
    deploy_ours,
#endif
#ifndef BEFORE
    deploy_plain,
#endif
#ifdef BEFORE_DEPLOY
    deploy_before,
#endif
};
enum { METHODS = sizeof methods / sizeof *methods };

static ship current;

/* ---- the deployments */

static void empty_ship(void) { current.words_len = current.boards = current.longest = 0; }

static void add_board(const uint64_t *terms, size_t t) {
    memcpy(&current.words[current.words_len], terms, t * sizeof *terms);
    current.lengths[current.boards++] = t;
    current.words_len += t;
    if (t > current.longest && t <= LONGEST) current.longest = t;
}

/* Enough room for every board. */
static void lend_enough(void) { current.part_terms_len = APFELRUDER_DEPLOY_PART_TERMS_WORDS(current.words_len, current.boards); }

static const poly *board_of(const family *f, int size, int k) {
    static job made;
    random_seed((uint64_t)(k % f->instances) + 1);
    f->make(&made, size);
    return &made.a;
}

static void same_size(const family *f, int size, int boards) {
    empty_ship();
    for (int k = 0; k < boards; k++) add_board(LIST(*board_of(f, size, k)));
    lend_enough();
}

/* Two random factors: 64 boards of 1,024 terms, some of which are then spoilt. */
static void factors(void) { same_size(&deploy_families[0], LONGEST, BOARDS); }
static void several_sizes(void) {
    empty_ship();
    for (int k = 0; k < BOARDS; k++) add_board(LIST(*board_of(&deploy_families[0], 16 << 2 * (k % 4), k)));
    lend_enough();
}
static void eight_boards(void) { same_size(&deploy_families[0], LONGEST, 8); }
static void one_board(void) { same_size(&deploy_families[0], 16, 1); }
/* The last term of every so many boards becomes 0. */
static void spoil(int every) {
    size_t at = 0;
    for (int k = 0; k < BOARDS; k++) {
        at += current.lengths[k];
        if (k % every == every - 1) current.words[at - 1] = 0;
    }
}
static void eighth_spoilt(void) { factors(), spoil(8); }
static void half_spoilt(void) { factors(), spoil(2); }
static void all_spoilt(void) { factors(), spoil(1); }
static void too_long(void) {
    uint64_t terms[LONGEST + 1];
    for (size_t i = 0; i <= LONGEST; i++) terms[i] = i;
    empty_ship();
    for (int k = 0; k < BOARDS; k++) add_board(terms, LONGEST + 1);
    lend_enough();
}
static void all_empty(void) {
    empty_ship();
    for (int k = 0; k < BOARDS; k++) add_board(current.words, 0);
    lend_enough();
}
/* Each board is read to its end, and then there is no room for it. */
static void no_room(void) { factors(), current.part_terms_len = LONGEST + 63; }

static const struct {
    const char *name;
    void (*make)(void);
} others[] = {
    {"64 boards of 16, 64, 256 and 1,024 terms by turns", several_sizes},
    {"8 boards of 1,024 terms", eight_boards},
    {"1 board of 16 terms", one_board},
    {"64 of 1,024 terms, every eighth out of order at its end", eighth_spoilt},
    {"64 of 1,024 terms, every second out of order at its end", half_spoilt},
    {"64 of 1,024 terms, all out of order at their ends", all_spoilt},
    {"64 of 1,024 terms, no room for any", no_room},
    {"64 of 1,025 terms", too_long},
    {"64 without terms", all_empty},
};

/* ---- timing */

/* Everything that the methods leave must be the same: answers, part terms, part lengths and work, also where nothing is written. */
static void check_deploys(const char *input) {
    static ship first;
    for (int m = 0; m < METHODS; m++) {
        memset(current.answers, 0xa5, sizeof current.answers), memset(current.part_terms, 0xa5, sizeof current.part_terms);
        memset(current.part_lengths, 0xa5, sizeof current.part_lengths), memset(current.work, 0xa5, sizeof current.work);
        methods[m](&current);
        if (m == 0) first = current;
        if (current.result == current.boards && !memcmp(&current, &first, sizeof first)) continue;
        fprintf(stderr, "bench: %s and %s differ on %s\n", names[0], names[m], input);
        exit(1);
    }
}

/* Times the current deployment; the ratio of the second method to the first comes back. */
static double row(const char *input) {
    double us[MOST_COLUMNS], ratios[MOST_COLUMNS];
    check_deploys(input);
    by_turns(methods, METHODS, &current, us, ratios);
    table_row_held(input, current.words_len, us, ratios);
    return ratios[METHODS > 1];
}

#if defined BESIDE_SPLIT && defined HAVE_DEPLOY
/* On which lines the goal is missed, if on any. */
static void print_goal(const double *ratios) {
    int missed = 0;
    for (int i = 0; i < deploy_families_count; i++) missed += ratios[i] > 1.05;
    printf("- goal, deploy at most 1.05 times split by split: met on %d of %d lines", deploy_families_count - missed,
           deploy_families_count);
    for (int i = 0, told = 0; i < deploy_families_count; i++)
        if (ratios[i] > 1.05) printf("%s%s (%.3f)", told++ ? ", " : "; not on ", deploy_families[i].name, ratios[i]);
    printf("\n");
}
#else
static void print_goal(const double *ratios) { (void)ratios; }
#endif

void run_deploys(void) {
    static const char *const titles[] = {"deploy, 64 boards of 1,024 terms", "deploy, 64 boards of 256 terms",
                                         "deploy, 64 boards of 64 terms", "deploy, 64 boards of 16 terms"};
    double ratios[64];
    if (METHODS == 0) return;
    for (int k = 0; k < 4; k++) {
        table_start(titles[k], names, METHODS);
        for (int i = 0; i < deploy_families_count; i++) {
            same_size(&deploy_families[i], LONGEST >> 2 * k, BOARDS);
            ratios[i] = row(deploy_families[i].name);
        }
        table_end();
        if (k == 0) print_goal(ratios);
    }
    table_start("deploy, other deployments of two random factors, and refused boards", names, METHODS);
    for (size_t i = 0; i < sizeof others / sizeof *others; i++) others[i].make(), row(others[i].name);
    table_end();
}
