/* The benchmark: each call on each input family, by the proved library where it is linked in (-DHAVE_READ, ..), by plain
 * C of the same method, by the published methods, and by FLINT where it is installed. Usage: bench CALL.., where a CALL is
 * split, multiply, same_products, read, write, read_text, write_text, audit or deploy, or split_second or
 * same_products_second, and gives its table, audit two, deploy five; or bench growth SVG. bench/run builds and calls it. */
#include "deploys.h"
#include "families.h"
#include "measure.h"
#include "peers.h"
#include "picture.h"

#include <math.h>
#include <signal.h>
#include <stdio.h>
#include <stdlib.h>
#include <string.h>
#include <sys/resource.h>
#include <sys/wait.h>
#include <unistd.h>

typedef struct {
    const char *name;
    void (*go)(void *);
    int slow;           /* in the tables measured on the first input of a family alone, in a second set for some seconds at most */
    const char *colour; /* of its line in the picture, NULL if it has none */
} method;

#define METHOD(name, body)                                                                                            \
    static void name(void *with) {                                                                                    \
        job *j = with;                                                                                                \
        j->result = (size_t)(body);                                                                                   \
    }
#define SPLIT_ROOM j->words, j->a.t + 64, j->lengths, 64, j->work, 4 * j->a.t
#define AUDIT LIST(j->a), j->given, j->given_words, j->given_lengths, j->given_parts, SPLIT_ROOM

/* Yes, no, or refused. */
static size_t verdict(apfelruder_answer answer) { return answer.code ? 2 : answer.count; }

METHOD(split_plain, plain_split(LIST(j->a), SPLIT_ROOM).count)
METHOD(split_closure, closure_split(LIST(j->a), SPLIT_ROOM).count)
METHOD(split_algorithm3, algorithm3_split(&j->a))
METHOD(multiply_plain, plain_multiply(LIST(j->a), LIST(j->b), j->words, LONGEST).count)
METHOD(multiply_merge, merge_multiply(&j->a, &j->b, j->words))
METHOD(multiply_sort, sorting_multiply(&j->a, &j->b, j->words))
METHOD(same_plain, plain_same_products(LIST(j->a), LIST(j->d), LIST(j->b), LIST(j->c)).count)
METHOD(same_papers, papers_same(&j->a, &j->d, &j->b, &j->c, 10000000))
METHOD(same_direct, direct_same(&j->a, &j->d, &j->b, &j->c))
METHOD(read_plain, plain_read(j->block, j->block_bytes, j->words, LONGEST).count)
METHOD(read_bits, bitwise_read(j->block, j->block_bytes, j->words))
METHOD(write_plain, plain_write(LIST(j->a), j->bytes, sizeof j->bytes).count)
METHOD(write_bits, bitwise_write(&j->a, j->bytes))
METHOD(read_text_plain, plain_read_text(j->text, j->text_bytes, j->words, LONGEST).count)
METHOD(read_text_library, library_read_text(j->text, j->words))
METHOD(write_text_plain, plain_write_text(LIST(j->a), j->written, sizeof j->written).count)
METHOD(write_text_library, library_write_text(&j->a, j->written, sizeof j->written))
METHOD(audit_plain, verdict(plain_audit(AUDIT)))
METHOD(audit_questions, verdict(questions_audit(AUDIT)))
#ifdef HAVE_SPLIT
METHOD(split_ours, apfelruder_split(LIST(j->a), SPLIT_ROOM).count)
#endif
#ifdef HAVE_MULTIPLY
METHOD(multiply_ours, apfelruder_multiply(LIST(j->a), LIST(j->b), j->words, LONGEST).count)
#endif
#ifdef HAVE_SAME_PRODUCTS
METHOD(same_ours, apfelruder_same_products(LIST(j->a), LIST(j->d), LIST(j->b), LIST(j->c)).count)
#endif
#ifdef HAVE_SAME_PRODUCTS
METHOD(split_rule, papers_rule_split(&j->a))
#endif
#ifdef HAVE_READ
METHOD(read_ours, apfelruder_read(j->block, j->block_bytes, j->words, LONGEST).count)
#endif
#ifdef HAVE_WRITE
METHOD(write_ours, apfelruder_write(LIST(j->a), j->bytes, sizeof j->bytes).count)
#endif
#ifdef HAVE_READ_TEXT
METHOD(read_text_ours, apfelruder_read_text(j->text, j->text_bytes, j->words, LONGEST).count)
#endif
#ifdef HAVE_WRITE_TEXT
METHOD(write_text_ours, apfelruder_write_text(LIST(j->a), j->written, sizeof j->written).count)
#endif
#ifdef HAVE_AUDIT
METHOD(audit_ours, verdict(apfelruder_audit(AUDIT)))
/* Split gives no verdict: if it finds as many parts as are given, the right one stands for its own. */
METHOD(audit_split, apfelruder_split(LIST(j->a), SPLIT_ROOM).count == j->given_parts ? j->right : 2)
#endif
#ifdef BEFORE
#define EARLIER(call) extern __typeof__(apfelruder_##call) before_##call
EARLIER(read);
EARLIER(write);
EARLIER(multiply);
EARLIER(same_products);
EARLIER(split);
METHOD(split_before, before_split(LIST(j->a), SPLIT_ROOM).count)
METHOD(multiply_before, before_multiply(LIST(j->a), LIST(j->b), j->words, LONGEST).count)
METHOD(same_before, before_same_products(LIST(j->a), LIST(j->d), LIST(j->b), LIST(j->c)).count)
METHOD(read_before, before_read(j->block, j->block_bytes, j->words, LONGEST).count)
METHOD(write_before, before_write(LIST(j->a), j->bytes, sizeof j->bytes).count)
#ifdef BEFORE_READ_TEXT
EARLIER(read_text);
METHOD(read_text_before, before_read_text(j->text, j->text_bytes, j->words, LONGEST).count)
#endif
#ifdef BEFORE_WRITE_TEXT
EARLIER(write_text);
METHOD(write_text_before, before_write_text(LIST(j->a), j->written, sizeof j->written).count)
#endif
#ifdef BEFORE_AUDIT
EARLIER(audit);
METHOD(audit_before, verdict(before_audit(AUDIT)))
#endif
#endif
#ifdef HAVE_FLINT
METHOD(split_flint, flint_split(&j->a))
METHOD(multiply_flint, flint_multiply(&j->a, &j->b))
METHOD(same_flint, flint_same(&j->a, &j->d, &j->b, &j->c))
#endif

/* The methods of each call; the first is what the others are held to. Beside an earlier library stands nothing else. */
#ifdef BEFORE
#define BESIDE(call)                                                                                                  \
    static const method call##_methods[] = {{"ours", call##_ours, 0, NULL}, {"before", call##_before, 0, NULL}};
BESIDE(split)
BESIDE(multiply)
BESIDE(same)
BESIDE(read)
BESIDE(write)
/* These are younger: an earlier library may not have them. */
#define ALONE(call) static const method call##_methods[] = {{"ours", call##_ours, 0, NULL}};
#ifdef BEFORE_READ_TEXT
BESIDE(read_text)
#else
ALONE(read_text)
#endif
#ifdef BEFORE_WRITE_TEXT
BESIDE(write_text)
#else
ALONE(write_text)
#endif
#ifdef BEFORE_AUDIT
BESIDE(audit)
#else
ALONE(audit)
#endif
#else
static const method split_methods[] = {
#ifdef HAVE_SPLIT
    {"ours", split_ours, 0, "#1253a4"},
#endif
    {"plain C", split_plain, 0, "#2e7d32"},
    {"closure by search", split_closure, 0, NULL},
#ifdef HAVE_SAME_PRODUCTS
    {"papers' rule, pair by pair", split_rule, 1, NULL},
#endif
    {"algorithm 3", split_algorithm3, 1, "#b35900"},
#ifdef HAVE_FLINT
    {"FLINT", split_flint, 1, "#c2185b"},
#endif
};
static const method multiply_methods[] = {
#ifdef HAVE_MULTIPLY
    {"ours", multiply_ours, 0, NULL},
#endif
    {"plain C", multiply_plain, 0, NULL},
    {"C merge", multiply_merge, 0, NULL},
    {"unions and qsort", multiply_sort, 0, NULL},
#ifdef HAVE_FLINT
    {"FLINT", multiply_flint, 0, NULL},
#endif
};
static const method same_methods[] = {
#ifdef HAVE_SAME_PRODUCTS
    {"ours", same_ours, 0, "#1253a4"},
#endif
    {"plain C", same_plain, 0, "#2e7d32"},
    {"papers' choice", same_papers, 1, "#6a1b9a"},
    {"multiplied out", same_direct, 1, "#5d4037"},
#ifdef HAVE_FLINT
    {"FLINT", same_flint, 1, "#c2185b"},
#endif
};
static const method read_methods[] = {
#ifdef HAVE_READ
    {"ours", read_ours, 0, NULL},
#endif
    {"plain C", read_plain, 0, NULL},
    {"bit by bit, no checks", read_bits, 0, NULL},
};
static const method write_methods[] = {
#ifdef HAVE_WRITE
    {"ours", write_ours, 0, NULL},
#endif
    {"plain C", write_plain, 0, NULL},
    {"bit by bit, no checks", write_bits, 0, NULL},
};
static const method read_text_methods[] = {
#ifdef HAVE_READ_TEXT
    {"ours", read_text_ours, 0, NULL},
#endif
    {"plain C", read_text_plain, 0, NULL},
    {"strtoul and qsort, no checks", read_text_library, 0, NULL},
};
static const method write_text_methods[] = {
#ifdef HAVE_WRITE_TEXT
    {"ours", write_text_ours, 0, NULL},
#endif
    {"plain C", write_text_plain, 0, NULL},
    {"snprintf, no checks", write_text_library, 0, NULL},
};
static const method audit_methods[] = {
#ifdef HAVE_AUDIT
    {"ours", audit_ours, 0, NULL},
    {"ours, split alone", audit_split, 0, NULL},
#endif
    {"plain C", audit_plain, 0, NULL},
    {"plain C, question by question", audit_questions, 0, NULL},
};
#endif
#define METHODS(of) of, (int)(sizeof of / sizeof *of)

static job current;

/* The lists of the current input must be lists. */
static void check_lists(const char *input) {
    const poly *lists[] = {&current.a, &current.d, &current.b, &current.c};
    for (int k = 0; k < 4; k++)
        if (lists[k]->t > LONGEST || plain_unordered(LIST(*lists[k])) != lists[k]->t) {
            fprintf(stderr, "bench: %s is not made of ascending lists\n", input);
            exit(1);
        }
}

/* The terms and bytes themselves, not only their number, must be the same by ours, plain C and the C library: the list that was
 * typed, and its text. */
static void check_texts(const char *input, const method *methods, int columns, int is_read) {
    static uint8_t right[APFELRUDER_MAX_TEXT_BYTES];
    size_t t = current.a.t, bytes = plain_spell(LIST(current.a), right);
    for (int m = 0; m < columns; m++) {
        memset(current.words, 0, sizeof current.words), memset(current.written, 0, sizeof current.written);
        methods[m].go(&current);
        int same = is_read ? current.result == t && !memcmp(current.words, current.a.terms, t * sizeof *current.words)
                           : current.result == bytes && !memcmp(current.written, right, bytes);
        if (same) continue;
        fprintf(stderr, "bench: %s is wrong on %s\n", methods[m].name, input);
        exit(1);
    }
}

/* The parts themselves, not only their number, must be the same by ours, plain C and closure by search. */
static void check_parts(const char *input) {
    static apfelruder_answer (*const splits[])(const uint64_t *, size_t, uint64_t *, size_t, uint64_t *, size_t, uint64_t *, size_t) = {
#ifdef HAVE_SPLIT
        apfelruder_split,
#endif
        plain_split, closure_split};
    static job parts[sizeof splits / sizeof *splits];
    for (size_t k = 0; k < sizeof splits / sizeof *splits; k++) {
        job *j = &parts[k];
        j->a = current.a;
        memset(j->words, 0, sizeof j->words), memset(j->lengths, 0, sizeof j->lengths);
        apfelruder_answer answer = splits[k](LIST(j->a), SPLIT_ROOM);
        j->result = answer.count;
        if (answer.code == 0 && j->result == parts[0].result && !memcmp(j->words, parts[0].words, sizeof j->words) &&
            !memcmp(j->lengths, parts[0].lengths, sizeof j->lengths))
            continue;
        fprintf(stderr, "bench: the parts differ on %s\n", input);
        exit(1);
    }
}

/* The answer must be that of how the parts were given, and all that leave the parts of the list must leave the right ones. */
static void check_audits(const char *input, const method *methods, int columns) {
    static job right;
    job *j = &right;
    j->a = current.a;
    memset(j->words, 0, sizeof j->words), memset(j->lengths, 0, sizeof j->lengths);
    plain_split(LIST(j->a), SPLIT_ROOM);
    for (int m = 0; m < columns; m++) {
        memset(current.words, 0, sizeof current.words), memset(current.lengths, 0, sizeof current.lengths);
        methods[m].go(&current);
        if (current.result == current.right &&
            (methods[m].go == audit_questions || (!memcmp(current.words, right.words, sizeof right.words) &&
                                                  !memcmp(current.lengths, right.lengths, sizeof right.lengths))))
            continue;
        fprintf(stderr, "bench: %s is wrong on %s\n", methods[m].name, input);
        exit(1);
    }
}

static const int SECONDS = 3;

/* The time in a process of its own, which ends after so many seconds on the processor: then the result is -1. */
static double microseconds_within(void (*go)(void *)) {
    struct { double microseconds; size_t result; } told = {INFINITY, (size_t)-1};
    int ends[2], status;
    pid_t child = pipe(ends) ? -1 : fork();
    if (child == 0) {
        setrlimit(RLIMIT_CORE, &(struct rlimit){0, 0});
        setrlimit(RLIMIT_CPU, &(struct rlimit){(rlim_t)SECONDS, (rlim_t)SECONDS + 1});
        told.microseconds = median_microseconds(go, &current), told.result = current.result;
        _exit(write(ends[1], &told, sizeof told) != sizeof told);
    }
    if (child > 0) close(ends[1]);
    int is_told = child > 0 && read(ends[0], &told, sizeof told) == sizeof told;
    if (child < 0 || waitpid(child, &status, 0) != child || !(is_told || (WIFSIGNALED(status) && WTERMSIG(status) == SIGXCPU))) {
        fprintf(stderr, "bench: a method failed in its own process\n");
        exit(1);
    }
    close(ends[0]);
    current.result = told.result;
    return told.microseconds;
}

/* Times one method on the current input; 0 if it gave up. Its result must be the first method's. */
static int timed(const method *m, const method *first, size_t *right, const char *input, int hurried, double *microseconds) {
    *microseconds = hurried && m->slow ? microseconds_within(m->go) : median_microseconds(m->go, &current);
    if (m == first) *right = current.result;
    if (current.result == (size_t)-1) return 0;
    if (current.result == *right) return 1;
    fprintf(stderr, "bench: %s gives %zu and %s gives %zu on %s\n", first->name, *right, m->name, current.result, input);
    exit(1);
}

static void measure_family(const family *f, const method *methods, int columns, int hurried, double *median) {
    double times[MOST_COLUMNS][16];
    int measured[MOST_COLUMNS] = {0};
    for (int i = 0; i < f->instances; i++) {
        random_seed((uint64_t)i + 1);
        f->make(&current, f->size);
        check_lists(f->name);
        if (methods == split_methods || methods == audit_methods) check_parts(f->name);
        if (methods == audit_methods) give_parts(&current), check_audits(f->name, methods, columns);
        if (methods == read_text_methods || methods == write_text_methods)
            check_texts(f->name, methods, columns, methods == read_text_methods);
        size_t right = 0;
        for (int m = 0; m < columns; m++) {
            if (methods[m].slow && i > 0) continue;
            double *us = &times[m][measured[m]++];
            if (!timed(&methods[m], methods, &right, f->name, hurried, us)) *us = INFINITY;
        }
#ifdef BEFORE /* in turns, and the least time of each: a busy moment of the machine would fall on one of the two */
        for (int turn = 1; turn < 7; turn++)
            for (int m = 0; m < columns; m++) {
                double us, *least = &times[m][measured[m] - 1];
                timed(&methods[m], methods, &right, f->name, 0, &us);
                if (us < *least) *least = us;
            }
#endif
    }
    for (int m = 0; m < columns; m++) median[m] = median_of(times[m], measured[m]);
}

/* Hurried: the slow methods are given up after some seconds. */
static void run_families(const char *title, const family *families, int count, const method *methods, int columns, int hurried) {
    const char *names[MOST_COLUMNS];
    double us[MOST_COLUMNS];
    for (int m = 0; m < columns; m++) names[m] = methods[m].name;
    table_start(title, names, columns);
    for (int i = 0; i < count; i++) {
        measure_family(&families[i], methods, columns, hurried, us);
        table_row(families[i].name, current.a.t, us);
    }
    table_end();
}

/* ---- growth */

/* A method that takes longer than this for one call is tried on no other input of that size and on no larger one. */
static const double TOO_SLOW = 3e6;
enum { SEEDS = 3 };

/* Adds to each line the point for one size: the median over the seeds. */
static void measure_size(panel *p, const growing *g, const method *const *methods, int size) {
    double times[MOST_COLUMNS][SEEDS];
    int measured[MOST_COLUMNS] = {0}, ended[MOST_COLUMNS] = {0};
    for (int seed = 0; seed < SEEDS; seed++) {
        random_seed((uint64_t)seed + 1);
        g->make(&current, size);
        size_t right = 0;
        for (int m = 0; m < p->count; m++) {
            if (p->lines[m].too_slow) continue;
            double *us = &times[m][measured[m]++];
            ended[m] += timed(methods[m], methods[0], &right, g->name, 0, us);
            p->lines[m].too_slow = *us > TOO_SLOW;
        }
    }
    for (int m = 0; m < p->count; m++) {
        series *s = &p->lines[m];
        if (measured[m] == 0) continue;
        s->terms[s->points] = (double)current.a.t;
        s->given_up[s->points] = 2 * ended[m] <= measured[m];
        s->microseconds[s->points++] = median_of(times[m], measured[m]);
    }
}

static void measure_growth(panel *p, const growing *g, const method *methods, int columns) {
    const method *raced[MOST_COLUMNS];
    p->name = g->name, p->count = 0;
    for (int m = 0; m < (g->is_drawn ? columns : 1); m++) {
        if (m > 0 && !methods[m].colour) continue;
        series line = {.name = methods[m].name, .colour = methods[m].colour};
        raced[p->count] = &methods[m], p->lines[p->count++] = line;
    }
    for (int k = 0; k < SIZES; k++) measure_size(p, g, raced, SMALLEST << k);
}

static int run_growth(const char *picture) {
    static panel all[MOST_PANELS];
    for (int i = 0; i < growing_inputs_count; i++) {
        const growing *g = &growing_inputs[i];
        if (g->is_split) measure_growth(&all[i], g, METHODS(split_methods));
        else measure_growth(&all[i], g, METHODS(same_methods));
    }
    growth_table(all, growing_inputs_count);
    peers_table(all, growing_inputs_count);
    if (growth_picture(picture, all, growing_inputs_count)) return 0;
    fprintf(stderr, "bench: cannot write the picture to %s\n", picture);
    return 1;
}

#define FAMILIES(of) of, of##_count

static void run_audits(const char *title, size_t right) {
    current.right = right;
    run_families(title, FAMILIES(split_families), METHODS(audit_methods), 0);
}

static int run_call(const char *call) {
    if (!strcmp(call, "read")) run_families("read", FAMILIES(block_families), METHODS(read_methods), 0);
    else if (!strcmp(call, "write")) run_families("write", FAMILIES(block_families), METHODS(write_methods), 0);
    else if (!strcmp(call, "read_text")) run_families("read text", FAMILIES(text_families), METHODS(read_text_methods), 0);
    else if (!strcmp(call, "write_text")) run_families("write text", FAMILIES(text_families), METHODS(write_text_methods), 0);
    else if (!strcmp(call, "multiply")) run_families("multiply", FAMILIES(multiply_families), METHODS(multiply_methods), 0);
    else if (!strcmp(call, "same_products")) run_families("same products", FAMILIES(same_families), METHODS(same_methods), 0);
    else if (!strcmp(call, "split")) run_families("split", FAMILIES(split_families), METHODS(split_methods), 0);
    else if (!strcmp(call, "audit")) run_audits("audit, the right parts given", 1), run_audits("audit, a term of one part lost", 0);
    else if (!strcmp(call, "deploy")) run_deploys();
    else if (!strcmp(call, "same_products_second"))
        run_families("same products, second set", FAMILIES(same_second_families), METHODS(same_methods), 1);
    else if (!strcmp(call, "split_second"))
        run_families("split, second set", FAMILIES(split_second_families), METHODS(split_methods), 1);
    else {
        fprintf(stderr, "bench: no call is named %s\n", call);
        return 2;
    }
    return 0;
}

int main(int argc, char **argv) {
    if (argc == 3 && !strcmp(argv[1], "growth")) return run_growth(argv[2]);
    for (int i = 1; i < argc; i++) {
        int failed = run_call(argv[i]);
        if (failed) return failed;
    }
    return 0;
}
