/* Looks for lists on which split takes long. A start is a product of sums, chains, cubes, codes, graphs and random lists
 * on variables of their own, beside each other or interleaved, perhaps times variables that stand in every term, perhaps
 * with some bits turned. Then terms, variables and factors are changed, and a change stays if the call gets slower.
 *
 *   climb_split SEED SECONDS [ours|plain [FILE]]   prints the slowest list found: its time, its length, how it began;
 *                                                  the list goes to FILE, a hexadecimal term on each line
 *   climb_split again ours|plain FILE              the time of a list that was written
 *
 * Built from bench/c: gcc -O2 [-DHAVE_SPLIT] climb_split.c families.c inputs.c plain_*.c [libapfelruder.a] -lm */
#include "families.h"

#include <stdio.h>
#include <stdlib.h>
#include <string.h>
#include <time.h>

typedef apfelruder_answer split_call(const uint64_t *, size_t, uint64_t *, size_t, uint64_t *, size_t, uint64_t *,
                                     size_t);

static split_call *call;
static job room;

/* ---- time */

static double seconds(void) {
    struct timespec t;
    clock_gettime(CLOCK_MONOTONIC, &t);
    return (double)t.tv_sec + (double)t.tv_nsec / 1e9;
}

/* Microseconds for one call: the least of so many runs. */
static double least_time(const poly *f, int runs) {
    double least = 1e12;
    while (runs-- > 0) {
        double began = seconds(), took;
        call(LIST(*f), room.words, f->t + 64, room.lengths, 64, room.work, 4 * f->t);
        took = 1e6 * (seconds() - began);
        if (took < least) least = took;
    }
    return least;
}

/* Whether the first list is slower, by a fiftieth at least and three times over. Both are run by turns, since other
 * programs make the machine slow for a while: a search that takes such a while for a slow list would walk downhill. */
static int is_slower(const poly *f, const poly *than) {
    for (int round = 0; round < 3; round++) {
        double time = 1e12, other = 1e12;
        for (int turn = 0; turn < 6; turn++) {
            double o = least_time(than, 1), t = least_time(f, 1);
            time = t < time ? t : time, other = o < other ? o : other;
        }
        if (time < 1.02 * other) return 0;
    }
    return 1;
}

static int by_size(const void *a, const void *b) {
    double x = *(const double *)a, y = *(const double *)b;
    return (x > y) - (x < y);
}

static double median_of(double *values, int count) {
    qsort(values, (size_t)count, sizeof *values, by_size);
    return values[count / 2];
}

/* The time that is told: the median of nine least times. */
static double told_time(const poly *f) {
    double times[9];
    for (int i = 0; i < 9; i++) times[i] = least_time(f, 30);
    return median_of(times, 9);
}

/* The median over the table of bench/run, timed in the same way. */
static double median_of_table(void) {
    double times[64];
    for (int i = 0; i < split_families_count; i++) {
        random_seed(1);
        split_families[i].make(&room, split_families[i].size);
        poly f = room.a;
        times[i] = told_time(&f);
    }
    return median_of(times, split_families_count);
}

/* ---- starts */

static size_t below(size_t bound) { return (size_t)(random_word() % bound); }
static size_t between(size_t least, size_t most) { return least + below(most - least + 1); }

enum { RANDOM, SUM, ONE_AND_SUM, CHAIN, CUBE, CODE, GRAPH, KINDS };
static const char *const kinds[KINDS] = {"random", "sum", "one and sum", "chain", "cube", "code", "graph"};

/* A list and what it was made of. */
typedef struct {
    poly list;
    char made_of[160];
    int changes;
} candidate;

/* Every exclusive or of some of the k terms. */
static void span(poly *f, const uint64_t *terms, size_t k) {
    f->t = 0;
    for (size_t i = 0; i >> k == 0; i++) {
        uint64_t sum = 0;
        for (size_t j = 0; j < k; j++) sum ^= i >> j & 1 ? terms[j] : 0;
        f->terms[f->t++] = sum;
    }
}

/* A list of that kind over some of the variables, with at most so many terms. */
static void make_factor(poly *f, int kind, uint64_t vars, size_t most) {
    uint64_t v[64], so_far = 0, basis[10];
    size_t n = 0, k = 1;
    while (k < 10 && (size_t)2 << k <= most) k++;
    for (uint64_t rest = vars; rest; rest &= rest - 1) v[n++] = rest & -rest;
    size_t wide = n < k ? n : k, terms = n < 10 && (size_t)1 << n < most ? (size_t)1 << n : most;
    f->t = 0;
    switch (kind) {
    case SUM:
        for (; f->t < n && f->t < most; f->t++) f->terms[f->t] = v[f->t];
        break;
    case ONE_AND_SUM:
        for (f->terms[f->t++] = 0; f->t <= n && f->t < most; f->t++) f->terms[f->t] = v[f->t - 1];
        break;
    case CHAIN:
        for (f->terms[f->t++] = 0; f->t <= n && f->t < most; f->t++) f->terms[f->t] = so_far |= v[f->t - 1];
        break;
    case CUBE: span(f, v, wide); break;
    case CODE:
        for (size_t i = 0; i < wide; i++) basis[i] = random_word() & vars;
        span(f, basis, wide);
        so_far = random_word() & vars;
        for (size_t i = 0; i < f->t; i++) f->terms[i] ^= so_far;
        break;
    case GRAPH:
        for (size_t i = 0; i < n; i++)
            for (size_t j = i + 1; j < n && f->t < most; j++)
                if (below(4)) f->terms[f->t++] = v[i] | v[j];
        break;
    default: random_list(f, vars, between(terms / 2 + 1, terms)); break;
    }
    if (f->t == 0) f->terms[f->t++] = vars;
    ascending(f);
}

/* Cuts off so many of the variables, from below or anywhere. */
static uint64_t cut_off(uint64_t *from, int count, int anywhere) {
    uint64_t taken = 0;
    if (anywhere) taken = random_variables(*from, count);
    else for (; count > 0 && *from & ~taken; count--) taken |= (*from & ~taken) & -(*from & ~taken);
    *from &= ~taken;
    return taken;
}

/* A product of one to five factors with 1,024 terms at most; a quarter of the starts come from the table. */
static void start(candidate *c) {
    c->changes = 0;
    if (below(4) == 0) {
        const family *of = &split_families[below((size_t)split_families_count)];
        of->make(&room, of->size);
        c->list = room.a;
        snprintf(c->made_of, sizeof c->made_of, "%s", of->name);
        return;
    }
    static const size_t even[6] = {0, 1024, 32, 10, 5, 4}; /* so many terms for each of so many factors */
    int factors = (int)between(1, 5), constant = below(3) ? 0 : (int)between(1, 40), anywhere = (int)below(2);
    uint64_t free = UINT64_MAX, always = cut_off(&free, constant, anywhere);
    int share = (64 - constant) / factors, turned = below(2) ? 0 : (int)between(1, 8), said = 0;
    c->list.t = 1, c->list.terms[0] = 0;
    for (int i = 0; i < factors; i++) {
        poly factor, next;
        int kind = (int)below(KINDS), wide = (int)between(share < 10 ? (size_t)share : 10, (size_t)share);
        make_factor(&factor, kind, cut_off(&free, wide, anywhere), even[factors]);
        product_of(&next, &c->list, &factor);
        c->list = next;
        said += snprintf(c->made_of + said, sizeof c->made_of - (size_t)said, "%s%s", i ? " x " : "", kinds[kind]);
    }
    for (size_t i = 0; i < c->list.t; i++) c->list.terms[i] |= always;
    for (int i = 0; i < turned; i++) c->list.terms[below(c->list.t)] ^= (uint64_t)1 << below(64);
    ascending(&c->list);
    snprintf(c->made_of + said, sizeof c->made_of - (size_t)said, "; %d constant, %d bits turned", constant, turned);
}

/* ---- changes */

/* In every term u the variable becomes what the value says, its lowest bit. */
#define EVERY_TERM(variable, value)                                                                                   \
    for (size_t k = 0; k < f->t; k++) {                                                                               \
        uint64_t u = f->terms[k];                                                                                     \
        f->terms[k] = (u & ~((uint64_t)1 << (variable))) | ((uint64_t)(value) & 1) << (variable);                     \
    }

static void change(poly *f) {
    size_t at = below(f->t);
    unsigned a = (unsigned)below(64), b = (unsigned)below(64), c = (unsigned)below(64);
    uint64_t bit = (uint64_t)1 << a;
    switch (below(12)) {
    case 0: f->terms[at] ^= bit; break;
    case 1: if (f->t > 4) f->terms[at] = f->terms[--f->t]; break;
    case 2: if (f->t < LONGEST) f->terms[f->t] = f->terms[at] ^ bit, f->t++; break;
    case 3: /* two variables change places */
        for (size_t k = 0; k < f->t; k++) {
            uint64_t differ = a == b ? 0 : (f->terms[k] >> a ^ f->terms[k] >> b) & 1;
            f->terms[k] ^= differ << a | differ << b;
        }
        break;
    case 4: EVERY_TERM(a, ~(u >> a)) break;
    case 5: if (a != b) EVERY_TERM(b, u >> a ^ u >> b) break;
    case 6: if (a != b && b != c) EVERY_TERM(b, u >> b ^ (u >> a & u >> c)) break;
    case 7: EVERY_TERM(a, 0) break;
    case 8: EVERY_TERM(a, 1) break;
    case 9: if (a != b) EVERY_TERM(b, u >> a) break;
    case 10: for (size_t k = between(1, 8); k > 0; k--) f->terms[below(f->t)] ^= (uint64_t)1 << below(64); break;
    default: /* a factor 1 + x instead of the variable, if there is room */
        if (2 * f->t > LONGEST) break;
        EVERY_TERM(a, 0)
        for (size_t k = f->t; k-- > 0;) f->terms[f->t + k] = f->terms[k] | bit;
        f->t *= 2;
        break;
    }
    ascending(f);
}

/* ---- the climb */

static void climb(double until, candidate *worst, double *slowest, unsigned long *tried) {
    static candidate here, next;
    double time = 0;
    for (int i = 0; i < 20; i++) {
        start(&next);
        double t = least_time(&next.list, 3);
        if (t > time) time = t, here = next;
    }
    for (int stale = 0; stale < 400 && seconds() < until; stale++, ++*tried) {
        if (stale % 20 == 0) time = least_time(&here.list, 6);
        next = here;
        for (size_t k = between(1, 3); k > 0; k--) change(&next.list);
        if (least_time(&next.list, 2) < time || !is_slower(&next.list, &here.list)) continue;
        here = next, here.changes++, stale = -1;
    }
    time = told_time(&here.list);
    if (time > *slowest) *slowest = time, *worst = here;
}

static split_call *call_of(const char *name) {
    if (strcmp(name, "plain") == 0) return plain_split;
#ifdef HAVE_SPLIT
    if (strcmp(name, "ours") == 0) return apfelruder_split;
#endif
    fprintf(stderr, "climb_split: no split is named %s here\n", name);
    exit(2);
}

static int again(const char *name, const char *file) {
    FILE *from = fopen(file, "r");
    poly f = {{0}, 0};
    unsigned long long term;
    if (!from) return perror(file), 1;
    while (f.t < LONGEST && fscanf(from, "%llx", &term) == 1) f.terms[f.t++] = term;
    fclose(from);
    ascending(&f);
    printf("split, %s: %.1f microseconds, %zu terms\n", name, told_time(&f), f.t);
    return 0;
}

static int write_list(const poly *f, const char *file) {
    FILE *to = fopen(file, "w");
    if (!to) return perror(file), 1;
    for (size_t i = 0; i < f->t; i++) fprintf(to, "%llx\n", (unsigned long long)f->terms[i]);
    return fclose(to) ? (perror(file), 1) : 0;
}

int main(int count, char **words) {
    if (count < 3) return fputs("climb_split SEED SECONDS [ours|plain [FILE]]\n", stderr), 2;
    const char *name = count > 3 ? words[strcmp(words[1], "again") ? 3 : 2] : "plain";
    call = call_of(name);
    if (strcmp(words[1], "again") == 0) return again(name, words[3]);
    static candidate worst;
    double slowest = 0, until = seconds() + atof(words[2]);
    unsigned long tried = 0;
    random_seed(strtoull(words[1], NULL, 10));
    while (seconds() < until) climb(until, &worst, &slowest, &tried);
    slowest = told_time(&worst.list);
    double median = median_of_table();
    printf("split, %s: %.1f microseconds, %zu terms, %.1f times the median of the table (%.1f)\n", name, slowest,
           worst.list.t, slowest / median, median);
    printf("  began as: %s; %d changes kept, %lu lists tried\n", worst.made_of, worst.changes, tried);
    return count > 4 ? write_list(&worst.list, words[4]) : 0;
}
