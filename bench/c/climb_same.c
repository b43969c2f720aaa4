/* Looks for quadruples on which same products takes long: A = PQ, D = RS, B = PR, C = QS, which by Refine is every equal one, with P, Q, R, S
 * made of intervals, sums of variables, chains, graphs, codes and random lists; one bit may be turned. A quadruple is a row of numbers, its
 * recipe. One number after another is changed, and the change stays unless the call gets faster.
 *
 *   climb_same SEED SECONDS [ours|plain|ratio|stack|questions [KIND..]]
 *                                     climbs by the time of ours, of plain C, by their ratio, by the stack that ours uses, or by the questions of
 *                                     plain C (-DPLAIN_COUNT); without the kinds of list that are named
 *   climb_same again RECIPE..         the times of a quadruple that was printed
 *
 * Built from bench/c: gcc -O2 [-DHAVE_SAME_PRODUCTS] [-DPLAIN_COUNT] climb_same.c inputs.c plain_same.c [libapfelruder.a] */
#include "inputs.h"
#include "plain.h"

#include <stdio.h>
#include <stdlib.h>
#include <string.h>
#include <time.h>

/* ---- recipes */

enum { LAYOUT, LAYOUT_SEED, TURNED, TURNED_SEED, FIRST_PIECE };
enum { KIND, TERMS, WIDE, START, STRIDE, ORDER, MIRRORED, SEED, PIECE };
enum { PIECES = 2, GENES = FIRST_PIECE + 4 * PIECES * PIECE };
enum { NOTHING, INTERVAL, SUM, ONE_AND_SUM, CHAIN, GRAPH, CODE, RANDOM, KINDS };

static const char *const kinds[KINDS] = {"1", "interval", "sum", "one and sum", "chain", "graph", "code", "random"};
static const int most_of_recipe[FIRST_PIECE] = {5, 256, 20, 256};
static const int most_of_piece[PIECE] = {KINDS, 129, 33, 32, 4, 3, 2, 256};

typedef struct {
    int gene[GENES];
} recipe;

typedef struct {
    poly a, d, b, c;
} quadruple;

static int most(int i) { return i < FIRST_PIECE ? most_of_recipe[i] : most_of_piece[(i - FIRST_PIECE) % PIECE]; }

/* The variables of P and S; those of Q and R are the others. */
static uint64_t one_side(const recipe *r) {
    switch (r->gene[LAYOUT]) {
    case 0: return 0x5555555555555555;
    case 1: return 0xaaaaaaaaaaaaaaaa;
    case 2: return 0x00000000ffffffff;
    case 3: return 0xffffffff00000000;
    default: random_seed((uint64_t)r->gene[LAYOUT_SEED]); return random_variables(UINT64_MAX, 32);
    }
}

/* Some of the free variables, in the order in which the piece uses them. */
static int choose(const int *g, uint64_t free, int *chosen) {
    int all[64], n = 0, taken = 0;
    for (int i = 0; i < 64; i++)
        if (free >> i & 1) all[n++] = i;
    for (int i = g[START]; i < n && taken < g[WIDE]; i += g[STRIDE] + 1) chosen[taken++] = all[i];
    for (int i = 0; g[ORDER] && i + 1 < taken; i++) {
        int with = g[ORDER] == 1 ? taken - 1 - i : i + (int)(random_word() % (uint64_t)(taken - i)), kept = chosen[i];
        if (g[ORDER] == 1 && with <= i) break;
        chosen[i] = chosen[with], chosen[with] = kept;
    }
    return taken;
}

static uint64_t spread(uint64_t number, const int *on, int n) {
    uint64_t t = 0;
    for (int i = 0; i < n; i++) t |= (number >> i & 1) << on[i];
    return t;
}

static uint64_t bit(int variable) { return (uint64_t)1 << variable; }

/* One piece of a factor on some of the free variables, which are used up; 0 if it cannot be made. */
static int make_piece(poly *f, const int *g, uint64_t *free) {
    int on[64], most_terms = g[TERMS];
    uint64_t used = 0;
    f->t = 0;
    random_seed((uint64_t)g[SEED] + 1);
    if (g[KIND] == NOTHING) return f->terms[f->t++] = 0, 1;
    int n = choose(g, *free, on);
    if (n == 0) return 0;
    for (int i = 0; i < n; i++) used |= bit(on[i]);
    *free &= ~used;
    if (g[KIND] == ONE_AND_SUM || g[KIND] == CHAIN) f->terms[f->t++] = 0;
    switch (g[KIND]) {
    case INTERVAL:
        for (uint64_t i = 0; i < (uint64_t)most_terms; i++)
            if (n > 8 || (i + (uint64_t)g[SEED] % 4) >> n == 0) f->terms[f->t++] = spread(i + (uint64_t)g[SEED] % 4, on, n);
        break;
    case SUM:
    case ONE_AND_SUM:
        for (int i = 0; i < n; i++) f->terms[f->t++] = bit(on[i]);
        break;
    case CHAIN:
        for (int i = 0; i < n; i++) f->terms[f->t] = f->terms[f->t - 1] | bit(on[i]), f->t++;
        break;
    case GRAPH:
        for (int i = 0; i < most_terms; i++) f->terms[f->t++] = bit(on[random_word() % (uint64_t)n]) | bit(on[random_word() % (uint64_t)n]);
        break;
    case CODE:
        f->terms[f->t++] = g[SEED] % 2 ? random_word() & used : 0;
        for (int words = 2; words <= most_terms; words *= 2) {
            uint64_t word = random_word() & used;
            for (size_t i = 0, before = f->t; i < before; i++) f->terms[f->t++] = f->terms[i] ^ word;
        }
        break;
    default:
        for (int i = 0; i < most_terms; i++) f->terms[f->t++] = random_word() & used;
    }
    for (size_t i = 0; g[MIRRORED] && i < f->t; i++) f->terms[i] ^= used;
    ascending(f);
    return f->t > 0;
}

static int make_factor(poly *f, const int *g, uint64_t free) {
    poly next, piece;
    f->t = 1, f->terms[0] = 0;
    for (int i = 0; i < PIECES; i++) {
        if (!make_piece(&piece, g + i * PIECE, &free) || f->t * piece.t > LONGEST) return 0;
        product_of(&next, f, &piece);
        *f = next;
    }
    return 1;
}

static int make(quadruple *q, const recipe *r) {
    poly f[4], *of[4] = {&q->a, &q->d, &q->b, &q->c};
    uint64_t some = one_side(r);
    for (int i = 0; i < 4; i++)
        if (!make_factor(&f[i], &r->gene[FIRST_PIECE + i * PIECES * PIECE], i == 0 || i == 3 ? some : ~some)) return 0;
    if (f[0].t * f[1].t > LONGEST || f[2].t * f[3].t > LONGEST || f[0].t * f[2].t > LONGEST || f[1].t * f[3].t > LONGEST) return 0;
    product_of(&q->a, &f[0], &f[1]), product_of(&q->d, &f[2], &f[3]);
    product_of(&q->b, &f[0], &f[2]), product_of(&q->c, &f[1], &f[3]);
    if (r->gene[TURNED] < 4) random_seed((uint64_t)r->gene[TURNED_SEED]), flip_one(of[r->gene[TURNED]]);
    return 1;
}

/* ---- what is climbed */

#define FOUR(q) (q)->a.terms, (q)->a.t, (q)->d.terms, (q)->d.t, (q)->b.terms, (q)->b.t, (q)->c.terms, (q)->c.t

static double now_microseconds(void) {
    struct timespec t;
    clock_gettime(CLOCK_THREAD_CPUTIME_ID, &t);
    return (double)t.tv_sec * 1e6 + (double)t.tv_nsec / 1e3;
}

static double fastest(apfelruder_answer (*call)(const uint64_t *, size_t, const uint64_t *, size_t, const uint64_t *, size_t, const uint64_t *, size_t),
                      const quadruple *q, int repeats) {
    double least = 1e18;
    for (int i = 0; i < repeats; i++) {
        double began = now_microseconds();
        call(FOUR(q));
        double took = now_microseconds() - began;
        if (took < least) least = took;
    }
    return least;
}

static double plain_time(const quadruple *q) { return fastest(plain_same_products, q, 3); }
static double questions(const quadruple *q) {
    plain_same_products(FOUR(q));
    return (double)plain_questions;
}
#ifdef HAVE_SAME_PRODUCTS
static double ours_time(const quadruple *q) { return fastest(apfelruder_same_products, q, 3); }
#else
static double ours_time(const quadruple *q) { return (void)q, -1; }
#endif

/* Below this function's frame a room is painted, the call is made there, and what it left alone is counted. */
enum { ROOM = 1 << 18, PAINT = 0xa5 };
static __attribute__((noinline)) size_t room_below(int painting) {
    unsigned char room[ROOM];
    size_t i = 0;
    __asm__ volatile("" : "=m"(room)); /* what earlier calls left in it is what is asked */
    if (painting)
        for (; i < ROOM; i++) room[i] = PAINT;
    else
        while (i < ROOM && room[i] == PAINT) i++;
    __asm__ volatile("" : : "m"(room));
    return i;
}
static double stack_used(const quadruple *q) {
    room_below(1);
#ifdef HAVE_SAME_PRODUCTS
    apfelruder_same_products(FOUR(q));
#else
    plain_same_products(FOUR(q));
#endif
    return (double)(ROOM - room_below(0));
}

static double ratio(const quadruple *q) {
    double plain = plain_time(q), ours = ours_time(q);
    return ours < 100 ? 0 : ours / plain; /* short calls say nothing */
}

static void tell(const recipe *r, const quadruple *q) {
    printf("ours %.1f us, plain C %.1f us, %.0f questions, %.0f bytes of stack, equal: %d, terms %zu %zu %zu %zu\n", ours_time(q), plain_time(q),
           questions(q), stack_used(q), (int)plain_same_products(FOUR(q)).count, q->a.t, q->d.t, q->b.t, q->c.t);
    for (int f = 0; f < 4; f++) {
        printf("  %c =", "PQRS"[f]);
        for (int i = 0; i < PIECES; i++) {
            const int *g = &r->gene[FIRST_PIECE + (f * PIECES + i) * PIECE];
            if (g[KIND] != NOTHING)
                printf(" %s%s(%d terms, %d variables, start %d, step %d, order %d)", g[MIRRORED] ? "mirrored " : "", kinds[g[KIND]], g[TERMS], g[WIDE], g[START],
                       g[STRIDE] + 1, g[ORDER]);
        }
        printf("\n");
    }
    printf("  layout %d, %s\n  again", r->gene[LAYOUT], r->gene[TURNED] < 4 ? "one bit turned" : "no bit turned");
    for (int i = 0; i < GENES; i++) printf(" %d", r->gene[i]);
    printf("\n");
    fflush(stdout);
}

/* ---- climbing */

static uint64_t own = 1;
static int left_out[KINDS];

/* Its own random numbers: those of inputs.c are started anew for every piece. */
static int below(int n) {
    own = own * 6364136223846793005u + 1442695040888963407u;
    return (int)((own >> 33) % (uint64_t)n);
}

static int allowed(const recipe *r) {
    for (int i = FIRST_PIECE; i < GENES; i += PIECE)
        if (left_out[r->gene[i + KIND]]) return 0;
    return 1;
}

static void any(recipe *r) {
    for (int i = 0; i < GENES; i++) r->gene[i] = below(most(i));
    for (int f = 0; f < 4; f++)
        if (below(2)) r->gene[FIRST_PIECE + (f * PIECES + 1) * PIECE + KIND] = NOTHING;
    if (below(3)) r->gene[TURNED] = 19;
}

static void change(recipe *r) {
    for (int changes = 1 + below(3); changes > 0; changes--) {
        int i = below(GENES), size = most(i);
        switch (below(4)) {
        case 0: r->gene[i] = below(size); break;
        case 1: r->gene[i] = (r->gene[i] + 1) % size; break;
        case 2: r->gene[i] = (r->gene[i] + size - 1) % size; break;
        default: { /* one piece becomes another */
            int to = FIRST_PIECE + below(4 * PIECES) * PIECE, from = FIRST_PIECE + below(4 * PIECES) * PIECE;
            memmove(&r->gene[to], &r->gene[from], PIECE * sizeof *r->gene);
        }
        }
    }
}

static void climb(double (*hard)(const quadruple *), double seconds) {
    static quadruple q;
    recipe top, now, next;
    double top_value = -1, ends = (double)time(NULL) + seconds;
    while ((double)time(NULL) < ends) {
        do { /* from anywhere, or from near the worst so far */
            if (top_value < 0 || below(3)) any(&now);
            else
                for (int i = (now = top, 0); i < 4; i++) change(&now);
        } while (!allowed(&now) || !make(&q, &now));
        double value = hard(&q);
        for (int missed = 0; missed < 400 && (double)time(NULL) < ends; missed++) {
            next = now;
            change(&next);
            if (!allowed(&next) || !make(&q, &next)) continue;
            double other = hard(&q);
            if (other < value) continue;
            if (other > value * 1.01) missed = 0;
            now = next, value = other;
        }
        if (value <= top_value) continue;
        top = now, top_value = value;
        make(&q, &top);
        tell(&top, &q);
    }
    printf("the worst found:\n");
    make(&q, &top);
    tell(&top, &q);
}

int main(int argc, char **argv) {
    if (argc == 2 + GENES && !strcmp(argv[1], "again")) {
        static quadruple q;
        recipe r;
        for (int i = 0; i < GENES; i++) {
            r.gene[i] = atoi(argv[2 + i]);
            if (r.gene[i] < 0 || r.gene[i] >= most(i)) return fprintf(stderr, "climb_same: number %d is no part of a recipe\n", i), 2;
        }
        if (!make(&q, &r)) return fprintf(stderr, "climb_same: this recipe makes no quadruple\n"), 2;
        tell(&r, &q);
        return 0;
    }
    static const struct {
        const char *name;
        double (*hard)(const quadruple *);
    } by[] = {{"plain", plain_time}, {"ours", ours_time}, {"ratio", ratio}, {"stack", stack_used}, {"questions", questions}};
    enum { WAYS = sizeof by / sizeof *by };
    int chosen = argc == 3 ? 0 : WAYS;
    for (int i = 0; argc > 3 && i < WAYS; i++)
        if (!strcmp(argv[3], by[i].name)) chosen = i;
    for (int i = 4; i < argc; i++)
        for (int k = 1; k < KINDS; k++) left_out[k] |= !strcmp(argv[i], kinds[k]);
    if (argc < 3 || chosen == WAYS)
        return fprintf(stderr, "usage: climb_same SEED SECONDS [ours|plain|ratio|stack|questions [KIND..]], or climb_same again RECIPE..\n"), 2;
    own = strtoull(argv[1], NULL, 10) * 2 + 1;
    climb(by[chosen].hard, atof(argv[2]));
    return 0;
}
