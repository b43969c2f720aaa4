#include "measure.h"

#include <math.h>
#include <stdio.h>
#include <stdlib.h>
#include <time.h>

/* Time on the processor, so that other programs on the machine do not count. */
static double now_microseconds(void) {
    struct timespec t;
    clock_gettime(CLOCK_THREAD_CPUTIME_ID, &t);
    return (double)t.tv_sec * 1e6 + (double)t.tv_nsec / 1e3;
}

static int by_size(const void *a, const void *b) {
    double x = *(const double *)a, y = *(const double *)b;
    return (x > y) - (x < y);
}

double median_of(double *values, int count) {
    qsort(values, (size_t)count, sizeof *values, by_size);
    return values[count / 2];
}

static double timing(void (*go)(void *), void *with, long calls) {
    double began = now_microseconds();
    for (long i = 0; i < calls; i++) go(with);
    return (now_microseconds() - began) / (double)calls;
}

double median_microseconds(void (*go)(void *), void *with) {
    double once = timing(go, with, 1), values[11];
    if (once > 500e3) return once;
    long calls = once < 500 ? (long)(500 / (once + 0.02)) + 1 : 1;
    int repeats = once > 5e3 ? 3 : 11;
    for (int i = 0; i < repeats; i++) values[i] = timing(go, with, calls);
    return median_of(values, repeats);
}

void by_turns(void (*const *go)(void *), int count, void *with, double *microseconds, double *ratios) {
    double values[MOST_COLUMNS][TURNS], held[TURNS];
    double once = timing(go[0], with, 1);
    long calls = once < 500 ? (long)(500 / (once + 0.02)) + 1 : 1;
    for (int turn = 0; turn < TURNS; turn++)
        for (int k = 0; k < count; k++) {
            int m = (turn + k) % count;
            go[m](with);
            values[m][turn] = timing(go[m], with, calls);
        }
    for (int m = count - 1; m >= 0; m--) { /* the first is sorted last */
        for (int turn = 0; turn < TURNS; turn++) held[turn] = values[m][turn] / values[0][turn];
        ratios[m] = median_of(held, TURNS);
        microseconds[m] = median_of(values[m], TURNS);
    }
}

static void print_time(double us) {
    if (us < 10) printf("%.2f", us);
    else if (us < 1000) printf("%.1f", us);
    else printf("%.0f", us);
}

static void print_ratio(double ratio) { printf(ratio < 20 ? "%.2f" : "%.0f", ratio); }

/* ---- the table of a call */

static int table_columns, table_rows;
static const char *const *table_methods;
static double first_times[64];
static const char *inputs[64];

/* The two ends of a column's ratio to the first one, and the inputs they stand for. */
static struct {
    double least, most;
    const char *least_input, *most_input;
} ends[MOST_COLUMNS];

void table_start(const char *title, const char *const *methods, int columns) {
    table_columns = columns, table_rows = 0, table_methods = methods;
    for (int i = 0; i < columns; i++) ends[i].least = INFINITY, ends[i].most = 0;
    printf("\n### %s\n\n| input | terms |", title);
    for (int i = 0; i < columns; i++) printf(" %s |", methods[i]);
    printf("\n|---|---:|");
    for (int i = 0; i < columns; i++) printf("---:|");
    printf("\n");
}

static void note_ratio(int column, double ratio, const char *input) {
    if (ratio < ends[column].least) ends[column].least = ratio, ends[column].least_input = input;
    if (ratio > ends[column].most) ends[column].most = ratio, ends[column].most_input = input;
}

void table_row(const char *input, size_t terms, const double *us) {
    double ratios[MOST_COLUMNS];
    for (int i = 0; i < table_columns; i++) ratios[i] = us[i] / us[0];
    table_row_held(input, terms, us, ratios);
}

void table_row_held(const char *input, size_t terms, const double *us, const double *ratios) {
    first_times[table_rows] = us[0], inputs[table_rows++] = input;
    printf("| %s | %zu |", input, terms);
    for (int i = 0; i < table_columns; i++) {
        if (isinf(us[i])) {
            printf(" given up |");
            continue;
        }
        printf(" ");
        print_time(us[i]);
        if (i > 0) {
            note_ratio(i, ratios[i], input);
            printf(" (");
            print_ratio(ratios[i]);
            printf(")");
        }
        printf(" |");
    }
    printf("\n");
    fflush(stdout);
}

void table_end(void) {
    int slowest = 0;
    for (int i = 1; i < table_rows; i++)
        if (first_times[i] > first_times[slowest]) slowest = i;
    double most = first_times[slowest], middle = median_of(first_times, table_rows);
    printf("\n%s: slowest input %.1f us (%s), median input %.1f us, ratio %.1f\n\n", table_methods[0], most, inputs[slowest],
           middle, most / middle);
    for (int i = 1; i < table_columns; i++) {
        if (ends[i].most == 0) continue;
        printf("- %s: ", table_methods[i]);
        print_ratio(ends[i].least);
        printf(" times %s (%s) to ", table_methods[0], ends[i].least_input);
        print_ratio(ends[i].most);
        printf(" times (%s)\n", ends[i].most_input);
    }
}

/* ---- the tables of the growth */

/* The power of the number of terms with which the time grows from the first point to the last that was not given up. */
static void print_power(const series *s) {
    int last = s->points - 1;
    while (last > 0 && s->given_up[last]) last--;
    if (last <= 0) printf(" |\n");
    else printf(" %.2f |\n", log(s->microseconds[last] / s->microseconds[0]) / log(s->terms[last] / s->terms[0]));
}

static void growth_head(const char *title, const char *columns, int named) {
    printf("\n### %s\n\n| %s |", title, columns);
    for (int k = 0; k < SIZES; k++) printf(" at most %d |", SMALLEST << k);
    printf(" power |\n");
    for (int k = 0; k < named; k++) printf("|---");
    for (int k = 0; k <= SIZES; k++) printf("|---:");
    printf("|\n");
}

static void growth_row(const series *s, const series *first) {
    for (int k = 0; k < SIZES; k++) {
        if (k >= s->points || s->given_up[k]) {
            printf(k >= s->points ? " not run |" : " given up |");
            continue;
        }
        printf(" ");
        print_time(s->microseconds[k]);
        if (s != first) {
            printf(" (");
            print_ratio(s->microseconds[k] / first->microseconds[k]);
            printf(")");
        }
        printf(" |");
    }
    print_power(s);
}

void growth_table(const panel *all, int count) {
    growth_head("growth, microseconds", "input, terms", 1);
    for (int i = 0; i < count; i++) {
        printf("| %s |", all[i].name);
        growth_row(&all[i].lines[0], &all[i].lines[0]);
    }
}

void peers_table(const panel *all, int count) {
    growth_head("growth beside the peers, microseconds", "input, terms | method", 2);
    for (int i = 0; i < count; i++)
        for (int m = 0; all[i].count > 1 && m < all[i].count; m++) {
            printf("| %s | %s |", m ? "" : all[i].name, all[i].lines[m].name);
            growth_row(&all[i].lines[m], &all[i].lines[0]);
        }
}
