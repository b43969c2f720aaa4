/* Timing and tables. */
#ifndef MEASURE_H
#define MEASURE_H

#include <stddef.h>

/* Microseconds for one call of go(with): the median of several timings, each of enough calls to be measured; a single
 * timing if one call takes over half a second. */
double median_microseconds(void (*go)(void *), void *with);
double median_of(double *values, int count);

/* Several functions by turns, so that a slow moment of the machine falls on all of them: TURNS times each, in an order that
 * changes with the turn, each time after a call that is not timed, so that what ran before it does not count. For each the
 * median of its microseconds, and the median over the turns of its ratio to the first. */
void by_turns(void (*const *go)(void *), int count, void *with, double *microseconds, double *ratios);

enum { MOST_COLUMNS = 8, MOST_PANELS = 24, SIZES = 5, SMALLEST = 64, TURNS = 201 };

/* A markdown table: a row for each input, a column of microseconds for each method; the first column is what the
 * others are held to. INFINITY is a time that was given up. Behind the table stand the slowest input of the first
 * method and, for each other method, the two ends of its ratio to the first. */
void table_start(const char *title, const char *const *methods, int columns);
void table_row(const char *input, size_t terms, const double *microseconds);
/* The same with ratios that were measured by themselves. */
void table_row_held(const char *input, size_t terms, const double *microseconds, const double *ratios);
void table_end(void);

/* How one method's time grows with the number of terms: a line of the picture. A point may be a time at which the method
 * was given up; a method that became too slow has no further points. */
typedef struct {
    const char *name, *colour;
    int points, too_slow;
    double terms[SIZES], microseconds[SIZES];
    int given_up[SIZES];
} series;

/* One growing input and the methods raced on it, the first of which the others are held to. */
typedef struct {
    const char *name;
    int count;
    series lines[MOST_COLUMNS];
} panel;

/* The first method on every input; all methods on the inputs that have more than one. */
void growth_table(const panel *all, int count);
void peers_table(const panel *all, int count);

#endif
