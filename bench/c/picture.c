/* The picture of the growth, as an SVG text: a panel for each input on which peers were raced, two in a row, logarithmic
 * both ways. All panels have the same axes, so that heights can be compared from panel to panel. Each line carries its
 * name, its time at the most terms and, in brackets, how many times the first method's that is. */
#include "picture.h"

#include <math.h>
#include <stdio.h>

enum { LEFT = 84, WIDE = 226, RIGHT = 218, TOP = 30, HIGH = 252, BELOW = 58, HEAD = 60, IN_A_ROW = 2, LABEL_STEP = 15 };

static double y_low, y_high;    /* the range of all panels, in microseconds */
static double panel_x, panel_y; /* where the panel that is being drawn begins */

static double x_at(double terms) {
    return panel_x + LEFT + WIDE * log(terms / SMALLEST) / log(1 << (SIZES - 1));
}

static double y_at(double us) { return panel_y + TOP + HIGH - HIGH * log(us / y_low) / log(y_high / y_low); }

static void find_range(const panel *all, int count) {
    y_low = INFINITY, y_high = 0;
    for (int i = 0; i < count; i++)
        for (int m = 0; all[i].count > 1 && m < all[i].count; m++)
            for (int k = 0; k < all[i].lines[m].points; k++) {
                y_low = fmin(y_low, all[i].lines[m].microseconds[k]);
                y_high = fmax(y_high, all[i].lines[m].microseconds[k]);
            }
    y_low = pow(10, floor(log10(y_low))), y_high = pow(10, ceil(log10(y_high)));
}

static void write_time(FILE *f, double us) {
    static const char *const units[] = {"us", "ms", "s"};
    int unit = 0;
    for (; unit < 2 && us >= 999.5; unit++) us /= 1000;
    fprintf(f, us < 9.95 ? "%.2g %s" : "%.0f %s", us, units[unit]);
}

/* Two digits that count, with commas: 0.97, 4.2, 110, 31,000. */
static void write_ratio(FILE *f, double ratio) {
    if (ratio < 9.95) {
        fprintf(f, "%.2g", ratio);
        return;
    }
    double step = pow(10, floor(log10(ratio)) - 1);
    long rounded = lround(lround(ratio / step) * step);
    if (rounded >= 1000000) fprintf(f, "%ld,%03ld,%03ld", rounded / 1000000, rounded / 1000 % 1000, rounded % 1000);
    else if (rounded >= 1000) fprintf(f, "%ld,%03ld", rounded / 1000, rounded % 1000);
    else fprintf(f, "%ld", rounded);
}

static void draw_axes(FILE *f, const char *name) {
    double x0 = panel_x + LEFT, x1 = x0 + WIDE, y0 = panel_y + TOP, y1 = y0 + HIGH;
    fprintf(f, "<text x=\"%.0f\" y=\"%.0f\" font-size=\"14\" font-weight=\"bold\">%s</text>\n", x0, y0 - 11, name);
    for (double us = y_low; us < y_high * 1.01; us *= 10) {
        fprintf(f, "<path d=\"M%.0f %.1fH%.0f\" stroke=\"#ddd\"/>", x0, y_at(us), x1);
        fprintf(f, "<text x=\"%.0f\" y=\"%.1f\" text-anchor=\"end\">", x0 - 8, y_at(us) + 4);
        write_time(f, us);
        fprintf(f, "</text>\n");
    }
    for (int k = 0; k < SIZES; k++) {
        int terms = SMALLEST << k;
        fprintf(f, "<path d=\"M%.1f %.0fV%.0f\" stroke=\"#ddd\"/>", x_at(terms), y0, y1);
        fprintf(f, "<text x=\"%.1f\" y=\"%.0f\" text-anchor=\"middle\">", x_at(terms), y1 + 17);
        if (terms < 1000) fprintf(f, "%d</text>\n", terms);
        else fprintf(f, "%d,%03d</text>\n", terms / 1000, terms % 1000);
    }
    fprintf(f, "<text x=\"%.0f\" y=\"%.0f\" text-anchor=\"middle\">terms in a list</text>\n", (x0 + x1) / 2, y1 + 35);
    double x = panel_x + 18, y = (y0 + y1) / 2;
    fprintf(f, "<text x=\"%.0f\" y=\"%.0f\" text-anchor=\"middle\" transform=\"rotate(-90 %.0f %.0f)\">", x, y, x, y);
    fprintf(f, "time for one call</text>\n");
}

static void draw_points(FILE *f, const series *s, const char *radius) {
    for (int k = 0; k < s->points; k++)
        if (!s->given_up[k])
            fprintf(f, "<circle cx=\"%.1f\" cy=\"%.1f\" r=\"%s\" fill=\"%s\"/>", x_at(s->terms[k]), y_at(s->microseconds[k]),
                    radius, s->colour);
    fprintf(f, "\n");
}

/* Where a method was first given up: a hollow point at the time spent, an arrow upwards, and what it says. */
static void draw_given_up(FILE *f, const series *s, int k) {
    double x = x_at(s->terms[k]), y = y_at(s->microseconds[k]);
    fprintf(f, "<path d=\"M%.1f %.1fv-16m-3 5l3 -5l3 5\" fill=\"none\" stroke=\"%s\"/>", x, y - 2.6, s->colour);
    fprintf(f, "<circle cx=\"%.1f\" cy=\"%.1f\" r=\"2.6\" fill=\"white\" stroke=\"%s\"/>", x, y, s->colour);
    fprintf(f, "<text x=\"%.1f\" y=\"%.1f\" text-anchor=\"%s\" fill=\"%s\">%s: given up</text>\n", k < 2 ? x - 4 : x + 4,
            y - 25, k < 2 ? "start" : "end", s->colour, s->name);
}

/* The first line is broad and the second, which may lie on it, is thin and dashed. */
static void draw_line(FILE *f, const series *s, int m) {
    int k = 0;
    fprintf(f, "<polyline fill=\"none\" stroke=\"%s\" stroke-width=\"%s\"%s points=\"", s->colour, m ? "1.8" : "3.6",
            m == 1 ? " stroke-dasharray=\"6 4\"" : "");
    for (; k < s->points && !s->given_up[k]; k++)
        fprintf(f, "%s%.1f,%.1f", k ? " " : "", x_at(s->terms[k]), y_at(s->microseconds[k]));
    fprintf(f, "\"/>\n");
    draw_points(f, s, m ? "2.6" : "3.4");
    if (k < s->points) draw_given_up(f, s, k);
}

static void draw_label(FILE *f, const series *s, const series *first, double y) {
    int last = s->points - 1;
    double us = s->microseconds[last], x = panel_x + LEFT + WIDE;
    fprintf(f, "<path d=\"M%.1f %.1fL%.0f %.1f\" stroke=\"%s\" stroke-width=\"0.8\"/>", x_at(s->terms[last]) + 4, y_at(us),
            x + 16, y, s->colour);
    fprintf(f, "<text x=\"%.0f\" y=\"%.1f\" fill=\"%s\"%s>%s ", x + 19, y + 4, s->colour,
            s == first ? " font-weight=\"bold\"" : "", s->name);
    write_time(f, us);
    if (s != first) {
        fprintf(f, " (");
        write_ratio(f, us / first->microseconds[last]);
        fprintf(f, "&#215;)");
    }
    fprintf(f, "</text>\n");
}

/* Labels stand at their lines' ends, from the top down, pushed apart where ends are close; a thin line leads to each. */
static void draw_labels(FILE *f, const panel *p) {
    const series *order[MOST_COLUMNS];
    double at[MOST_COLUMNS], lowest = panel_y + TOP + HIGH;
    int count = 0;
    for (int m = 0; m < p->count; m++) {
        const series *s = &p->lines[m];
        int last = s->points - 1, k = count;
        if (s->given_up[last]) continue;
        double y = y_at(s->microseconds[last]);
        for (; k > 0 && at[k - 1] > y; k--) at[k] = at[k - 1], order[k] = order[k - 1];
        at[k] = y, order[k] = s, count++;
    }
    for (int k = 1; k < count; k++) at[k] = fmax(at[k], at[k - 1] + LABEL_STEP);
    for (int k = 0; k < count; k++) at[k] = fmin(at[k], lowest - LABEL_STEP * (count - 1 - k));
    for (int k = 0; k < count; k++) draw_label(f, order[k], &p->lines[0], at[k]);
}

static void draw_head(FILE *f, int panels, const char *first) {
    int rows = (panels + IN_A_ROW - 1) / IN_A_ROW, most = SMALLEST << (SIZES - 1);
    int wide = IN_A_ROW * (LEFT + WIDE + RIGHT), high = HEAD + rows * (TOP + HIGH + BELOW);
    fprintf(f, "<svg xmlns=\"http://www.w3.org/2000/svg\" role=\"img\" viewBox=\"0 0 %d %d\"", wide, high);
    fprintf(f, " width=\"%d\" height=\"%d\"", wide, high);
    fprintf(f, " font-family=\"sans-serif\" font-size=\"12\" fill=\"#222\">\n");
    fprintf(f, "<title>Time for one call against the number of terms</title>\n");
    fprintf(f, "<rect width=\"100%%\" height=\"100%%\" fill=\"white\"/>\n");
    fprintf(f, "<text x=\"%d\" y=\"26\" font-size=\"17\" font-weight=\"bold\">", LEFT);
    fprintf(f, "Time for one call, %d to %d,%03d terms</text>\n", SMALLEST, most / 1000, most % 1000);
    fprintf(f, "<text x=\"%d\" y=\"46\">Logarithmic both ways, the same axes in all panels. At a line's end ", LEFT);
    fprintf(f, "its last time and, in brackets, that as a multiple of %s.</text>\n", first);
}

int growth_picture(const char *path, const panel *all, int count) {
    const panel *drawn[MOST_PANELS];
    int panels = 0;
    for (int i = 0; i < count; i++)
        if (all[i].count > 1) drawn[panels++] = &all[i];
    FILE *f = panels ? fopen(path, "w") : NULL;
    if (!f) return 0;
    find_range(all, count);
    draw_head(f, panels, drawn[0]->lines[0].name);
    for (int i = 0; i < panels; i++) {
        panel_x = i % IN_A_ROW * (LEFT + WIDE + RIGHT), panel_y = HEAD + i / IN_A_ROW * (TOP + HIGH + BELOW);
        draw_axes(f, drawn[i]->name);
        for (int m = 0; m < drawn[i]->count; m++) draw_line(f, &drawn[i]->lines[m], m);
        draw_labels(f, drawn[i]);
    }
    fprintf(f, "</svg>\n");
    int sound = !ferror(f);
    return fclose(f) == 0 && sound;
}
