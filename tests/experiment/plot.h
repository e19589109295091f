/* Hit rates over warmness as an SVG of several panels. */
#ifndef PLOT_H
#define PLOT_H

#include <stdio.h>

/* From 0 to 100 % in steps of 5 %. */
enum { LEVELS = 21 };

/* In the order in which they are drawn. */
enum curve { UNLIMITED, SEVERAL, ONE, EXACT, CURVES };

struct panel {
    char title[80];
    double (*hit)[LEVELS]; /* by curve, in percent */
};

void write_plot(FILE *out, const struct panel *panels, unsigned count);

#endif
