#include "plot.h"

/* Pixels. */
enum { COLUMNS = 3, SIDE = 220, LEFT = 64, TOP = 92, ACROSS = 276, DOWN = 296, WIDTH = 880, LABELS = 12 };

/* The curve without limits lies under that of the library: it is wide and pale, so that both are seen where they meet.
 */
static const struct {
    const char *name, *colour, *dashes;
    unsigned width;
} styles[CURVES] = {
    [UNLIMITED] = {"without limits", "#a6cee3", "none", 7},
    [SEVERAL] = {"areas for all permissions", "#08519c", "none", 2},
    [ONE] = {"one area", "#d95f02", "none", 2},
    [EXACT] = {"exact reuse", "#555555", "6 4", 2},
};

static double across(unsigned panel, double percent)
{
    return LEFT + ACROSS * (panel % COLUMNS) + SIDE * percent / 100;
}

static double down(unsigned panel, double percent)
{
    return TOP + DOWN * (panel / COLUMNS) + SIDE * (100 - percent) / 100;
}

static void write_axes(FILE *out, unsigned panel, const char *title)
{
    fprintf(out, "<text x=\"%.1f\" y=\"%.1f\" text-anchor=\"middle\" font-weight=\"bold\">%s</text>\n",
            across(panel, 50), down(panel, 100) - LABELS, title);
    for (unsigned percent = 0; percent <= 100; percent += 25) {
        fprintf(out, "<path d=\"M%.1f %.1fH%.1fM%.1f %.1fV%.1f\" stroke=\"#dddddd\"/>\n", across(panel, 0),
                down(panel, percent), across(panel, 100), across(panel, percent), down(panel, 0), down(panel, 100));
        fprintf(out, "<text x=\"%.1f\" y=\"%.1f\" text-anchor=\"end\">%u</text>\n", across(panel, 0) - 6,
                down(panel, percent) + 4, percent);
        fprintf(out, "<text x=\"%.1f\" y=\"%.1f\" text-anchor=\"middle\">%u</text>\n", across(panel, percent),
                down(panel, 0) + 16, percent);
    }
    fprintf(out, "<text x=\"%.1f\" y=\"%.1f\" text-anchor=\"middle\">warmness, %%</text>\n", across(panel, 50),
            down(panel, 0) + 34);
    if (panel % COLUMNS == 0)
        fprintf(out,
                "<text transform=\"translate(%.1f %.1f) rotate(-90)\" text-anchor=\"middle\">hit rate, %%</text>\n",
                across(panel, 0) - 38, down(panel, 50));
}

static void write_stroke(FILE *out, enum curve curve)
{
    fprintf(out,
            " fill=\"none\" stroke=\"%s\" stroke-width=\"%u\" stroke-dasharray=\"%s\" stroke-linejoin=\"round\"/>\n",
            styles[curve].colour, styles[curve].width, styles[curve].dashes);
}

static void write_curve(FILE *out, unsigned panel, enum curve curve, const double *hit)
{
    fprintf(out, "<polyline points=\"");
    for (unsigned level = 0; level < LEVELS; level++)
        fprintf(out, "%s%.1f,%.1f", level ? " " : "", across(panel, 100.0 * level / (LEVELS - 1)),
                down(panel, hit[level]));
    fprintf(out, "\"");
    write_stroke(out, curve);
}

static void write_legend(FILE *out)
{
    unsigned x = LEFT;
    for (unsigned c = 0; c < CURVES; c++) {
        fprintf(out, "<path d=\"M%u 46h34\"", x);
        write_stroke(out, (enum curve)c);
        fprintf(out, "<text x=\"%u\" y=\"50\">%s</text>\n", x + 42, styles[c].name);
        x += c == SEVERAL ? 240 : 180;
    }
}

void write_plot(FILE *out, const struct panel *panels, unsigned count)
{
    unsigned height = TOP + DOWN * ((count + COLUMNS - 1) / COLUMNS) - 20;
    fprintf(out,
            "<svg xmlns=\"http://www.w3.org/2000/svg\" width=\"%d\" height=\"%u\" viewBox=\"0 0 %d %u\" "
            "font-family=\"sans-serif\" font-size=\"12\" fill=\"#222222\" role=\"img\">\n",
            WIDTH, height, WIDTH, height);
    fprintf(out, "<title>Hit rate over cache warmness</title>\n");
    fprintf(out, "<rect width=\"100%%\" height=\"100%%\" fill=\"#ffffff\"/>\n");
    fprintf(out,
            "<text x=\"%d\" y=\"24\" font-size=\"15\" font-weight=\"bold\">Hit rate over cache warmness, 50 roles, "
            "5 roles a user, 3,000 permissions</text>\n",
            LEFT);
    write_legend(out);
    for (unsigned k = 0; k < count; k++) {
        write_axes(out, k, panels[k].title);
        for (unsigned c = 0; c < CURVES; c++)
            write_curve(out, k, (enum curve)c, panels[k].hit[c]);
    }
    fprintf(out, "</svg>\n");
}
