/* The plot as SVG. */
#include "plot.h"

#define WIDTH 760.0
#define HEIGHT 480.0
#define LEFT 80.0
#define RIGHT 725.0
#define UPPER 50.0
#define LOWER 420.0
#define MOST 70000.0 /* records at the right end */

static const char *const colours[LINES] = {"#1f5fa8", "#1f5fa8", "#c2571a", "#c2571a"};
static const char *const names[LINES] = {"rank, ours", "rank, plain C", "part-write, ours", "part-write, plain C"};

static double x_of(double count)
{
    return LEFT + (RIGHT - LEFT) * count / MOST;
}

static double y_of(double micros, double top)
{
    return LOWER - (LOWER - UPPER) * micros / top;
}

/* A round step that gives four to ten ticks. */
static double step_of(double most)
{
    double step = 1;
    while (step * 10 < most) step *= 10;
    if (step * 4 > most) step /= 5;
    return step * 10 < most ? step * 2 : step;
}

static void draw_x_axis(FILE *f)
{
    for (int n = 0; n <= MOST; n += 10000) {
        fprintf(f, "<line x1='%.1f' y1='%.1f' x2='%.1f' y2='%.1f' stroke='#ddd'/>\n", x_of(n), UPPER, x_of(n), LOWER);
        fprintf(f, "<text x='%.1f' y='%.1f' text-anchor='middle'>%d</text>\n", x_of(n), LOWER + 20, n);
    }
    fprintf(f, "<text x='%.1f' y='%.1f' text-anchor='middle'>N, records of the table</text>\n", (LEFT + RIGHT) / 2, LOWER + 45);
}

static void draw_y_axis(FILE *f, double step, double top)
{
    for (double y = 0; y <= top * 1.0001; y += step) {
        fprintf(f, "<line x1='%.1f' y1='%.1f' x2='%.1f' y2='%.1f' stroke='#ddd'/>\n", LEFT, y_of(y, top), RIGHT, y_of(y, top));
        fprintf(f, "<text x='%.1f' y='%.1f' text-anchor='end'>%g</text>\n", LEFT - 8, y_of(y, top) + 5, y);
    }
    fprintf(f, "<text x='20' y='%.1f' text-anchor='middle' transform='rotate(-90 20 %.1f)'>µs a call</text>\n",
            (UPPER + LOWER) / 2, (UPPER + LOWER) / 2);
}

static void draw_line(FILE *f, int line, const struct point *points, int count, double top)
{
    const char *dash = line % 2 ? " stroke-dasharray='7 5'" : "";
    fprintf(f, "<polyline fill='none' stroke='%s' stroke-width='2'%s points='", colours[line], dash);
    for (int i = 0; i < count; i++)
        fprintf(f, "%.1f,%.1f ", x_of(points[i].count), y_of(points[i].micros[line], top));
    fprintf(f, "'/>\n");
    for (int i = 0; i < count; i++)
        fprintf(f, "<circle cx='%.1f' cy='%.1f' r='2.5' fill='%s'/>\n", x_of(points[i].count),
                y_of(points[i].micros[line], top), colours[line]);
}

static void draw_legend(FILE *f, int line)
{
    double x = LEFT + 20, y = UPPER + 20 + 22 * (LINES - 1 - line);
    fprintf(f, "<line x1='%.1f' y1='%.1f' x2='%.1f' y2='%.1f' stroke='%s' stroke-width='2'%s/>\n", x, y, x + 40, y, colours[line],
            line % 2 ? " stroke-dasharray='7 5'" : "");
    fprintf(f, "<text x='%.1f' y='%.1f'>%s</text>\n", x + 50, y + 5, names[line]);
}

void write_plot(FILE *f, const struct point *points, int count)
{
    double most = 1;
    for (int i = 0; i < count; i++)
        for (int line = 0; line < LINES; line++)
            if (points[i].micros[line] > most) most = points[i].micros[line];
    double step = step_of(most), top = step;
    while (top < most) top += step;
    fprintf(f, "<svg xmlns='http://www.w3.org/2000/svg' width='%.0f' height='%.0f' font-family='sans-serif' font-size='14'>\n",
            WIDTH, HEIGHT);
    fprintf(f, "<rect width='100%%' height='100%%' fill='white'/>\n");
    fprintf(f, "<text x='%.1f' y='28' text-anchor='middle' font-size='16'>Random tables over 63 settings, warm</text>\n",
            (LEFT + RIGHT) / 2);
    draw_x_axis(f);
    draw_y_axis(f, step, top);
    fprintf(f, "<path d='M%.1f %.1f V%.1f H%.1f' fill='none' stroke='black'/>\n", LEFT, UPPER, LOWER, RIGHT);
    for (int line = 0; line < LINES; line++) draw_line(f, line, points, count, top);
    fprintf(f, "<rect x='%.1f' y='%.1f' width='210' height='96' fill='white' stroke='#999'/>\n", LEFT + 10, UPPER + 4);
    for (int line = 0; line < LINES; line++) draw_legend(f, line);
    fprintf(f, "</svg>\n");
}
