#include "contest.h"

#include <stdio.h>
#include <stdlib.h>
#include <string.h>
#include <time.h>

static double now(void)
{
    struct timespec t;
    /* The process's own time, so that other work on the machine counts less. */
    clock_gettime(CLOCK_PROCESS_CPUTIME_ID, &t);
    return (double)t.tv_sec + (double)t.tv_nsec / 1e9;
}

static void run_once(struct contest *contest, struct contender *c, uint8_t first[OUTCOME])
{
    uint8_t outcome[OUTCOME] = {0};
    double start = now();
    c->run(outcome);
    double seconds = now() - start;
    if (c->seconds == 0 || seconds < c->seconds)
        c->seconds = seconds;
    if (c == contest->contenders)
        memcpy(first, outcome, OUTCOME);
    if (memcmp(first, outcome, OUTCOME) != 0) {
        fprintf(stderr, "%s: %s has another outcome\n", contest->title, c->name);
        exit(1);
    }
}

void contest_time(struct contest *contest)
{
    uint8_t first[OUTCOME];
    struct contender *all = contest->contenders;
    if (contest->prepare != NULL)
        contest->prepare();
    for (int round = 0; round < contest->rounds; round++)
        for (int i = 0; i < CONTENDERS && all[i].name != NULL; i++)
            run_once(contest, &all[i], first);
}

void contest_hold(struct contest *contest)
{
    const struct contender *all = contest->contenders;
    contest_time(contest);
    printf("\n%s\n", contest->title);
    for (int i = 0; i < CONTENDERS && all[i].name != NULL; i++)
        printf("  %-28s %12.3f %-6s  %6.2f\n", all[i].name, contest->work / all[i].seconds,
               contest->unit, all[0].seconds / all[i].seconds);
    fflush(stdout);
}

enum { LINE = 18, LEFT = 230, SCALE = 30, WIDTH = 860 };

static int draw_contest(FILE *out, const struct contest *contest, int y)
{
    const struct contender *all = contest->contenders;
    fprintf(out, "<text x='10' y='%d' font-weight='bold'>%s</text>\n", y, contest->title);
    for (int i = 0; i < CONTENDERS && all[i].name != NULL; i++) {
        double ratio = all[0].seconds / all[i].seconds;
        double bar = ratio * SCALE;
        if (bar > WIDTH - LEFT - 180)
            bar = WIDTH - LEFT - 180;
        y += LINE;
        fprintf(out, "<text x='20' y='%d'>%s</text>\n", y, all[i].name);
        fprintf(out, "<rect x='%d' y='%d' width='%.1f' height='12' fill='%s'/>\n", LEFT, y - 11,
                bar, i == 0 ? "#2a6f97" : "#b8c4cc");
        fprintf(out, "<text x='%.1f' y='%d'>%.2f  (%.4g %s)</text>\n", LEFT + bar + 6, y, ratio,
                contest->work / all[i].seconds, contest->unit);
    }
    return y + 2 * LINE;
}

static int lines(const struct contest *contests, int count)
{
    int lines = 2;
    for (int i = 0; i < count; i++) {
        lines += 2;
        for (int j = 0; j < CONTENDERS && contests[i].contenders[j].name != NULL; j++)
            lines++;
    }
    return lines;
}

int contest_draw(const struct contest *contests, int count, const char *path)
{
    FILE *out = fopen(path, "w");
    if (out == NULL) {
        perror(path);
        return 1;
    }
    int height = lines(contests, count) * LINE;
    fprintf(out, "<svg xmlns='http://www.w3.org/2000/svg' width='%d' height='%d' "
                 "font-family='sans-serif' font-size='12'>\n", WIDTH, height);
    fprintf(out, "<rect width='%d' height='%d' fill='white'/>\n", WIDTH, height);
    fprintf(out, "<text x='10' y='18'>Speed as a multiple of the proved code's; "
                 "longer is faster.</text>\n");
    int y = 18 + 2 * LINE;
    for (int i = 0; i < count; i++)
        y = draw_contest(out, &contests[i], y);
    fprintf(out, "</svg>\n");
    return fclose(out);
}
