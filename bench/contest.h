/* A contest: one piece of work, done by several contenders, timed in interleaved rounds. */
#ifndef CONTEST_H
#define CONTEST_H

#include <stdint.h>

#define CONTENDERS 6
#define OUTCOME 32

struct contender {
    const char *name;
    /* Does the work once; what it leaves in `outcome` must be the same for all. */
    void (*run)(uint8_t outcome[OUTCOME]);
    double seconds; /* the best round */
};

struct contest {
    const char *title;
    const char *unit;
    double work; /* units in one run */
    int rounds;
    void (*prepare)(void); /* makes what the contenders take, before the first round; or NULL */
    struct contender contenders[CONTENDERS]; /* the proved code first, then until no name */
};

/* Runs all rounds; ends the program if outcomes differ. */
void contest_time(struct contest *contest);

/* The same, and prints a line for each contender. */
void contest_hold(struct contest *contest);

/* Writes the picture: each contender's speed as a multiple of the proved code's. */
int contest_draw(const struct contest *contests, int count, const char *path);

#endif
