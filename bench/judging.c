/*
 * Judging a body by this tree's library and by another's, in one run, by the number of records and by
 * their UUIDs: what it costs that no two records may have one UUID, where the other library asks for
 * less. Both are linked, each under names of its own (the Makefile's `judging`). A record has 80 bytes.
 */
#include <stdio.h>
#include <string.h>

#include "contenders.h"
#include "contest.h"

uint32_t here_talc_judge(const uint8_t *body, size_t n, uint8_t answer[16]);
uint32_t there_talc_judge(const uint8_t *body, size_t n, uint8_t answer[16]);

/* How often a run judges the body, so that one of few records takes its time too. */
static int times;

#define SIDE(side)                                                                                 \
    static void side##_judges(uint8_t out[32])                                                     \
    {                                                                                              \
        for (int i = 0; i < times; i++)                                                            \
            if (side##_talc_judge(body, body_len, out) != 0)                                       \
                stop("a body was refused");                                                        \
    }

SIDE(here)
SIDE(there)

/* Numbers that look random and are the same in every run (SplitMix64). */
static uint64_t any(void)
{
    static uint64_t state = 7;
    uint64_t z = state += 0x9E3779B97F4A7C15u;
    z = (z ^ z >> 30) * 0xBF58476D1CE4E5B9u;
    z = (z ^ z >> 27) * 0x94D049BB133111EBu;
    return z ^ z >> 31;
}

typedef void makes(uint8_t uuid[16], uint32_t number);

static void counted(uint8_t uuid[16], uint32_t number)
{
    memset(uuid, 0, 16);
    memcpy(uuid, &number, 4);
}

static void at_random(uint8_t uuid[16], uint32_t number)
{
    uint64_t halves[2] = {any(), any()};
    (void)number;
    memcpy(uuid, halves, 16);
}

/* The number in the last bytes, highest first. */
static void equal_starts(uint8_t uuid[16], uint32_t number)
{
    memset(uuid, 7, 16);
    for (int i = 0; i < 4; i++)
        uuid[15 - i] = (uint8_t)(number >> 8 * i);
}

/*
 * UUIDs of which every look-up starts at one slot. The start is the library's own matter: with the
 * words w0 to w3 it is the upper part of (w0 + 3 w1 + 5 w2 + 7 w3) * 2,654,435,769 modulo 2^32, taken
 * as a part of 24,576. 340,573,321 is the inverse of that factor.
 */
static void chosen(uint8_t uuid[16], uint32_t slot)
{
    uint32_t words[4] = {0, (uint32_t)any(), (uint32_t)any(), (uint32_t)any()};
    uint32_t least = (uint32_t)((((uint64_t)slot << 32) + 24575) / 24576);
    words[0] = least * 340573321u - 3 * words[1] - 5 * words[2] - 7 * words[3];
    uint32_t sum = words[0] + 3 * words[1] + 5 * words[2] + 7 * words[3];
    if ((uint64_t)(sum * 2654435769u) * 24576 >> 32 != slot)
        stop("a UUID is not at its slot");
    memcpy(uuid, words, 16);
}

static void first_slot(uint8_t uuid[16], uint32_t number) { (void)number, chosen(uuid, 0); }
static void last_slot(uint8_t uuid[16], uint32_t number) { (void)number, chosen(uuid, 24575); }

static void make_records(makes *make, uint32_t records)
{
    static const uint8_t version[2] = {0x0e, 0x03};
    uint8_t uuid[16];
    body_len = 0;
    add_field(0x00, version, 2);
    add_field(0xff, NULL, 0);
    for (uint32_t number = 0; number < records; number++) {
        make(uuid, number);
        add_field(0x01, uuid, 16);
        add_field(0x03, "t", 1);
        add_field(0x06, "p", 1);
        add_field(0xff, NULL, 0);
    }
}

static const struct {
    const char *what;
    makes *make;
    int collide;
} kinds[] = {
    {"counted up", counted, 0},       {"random", at_random, 0},
    {"sorted, equal starts", equal_starts, 0}, {"chosen, first slot", first_slot, 1},
    {"chosen, last slot", last_slot, 1},
};

static const uint32_t counts[] = {1, 200, 2000, 8193, 52425};

/* A line of the table: the best time of each side, and the ratio. */
static void hold(int kind, uint32_t records)
{
    struct contender sides[] = {{"here", here_judges, 0}, {"there", there_judges, 0}};
    int collide = kinds[kind].collide && records > 200;
    struct contest contest = {kinds[kind].what, "", 0, collide ? 2 : 21, NULL, {sides[0], sides[1]}};
    times = collide ? 1 : (int)(60000 / records) + 1;
    make_records(kinds[kind].make, records);
    contest_time(&contest);
    double here = contest.contenders[0].seconds / times, there = contest.contenders[1].seconds / times;
    printf("%-20s %8u %14.1f %14.1f %10.2f\n", kinds[kind].what, records, here * 1e6, there * 1e6,
           here / there);
    fflush(stdout);
}

int main(void)
{
    fill_message();
    printf("best of several rounds, interleaved; the last column is the time here as a multiple of\n"
           "the time there\n\n%-20s %8s %14s %14s %10s\n", "UUIDs", "records", "here, us",
           "there, us", "ratio");
    for (size_t kind = 0; kind < sizeof kinds / sizeof kinds[0]; kind++)
        for (size_t i = 0; i < sizeof counts / sizeof counts[0]; i++)
            hold((int)kind, counts[i]);
    return 0;
}
