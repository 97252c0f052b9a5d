/*
 * What talc_read() and talc_write() leave on the stack, and what talc_clear_stack() leaves of that.
 *
 *   secrets read FILE PASSPHRASE CEILING ROOM NEEDLES
 *   secrets write FILE PASSPHRASE ITER BODY ROOM NEEDLES
 *
 * All but the numbers are names of files: FILE is read, or has salt, K, L and initial vector to write
 * with, one after the other; NEEDLES has 8 bytes for each secret to look for. The call runs on a
 * painted stack, alone and then with talc_clear_stack() after it; a reading once more from a function
 * that has a large frame and ends with the clearing. For each, a line: the call's number, the needles
 * that were found, the bytes that were neither paint nor zero, but for the topmost 512, which are those
 * of the functions that were called last, and how many bytes down the stack was used.
 */
#define _XOPEN_SOURCE 600
#include <stdio.h>
#include <stdlib.h>
#include <string.h>
#include <ucontext.h>

#include "talcfeather.h"

enum { PAINT = 0xC5, ROOM = 256 * 1024, NEWEST = 512 };

typedef struct {
    uint8_t bytes[16384];
    size_t length;
} Given;

static Given file, passphrase, body, needles;
static uint8_t memory[16384], answer[TALC_READ_ANSWER];
static uint32_t limit, number;
static size_t room;
static bool clearing;

/* Whole pages, and the two places between which calls run on them. */
static uint8_t stack[ROOM];
static const uint8_t *top;
static ucontext_t here, there;

static void reads(void)
{
    uint8_t mark = 0;
    top = &mark;
    number = talc_read(file.bytes, file.length, passphrase.bytes, passphrase.length, limit, memory,
                       room, answer);
    if (clearing)
        talc_clear_stack();
    swapcontext(&there, &here);
}

static void writes(void)
{
    uint8_t mark = 0;
    const uint8_t *parts = file.bytes;
    top = &mark;
    number = talc_write(passphrase.bytes, passphrase.length, parts, limit, parts + 32, parts + 64,
                        parts + 96, body.bytes, body.length, memory, room);
    if (clearing)
        talc_clear_stack();
    swapcontext(&there, &here);
}

/* With a large frame of its own, and the clearing as its last act. */
static void read_in_a_frame(void)
{
    uint8_t workspace[32768];
    top = workspace;
    number = talc_read(file.bytes, file.length, passphrase.bytes, passphrase.length, limit,
                       workspace, room < sizeof workspace ? room : sizeof workspace, answer);
    talc_wipe(workspace, sizeof workspace);
    if (clearing)
        talc_clear_stack();
}

static void reads_in_a_frame(void)
{
    void (*volatile call)(void) = read_in_a_frame;
    call();
    swapcontext(&there, &here);
}

static int found(void)
{
    int count = 0;
    for (size_t n = 0; n + 8 <= needles.length; n += 8) {
        const uint8_t *from = stack, *at;
        while ((at = (const uint8_t *)memchr(from, needles.bytes[n], stack + ROOM - 8 - from))) {
            if (memcmp(at, needles.bytes + n, 8) == 0)
                break;
            from = at + 1;
        }
        count += at != NULL;
    }
    return count;
}

static int left(void)
{
    int count = 0;
    for (const uint8_t *at = stack; at < top - NEWEST; at++)
        count += *at != PAINT && *at != 0;
    return count;
}

static int depth(void)
{
    const uint8_t *lowest = stack;
    while (lowest < top && *lowest == PAINT)
        lowest++;
    return (int)(top - lowest);
}

static void run(void (*calls)(void), bool with_clearing)
{
    memset(stack, PAINT, sizeof stack);
    clearing = with_clearing;
    getcontext(&there);
    there.uc_stack.ss_sp = stack;
    there.uc_stack.ss_size = sizeof stack;
    makecontext(&there, calls, 0);
    swapcontext(&here, &there);
    printf("%u %d %d %d\n", (unsigned)number, found(), left(), depth());
}

static void take(Given *given, const char *name)
{
    FILE *in = fopen(name, "rb");
    if (in == NULL)
        exit(66);
    given->length = fread(given->bytes, 1, sizeof given->bytes, in);
    fclose(in);
}

int main(int count, char **arguments)
{
    bool writing = count == 8;
    if (count < 7)
        return 64;
    take(&file, arguments[2]);
    take(&passphrase, arguments[3]);
    limit = (uint32_t)strtoul(arguments[4], NULL, 10);
    if (writing)
        take(&body, arguments[5]);
    room = strtoul(arguments[count - 2], NULL, 10);
    take(&needles, arguments[count - 1]);
    run(writing ? writes : reads, false);
    run(writing ? writes : reads, true);
    if (!writing) {
        run(reads_in_a_frame, false);
        run(reads_in_a_frame, true);
    }
    return 0;
}
