/*
 * The proved code beside others, in one run: SHA-256 of a long message, whole and in pieces;
 * stretching; Twofish; whole files; judging a body; replaying a trace; exporting a table beside
 * judging its body. Each contest checks that all contenders come to the same outcome. Libraries
 * that are not there are left out.
 */
#include <stdio.h>

#include "contenders.h"
#include "contest.h"

#ifdef HAVE_GCRYPT
#include <gcrypt.h>
#endif

/* Their SHA-256 goes without the instructions that a processor has for it. */
#ifdef __x86_64__
#define MASKED ", no SHA-NI"
#else
#define MASKED ", SHA-2 masked"
#endif

#ifdef HAVE_OPENSSL
#define OPENSSL(f) {"OpenSSL" MASKED, f, 0},
#else
#define OPENSSL(f)
#endif
#ifdef HAVE_GCRYPT
#define GCRYPT(f) {"libgcrypt" MASKED, f, 0},
#define GCRYPT_TWOFISH(f) {"libgcrypt", f##_gcrypt, 0},
#else
#define GCRYPT(f)
#define GCRYPT_TWOFISH(f)
#endif
#ifdef HAVE_NETTLE
#define NETTLE(f) {"nettle" MASKED, f, 0},
#define NETTLE_TWOFISH(f) {"nettle", f##_nettle, 0},
#else
#define NETTLE(f)
#define NETTLE_TWOFISH(f)
#endif
#ifdef HAVE_BOTAN
#define BOTAN(f) {"Botan", f##_botan, 0},
#else
#define BOTAN(f)
#endif
#ifdef HAVE_TOMCRYPT
#define TOMCRYPT(f) {"LibTomCrypt", f##_tomcrypt, 0},
#else
#define TOMCRYPT(f)
#endif
#ifdef HAVE_SQLITE
#define SQLITE(f) {"SQLite in memory", f, 0},
#else
#define SQLITE(f)
#endif
#if defined HAVE_OPENSSL && defined HAVE_GCRYPT
#define OTHERS {"OpenSSL and libgcrypt", read_others, 0},
#else
#define OTHERS
#endif

#define PROVED(f) {"proved", f, 0},
#define PORTABLE(f) {"portable C, gcc -O3", f, 0},
#define MB(n) ((n) / 1e6)
#define TWOFISH(what, unit, work, f) \
    {"Twofish, " what, unit, work, 9, NULL, \
     {PROVED(f##_proved) GCRYPT_TWOFISH(f) NETTLE_TWOFISH(f) BOTAN(f) TOMCRYPT(f)}}
#define WHOLE(title, rounds, prepare) \
    {title, "/s", 1, rounds, prepare, {PROVED(read_proved) OTHERS}}
#define REPLAY(over, prepare) \
    {"Replaying 1,000,000 records, " over, "M/s", RECORDS / 1e6, 3, prepare, \
     {PROVED(replay_proved) SQLITE(replay_sqlite)}}

#define MILLIONS(length, login) (((length) - 32) / (login) / 1e6)
#define EXPORT(what, prepare, length, login) \
    {"Exporting " what, "M/s", MILLIONS(length, login), 9, prepare, \
     {PROVED(export_proved) {"judging the same body", judge_records, 0}}}
#define IMPORT(what, prepare, length, login) \
    {"Importing the table of " what, "M/s", MILLIONS(length, login), 9, prepare, \
     {PROVED(import_proved)}}

static void small_fields(void) { make_body(LONG, 0, 4); }
static void one_uuid(void) { make_trace(1, 0); }
static void some_random(void) { make_trace(64, 0); }
static void many_random(void) { make_trace(4096, 0); }
static void some_counted(void) { make_trace(64, 1); }
static void many_counted(void) { make_trace(4096, 1); }
static void common_4(void) { make_logins(LONG, COMMON_LOGIN); }
static void common_2(void) { make_logins(LONG / 2, COMMON_LOGIN); }
static void common_1(void) { make_logins(LONG / 4, COMMON_LOGIN); }
static void small_4(void) { make_logins(LONG, SMALL_LOGIN); }
static void filled_4(void) { make_logins(LONG, FILLED_LOGIN); }

enum { ONE_MESSAGE, IN_PIECES };

static struct contest contests[] = {
    [ONE_MESSAGE] = {"SHA-256, one long message", "MB/s", MB(MESSAGE), 9, NULL,
     {PROVED(hash_proved) PORTABLE(hash_portable) OPENSSL(hash_openssl) GCRYPT(hash_gcrypt)
      NETTLE(hash_nettle)}},
    [IN_PIECES] = {"SHA-256, the same in pieces of 50 bytes", "MB/s", MB(MESSAGE), 9, NULL,
     {PROVED(pieces_proved) PORTABLE(pieces_portable) OPENSSL(pieces_openssl)
      GCRYPT(pieces_gcrypt) NETTLE(pieces_nettle)}},
    {"Stretching: hashes of 32 bytes", "M/s", CHAIN / 1e6, 9, NULL,
     {PROVED(chain_proved) PORTABLE(chain_portable) OPENSSL(chain_openssl) GCRYPT(chain_gcrypt)
      NETTLE(chain_nettle)}},
    TWOFISH("CBC decryption", "MB/s", MB(TEXT), cbc),
    TWOFISH("CBC encryption", "MB/s", MB(TEXT), encrypted),
    TWOFISH("key set-up and one block", "k/s", KEYS / 1e3, keys),
    TWOFISH("key set-up and two blocks", "k/s", KEYS / 1e3, keys_2),
    TWOFISH("key set-up and four blocks", "k/s", KEYS / 1e3, keys_4),
    WHOLE("Reading the shortest body, ITER 2,048", 99, shortest),
    WHOLE("Reading a body of 1 MB, ITER 2,048", 3, short_at_once),
    WHOLE("Reading a body of 1 MB, ITER 262,144", 3, short_stretched),
    WHOLE("Reading a body of 4 MB, ITER 2,048", 3, long_at_once),
    WHOLE("Reading a body of 4 MB, ITER 262,144", 3, long_stretched),
    {"Judging a body of 4 MB, many small fields", "MB/s", MB(LONG), 9, small_fields,
     {PROVED(judge_proved)}},
    REPLAY("1 UUID", one_uuid),
    REPLAY("64 UUIDs", some_random),
    REPLAY("4,096 UUIDs", many_random),
    REPLAY("64 counted up", some_counted),
    REPLAY("4,096 counted up", many_counted),
    EXPORT("4 MB of logins", common_4, LONG, COMMON_LOGIN),
    EXPORT("2 MB of logins", common_2, LONG / 2, COMMON_LOGIN),
    EXPORT("1 MB of logins", common_1, LONG / 4, COMMON_LOGIN),
    EXPORT("4 MB of the smallest logins", small_4, LONG, SMALL_LOGIN),
    EXPORT("4 MB of logins that fill their rows", filled_4, LONG, FILLED_LOGIN),
    IMPORT("4 MB of logins", common_4, LONG, COMMON_LOGIN),
    IMPORT("4 MB of logins that fill their rows", filled_4, LONG, FILLED_LOGIN),
};

/* The tables are the last, and the replays before them. */
enum { COUNT = sizeof contests / sizeof contests[0] };
enum { TABLES = COUNT - 7, COMMON_2, COMMON_1, SMALL_4, FILLED_4 };
enum { REPLAYS = TABLES - 5, RANDOM_64, RANDOM_4096, COUNTED_64, COUNTED_4096 };

/* How long a record takes, and what more UUIDs cost. */
static void tell_replays(void)
{
    printf("\nns a record\n");
    for (int i = REPLAYS; i < TABLES; i++)
        for (const struct contender *c = contests[i].contenders; c->name != NULL; c++)
            printf("  %-46s %-18s %8.1f\n", contests[i].title, c->name, c->seconds / RECORDS * 1e9);
    printf("\nproved, a record over 4,096 UUIDs against one over 64: %.2f; counted up: %.2f\n",
           contests[RANDOM_4096].contenders->seconds / contests[RANDOM_64].contenders->seconds,
           contests[COUNTED_4096].contenders->seconds / contests[COUNTED_64].contenders->seconds);
}

/* Of an export, the time as a multiple of that of judging alone, in the same rounds. */
static double against_judging(int i)
{
    return contests[i].contenders[0].seconds / contests[i].contenders[1].seconds;
}

static double login_ns(int i)
{
    return contests[i].contenders->seconds / contests[i].work * 1e3;
}

/* How long a login takes, what more logins cost, and what export costs beside judging. */
static void tell_tables(void)
{
    printf("\nns a login\n");
    for (int i = TABLES; i < COUNT; i++)
        printf("  %-60s %8.1f\n", contests[i].title, login_ns(i));
    printf("\nproved, a login of 4 MB against one of 1 MB: %.2f; of 2 MB: %.2f\n",
           login_ns(TABLES) / login_ns(COMMON_1), login_ns(COMMON_2) / login_ns(COMMON_1));
    printf("proved, exporting 4 MB against judging it: %.2f; the smallest logins: %.2f; logins "
           "that fill their rows: %.2f\n",
           against_judging(TABLES), against_judging(SMALL_4), against_judging(FILLED_4));
}

int main(int count, char **arguments)
{
    fill_message();
#ifdef HAVE_GCRYPT
    gcry_control(GCRYCTL_DISABLE_HWF, "intel-shaext", NULL);
    gcry_control(GCRYCTL_DISABLE_HWF, "arm-sha2", NULL);
    gcry_check_version(NULL);
    gcry_control(GCRYCTL_INITIALIZATION_FINISHED, 0);
#endif
    printf("best of several rounds, interleaved; the last column is the speed as a multiple of\n"
           "the proved code's\n");
    for (int i = 0; i < COUNT; i++)
        contest_hold(&contests[i]);
    printf("\nproved, pieces of 50 bytes against the whole slice: %.2f\n",
           contests[ONE_MESSAGE].contenders->seconds / contests[IN_PIECES].contenders->seconds);
    tell_replays();
    tell_tables();
    return count > 1 ? contest_draw(contests, COUNT, arguments[1]) : 0;
}
