/*
 * Every call from C, as the header declares it, with null wherever a length is 0. Every answer that
 * is told by TELL is full of EE before its call, and is to be zero in every byte after it.
 */
#include <stdio.h>
#include <string.h>

#include "talcfeather.h"

/* Programs that are older than the names have these numbers in their place. */
#if TALC_WALK_AT_FIELD != 0 || TALC_WALK_AT_NEXT_PLACE != 8 || TALC_WALK_AT_NEXT_IN_RECORD != 16 || \
    TALC_WALK_AT_TYPE != 24 || TALC_WALK_AT_PLACE != 32 || TALC_WALK_AT_LENGTH != 40 ||             \
    TALC_WALK_AT_KIND != 48 || TALC_WALK_AT_VALUE != 56 || TALC_WALK_AT_SECOND_HALF != 64
#error "a field's numbers stand elsewhere"
#endif
#if TALC_FIND_AT_PLACE != 16 || TALC_IMPORT_AT_ROWS != 0 || TALC_IMPORT_AT_ROW != 8
#error "the numbers of a search or a table stand elsewhere"
#endif
#if TALC_ROW_AT_UUID != 8 || TALC_ROW_AT_TITLE_LENGTH != 24 || TALC_ROW_AT_USER_LENGTH != 32 ||     \
    TALC_ROW_AT_DAYS != 48
#error "a row's numbers stand elsewhere"
#endif
#if TALC_RECORD_TITLE != 0x03 || TALC_RECORD_USER != 0x04 || TALC_END != 0xff
#error "types have other numbers"
#endif

static uint8_t state[TALC_STATE_SIZE];
/* A cancel at time 5; and a reissue at 6 with a record of zeros, which has no kind, behind it. */
static const uint8_t trace[TALC_TRACE_RECORD] = {
    7, 0, 0, 0, 0, 0, 0, 0, 0, 0, 0, 0, 0, 0, 0, 0, 5, 0, 0, 0, TALC_KIND_CANCEL};
static const uint8_t mixed[2 * TALC_TRACE_RECORD] = {
    7, 0, 0, 0, 0, 0, 0, 0, 0, 0, 0, 0, 0, 0, 0, 0, 6, 0, 0, 0, TALC_KIND_REISSUE};

/* A row of a table, full but for its title, which is "Lathe"; -2 days. */
static uint8_t row[TALC_ROW_SIZE];
/* Version, END, and a record of UUID, title "T" and password "p". */
static const uint8_t body[112] = {
    2, 0, 0, 0, 0x00, 0x0e, 3, 0, 0, 0, 0, 0, 0, 0, 0, 0, 0, 0, 0, 0, 0xff, 0, 0, 0, 0, 0, 0, 0,
    0, 0, 0, 0, 16, 0, 0, 0, 0x01, 1, 2, 3, 4, 5, 6, 7, 8, 9, 10, 11, 12, 13, 14, 15, 16, 0, 0, 0,
    0, 0, 0, 0, 0, 0, 0, 0, 1, 0, 0, 0, 0x03, 'T', 0, 0, 0, 0, 0, 0, 0, 0, 0, 0, 1, 0, 0, 0, 0x06,
    'p', 0, 0, 0, 0, 0, 0, 0, 0, 0, 0, 0, 0, 0, 0, 0xff};

static int left; /* bytes of answers that are not zero */

static void told(uint32_t number, const uint8_t *answer, size_t length)
{
    printf("%u ", (unsigned)number);
    for (size_t i = 0; i < length; i++)
        left += answer[i] != 0;
}

#define TELL(answer, call) \
    (memset(answer, 0xEE, sizeof answer), told(call, answer, sizeof answer))

static void make_row(void)
{
    for (int i = 0; i < 16; i++)
        row[TALC_ROW_UUID + i] = (uint8_t)(i + 1);
    memcpy(row + TALC_ROW_TITLE, "Lathe", 5);
    memset(row + TALC_ROW_USER, 'u', TALC_USER_ROOM);
    memset(row + TALC_ROW_GROUP, 'g', TALC_GROUP_ROOM);
    memset(row + TALC_ROW_DAYS, 0xff, 4);
    row[TALC_ROW_DAYS] = 0xfe;
}

static void print_found(const uint8_t uuid[16])
{
    uint8_t answer[TALC_FIND_ANSWER];
    printf(" %u", (unsigned)talc_find(body, sizeof body, uuid, answer));
    for (int i = 0; i < 4; i++)
        printf(" %u", (unsigned)talc_number(answer + 8 * i));
}

/* The record of the body above, and none. */
static void finds(void)
{
    static const uint8_t none[16] = {0};
    printf("%d %d", TALC_VERSION, TALC_FIND_ANSWER);
    print_found(body + 37);
    print_found(none);
    printf(" ");
}

/*
 * Titles: of text, with a byte FF, with a final 00, with a cut character, with a byte order mark
 * before FF. For each, whether it is damaged, where, and what stands in the second half.
 */
static void texts(void)
{
    static const uint8_t titles[5][16] = {
        {5, 0, 0, 0, 0x03, 'L', 'a', 't', 'h', 'e'},
        {5, 0, 0, 0, 0x03, 'L', 'a', 0xff, 'h', 'e'},
        {6, 0, 0, 0, 0x03, 'L', 'a', 't', 'h', 'e', 0},
        {4, 0, 0, 0, 0x03, 'L', 'a', 't', 0xc3},
        {5, 0, 0, 0, 0x03, 0xef, 0xbb, 0xbf, 'L', 0xff},
    };
    uint8_t answer[TALC_WALK_ANSWER];
    for (int i = 0; i < 5; i++) {
        memset(answer, 0xEE, sizeof answer);
        talc_walk(titles[i], sizeof titles[i], 0, true, answer);
        printf("%d ", talc_number(answer + TALC_WALK_AT_KIND) == TALC_VALUE_BADTEXT);
        printf("%u ", (unsigned)talc_number(answer + TALC_WALK_AT_VALUE));
        printf("%u ", (unsigned)talc_number(answer + TALC_WALK_AT_SECOND_HALF));
    }
}

/*
 * Times of the header: four bytes, and eight hex digits; eight bytes that are not all digits; and the
 * digits as a record's time. For each, whether it is a time, which, and whether it is misshapen.
 */
static void stamps(void)
{
    static const uint8_t fields[5][16] = {
        {4, 0, 0, 0, 0x04, 0x7d, 0x6c, 0x5b, 0x4a},
        {8, 0, 0, 0, 0x04, '4', 'A', '5', 'B', '6', 'C', '7', 'D'},
        {8, 0, 0, 0, 0x13, 'f', 'e', 'd', 'c', 'b', 'a', '9', '8'},
        {8, 0, 0, 0, 0x13, '4', 'A', '5', 'B', '6', 'C', '7', 'G'},
        {8, 0, 0, 0, 0x07, '4', 'A', '5', 'B', '6', 'C', '7', 'D'},
    };
    uint8_t answer[TALC_WALK_ANSWER];
    for (int i = 0; i < 5; i++) {
        memset(answer, 0xEE, sizeof answer);
        talc_walk(fields[i], sizeof fields[i], 0, fields[i][4] == 0x07, answer);
        printf("%d ", talc_number(answer + TALC_WALK_AT_KIND) == TALC_VALUE_TIME);
        printf("%u ", (unsigned)talc_number(answer + TALC_WALK_AT_VALUE));
        printf("%d ", talc_number(answer + TALC_WALK_AT_KIND) == TALC_VALUE_MISSHAPEN);
    }
}

/* The same record twice; then the second with another UUID. */
static void doubles(void)
{
    uint8_t two[sizeof body + 80], judge[TALC_JUDGE_ANSWER], find[TALC_FIND_ANSWER];
    memcpy(two, body, sizeof body);
    memcpy(two + sizeof body, body + 32, 80);
    TELL(judge, talc_judge(two, sizeof two, judge));
    TELL(find, talc_find(two, sizeof two, two + 37, find));
    two[sizeof body + 5 + 15] ^= 1;
    printf("%u ", (unsigned)talc_find(two, sizeof two, two + sizeof body + 5, find));
    printf("%u ", (unsigned)talc_number(find + TALC_FIND_AT_PLACE));
}

/* The calls of the login table: answers of zeros, then with something in them. */
static void tables(void)
{
    uint8_t exported[TALC_EXPORT_ANSWER], imported[TALC_IMPORT_ANSWER], one[TALC_ROW_ANSWER];
    uint8_t table[TALC_ROW_SIZE];
    TELL(exported, talc_export(NULL, 0, 0, NULL, 0, exported));
    TELL(exported, talc_export(body, sizeof body, 0, table, sizeof table - 1, exported));
    TELL(imported, talc_import(NULL, 0, imported));
    TELL(one, talc_row(NULL, 0, 0, one));
    TELL(one, talc_row(row, sizeof row, 1, one));
    TELL(imported, talc_import(row, TALC_ROW_PAD, imported));
    TELL(one, talc_row(row, TALC_ROW_PAD, 0, one));
    make_row();
    printf("%u", (unsigned)talc_export(body, sizeof body, 0, table, sizeof table, exported));
    printf(" %u", (unsigned)talc_number(exported));
    printf(" %u", (unsigned)talc_import(table, sizeof table, imported));
    printf(" %u", (unsigned)talc_number(imported));
    printf(" %u", (unsigned)talc_row(table, sizeof table, 0, one));
    printf(" %d", talc_number(one + TALC_ROW_AT_DAYS) == TALC_NO_EXPIRY);
    printf(" %d", memcmp(table + TALC_ROW_UUID, one + TALC_ROW_AT_UUID, 16) == 0);
    printf(" %u", (unsigned)talc_row(row, sizeof row, 0, one));
    for (int i = 24; i < 48; i += 8)
        printf(" %u", (unsigned)talc_number(one + i));
    printf(" %d\n", (int)(int64_t)talc_number(one + TALC_ROW_AT_DAYS));
}

int main(void)
{
    static const uint8_t key[32] = {0}, block[16] = {0}, fill[11] = {0};
    uint8_t read[TALC_READ_ANSWER], walk[TALC_WALK_ANSWER], judge[TALC_JUDGE_ANSWER];
    uint8_t find[TALC_FIND_ANSWER], next[8];
    uint8_t replay[TALC_REPLAY_ANSWER], standing[TALC_STANDING_ANSWER];
    TELL(read, talc_read(NULL, 0, NULL, 0, 2048, NULL, 0, read));
    told(talc_write(NULL, 0, key, 2048, key, key, block, NULL, 0, NULL, 0), NULL, 0);
    TELL(walk, talc_walk(NULL, 0, 0, false, walk));
    TELL(walk, talc_walk(NULL, 0, 16, true, walk));
    TELL(next, talc_append(NULL, 0, 0, 0x03, NULL, 0, fill, 11, next));
    TELL(next, talc_append(NULL, 0, 0, 0xff, NULL, 0, NULL, 0, next));
    TELL(judge, talc_judge(NULL, 0, judge));
    TELL(find, talc_find(NULL, 0, block, find));
    TELL(replay, talc_replay(NULL, 0, NULL, 0, replay));
    TELL(standing, talc_standing(NULL, 0, block, standing));
    TELL(replay, talc_replay(state, sizeof state, NULL, 0, replay));
    TELL(replay, talc_replay(state, sizeof state, trace, 31, replay));
    TELL(standing, talc_standing(state, sizeof state, trace, standing));
    TELL(replay, talc_replay(state, sizeof state, trace, sizeof trace, replay));
    printf("%u", (unsigned)talc_standing(state, sizeof state, trace, standing));
    for (int i = 0; i < 5; i++)
        printf(" %u", (unsigned)talc_number(standing + 8 * i));
    printf(" %u", (unsigned)talc_replay(state, sizeof state, mixed, sizeof mixed, replay));
    printf(" %u ", (unsigned)talc_number(replay));
    finds();
    texts();
    stamps();
    doubles();
    tables();
    return left != 0 || talc_number(read) != 0;
}
