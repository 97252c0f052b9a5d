/* Replay: a long trace into a fresh state, and then the standing of every login. */
#include <string.h>

#include "../include/talcfeather.h"
#include "contenders.h"

#ifdef HAVE_SQLITE
#include <sqlite3.h>
#endif

static uint8_t trace[RECORDS * TALC_TRACE_RECORD];
static uint8_t uuids[TALC_STATE_UUIDS][16];
static size_t uuids_len;

/* The same in every run. */
static uint64_t next_number(void)
{
    static uint64_t x = 88172645463325252u;
    x ^= x << 13, x ^= x >> 7, x ^= x << 17;
    return x >> 16;
}

static void make_uuids(size_t count, int counted)
{
    uuids_len = count;
    memset(uuids, 0, sizeof uuids);
    for (size_t i = 0; i < count; i++) {
        for (size_t j = 0; j < 16 && !counted; j++)
            uuids[i][j] = (uint8_t)next_number();
        if (counted)
            memcpy(uuids[i], &i, sizeof i);
    }
}

/* Each record of a random one of the UUIDs, at a random time, of a random kind. */
void make_trace(size_t count, int counted)
{
    make_uuids(count, counted);
    memset(trace, 0, sizeof trace);
    for (size_t i = 0; i < RECORDS; i++) {
        uint8_t *record = trace + i * TALC_TRACE_RECORD;
        uint32_t time = (uint32_t)next_number();
        memcpy(record, uuids[next_number() % count], 16);
        memcpy(record + 16, &time, 4);
        record[20] = (uint8_t)(1 + next_number() % 3);
    }
}

/* The outcome of each is four numbers: how many are cancelled, how many latest times there are, and
   the sums of those of cancels and of reissues. */

void replay_proved(uint8_t out[32])
{
    static uint8_t state[TALC_STATE_SIZE];
    uint8_t answer[TALC_STANDING_ANSWER];
    uint64_t numbers[4] = {0};
    memset(state, 0, sizeof state);
    if (talc_replay(state, sizeof state, trace, sizeof trace, answer) != 0)
        stop("a trace was refused");
    for (size_t i = 0; i < uuids_len; i++) {
        if (talc_standing(state, sizeof state, uuids[i], answer) != 0)
            stop("a state was refused");
        numbers[0] += talc_number(answer);
        numbers[1] += talc_number(answer + 8) + talc_number(answer + 24);
        numbers[2] += talc_number(answer + 16);
        numbers[3] += talc_number(answer + 32);
    }
    memcpy(out, numbers, sizeof numbers);
}

#ifdef HAVE_SQLITE
/* The latest times by one upsert a record, -1 for none; kind and pad are not looked at. */

static void run_sql(sqlite3 *db, const char *sql)
{
    if (sqlite3_exec(db, sql, NULL, NULL, NULL) != SQLITE_OK)
        stop(sqlite3_errmsg(db));
}

static sqlite3_stmt *prepared(sqlite3 *db, const char *sql)
{
    sqlite3_stmt *statement;
    if (sqlite3_prepare_v2(db, sql, -1, &statement, NULL) != SQLITE_OK)
        stop(sqlite3_errmsg(db));
    return statement;
}

static void take_records(sqlite3 *db)
{
    sqlite3_stmt *upsert = prepared(db,
        "INSERT INTO logins VALUES (?1, ?2, ?3) ON CONFLICT (uuid) DO UPDATE SET "
        "cancel = max(cancel, excluded.cancel), reissue = max(reissue, excluded.reissue)");
    for (size_t i = 0; i < RECORDS; i++) {
        const uint8_t *record = trace + i * TALC_TRACE_RECORD;
        uint32_t time;
        memcpy(&time, record + 16, 4);
        sqlite3_bind_blob(upsert, 1, record, 16, SQLITE_STATIC);
        sqlite3_bind_int64(upsert, 2, record[20] == TALC_KIND_CANCEL ? (int64_t)time : -1);
        sqlite3_bind_int64(upsert, 3, record[20] == TALC_KIND_REISSUE ? (int64_t)time : -1);
        if (sqlite3_step(upsert) != SQLITE_DONE)
            stop(sqlite3_errmsg(db));
        sqlite3_reset(upsert);
    }
    sqlite3_finalize(upsert);
}

void replay_sqlite(uint8_t out[32])
{
    sqlite3 *db;
    uint64_t numbers[4];
    if (sqlite3_open(":memory:", &db) != SQLITE_OK)
        stop("SQLite has no memory");
    run_sql(db, "CREATE TABLE logins (uuid BLOB PRIMARY KEY, cancel INTEGER, reissue INTEGER) "
                "WITHOUT ROWID; BEGIN");
    take_records(db);
    run_sql(db, "COMMIT");
    sqlite3_stmt *asked = prepared(db,
        "SELECT sum(cancel >= 0 AND reissue <= cancel), sum((cancel >= 0) + (reissue >= 0)), "
        "sum(max(cancel, 0)), sum(max(reissue, 0)) FROM logins");
    if (sqlite3_step(asked) != SQLITE_ROW)
        stop(sqlite3_errmsg(db));
    for (int i = 0; i < 4; i++)
        numbers[i] = (uint64_t)sqlite3_column_int64(asked, i);
    sqlite3_finalize(asked);
    sqlite3_close(db);
    memcpy(out, numbers, sizeof numbers);
}
#endif
