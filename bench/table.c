/* The login table: exporting a body of many logins beside judging it, and importing the table. */
#include <string.h>

#include "../include/talcfeather.h"
#include "contenders.h"

/* The longest table that a body has. */
static uint8_t table[TALC_BODY_MAX / SMALL_LOGIN * TALC_ROW_SIZE];
static size_t table_len;

enum { NOW = 1793606400 };

static void add_login(size_t number, size_t login)
{
    static const char text[] =
        "Floor 2, lathes and mills, and the label printer beside the window, and some more";
    uint8_t uuid[16] = {0};
    uint32_t expiry = (uint32_t)(NOW + number * 5000);
    int filled = login == FILLED_LOGIN;
    memcpy(uuid, &number, sizeof number);
    add_field(0x01, uuid, 16);
    add_field(0x03, text, filled ? TALC_TITLE_ROOM : login == SMALL_LOGIN ? 7 : 16);
    if (login != SMALL_LOGIN) {
        add_field(0x04, text, filled ? TALC_USER_ROOM : 7);
        add_field(0x02, text, filled ? TALC_GROUP_ROOM : 14);
        add_field(0x0a, &expiry, 4);
    }
    add_field(0x06, "password", 8);
    add_field(0xff, NULL, 0);
}

void make_logins(size_t length, size_t login)
{
    static const uint8_t version[2] = {0x0e, 0x03};
    uint8_t answer[TALC_EXPORT_ANSWER];
    body_len = 0;
    add_field(0x00, version, 2);
    add_field(0xff, NULL, 0);
    for (size_t number = 0; body_len + login <= length; number++)
        add_login(number, login);
    if (talc_export(body, body_len, NOW, table, sizeof table, answer) != 0)
        stop("an export was refused");
    table_len = talc_number(answer) * TALC_ROW_SIZE;
    if (table_len != (body_len - 32) / login * TALC_ROW_SIZE)
        stop("a table has another length");
}

/* The outcome of each is the number of logins. */

void export_proved(uint8_t out[32])
{
    uint8_t answer[TALC_EXPORT_ANSWER];
    if (talc_export(body, body_len, NOW, table, sizeof table, answer) != 0)
        stop("an export was refused");
    memcpy(out, answer, 8);
}

void judge_records(uint8_t out[32])
{
    uint8_t answer[TALC_JUDGE_ANSWER];
    if (talc_judge(body, body_len, answer) != 0)
        stop("a body was refused");
    memcpy(out, answer + 8, 8);
}

void import_proved(uint8_t out[32])
{
    uint8_t answer[TALC_IMPORT_ANSWER];
    if (talc_import(table, table_len, answer) != 0)
        stop("a table was refused");
    memcpy(out, answer, 8);
}
