/*
 * Talcfeather: Password Safe V3 files, read and written in lent memory.
 *
 * The library is for x86-64 alone.
 *
 * Link with libtalcfeather.a, in the form that Linux links. The library
 * allocates nothing, keeps nothing between calls, reads no file, clock or
 * random source, needs at most the C library's functions on memory, and can be
 * called from several threads at once.
 *
 * ------------------------------------------------------------------------
 * What holds for every call
 *
 * The value returned is 0 or the number of a refusal (TALC_* below). A call
 * never fails in another way: every length, every content and every number
 * has an answer.
 *
 * Memory is lent for the time of the call as a pointer and a length in
 * bytes. A pointer may be null when its length is 0. A value of a fixed size
 * is a pointer to an array of that size, never null. What is behind a
 * `const` pointer is not changed. Memory that a call changes must not
 * overlap any other memory lent to the same call, and no other thread may
 * write to lent memory, `const` or not, during the call; the library relies
 * on this and does not check it.
 *
 * Behind a pointer to an `answer` or to `next`, all bytes are set by every
 * call, whatever they held before, when the call is refused as well. Numbers
 * in there take 8 bytes each, unsigned, lowest byte first: talc_number()
 * reads one, and TALC_.._AT_.. says where it stands. No alignment is needed
 * anywhere.
 *
 * "Zero" below means that every byte is 0.
 *
 * ------------------------------------------------------------------------
 * Words
 *
 * body      the decrypted content of a safe: fields, one after the other
 * field     length (4 bytes, lowest first), type (1), data, fill to the next
 *           multiple of 16. It takes the smallest number of 16-byte blocks
 *           that holds 5 + length bytes.
 * END       the field of type ff; it has no data. The header runs to the
 *           first END, then each record to one more.
 * place     offset of a field's first byte in its body, a multiple of 16
 * fill      the bytes after the data; may be anything, and is kept
 * ITER      how often the passphrase's hash is hashed again
 * ceiling   the largest ITER for which the caller is willing to wait
 * marker    the 16 bytes PWS3-EOFPWS3-EOF between body and HMAC
 * workspace memory that receives the body
 * trace     what a tablet recorded: records of 32 bytes, no header.
 *           A record holds UUID (16), time (4, lowest byte first), kind (1: 1
 *           edit, 2 cancel, 3 reissue) and pad (11 zeros). It has nothing to
 *           do with the records of a body.
 * state     131,072 bytes that keep what the accepted traces came to; fresh,
 *           it is zero
 * standing  whether a login is cancelled, and by which times
 * table     the logins of a body for the job card app: a row for each record,
 *           in order, no header
 * row       256 bytes: UUID (16), title (80), user name (80), group (72), days
 *           (4, signed, two's complement, lowest byte first), pad (4 zeros).
 *           A text has zeros after it, to the end of its room; one that fills
 *           its room has no zero after it.
 * days      whole days from the given now to the expiry, rounded down: 0 for
 *           an expiry in the 86,400 seconds from now on, -1 in those before.
 *           2,147,483,647 (TALC_NO_EXPIRY) where there is no expiry.
 *
 * A body is well formed when all of these hold: it divides exactly into
 * fields; every END has length 0; the first field is Version (00), length 2,
 * second byte 03; the header runs to the first END; after it come zero or
 * more records, each ending at an END, and nothing after the last; header
 * types 00 to 0b, 0f, 10 and 13 occur at most once; each record has exactly
 * one UUID (01) of 16 bytes, one Title (03) and one Password (06) of at
 * least 1 byte each; no two records have the same UUID, byte for byte.
 * Unknown types are kept, and so are other known types with an unexpected
 * length. The header's own UUID is no record's, and a record may have it.
 *
 * ------------------------------------------------------------------------
 * Judging
 *
 * talc_judge() says whether a body is well formed, and talc_read(),
 * talc_write(), talc_find() and talc_export() judge it before they go on.
 * They look up its UUIDs in a table on the stack: 53,248 of the bytes that
 * each of these calls takes, whatever the body's length.
 *
 * UUIDs are taken in by batches, and for each batch the fields from its first
 * UUID on are gone over once. A batch goes on for 65,535 blocks, 1 MB of body;
 * where UUIDs were chosen to collide it may end before, but not before 2,049
 * of them are in it. So a file has 4 batches at most, or 26 with such UUIDs.
 * For n records, at most n * (n - 1) / 2 pairs of UUIDs are compared, whatever
 * the UUIDs are; ordinary ones, random or counted up, need a few compares in
 * each batch. For the 52,425 records that the longest file can hold, UUIDs
 * that were chosen to collide cost some seconds, and change no answer.
 * A body that talc_judge(), talc_find() or talc_export() is handed may be
 * longer than a file's: there the time grows with the square of its length,
 * whatever its UUIDs are.
 *
 * ------------------------------------------------------------------------
 * Stack
 *
 * TALC_READ_STACK and so on are bounds on the stack that each call takes, in
 * bytes. They are measured, not proved: a test runs each call in each of its
 * outcomes on a painted stack, and holds it to its bound, and the bound to
 * what was seen: some 54,200 bytes for read and write, 53,800 for judge and
 * find, 54,600 for export, and under 300 for the others. A thread that clears
 * its stack as "Secrets" says needs TALC_CLEAR_STACK, which is more.
 *
 * ------------------------------------------------------------------------
 * Secrets
 *
 * Wiped, by proof: a refused talc_read() leaves a workspace of zeros and zero
 * keys in its answer, a refused talc_write() an output of zeros.
 *
 * Not wiped by the library: the stack below its caller. After talc_read() and
 * talc_write() parts of the passphrase, the stretched key, K, L, the cipher's
 * subkeys and the body may stand there, when the call was refused as well.
 * The compiler that makes the archive leaves out a write to memory that nobody
 * reads again, so the library can't clear it: the caller does. Call
 * talc_clear_stack() next, in the same function. A test looks for these
 * secrets on a painted stack: wherever the passphrase was stretched it finds
 * some without that call, and in each outcome none after it. The other calls
 * may leave bytes of a body, and so of passwords, likewise.
 *
 * Passphrase, workspace, answer and keys are the caller's to wipe, by
 * talc_wipe(). Not wiped by anybody: registers; what the system has put aside
 * of memory; frames of a call that longjmp() broke off, or that a signal's
 * handler has saved.
 */
#ifndef TALCFEATHER_H
#define TALCFEATHER_H

#include <stdbool.h>
#include <stddef.h>
#include <stdint.h>

#ifdef __cplusplus
extern "C" {
#endif

/*
 * Version of this header and of the archive that it belongs to. It goes up
 * when an answer grows or changes its meaning; 1 had no such macro. Compile a
 * program with the header that came with its archive: one compiled with the
 * header of version 1 lends talc_find() 24 bytes, and 32 are written. So a
 * program starts with a look at talc_version(), which is TALC_VERSION of the
 * archive's own header.
 *
 * 2: talc_find() counts the fields that it visits.
 * 3: two records with the same UUID are 9 wherever a body is judged; before,
 *    they were accepted, and talc_find() found the first. The calls that judge
 *    take more stack: a test held talc_read(), talc_write() and talc_export()
 *    to 16 KB, and then held all five to 64 KB.
 * 4: talc_walk() tells where a BADTEXT goes wrong, as its value; before, that
 *    was 0. No answer has another size.
 * 5: talc_walk() tells eight hex digits in header 04 and 13 as TIME; before,
 *    they were MISSHAPEN. No answer has another size. talc_version() came
 *    within 5: the first archives of 5 do not link with it.
 */
#define TALC_VERSION 5

/* The archive's version: TALC_VERSION of the header that came with it. */
uint32_t talc_version(void);

/* Refusals, and the calls that give them. */
#define TALC_OK            0  /* not refused */
#define TALC_LENGTH        1  /* read, write: the file or body has a length that no safe has */
#define TALC_PASSPHRASE    2  /* read, write: the passphrase is over 1,024 bytes */
#define TALC_ROOM          3  /* read, write, append, export: memory too short, or (append) past
                                  the longest body */
#define TALC_TAG           4  /* read: the file does not start with PWS3 */
#define TALC_ITER          5  /* read, write: ITER is under 2,048 */
#define TALC_CEILING       6  /* read: ITER is above the caller's ceiling */
#define TALC_MARKER        7  /* read: the marker is not where the file's length says */
#define TALC_WRONG         8  /* read: not the passphrase of this file */
#define TALC_BODY          9  /* read, write, judge, find, export: body not well formed, or (read)
                                  HMAC differs */
#define TALC_COLLISION    10  /* write: an encrypted block equals the marker; take another iv */
#define TALC_PLACE        11  /* append, walk: place no multiple of 16, or past the end */
#define TALC_FILL         12  /* append: fill is not exactly the needed number of bytes */
#define TALC_END_DATA     13  /* append: END with data */
#define TALC_FIELD        14  /* walk: the field is cut or passes the end, or END with data */
#define TALC_TRACE        16  /* replay: a record of the trace is at fault; the answer has its number */
#define TALC_TABLE        18  /* export, import, row: a login or a row that the table does not hold;
                                  the answer of export and of import says which */
#define TALC_STATE        19  /* replay, standing: the lent memory is no state */

/* What a refusal means, in words for a person; every number has some. */
static inline const char *talc_refusal_text(uint32_t number)
{
    switch (number) {
    case TALC_OK: return "not refused";
    case TALC_LENGTH: return "no safe has a file or body of this length";
    case TALC_PASSPHRASE: return "the passphrase is over 1,024 bytes";
    case TALC_ROOM: return "the lent memory is too short, or the field ends past the longest body";
    case TALC_TAG: return "this is no Password Safe V3 file";
    case TALC_ITER: return "the passphrase is stretched fewer than 2,048 times";
    case TALC_CEILING: return "stretching would take longer than the ceiling allows";
    case TALC_MARKER: return "the file is not whole";
    case TALC_WRONG: return "this is not the passphrase of the file";
    case TALC_BODY: return "the body is damaged, or breaks a rule of the format";
    case TALC_COLLISION: return "an encrypted block equals the end marker";
    case TALC_PLACE: return "the place is no multiple of 16, or past the end";
    case TALC_FILL: return "the fill is not exactly what the field needs";
    case TALC_END_DATA: return "an END field cannot have data";
    case TALC_FIELD: return "the field is cut, or is an END with data";
    case TALC_TRACE: return "a record of the trace is at fault";
    case TALC_TABLE: return "a login that a table does not hold, or a row at fault";
    case TALC_STATE: return "this is no state";
    default: return "a refusal that this program does not know";
    }
}

/* What a person can do about it. */
static inline const char *talc_refusal_advice(uint32_t number)
{
    switch (number) {
    case TALC_OK: return "nothing to do";
    case TALC_LENGTH:
        return "take a whole file, or a body of 32 to 4,194,096 bytes in blocks of 16";
    case TALC_PASSPHRASE: return "take a shorter one";
    case TALC_ROOM: return "lend more, or keep less in one safe";
    case TALC_TAG: return "choose a .psafe3 file";
    case TALC_ITER: return "save the file with 2,048 or more";
    case TALC_CEILING: return "raise the ceiling if the file can be trusted";
    case TALC_MARKER: return "copy it again";
    case TALC_WRONG: return "type it again; if it is surely right, copy the file again";
    case TALC_BODY: return "take another copy, or mend the body";
    case TALC_COLLISION: return "write with another initial vector";
    case TALC_PLACE: return "start from the last answer";
    case TALC_FILL: return "give the number of bytes it needs";
    case TALC_END_DATA: return "give it none";
    case TALC_FIELD: return "take the file's own body";
    case TALC_TRACE: return "copy the trace again, unless it brings more logins than a state holds";
    case TALC_TABLE: return "mend that field of the login, or take another copy of the table";
    case TALC_STATE: return "take the last whole copy, or a fresh one and all traces again";
    default: return "use a newer version of this program";
    }
}

/* Limits, in bytes, and the smallest ITER. */
#define TALC_FILE_MAX        4194304u  /* no file is longer; the longest regular one is 4,194,296 */
#define TALC_BODY_MIN             32u
#define TALC_BODY_MAX        4194096u
#define TALC_PASSPHRASE_MAX     1024u
#define TALC_AROUND              200u  /* a file is this much longer than its body */
#define TALC_ITER_MIN           2048u

/* Where a file has what it is written again with, besides K and L. */
#define TALC_FILE_SALT             4u  /* 32 bytes */
#define TALC_FILE_ITER            36u  /* 4 bytes, lowest first */
#define TALC_FILE_IV             136u  /* 16 bytes */

/* Types of fields, by the tables of the format (3.2 and 3.3), whose words stand behind them. */
#define TALC_END  0xff

#define TALC_HEADER_VERSION                 0x00  /* Version */
#define TALC_HEADER_UUID                    0x01  /* UUID */
#define TALC_HEADER_PREFERENCES             0x02  /* Non-default preferences */
#define TALC_HEADER_TREE_DISPLAY_STATUS     0x03  /* Tree Display Status */
#define TALC_HEADER_LAST_SAVE_TIME          0x04  /* Timestamp of last save */
#define TALC_HEADER_WHO_SAVED               0x05  /* Who performed last save */
#define TALC_HEADER_WHAT_SAVED              0x06  /* What performed last save */
#define TALC_HEADER_SAVED_BY_USER           0x07  /* Last saved by user */
#define TALC_HEADER_SAVED_ON_HOST           0x08  /* Last saved on host */
#define TALC_HEADER_NAME                    0x09  /* Database Name */
#define TALC_HEADER_DESCRIPTION             0x0a  /* Database Description */
#define TALC_HEADER_FILTERS                 0x0b  /* Database Filters */
#define TALC_HEADER_RECENTLY_USED           0x0f  /* Recently Used Entries */
#define TALC_HEADER_NAMED_POLICIES          0x10  /* Named Password Policies */
#define TALC_HEADER_EMPTY_GROUPS            0x11  /* Empty Groups */
#define TALC_HEADER_YUBICO                  0x12  /* Yubico */
#define TALC_HEADER_MASTER_PASSWORD_CHANGE  0x13  /* Last master password change */

#define TALC_RECORD_UUID                        0x01  /* UUID */
#define TALC_RECORD_GROUP                       0x02  /* Group */
#define TALC_RECORD_TITLE                       0x03  /* Title */
#define TALC_RECORD_USER                        0x04  /* Username */
#define TALC_RECORD_NOTES                       0x05  /* Notes */
#define TALC_RECORD_PASSWORD                    0x06  /* Password */
#define TALC_RECORD_CREATION_TIME               0x07  /* Creation Time */
#define TALC_RECORD_PASSWORD_MODIFICATION_TIME  0x08  /* Password Modification Time */
#define TALC_RECORD_LAST_ACCESS_TIME            0x09  /* Last Access Time */
#define TALC_RECORD_PASSWORD_EXPIRY_TIME        0x0a  /* Password Expiry Time */
#define TALC_RECORD_LAST_MODIFICATION_TIME      0x0c  /* Last Modification Time */
#define TALC_RECORD_URL                         0x0d  /* URL */
#define TALC_RECORD_AUTOTYPE                    0x0e  /* Autotype */
#define TALC_RECORD_PASSWORD_HISTORY            0x0f  /* Password History */
#define TALC_RECORD_PASSWORD_POLICY             0x10  /* Password Policy */
#define TALC_RECORD_PASSWORD_EXPIRY_INTERVAL    0x11  /* Password Expiry Interval */
#define TALC_RECORD_RUN_COMMAND                 0x12  /* Run Command */
#define TALC_RECORD_DOUBLE_CLICK_ACTION         0x13  /* Double-Click Action */
#define TALC_RECORD_EMAIL                       0x14  /* EMail address */
#define TALC_RECORD_PROTECTED                   0x15  /* Protected Entry */
#define TALC_RECORD_OWN_SYMBOLS                 0x16  /* Own symbols for password */
#define TALC_RECORD_SHIFT_DOUBLE_CLICK_ACTION   0x17  /* Shift Double-Click Action */
#define TALC_RECORD_PASSWORD_POLICY_NAME        0x18  /* Password Policy Name */
#define TALC_RECORD_KEYBOARD_SHORTCUT           0x19  /* Entry keyboard shortcut */
#define TALC_RECORD_TWO_FACTOR_KEY              0x1b  /* Two-Factor Key */
#define TALC_RECORD_CREDIT_CARD_NUMBER          0x1c  /* Credit Card Number */
#define TALC_RECORD_CREDIT_CARD_EXPIRATION      0x1d  /* Credit Card Expiration */
#define TALC_RECORD_CREDIT_CARD_VERIFICATION    0x1e  /* Credit Card Verif. Value */
#define TALC_RECORD_CREDIT_CARD_PIN             0x1f  /* Credit Card PIN */
#define TALC_RECORD_QR_CODE                     0x20  /* QR Code */

/* A field of that many bytes of data, in bytes: its fill; its size with length,
   type and fill, or 0 where no size_t holds that; and its blocks of 16 bytes. The
   argument is used more than once. */
#define TALC_FILL_NEEDED(data_len)  (15u - ((size_t)(data_len) % 16u + 4u) % 16u)
#define TALC_FIELD_BLOCKS(data_len) \
    ((size_t)(data_len) / 16u + ((size_t)(data_len) % 16u + 20u) / 16u)
#define TALC_FIELD_SIZE(data_len)                           \
    (TALC_FIELD_BLOCKS(data_len) > (size_t)-1 / 16u         \
         ? (size_t)0                                        \
         : TALC_FIELD_BLOCKS(data_len) * 16u)

/* A state and a record of a trace, in bytes; and the UUIDs that a state holds. */
#define TALC_STATE_SIZE       131072u
#define TALC_TRACE_RECORD         32u
#define TALC_STATE_UUIDS        4096u

/* Where the parts of a trace's record stand. */
#define TALC_TRACE_UUID            0u
#define TALC_TRACE_TIME           16u
#define TALC_TRACE_KIND           20u
#define TALC_TRACE_PAD            21u

/* Kinds of a trace's records. */
#define TALC_KIND_EDIT     1
#define TALC_KIND_CANCEL   2
#define TALC_KIND_REISSUE  3

/* A row, in bytes: its size, where its parts stand, and the rooms of its texts. */
#define TALC_ROW_SIZE            256u
#define TALC_ROW_UUID              0u
#define TALC_ROW_TITLE            16u
#define TALC_ROW_USER             96u
#define TALC_ROW_GROUP           176u
#define TALC_ROW_DAYS            248u
#define TALC_ROW_PAD             252u
#define TALC_TITLE_ROOM           80u
#define TALC_USER_ROOM            80u
#define TALC_GROUP_ROOM           72u

/* The days of a login without an expiry. */
#define TALC_NO_EXPIRY    2147483647

/* Sizes of answers. TALC_READ_AT_K and so on, below, are offsets in them; what
   is named without AT, as TALC_ROW_TITLE, is an offset in a row, a record of a
   trace or a file. */
#define TALC_READ_ANSWER      96
#define TALC_WALK_ANSWER      72
#define TALC_JUDGE_ANSWER     16
#define TALC_FIND_ANSWER      32
#define TALC_REPLAY_ANSWER     8
#define TALC_STANDING_ANSWER  40
#define TALC_EXPORT_ANSWER    24
#define TALC_IMPORT_ANSWER    16
#define TALC_ROW_ANSWER       56

/* Stack that a call takes at most, in bytes: see "Stack", above. */
#define TALC_READ_STACK          54784u
#define TALC_WRITE_STACK         54272u
#define TALC_JUDGE_STACK         53760u
#define TALC_FIND_STACK          53760u
#define TALC_WALK_STACK            512u
#define TALC_APPEND_STACK          512u
#define TALC_REPLAY_STACK          512u
#define TALC_STANDING_STACK        512u
#define TALC_EXPORT_STACK        54784u
#define TALC_IMPORT_STACK          512u
#define TALC_ROW_STACK             512u
#define TALC_VERSION_STACK         512u

/* Wipes memory: zeros, by writes that the compiler keeps. `memory` is good for
   `length` bytes; it may be null where that is 0. */
static inline void talc_wipe(void *memory, size_t length)
{
    volatile uint8_t *kept = (volatile uint8_t *)memory;
    for (size_t i = 0; i < length; i++)
        kept[i] = 0;
}

/* The 8-byte number that stands at `p`, lowest byte first; `p` is good for 8 bytes. */
static inline uint64_t talc_number(const uint8_t *p)
{
    uint64_t number = 0;
    for (int i = 7; i >= 0; i--)
        number = number << 8 | p[i];
    return number;
}

/*
 * Reads a whole file.
 *
 * The passphrase is taken as given: 0 to 1,024 bytes of any content.
 * A workspace of file_len - 200 bytes is enough; a longer one is fine.
 *
 * Refusals, the first that applies, in this order:
 *   1  file_len under 232, over 4,194,304, or file_len - 200 no multiple of 16
 *   2  passphrase_len over 1,024
 *   3  workspace_len under file_len - 200
 *   4  the file does not start with PWS3
 *   5  the file's ITER is under 2,048
 *   6  the file's ITER is above `ceiling`
 *   7  of the 16-byte blocks at 152, 168, .. the first that equals the
 *      marker is not at file_len - 48, or there is none
 *   8  the SHA-256 of the stretched passphrase is not the file's: another
 *      passphrase, or damage before offset 72
 *   9  the body is not well formed, or the HMAC differs
 *
 * The answer, by offset:
 *    0  K, the key of the body (32 bytes)
 *   32  L, the key of the HMAC (32 bytes)
 *   64  number of header fields, the END not counted
 *   72  number of records
 *   80  SHA-256 compressions spent on stretching and its check
 *   88  Twofish blocks decrypted
 *
 * Accepted (0): the workspace holds the body (file_len - 200 bytes), then
 * zeros to its end.
 * Refused: the whole workspace is zero, for 3 too; K, L and the numbers at
 * 64 and 72 are zero. Those at 80 and 88 are zero for 1 to 7. For 8, 9 and 0
 * the one at 80 is (passphrase_len + 40) / 64 + 1 + ITER + 1; the one at 88
 * is 0 for 8, else 4 + (file_len - 200) / 16.
 *
 * The HMAC covers the data of all fields and neither their types, lengths
 * nor fill: an accepted file is not proved to be the file that was saved.
 * The time taken grows with ITER up to `ceiling`; 1 to 7 come before any
 * stretching. The caller wipes workspace and answer when done with them, and
 * clears the stack (see "Secrets", above). Time of judging: see "Judging".
 */
uint32_t talc_read(const uint8_t *file, size_t file_len,
                   const uint8_t *passphrase, size_t passphrase_len,
                   uint32_t ceiling,
                   uint8_t *workspace, size_t workspace_len,
                   uint8_t answer[TALC_READ_ANSWER]);

#define TALC_READ_AT_K               0
#define TALC_READ_AT_L              32
#define TALC_READ_AT_HEADER_FIELDS  64
#define TALC_READ_AT_RECORDS        72
#define TALC_READ_AT_COMPRESSIONS   80
#define TALC_READ_AT_BLOCKS         88

/*
 * Writes a whole file. talc_read() reads it back, under the same passphrase,
 * a ceiling not below iter and a workspace that holds the body, to the same
 * K, L and body. Salt, keys and initial vector are the caller's; for a new
 * file each comes fresh from a good random source. Written again with the
 * values of a file that was read, the file is the same byte for byte.
 *
 * Refusals, the first that applies, in this order:
 *   1  body_len under 32, over 4,194,096, or no multiple of 16
 *   2  passphrase_len over 1,024
 *   3  output_len under body_len + 200
 *   5  iter under 2,048
 *   9  the body is not well formed
 *  10  an encrypted body block equals the marker: call again with another iv
 *
 * Accepted (0): the output holds the file (body_len + 200 bytes), then zeros
 * to its end.
 * Refused: the whole output is zero. The caller clears the stack (see
 * "Secrets", above). Time of judging: see "Judging".
 */
uint32_t talc_write(const uint8_t *passphrase, size_t passphrase_len,
                    const uint8_t salt[32], uint32_t iter,
                    const uint8_t k[32], const uint8_t l[32], const uint8_t iv[16],
                    const uint8_t *body, size_t body_len,
                    uint8_t *output, size_t output_len);

/*
 * Clears TALC_STACK bytes of the stack below the function that calls it. Call
 * it in the function that called talc_read() or talc_write(), and right after
 * that: what these left there, and what any other call did, is then gone. In
 * another function it clears another part. It takes more stack than any call:
 * TALC_CLEAR_STACK bytes. talc_clear_below() is a part of it, not to be called
 * by itself.
 */
#define TALC_STACK        65536u
#define TALC_CLEAR_STACK  66048u

static inline void talc_clear_below(void)
{
    uint64_t room[TALC_STACK / 8];
    volatile uint64_t *kept = room;
    for (size_t i = 0; i < TALC_STACK / 8; i++)
        kept[i] = 0;
}

static inline void talc_clear_stack(void)
{
    /* By a volatile pointer, so that it is a call: put in here, the room would
       be a part of the caller's own frame, above what is to be cleared. And not
       as the last act: a jump in place of the call would start where the
       caller's frame does. */
    void (*volatile clear)(void) = talc_clear_below;
    clear();
    clear = NULL;
}

/*
 * Takes one field. `place` is where it starts, `in_record` whether an END
 * stands before it; a walk starts with 0 and false, and goes on with the
 * answer's next place and next in_record until the end. The body need not be
 * well formed, and need not have been read by talc_read().
 *
 * Refusals, the first that applies, in this order:
 *  11  place is no multiple of 16, or over body_len
 *  14  1 to 15 bytes follow the place, or the field with its fill passes the
 *      end, or it is an END with data
 *
 * The answer, nine numbers by offset:
 *    0  1 for a field; 0 for the end, when place = body_len
 *    8  next place: after the field and its fill
 *   16  next in_record: 1 if in_record, or if this field is an END; else 0
 *   24  type
 *   32  place of the field; its data start 5 bytes later
 *   40  length of its data
 *   48  kind of value (TALC_VALUE_EMPTY ..)
 *   56  value
 *   64  second half of a Uuid, else 0
 *
 * Refused, and at the end: the answer is zero. Nothing else is written.
 *
 * The kinds, with what stands in `value` (0 where nothing is said):
 *   EMPTY      length 0, and no END, whatever the type
 *   END        an END
 *   UUID       16 bytes: header 01; record 01. Bytes 0 to 7 as a number,
 *              lowest first; bytes 8 to 15 likewise as the second half.
 *   TIME       4 bytes: header 04, 13; record 07, 08, 09, 0a, 0c. Seconds
 *              since 1970-01-01, stored lowest byte first. Header 04 and 13
 *              also 8 bytes: the seconds in ASCII hex digits of either case,
 *              highest first, as Password Safe stored them before 3.09.
 *   NUMBER     header 00, record 13, 17 (2 bytes); record 11, 19 (4 bytes).
 *              The number, stored lowest byte first.
 *   FLAG       1 byte: record 15. 1 if the byte is not zero, else 0.
 *   TEXT       well-formed UTF-8 that does not start with EF BB BF and does
 *              not end in 00: header 02, 03, 05 to 0b, 0f, 10, 11; record 02
 *              to 06, 0d to 10, 12, 14, 16, 18, 1c to 20
 *   BADTEXT    one of these types, but no such text. Where it goes wrong: the
 *              number of bytes of its longest start that is well-formed UTF-8;
 *              0 where it starts with EF BB BF; its length - 1 where only a
 *              final 00 offends. Where several apply, the smallest. It is less
 *              than the length, always.
 *   MISSHAPEN  a type of UUID to FLAG, neither empty nor of its size; header
 *              04 and 13 also with 8 bytes that are not all hex digits
 *   OPAQUE     everything else
 */
uint32_t talc_walk(const uint8_t *body, size_t body_len,
                   size_t place, bool in_record,
                   uint8_t answer[TALC_WALK_ANSWER]);

#define TALC_WALK_AT_FIELD            0
#define TALC_WALK_AT_NEXT_PLACE       8
#define TALC_WALK_AT_NEXT_IN_RECORD  16
#define TALC_WALK_AT_TYPE            24
#define TALC_WALK_AT_PLACE           32
#define TALC_WALK_AT_LENGTH          40
#define TALC_WALK_AT_KIND            48
#define TALC_WALK_AT_VALUE           56
#define TALC_WALK_AT_SECOND_HALF     64

#define TALC_VALUE_EMPTY      0
#define TALC_VALUE_END        1
#define TALC_VALUE_UUID       2
#define TALC_VALUE_TIME       3
#define TALC_VALUE_NUMBER     4
#define TALC_VALUE_FLAG       5
#define TALC_VALUE_TEXT       6
#define TALC_VALUE_BADTEXT    7
#define TALC_VALUE_MISSHAPEN  8
#define TALC_VALUE_OPAQUE     9

/*
 * Writes one field into the buffer at `place`, and answers the place after
 * it. fill_len is exactly what remains of the field's last block:
 * 15 - (data_len + 4) % 16. The fill should come from a random source. The
 * order of fields is the caller's; talc_judge() says whether the whole is
 * well formed.
 *
 * Refusals, the first that applies, in this order:
 *  11  place is no multiple of 16, or over buffer_len
 *  13  type ff with data_len over 0
 *  12  fill_len is not the number above
 *   3  the field would end past buffer_len or past 4,194,096
 *
 * Accepted (0): the field's bytes are length, type, data, fill; all other
 * bytes of the buffer are unchanged; next is the place after the field.
 * Refused: the buffer is unchanged; next is zero.
 */
uint32_t talc_append(uint8_t *buffer, size_t buffer_len,
                     size_t place, uint8_t type,
                     const uint8_t *data, size_t data_len,
                     const uint8_t *fill, size_t fill_len,
                     uint8_t next[8]);

/*
 * Says whether a body is well formed. Length limits are not part of that:
 * they are refusal 1 of talc_read() and talc_write().
 *
 * Refusal: 9, when it is not.
 *
 * The answer, two numbers by offset:
 *    0  number of header fields, the END not counted
 *    8  number of records
 *
 * Refused: the answer is zero. Nothing else is written. Time: see "Judging",
 * above.
 */
uint32_t talc_judge(const uint8_t *body, size_t body_len,
                    uint8_t answer[TALC_JUDGE_ANSWER]);

#define TALC_JUDGE_AT_HEADER_FIELDS   0
#define TALC_JUDGE_AT_RECORDS         8

/*
 * Finds the record whose UUID is these 16 bytes, as they are stored, and counts
 * the fields that it visits. A well-formed body has one such record at most.
 *
 * Refusal: 9, when the body is not well formed: so also when two of its records
 * have the same UUID, be it these 16 bytes or others.
 *
 * The answer, four numbers by offset:
 *    0  1 if there is one, else 0
 *    8  number of the record, from 0
 *   16  place of the record's first field (walk on with in_record = true)
 *   24  number of fields visited: those from the body's start to the one that
 *       decides, it included, header and ENDs counted. The UUID of the record
 *       decides, or the last END where there is none.
 *
 * The number at 24 is at most body_len / 16. The test that the body is well
 * formed is not counted. Time of it: see "Judging", above.
 *
 * None: the numbers at 0, 8 and 16 are 0; the one at 24 is that of all fields
 * of the body. Refused: the answer is zero. Nothing else is written.
 */
uint32_t talc_find(const uint8_t *body, size_t body_len,
                   const uint8_t uuid[16],
                   uint8_t answer[TALC_FIND_ANSWER]);

#define TALC_FIND_AT_FOUND     0
#define TALC_FIND_AT_RECORD    8
#define TALC_FIND_AT_PLACE    16
#define TALC_FIND_AT_VISITED  24

/*
 * Takes a whole trace into a state. From a fresh state on, a login is
 * cancelled exactly when the traces accepted so far, taken together, hold a
 * cancel of it and no reissue with a time greater than its latest cancel.
 * Equal times leave it cancelled; edits never reopen. So of accepted traces,
 * neither the order in which they come nor a record that comes twice changes
 * any standing.
 *
 * Refusals, the first that applies, in this order:
 *  19  state_len is not 131,072, or the memory is no state
 *  16  a record is cut (the last, of 1 to 31 bytes), has a kind other than 1
 *      to 3, a pad that is not zero, or a UUID that would be one more than
 *      4,096, over all kinds and all accepted traces
 *
 * The answer, one number:
 *    0  for 16, number of the first such record, from 0; else 0
 *
 * Accepted (0): the state has taken in every record. An empty trace is
 * accepted and changes nothing, so it is also the way to check a state.
 * Refused: every byte of the state is what it was.
 *
 * A state is 4,096 entries of 32 bytes: 32 zeros, or UUID (16), cancel mark
 * (8) and reissue mark (8), both lowest byte first; a mark is 2^32 where no
 * record of its kind has come, else 2^33 plus the latest time. Other bytes
 * are no state. Where an entry stands is the library's own matter. A state
 * may be kept in a file as it is: write a new file beside the old one and
 * rename it, so that it is never half, and check it with an empty trace when
 * it is read again. Memory in which a call was broken off may pass for a state
 * and hold a part of the trace: go back to what was kept. Nothing in a state
 * is secret or authentic: who can write the file decides what it says.
 *
 * The state must not overlap the trace. The time taken grows with the number
 * of records; UUIDs that were chosen to collide cost more time, and change no
 * answer.
 */
uint32_t talc_replay(uint8_t *state, size_t state_len,
                     const uint8_t *trace, size_t trace_len,
                     uint8_t answer[TALC_REPLAY_ANSWER]);

#define TALC_REPLAY_AT_RECORD   0

/*
 * Tells the standing of the login with these 16 bytes as its UUID.
 *
 * Refusal: 19, when state_len is not 131,072, or the entry at which the look-up
 * of this UUID ends is none of a state. No other entry is checked;
 * talc_replay() with an empty trace checks them all.
 *
 * The answer, five numbers by offset:
 *    0  1 if the login is cancelled, else 0
 *    8  1 if a cancel has come, else 0
 *   16  time of the latest cancel, else 0
 *   24  1 if a reissue has come, else 0
 *   32  time of the latest reissue, else 0
 *
 * A UUID that never came, or refused: the answer is zero. Nothing else is
 * written.
 */
uint32_t talc_standing(const uint8_t *state, size_t state_len,
                       const uint8_t uuid[16],
                       uint8_t answer[TALC_STANDING_ANSWER]);

#define TALC_STANDING_AT_CANCELLED     0
#define TALC_STANDING_AT_HAS_CANCEL    8
#define TALC_STANDING_AT_CANCEL       16
#define TALC_STANDING_AT_HAS_REISSUE  24
#define TALC_STANDING_AT_REISSUE      32

/*
 * Exports the logins of a body as a table. Of a record's fields only these go
 * out: UUID (01), title (03), user name (04), group (02) and expiry (0a); of
 * several of one type the first counts. No password leaves, and nothing of any
 * other field does. A field that is not there, or is EMPTY, is the empty text,
 * or no expiry; so is an expiry of 0. `now` is in seconds since 1970-01-01, as
 * an expiry is; both are without a sign.
 *
 * An output of 256 bytes for each record is enough (talc_judge() tells how many
 * there are); a longer one is fine.
 *
 * Refusals, the first that applies, in this order:
 *   9  the body is not well formed
 *  18  a login that a row does not hold: a title or user name over 80 bytes, a
 *      group over 72, one of them BADTEXT or with a zero byte in it, or a
 *      MISSHAPEN expiry
 *   3  output_len under 256 for each record
 *
 * The answer, three numbers by offset:
 *    0  number of rows written
 *    8  for 18, number of the first such record, from 0
 *   16  for 18, type of its first such field, of 03, 04, 02, 0a in this order
 *
 * Accepted (0): the output starts with the table; the bytes after it are
 * unchanged. The numbers at 8 and 16 are 0.
 * Refused: the output is unchanged. For 9 and 3 the answer is zero; for 18 the
 * number at 0 is 0.
 *
 * The output must not overlap the body. Time of judging: see "Judging", above.
 */
uint32_t talc_export(const uint8_t *body, size_t body_len,
                     uint32_t now,
                     uint8_t *output, size_t output_len,
                     uint8_t answer[TALC_EXPORT_ANSWER]);

#define TALC_EXPORT_AT_ROWS     0
#define TALC_EXPORT_AT_RECORD   8
#define TALC_EXPORT_AT_TYPE    16

/*
 * Says whether these bytes are a table, all of them. talc_row() then has the
 * values of each row, and they are those that talc_export() wrote. Days, UUIDs
 * and empty texts may be any; an empty table is one. Nothing in a table is
 * authentic: who can write it decides what it says.
 *
 * Refusal: 18, when a row is at fault: it is cut (the last, of 1 to 255 bytes);
 * a text of it, which is what stands before its room's first zero, is BADTEXT,
 * or has anything but zeros after it; or its pad is not zero.
 *
 * The answer, two numbers by offset:
 *    0  number of rows
 *    8  for 18, number of the first such row, from 0; else 0
 *
 * Refused: the number at 0 is 0. Nothing else is written.
 */
uint32_t talc_import(const uint8_t *table, size_t table_len,
                     uint8_t answer[TALC_IMPORT_ANSWER]);

#define TALC_IMPORT_AT_ROWS   0
#define TALC_IMPORT_AT_ROW    8

/*
 * Takes one row of a table, by its number from 0. It looks at this row alone.
 *
 * Refusal: 18, when this row is at fault, as for talc_import().
 *
 * The answer, seven numbers by offset:
 *    0  1 if there is such a row; 0 if number is past the end
 *    8  bytes 0 to 7 of the UUID, as they are stored
 *   16  bytes 8 to 15 of it
 *   24  length of the title; it starts at 256 * number + TALC_ROW_TITLE
 *   32  length of the user name, at TALC_ROW_USER
 *   40  length of the group, at TALC_ROW_GROUP
 *   48  days, signed: two's complement in all 8 bytes, of which the first four
 *       are the row's own
 *
 * The texts are the table's own bytes, and end by their lengths, not always by a
 * zero.
 *
 * Past the end, or refused: the answer is zero. Nothing else is written.
 */
uint32_t talc_row(const uint8_t *table, size_t table_len,
                  size_t number,
                  uint8_t answer[TALC_ROW_ANSWER]);

#define TALC_ROW_AT_FOUND          0
#define TALC_ROW_AT_UUID           8
#define TALC_ROW_AT_TITLE_LENGTH  24
#define TALC_ROW_AT_USER_LENGTH   32
#define TALC_ROW_AT_GROUP_LENGTH  40
#define TALC_ROW_AT_DAYS          48

#ifdef __cplusplus
}
#endif

#endif
