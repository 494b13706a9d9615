/* Hazelhusk 1.5: SPDM secured records over MCTP, for C.
 *
 * Link target/staticlib/libhusk.a. It needs no heap and no global state, and of the C library memcpy alone.
 *
 * A sender builds records and a receiver reads them; the cipher is yours. Each function below takes a
 * pointer to the state and updates it in place on every return, so the state can't be lost. Each
 * answers 0, or the number of a refusal (HAZELHUSK_STATE, ..). A refusal answers zeros in all other
 * fields, writes to no buffer and keeps the state; HAZELHUSK_INNER alone marks the record's number.
 * Every call answers for every value of the state, every record, length, mode and slot. A pointer with
 * length 0 may be NULL.
 *
 * What you must do:
 *   - Open both ends of a channel with the same setting, its layout, its MAC's length, its profile and its
 *     width included, and the same key and IV. Between ends that differ in one of them nothing is promised:
 *     see HAZELHUSK_LAYOUT_LITTLE, HAZELHUSK_MAC_BYTES, HAZELHUSK_PROFILE_BUS and HAZELHUSK_WINDOW_WIDTH.
 *   - Keep the state that the last call left, and call with no other. A copy that is older repeats
 *     numbers. Give one state to one thread at a time.
 *   - Let no pointer of a call alias another: not the state, not the output buffer.
 *   - Between offer and settle run the cipher with exactly what offer answered: the key of `count`, the
 *     nonce, record[0 .. assoc) as associated data, record[assoc .. text) as text, and the MAC, of the
 *     setting's length, from text on.
 *   - Give settle the very record, slot, count and number of that offer, the cipher's own answer (1 is
 *     yes; any other byte is no), and its text (mode 1: assoc .. text, decrypted; mode 0: length 0).
 *   - Seal what build wrote with the nonce and ends that it answered, and put the MAC, of the setting's
 *     length, at out[text .. total). A built number is spent, whatever the cipher did.
 *   - Where the MAC has 8 bytes, count HAZELHUSK_MAC under each key and change the key in time: see
 *     docs/INTEGRATION.md, 'Which MAC length'.
 *   - Use a new key and IV for every change of key, at both ends, and drop the old one after KT1.
 *
 * A controller keeps a receiver and a sender for each of up to sixteen boards in one table: see
 * hazelhusk_controller, where also stands what you must do for it.
 */
#ifndef HAZELHUSK_H
#define HAZELHUSK_H

#include <stdbool.h>
#include <stddef.h>
#include <stdint.h>
#include <string.h>

#ifdef __cplusplus
extern "C" {
#endif

/* It changes whenever a struct below does. In 6 every one with a setting or a window is larger. */
#define HAZELHUSK_VERSION 6

#define HAZELHUSK_HEADER_BYTES 8u  /* bytes of a record's header */
#define HAZELHUSK_BENCH_HEADER_BYTES 6u  /* the same with HAZELHUSK_PROFILE_BENCH */
#define HAZELHUSK_SLOT_CURRENT 0u  /* the slot of the current receive key */
#define HAZELHUSK_SLOT_OLD 1u     /* the slot of the old one */
#define HAZELHUSK_ROW_COUNT 16u   /* rows of a controller's table */

/* How a record's number lies in the 12 bytes that are XORed with the IV and make its nonce: which of the
 * two the board's maker chose. Number 0 has the same nonce in both, so between ends that differ record 0
 * passes and the cipher refuses those after it. */
#define HAZELHUSK_LAYOUT_LITTLE 0u  /* little-endian in the first 8, then zeros */
#define HAZELHUSK_LAYOUT_BIG 1u     /* zeros, then big-endian in the last 8 */

/* How many bytes a record's MAC has is chosen at open: 8, 12 or 16, as the board has room. This is the
 * usual length and the longest: a buffer of it takes any. Between ends that differ no record passes: one
 * too small for the receiver's MAC is HAZELHUSK_SMALL, and the cipher refuses the others. */
#define HAZELHUSK_MAC_BYTES 16u

/* What a record's header holds. On the test bench's cable it holds no part of the number: each record has the
 * next one, so the transport must keep order, lose nothing and repeat nothing. After one lost record the
 * cipher refuses all that follow under that key. HAZELHUSK_OLD and _REPEAT do not occur there: a record
 * delivered again is HAZELHUSK_MAC. Between ends that differ nearly every record is HAZELHUSK_LENGTH, but in
 * mode 0 one whose data happens to fit is handed out cut: see docs/INTEGRATION.md, 'Which profile'. */
#define HAZELHUSK_PROFILE_BUS 0u    /* Session ID, the low 16 bits of the number, Length */
#define HAZELHUSK_PROFILE_BENCH 1u  /* Session ID, Length */

/* How many numbers below the next a receive window remembers is chosen at open: 64, 128, 192 or 256, as far
 * as records may overtake each other. One that comes later than that is HAZELHUSK_OLD. No record depends on
 * it: a sender has it because both ends have the same setting. See docs/INTEGRATION.md, 'Which width'. */
#define HAZELHUSK_WINDOW_WIDTH 64u    /* the usual one, and the narrowest */
#define HAZELHUSK_WINDOW_WIDEST 256u  /* the widest */

/* The refusals. */
enum {
    HAZELHUSK_OK = 0,
    HAZELHUSK_STATE = 1,    /* the state is none that the calls return */
    HAZELHUSK_SETTING = 2,  /* mode, layout or profile above 1, mac none of 8, 12 and 16, width none of 64, 128,
                               192 and 256, or a limit of 0 */
    HAZELHUSK_KEY = 3,      /* no such slot, or no old key */
    HAZELHUSK_SHORT = 4,    /* the record is shorter than its profile's header */
    HAZELHUSK_SESSION = 5,  /* another Session ID */
    HAZELHUSK_LENGTH = 6,   /* the record is not its profile's header and Length bytes */
    HAZELHUSK_SMALL = 7,    /* Length is too small for the setting's MAC */
    HAZELHUSK_SPENT = 8,    /* the number is not below the limit */
    HAZELHUSK_OLD = 9,      /* the number lies behind the window */
    HAZELHUSK_REPEAT = 10,  /* the number was marked before */
    HAZELHUSK_STALE = 11,   /* key count or number is not the one worked out now; on the bench also one offer
                               settled twice */
    HAZELHUSK_PLAIN = 12,   /* the plaintext buffer has another length than the text */
    HAZELHUSK_MAC = 13,     /* the cipher said no */
    HAZELHUSK_INNER = 14,   /* the data length inside passes the text; the number is marked */
    HAZELHUSK_PADDING = 15, /* random bytes in mode 0 */
    HAZELHUSK_SIZE = 16,    /* Length would pass 65,535 */
    HAZELHUSK_ROOM = 17,    /* the output buffer is too short */
    HAZELHUSK_HELD = 18,    /* an old key is still held */
    HAZELHUSK_EPOCHS = 19,  /* the key count is at its maximum */
    HAZELHUSK_WRAPPED = 20, /* type 6 inside; empty data; a type above 127 */
    HAZELHUSK_FRAME = 21,   /* not a message with a record */
    HAZELHUSK_TWICE = 22,   /* an open row has that Session ID */
    HAZELHUSK_ROWS = 23,    /* no row is free */
    HAZELHUSK_UNKNOWN = 24  /* no open row has that Session ID or that number */
};

/* ---- states and answers, as they lie in memory */

/* A channel's setting, the same at both ends. Mode 0 authenticates, mode 1 encrypts too; `layout` is one
 * of HAZELHUSK_LAYOUT_..; a MAC has `mac` bytes; `profile` is one of HAZELHUSK_PROFILE_..; a window remembers
 * `width` numbers; each key's numbers are those below `limit`. See hazelhusk_setting_of. */
typedef struct { uint8_t mode, layout, mac, profile; uint16_t width; uint32_t session; uint64_t limit; } hazelhusk_setting;
typedef struct { uint8_t bytes[12]; } hazelhusk_iv;

/* What a window remembers: bit i % 64 of word i / 64 is set where the number `next` - 1 - i is marked. Bits at
 * the setting's width and beyond are 0: there are four words at every width. */
typedef struct { uint64_t words[4]; } hazelhusk_marks;
typedef struct { uint64_t next; hazelhusk_marks marks; } hazelhusk_window;
typedef struct { uint8_t iv[12]; hazelhusk_window window; } hazelhusk_key;

/* The sending end: `count` is the key count, `next` the number of the next record. */
typedef struct {
    hazelhusk_setting setting;
    uint32_t count;
    uint64_t next;
    uint8_t iv[12];
} hazelhusk_sender;

/* The receiving end. The old key is there where `held` is true. */
typedef struct {
    hazelhusk_setting setting;
    uint32_t count;
    hazelhusk_key current;
    bool held;
    hazelhusk_key old;
} hazelhusk_receiver;

typedef struct { uint8_t answer; hazelhusk_sender next; } hazelhusk_sender_step;
typedef struct { uint8_t answer; hazelhusk_receiver next; } hazelhusk_receiver_step;

/* `assoc` and `text` are the ends of the associated data and of the text, `total` the record's length; the
 * MAC lies between `text` and it. */
typedef struct {
    uint8_t answer;
    uint64_t number;
    uint8_t nonce[12];
    uint64_t assoc, text, total;
    hazelhusk_sender next;
} hazelhusk_built;

typedef struct { uint8_t answer; uint32_t gaps; } hazelhusk_counted;

typedef struct {
    uint8_t answer;
    uint32_t count;
    uint64_t number;
    uint8_t nonce[12];
    uint64_t assoc, text;
} hazelhusk_offered;

/* `place` and `length` are those of the application data; see hazelhusk_view. */
typedef struct {
    uint8_t answer;
    uint64_t place, length;
    hazelhusk_receiver next;
} hazelhusk_settled;

typedef struct { uint8_t answer; uint64_t length; } hazelhusk_wrote;
typedef struct { uint8_t answer; bool integrity; uint8_t kind; } hazelhusk_data;

/* A controller's table of sixteen rows, each free or with one receiver and one sender of one Session ID.
 * All zeros is a table with every row free: there is no call that makes one. */
typedef struct { uint64_t rows[16][26]; } hazelhusk_controller;

typedef struct { uint8_t answer, row; } hazelhusk_opened;
typedef struct { uint8_t answer; uint64_t place, length; } hazelhusk_taken;

/* As hazelhusk_built, without a sender. */
typedef struct {
    uint8_t answer;
    uint64_t number;
    uint8_t nonce[12];
    uint64_t assoc, text, total;
} hazelhusk_sent;

/* A part of a buffer that you lent. */
typedef struct { const uint8_t *bytes; size_t length; } hazelhusk_part;

/* ---- the exported functions, by value; a table is lent. Use those further down, which keep the state
 * for you. */

hazelhusk_sender_step husk_open_sender(hazelhusk_setting setting, hazelhusk_iv iv);
hazelhusk_built husk_build(hazelhusk_sender sender, const uint8_t *app, size_t app_len, const uint8_t *random, size_t random_len, uint8_t *out, size_t out_len);
hazelhusk_sender_step husk_change_sender(hazelhusk_sender sender, hazelhusk_iv iv);
hazelhusk_receiver_step husk_open_receiver(hazelhusk_setting setting, hazelhusk_iv iv);
hazelhusk_counted husk_gaps(hazelhusk_receiver receiver, uint8_t slot);
hazelhusk_offered husk_offer(hazelhusk_receiver receiver, const uint8_t *rec, size_t rec_len, uint8_t slot);
hazelhusk_settled husk_settle(hazelhusk_receiver receiver, const uint8_t *rec, size_t rec_len, uint8_t slot, uint32_t count, uint64_t number, uint8_t yes, const uint8_t *plain, size_t plain_len);
hazelhusk_receiver_step husk_change_receiver(hazelhusk_receiver receiver, hazelhusk_iv iv);
hazelhusk_receiver_step husk_drop(hazelhusk_receiver receiver);
void husk_view(uint8_t mode, uint64_t place, uint64_t length, const uint8_t *rec, size_t rec_len, const uint8_t *plain, size_t plain_len, hazelhusk_part *out);
hazelhusk_wrote husk_wrap_data(uint8_t integrity, uint8_t kind, const uint8_t *body, size_t body_len, uint8_t *out, size_t out_len);
hazelhusk_data husk_read_data(const uint8_t *app, size_t app_len);
void husk_body_of(const uint8_t *app, size_t app_len, hazelhusk_part *out);
hazelhusk_wrote husk_wrap_record(const uint8_t *rec, size_t rec_len, uint8_t *out, size_t out_len);
uint8_t husk_read_message(const uint8_t *message, size_t message_len);
void husk_record_of(const uint8_t *message, size_t message_len, hazelhusk_part *out);
hazelhusk_opened husk_table_open(hazelhusk_controller *table, hazelhusk_setting setting, hazelhusk_iv iv, hazelhusk_iv iw);
uint8_t husk_table_close(hazelhusk_controller *table, uint8_t row);
hazelhusk_offered husk_table_offer(const hazelhusk_controller *table, const uint8_t *rec, size_t rec_len, uint8_t slot);
hazelhusk_taken husk_table_settle(hazelhusk_controller *table, const uint8_t *rec, size_t rec_len, uint8_t slot, uint32_t count, uint64_t number, uint8_t yes, const uint8_t *plain, size_t plain_len);
hazelhusk_sent husk_table_build(hazelhusk_controller *table, uint8_t row, const uint8_t *app, size_t app_len, const uint8_t *random, size_t random_len, uint8_t *out, size_t out_len);
hazelhusk_counted husk_table_gaps(const hazelhusk_controller *table, uint8_t row, uint8_t slot);
uint8_t husk_table_change_receiver(hazelhusk_controller *table, uint8_t row, hazelhusk_iv iv);
uint8_t husk_table_change_sender(hazelhusk_controller *table, uint8_t row, hazelhusk_iv iv);
uint8_t husk_table_drop(hazelhusk_controller *table, uint8_t row);

/* The usual setting: the layout is HAZELHUSK_LAYOUT_LITTLE, the MAC has HAZELHUSK_MAC_BYTES, the profile is
 * HAZELHUSK_PROFILE_BUS, and the window remembers HAZELHUSK_WINDOW_WIDTH numbers. Where a board wants another,
 * change that field of it. */
static inline hazelhusk_setting hazelhusk_setting_of(uint8_t mode, uint32_t session, uint64_t limit)
{
    hazelhusk_setting setting = { mode, HAZELHUSK_LAYOUT_LITTLE, HAZELHUSK_MAC_BYTES, HAZELHUSK_PROFILE_BUS, HAZELHUSK_WINDOW_WIDTH, session, limit };
    return setting;
}

static inline hazelhusk_iv hazelhusk_iv_of(const uint8_t bytes[12])
{
    hazelhusk_iv iv;
    memcpy(iv.bytes, bytes, sizeof iv.bytes);
    return iv;
}

/* ---- the sender */

/* A new channel. On HAZELHUSK_SETTING the state is zeros, which every later call refuses. */
static inline uint8_t hazelhusk_sender_open(hazelhusk_sender *sender, hazelhusk_setting setting, const uint8_t iv[12])
{
    hazelhusk_sender_step step = husk_open_sender(setting, hazelhusk_iv_of(iv));
    *sender = step.next;
    return step.answer;
}

/* Writes all of a record but its MAC at the start of `out`, and answers in `built` what the cipher
 * needs. HAZELHUSK_STATE, _SPENT, _PADDING, _SIZE, _ROOM. */
static inline uint8_t hazelhusk_build(hazelhusk_sender *sender, const uint8_t *app, size_t app_len, const uint8_t *random, size_t random_len, uint8_t *out, size_t out_len, hazelhusk_built *built)
{
    *built = husk_build(*sender, app, app_len, random, random_len, out, out_len);
    *sender = built->next;
    return built->answer;
}

/* A new key: its IV, and the numbers from 0 again. HAZELHUSK_STATE, _EPOCHS. */
static inline uint8_t hazelhusk_sender_change_key(hazelhusk_sender *sender, const uint8_t iv[12])
{
    hazelhusk_sender_step step = husk_change_sender(*sender, hazelhusk_iv_of(iv));
    *sender = step.next;
    return step.answer;
}

/* ---- the receiver */

/* A new channel. On HAZELHUSK_SETTING the state is zeros, which every later call refuses. */
static inline uint8_t hazelhusk_receiver_open(hazelhusk_receiver *receiver, hazelhusk_setting setting, const uint8_t iv[12])
{
    hazelhusk_receiver_step step = husk_open_receiver(setting, hazelhusk_iv_of(iv));
    *receiver = step.next;
    return step.answer;
}

/* How many of the last numbers, as many as the window remembers, are missing under the slot's key; on the bench
 * none ever is.
 * HAZELHUSK_STATE, _KEY. */
static inline uint8_t hazelhusk_gaps(const hazelhusk_receiver *receiver, uint8_t slot, uint32_t *gaps)
{
    hazelhusk_counted counted = husk_gaps(*receiver, slot);
    *gaps = counted.gaps;
    return counted.answer;
}

/* What the cipher is to check. It changes nothing. HAZELHUSK_STATE, _KEY to _REPEAT. */
static inline uint8_t hazelhusk_offer(const hazelhusk_receiver *receiver, const uint8_t *rec, size_t rec_len, uint8_t slot, hazelhusk_offered *offered)
{
    *offered = husk_offer(*receiver, rec, rec_len, slot);
    return offered->answer;
}

/* The application data of a settled record: a part of `rec` in mode 0, of `plain` in mode 1. */
static inline hazelhusk_part hazelhusk_view(uint8_t mode, uint64_t place, uint64_t length, const uint8_t *rec, size_t rec_len, const uint8_t *plain, size_t plain_len)
{
    hazelhusk_part part = { NULL, 0 };
    husk_view(mode, place, length, rec, rec_len, plain, plain_len, &part);
    return part;
}

/* What the cipher said. On 0 the number is marked and `app` is the application data; else `app` is
 * empty. HAZELHUSK_STATE, _KEY to _INNER. */
static inline uint8_t hazelhusk_settle(hazelhusk_receiver *receiver, const uint8_t *rec, size_t rec_len, uint8_t slot, uint32_t count, uint64_t number, uint8_t yes, const uint8_t *plain, size_t plain_len, hazelhusk_part *app)
{
    uint8_t mode = receiver->setting.mode;
    hazelhusk_settled settled = husk_settle(*receiver, rec, rec_len, slot, count, number, yes, plain, plain_len);
    *receiver = settled.next;
    *app = hazelhusk_view(mode, settled.place, settled.length, rec, rec_len, plain, plain_len);
    return settled.answer;
}

/* A new key: the current one becomes the old one, with its window. HAZELHUSK_STATE, _HELD, _EPOCHS. */
static inline uint8_t hazelhusk_receiver_change_key(hazelhusk_receiver *receiver, const uint8_t iv[12])
{
    hazelhusk_receiver_step step = husk_change_receiver(*receiver, hazelhusk_iv_of(iv));
    *receiver = step.next;
    return step.answer;
}

/* Forgets the old key. HAZELHUSK_STATE, _KEY. */
static inline uint8_t hazelhusk_drop(hazelhusk_receiver *receiver)
{
    hazelhusk_receiver_step step = husk_drop(*receiver);
    *receiver = step.next;
    return step.answer;
}

/* ---- the controller's table
 *
 * A record reaches the row that has its Session ID; every other call names its row, 0 to 15. A call
 * changes its row and no other. Each answers HAZELHUSK_STATE first where two open rows share a Session
 * ID or a row's two differ, which no call leads to. HAZELHUSK_UNKNOWN comes before all that the row
 * itself would say. The table's own HAZELHUSK_SHORT is for a record under HAZELHUSK_BENCH_HEADER_BYTES,
 * whichever profiles its rows have; a row may find a longer one short.
 *
 * What you must do, beside what is said at the top:
 *   - Start with zeros (`hazelhusk_controller controller = { 0 };`), and let the calls write the words.
 *   - Give a channel that is opened its own keys and IVs: a reopened row needs ones that no earlier
 *     channel of that row and no other row has used. Its numbers begin at 0 again.
 *   - Give the table to one thread at a time, whichever rows the calls are for, and let no other pointer
 *     of a call alias it.
 *   - Between offer and settle open and close no row with that Session ID, and take the key of the row
 *     that has it.
 */

/* A new channel: a receiver and a sender of this setting in the lowest free row, whose number `row`
 * gets. HAZELHUSK_STATE, _SETTING, _TWICE, _ROWS. */
static inline uint8_t hazelhusk_controller_open(hazelhusk_controller *controller, hazelhusk_setting setting, const uint8_t receive_iv[12], const uint8_t send_iv[12], uint8_t *row)
{
    hazelhusk_opened opened = husk_table_open(controller, setting, hazelhusk_iv_of(receive_iv), hazelhusk_iv_of(send_iv));
    *row = opened.row;
    return opened.answer;
}

/* The row is free again, whatever is in it. HAZELHUSK_STATE, _UNKNOWN. */
static inline uint8_t hazelhusk_controller_close(hazelhusk_controller *controller, uint8_t row)
{
    return husk_table_close(controller, row);
}

/* What the cipher is to check of a record, by the row that has its Session ID. It changes nothing.
 * HAZELHUSK_STATE, _SHORT, _UNKNOWN, then _STATE, _KEY, _SHORT and _LENGTH to _REPEAT of that row. */
static inline uint8_t hazelhusk_controller_offer(const hazelhusk_controller *controller, const uint8_t *rec, size_t rec_len, uint8_t slot, hazelhusk_offered *offered)
{
    *offered = husk_table_offer(controller, rec, rec_len, slot);
    return offered->answer;
}

/* What the cipher said. On 0 the number is marked and `app` is the application data, a part of `plain`,
 * or of `rec` where `plain_len` is 0 (mode 0); else `app` is empty. HAZELHUSK_STATE, _SHORT, _UNKNOWN,
 * then _STATE, _KEY, _SHORT and _LENGTH to _INNER of that row. */
static inline uint8_t hazelhusk_controller_settle(hazelhusk_controller *controller, const uint8_t *rec, size_t rec_len, uint8_t slot, uint32_t count, uint64_t number, uint8_t yes, const uint8_t *plain, size_t plain_len, hazelhusk_part *app)
{
    hazelhusk_taken taken = husk_table_settle(controller, rec, rec_len, slot, count, number, yes, plain, plain_len);
    *app = hazelhusk_view(plain_len != 0, taken.place, taken.length, rec, rec_len, plain, plain_len);
    return taken.answer;
}

/* Writes all of a record but its MAC at the start of `out`, with the row's sender, and answers in `sent`
 * what the cipher needs. HAZELHUSK_STATE, _UNKNOWN, then _STATE, _SPENT, _PADDING, _SIZE, _ROOM of the
 * row. */
static inline uint8_t hazelhusk_controller_build(hazelhusk_controller *controller, uint8_t row, const uint8_t *app, size_t app_len, const uint8_t *random, size_t random_len, uint8_t *out, size_t out_len, hazelhusk_sent *sent)
{
    *sent = husk_table_build(controller, row, app, app_len, random, random_len, out, out_len);
    return sent->answer;
}

/* How many of the last numbers are missing under the key of the row's slot. HAZELHUSK_STATE, _UNKNOWN,
 * then _STATE, _KEY of the row. */
static inline uint8_t hazelhusk_controller_gaps(const hazelhusk_controller *controller, uint8_t row, uint8_t slot, uint32_t *gaps)
{
    hazelhusk_counted counted = husk_table_gaps(controller, row, slot);
    *gaps = counted.gaps;
    return counted.answer;
}

/* A new receive key of the row: the current one becomes the old one, with its window. HAZELHUSK_STATE,
 * _UNKNOWN, then _STATE, _HELD, _EPOCHS of the row. */
static inline uint8_t hazelhusk_controller_change_receiver(hazelhusk_controller *controller, uint8_t row, const uint8_t iv[12])
{
    return husk_table_change_receiver(controller, row, hazelhusk_iv_of(iv));
}

/* A new send key of the row: its IV, and the numbers from 0 again. HAZELHUSK_STATE, _UNKNOWN, then
 * _STATE, _EPOCHS of the row. */
static inline uint8_t hazelhusk_controller_change_sender(hazelhusk_controller *controller, uint8_t row, const uint8_t iv[12])
{
    return husk_table_change_sender(controller, row, hazelhusk_iv_of(iv));
}

/* Forgets the old receive key of the row. HAZELHUSK_STATE, _UNKNOWN, then _STATE, _KEY of the row. */
static inline uint8_t hazelhusk_controller_drop(hazelhusk_controller *controller, uint8_t row)
{
    return husk_table_drop(controller, row);
}

/* ---- the wrapping */

/* Application data: the byte of E-IC (1 is set) and type, then the body. HAZELHUSK_WRAPPED, _ROOM. */
static inline uint8_t hazelhusk_wrap_data(uint8_t integrity, uint8_t kind, const uint8_t *body, size_t body_len, uint8_t *out, size_t out_len, uint64_t *length)
{
    hazelhusk_wrote wrote = husk_wrap_data(integrity, kind, body, body_len, out, out_len);
    *length = wrote.length;
    return wrote.answer;
}

/* The bit and the type of application data, and its body. HAZELHUSK_WRAPPED. */
static inline uint8_t hazelhusk_read_data(const uint8_t *app, size_t app_len, bool *integrity, uint8_t *kind, hazelhusk_part *body)
{
    hazelhusk_data data = husk_read_data(app, app_len);
    *integrity = data.integrity;
    *kind = data.kind;
    husk_body_of(app, app_len, body);
    return data.answer;
}

/* An MCTP message: the byte 0x06, then the record. HAZELHUSK_ROOM. */
static inline uint8_t hazelhusk_wrap_record(const uint8_t *rec, size_t rec_len, uint8_t *out, size_t out_len, uint64_t *length)
{
    hazelhusk_wrote wrote = husk_wrap_record(rec, rec_len, out, out_len);
    *length = wrote.length;
    return wrote.answer;
}

/* The record of a message. HAZELHUSK_FRAME. */
static inline uint8_t hazelhusk_read_message(const uint8_t *message, size_t message_len, hazelhusk_part *rec)
{
    husk_record_of(message, message_len, rec);
    return husk_read_message(message, message_len);
}

#ifdef __cplusplus
}
#endif

#endif
