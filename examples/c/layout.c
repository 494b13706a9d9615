/* The structs lie in memory as the boundary has them: sizes and offsets, from C's side. The same table
 * is checked from Rust's side in host/husk/tests/layout.rs. */
#include "hazelhusk.h"

#define SIZE(type, size) _Static_assert(sizeof(hazelhusk_##type) == (size), #type)
#define AT(type, field, place) _Static_assert(offsetof(hazelhusk_##type, field) == (place), #type "." #field)

SIZE(setting, 24); AT(setting, mode, 0); AT(setting, layout, 1); AT(setting, mac, 2); AT(setting, profile, 3);
AT(setting, width, 4); AT(setting, session, 8); AT(setting, limit, 16);
SIZE(iv, 12);
SIZE(marks, 32); AT(marks, words, 0); AT(marks, words[3], 24);
SIZE(window, 40); AT(window, next, 0); AT(window, marks, 8);
SIZE(key, 56); AT(key, iv, 0); AT(key, window, 16);
SIZE(sender, 56); AT(sender, setting, 0); AT(sender, count, 24); AT(sender, next, 32); AT(sender, iv, 40);
SIZE(sender_step, 64); AT(sender_step, answer, 0); AT(sender_step, next, 8);
SIZE(built, 112); AT(built, answer, 0); AT(built, number, 8); AT(built, nonce, 16); AT(built, assoc, 32);
AT(built, text, 40); AT(built, total, 48); AT(built, next, 56);
SIZE(receiver, 152); AT(receiver, setting, 0); AT(receiver, count, 24); AT(receiver, current, 32);
AT(receiver, held, 88); AT(receiver, old, 96);
SIZE(receiver_step, 160); AT(receiver_step, answer, 0); AT(receiver_step, next, 8);
SIZE(counted, 8); AT(counted, answer, 0); AT(counted, gaps, 4);
SIZE(offered, 48); AT(offered, answer, 0); AT(offered, count, 4); AT(offered, number, 8); AT(offered, nonce, 16);
AT(offered, assoc, 32); AT(offered, text, 40);
SIZE(settled, 176); AT(settled, answer, 0); AT(settled, place, 8); AT(settled, length, 16); AT(settled, next, 24);
SIZE(wrote, 16); AT(wrote, answer, 0); AT(wrote, length, 8);
SIZE(data, 3); AT(data, answer, 0); AT(data, integrity, 1); AT(data, kind, 2);
SIZE(controller, 3328); AT(controller, rows, 0); AT(controller, rows[1], 208); AT(controller, rows[15][25], 3320);
SIZE(opened, 2); AT(opened, answer, 0); AT(opened, row, 1);
SIZE(taken, 24); AT(taken, answer, 0); AT(taken, place, 8); AT(taken, length, 16);
SIZE(sent, 56); AT(sent, answer, 0); AT(sent, number, 8); AT(sent, nonce, 16); AT(sent, assoc, 32);
AT(sent, text, 40); AT(sent, total, 48);

/* Each word of a row is at its place: a channel is opened, used and closed, and the words are read. */
static int table(void)
{
    static const uint8_t in[12] = { 1, 2, 3, 4, 5, 6, 7, 8, 9, 10, 11, 12 }, out[12] = { 21, 22, 23, 24, 25, 26, 27, 28, 29, 30, 31, 32 };
    static const hazelhusk_controller empty;
    hazelhusk_controller controller = empty;
    hazelhusk_setting setting = hazelhusk_setting_of(1, 0x82838485, 0x868788898a8b8c8d);
    hazelhusk_offered offered;
    hazelhusk_sent sent;
    hazelhusk_part app;
    uint8_t row = 99, record[64], plain[3] = { 1, 0, 42 };
    uint32_t gaps = 99;
    if (hazelhusk_controller_open(&controller, setting, in, out, &row) || row != 0) return 1;
    setting.session++;
    setting.layout = HAZELHUSK_LAYOUT_BIG;
    setting.mac = 12;
    setting.profile = HAZELHUSK_PROFILE_BENCH;
    setting.width = 192;
    if (hazelhusk_controller_open(&controller, setting, out, in, &row) || row != 1) return 2;
    if (hazelhusk_controller_open(&controller, setting, out, in, &row) != HAZELHUSK_TWICE || row != 0) return 3;
    if (hazelhusk_controller_build(&controller, 1, plain, 1, NULL, 0, record, sizeof record, &sent)) return 4;
    if (sent.number != 0 || sent.assoc != 6 || sent.text != 9 || sent.total != 21 || memcmp(sent.nonce, in, 12)) return 5;
    if (hazelhusk_controller_offer(&controller, record, sent.total, HAZELHUSK_SLOT_CURRENT, &offered)) return 6;
    if (offered.count != 0 || offered.number != 0 || offered.assoc != 6 || offered.text != 9 || memcmp(offered.nonce, out, 12)) return 7;
    if (hazelhusk_controller_settle(&controller, record, sent.total, HAZELHUSK_SLOT_CURRENT, 0, 0, 2, plain, 3, &app) != HAZELHUSK_MAC || app.length) return 8;
    if (hazelhusk_controller_settle(&controller, record, sent.total, HAZELHUSK_SLOT_CURRENT, 0, 0, 1, plain, 3, &app)) return 9;
    if (app.bytes != plain + 2 || app.length != 1) return 10;
    /* Number 1 of this layout is in the last byte. */
    if (hazelhusk_controller_build(&controller, 1, plain, 1, NULL, 0, record, sizeof record, &sent) || memcmp(sent.nonce, in, 11) || sent.nonce[11] != (12 ^ 1)) return 11;
    if (hazelhusk_controller_change_receiver(&controller, 1, in) || hazelhusk_controller_change_sender(&controller, 1, out)) return 12;
    if (hazelhusk_controller_gaps(&controller, 1, HAZELHUSK_SLOT_OLD, &gaps) || gaps != 0) return 13;
    const uint64_t first = 0x0807060504030201, last = 0x0c0b0a09, other = 0x1c1b1a1918171615, tail = 0x201f1e1d;
    const uint64_t limit = setting.limit;
    const uint64_t kind = 0xc0010c0101, usual = 0x4000100001;
    const uint64_t words[26] = { kind, 0x82838486, limit, 1, first, last, 0, 0, 0, 0, 0, 1, other, tail, 1, 1, 0, 0, 0, kind, 0x82838486, limit, 1, 0, other, tail };
    const uint64_t fresh[26] = { usual, 0x82838485, limit, 0, first, last, 0, 0, 0, 0, 0, 0, 0, 0, 0, 0, 0, 0, 0, usual, 0x82838485, limit, 0, 0, other, tail };
    if (memcmp(controller.rows[1], words, sizeof words) || memcmp(controller.rows[0], fresh, sizeof fresh)) return 14;
    if (hazelhusk_controller_drop(&controller, 1) || hazelhusk_controller_drop(&controller, 1) != HAZELHUSK_KEY) return 15;
    if (hazelhusk_controller_close(&controller, 0) || hazelhusk_controller_close(&controller, 0) != HAZELHUSK_UNKNOWN) return 16;
    if (hazelhusk_controller_close(&controller, 1) || hazelhusk_controller_close(&controller, 16) != HAZELHUSK_UNKNOWN) return 17;
    return memcmp(&controller, &empty, sizeof empty) != 0;
}

static bool same_setting(hazelhusk_setting a, hazelhusk_setting b)
{
    return a.mode == b.mode && a.layout == b.layout && a.mac == b.mac && a.profile == b.profile
        && a.width == b.width && a.session == b.session && a.limit == b.limit;
}

static bool same_window(hazelhusk_window a, hazelhusk_window b)
{
    return a.next == b.next && !memcmp(a.marks.words, b.marks.words, sizeof a.marks.words);
}

/* A state that is refused comes back as it was: every field crosses the boundary at its place. */
int main(void)
{
    if (table()) return 2;
    hazelhusk_receiver receiver;
    hazelhusk_sender sender;
    memset(&receiver, 0, sizeof receiver);
    memset(&sender, 0, sizeof sender);
    uint8_t byte = 0;
    receiver.setting = (hazelhusk_setting){ 0x81, 0x92, 0xa3, 0xb4, 0xc5d6, 0x82838485, 0x868788898a8b8c8d };
    receiver.count = 0x8e8f9091;
    receiver.held = true;
    for (int i = 0; i < 12; i++) { receiver.current.iv[i] = ++byte; receiver.old.iv[i] = ++byte; sender.iv[i] = ++byte; }
    receiver.current.window = (hazelhusk_window){ 0xa1a2a3a4a5a6a7a8, { { 0xb1b2b3b4b5b6b7b8, 0xb9babbbcbdbebfb0, 3, 4 } } };
    receiver.old.window = (hazelhusk_window){ 0xc1c2c3c4c5c6c7c8, { { 0xd1d2d3d4d5d6d7d8, 0xd9dadbdcdddedfd0, 7, 8 } } };
    sender.setting = receiver.setting;
    sender.count = 0xe1e2e3e4;
    sender.next = 0xf1f2f3f4f5f6f7f8;
    hazelhusk_receiver was = receiver;
    hazelhusk_sender had = sender;
    if (hazelhusk_drop(&receiver) != HAZELHUSK_STATE || hazelhusk_sender_change_key(&sender, had.iv) != HAZELHUSK_STATE) return 1;
    return !same_setting(receiver.setting, was.setting) || !same_setting(sender.setting, had.setting)
        || receiver.count != was.count || receiver.held != was.held
        || memcmp(receiver.current.iv, was.current.iv, 12) || !same_window(receiver.current.window, was.current.window)
        || memcmp(receiver.old.iv, was.old.iv, 12) || !same_window(receiver.old.window, was.old.window)
        || sender.count != had.count || sender.next != had.next || memcmp(sender.iv, had.iv, 12);
}
