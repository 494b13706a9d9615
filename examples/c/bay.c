/* A small part of a bay: one board's records cross the bus under a toy cipher, one is delivered twice,
 * one is forged, and the key changes while a record of the old key is late. Then the same with a board of
 * the first series, whose MAC has 8 bytes, a burst that overtakes a record, and last a board on the test
 * bench's cable. Each line says what the receiver answered; the program ends with 1 where an answer is not the
 * one expected. */
#include <stdio.h>

#include "hazelhusk.h"

/* A toy MAC of record, key and nonce: a real host calls its crypto block here. */
static void toy_mac(uint8_t key, const uint8_t nonce[12], const uint8_t *bytes, size_t len, uint8_t mac[HAZELHUSK_MAC_BYTES])
{
    uint64_t a = 0xcbf29ce484222325u ^ key, b = a * 31;
    for (size_t i = 0; i < 12; i++) a = (a ^ nonce[i]) * 0x100000001b3u;
    for (size_t i = 0; i < len; i++) { a = (a ^ bytes[i]) * 0x100000001b3u; b = (b + a) * 0x9e3779b97f4a7c15u; }
    memcpy(mac, &a, 8);
    memcpy(mac + 8, &b, 8);
}

static size_t send_one(hazelhusk_sender *sender, uint8_t key, uint8_t reading, uint8_t out[64])
{
    hazelhusk_built built;
    uint8_t mac[HAZELHUSK_MAC_BYTES];
    if (hazelhusk_build(sender, &reading, 1, NULL, 0, out, 64, &built) != HAZELHUSK_OK) return 0;
    toy_mac(key, built.nonce, out, built.assoc, mac);
    /* A shorter MAC is the first bytes of the longest, as AES-GCM has it too. */
    memcpy(out + built.text, mac, sender->setting.mac);
    return built.total;
}

static uint8_t receive_one(hazelhusk_receiver *receiver, uint8_t key, uint8_t slot, const uint8_t *rec, size_t len, hazelhusk_part *app)
{
    hazelhusk_offered offered;
    uint8_t mac[HAZELHUSK_MAC_BYTES];
    uint8_t answer = hazelhusk_offer(receiver, rec, len, slot, &offered);
    *app = (hazelhusk_part){ NULL, 0 };
    if (answer != HAZELHUSK_OK) return answer;
    toy_mac(key, offered.nonce, rec, offered.assoc, mac);
    uint8_t yes = memcmp(mac, rec + offered.text, receiver->setting.mac) == 0;
    return hazelhusk_settle(receiver, rec, len, slot, offered.count, offered.number, yes, NULL, 0, app);
}

static int failures;

static void expect(const char *what, uint8_t answer, uint8_t wanted, hazelhusk_part app)
{
    printf("%-38s answer %2u, %u bytes\n", what, answer, (unsigned)app.length);
    if (answer != wanted || app.length != (wanted == HAZELHUSK_OK)) failures++;
}

/* With a MAC of so many bytes. Answers 0 where all went as expected. */
static int story(uint8_t mac)
{
    static const uint8_t iv[2][12] = { { 1, 2, 3 }, { 4, 5, 6 } };
    hazelhusk_setting setting = hazelhusk_setting_of(0, 0x11223344, UINT64_MAX);
    hazelhusk_sender sender;
    hazelhusk_receiver receiver;
    hazelhusk_part app;
    uint8_t first[64], late[64], fresh[64], forged[64];

    setting.mac = mac;
    if (hazelhusk_sender_open(&sender, setting, iv[0]) || hazelhusk_receiver_open(&receiver, setting, iv[0])) return 1;
    size_t n = send_one(&sender, 7, 42, first);
    printf("with a MAC of %u bytes, in records of %u\n", mac, (unsigned)n);
    if (n != HAZELHUSK_HEADER_BYTES + 1 + (size_t)mac) failures++;
    expect("a record", receive_one(&receiver, 7, HAZELHUSK_SLOT_CURRENT, first, n, &app), HAZELHUSK_OK, app);
    expect("the bridge delivers it again", receive_one(&receiver, 7, HAZELHUSK_SLOT_CURRENT, first, n, &app), HAZELHUSK_REPEAT, app);

    size_t m = send_one(&sender, 7, 43, late);
    memcpy(forged, late, sizeof forged);
    forged[6] = 0xff;
    expect("a forged length", receive_one(&receiver, 7, HAZELHUSK_SLOT_CURRENT, forged, m, &app), HAZELHUSK_LENGTH, app);
    forged[6] = late[6];
    forged[8] ^= 1;
    expect("a forged reading", receive_one(&receiver, 7, HAZELHUSK_SLOT_CURRENT, forged, m, &app), HAZELHUSK_MAC, app);

    if (hazelhusk_sender_change_key(&sender, iv[1]) || hazelhusk_receiver_change_key(&receiver, iv[1])) return 1;
    size_t k = send_one(&sender, 8, 44, fresh);
    expect("the first record of the new key", receive_one(&receiver, 8, HAZELHUSK_SLOT_CURRENT, fresh, k, &app), HAZELHUSK_OK, app);
    expect("the late record of the old key", receive_one(&receiver, 7, HAZELHUSK_SLOT_OLD, late, m, &app), HAZELHUSK_OK, app);
    if (hazelhusk_drop(&receiver)) return 1;
    expect("the old key after Drop", receive_one(&receiver, 7, HAZELHUSK_SLOT_OLD, late, m, &app), HAZELHUSK_KEY, app);
    return failures != 0;
}

/* 150 others overtake a record. A window of this width takes it, or finds it old. */
static int burst(uint16_t width, uint8_t wanted)
{
    static const uint8_t iv[12] = { 10, 11, 12 };
    hazelhusk_setting setting = hazelhusk_setting_of(0, 0x99aabbcc, UINT64_MAX);
    hazelhusk_sender sender;
    hazelhusk_receiver receiver;
    hazelhusk_part app;
    uint8_t late[64], record[64];

    setting.width = width;
    if (hazelhusk_sender_open(&sender, setting, iv) || hazelhusk_receiver_open(&receiver, setting, iv)) return 1;
    size_t n = send_one(&sender, 5, 60, late);
    for (int i = 0; i < 150; i++) {
        send_one(&sender, 5, 61, record);
        if (receive_one(&receiver, 5, HAZELHUSK_SLOT_CURRENT, record, n, &app)) return 1;
    }
    printf("with a window of %u numbers\n", width);
    expect("a record that 150 others overtook", receive_one(&receiver, 5, HAZELHUSK_SLOT_CURRENT, late, n, &app), wanted, app);
    return failures != 0;
}

/* On the bench's cable a record says no number: each has the next one, so after a lost one none passes. */
static int bench(void)
{
    static const uint8_t iv[12] = { 7, 8, 9 };
    hazelhusk_setting setting = hazelhusk_setting_of(0, 0x55667788, UINT64_MAX);
    hazelhusk_sender sender;
    hazelhusk_receiver receiver;
    hazelhusk_part app;
    uint8_t record[64];

    setting.profile = HAZELHUSK_PROFILE_BENCH;
    if (hazelhusk_sender_open(&sender, setting, iv) || hazelhusk_receiver_open(&receiver, setting, iv)) return 1;
    size_t n = send_one(&sender, 9, 50, record);
    printf("on the bench's cable, in records of %u\n", (unsigned)n);
    if (n != HAZELHUSK_BENCH_HEADER_BYTES + 1 + HAZELHUSK_MAC_BYTES) failures++;
    expect("a record", receive_one(&receiver, 9, HAZELHUSK_SLOT_CURRENT, record, n, &app), HAZELHUSK_OK, app);
    expect("it is delivered again", receive_one(&receiver, 9, HAZELHUSK_SLOT_CURRENT, record, n, &app), HAZELHUSK_MAC, app);
    send_one(&sender, 9, 51, record);
    expect("the next record", receive_one(&receiver, 9, HAZELHUSK_SLOT_CURRENT, record, n, &app), HAZELHUSK_OK, app);
    send_one(&sender, 9, 52, record);
    send_one(&sender, 9, 53, record);
    expect("the one after a lost record", receive_one(&receiver, 9, HAZELHUSK_SLOT_CURRENT, record, n, &app), HAZELHUSK_MAC, app);
    return failures != 0;
}

int main(void)
{
    return story(HAZELHUSK_MAC_BYTES) || story(8) || burst(HAZELHUSK_WINDOW_WIDTH, HAZELHUSK_OLD)
        || burst(HAZELHUSK_WINDOW_WIDEST, HAZELHUSK_OK) || bench();
}
