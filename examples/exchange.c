/* A sender and a gateway in one program: three messages are sent, the second arrives first and once more later, a forged one comes behind them, and the
 * entry is listed, with both that were turned away counted. The gateway restarts without its table and goes on by that listing: what had arrived does not
 * pass again, the next message does. Then a second gateway takes the first one's place: the old messages do not pass there, the next one does. The meter
 * gets a new key, and later a wider window for the same key, each by one change of its entry. And a controller of the turbine hall sends with a longer
 * check value. Nothing is kept here; examples/kept.c shows how.
 * Build: cc exchange.c $(pkg-config --cflags --libs crisp) */
#include "crisp.h"
#include <stdio.h>
#include <stdlib.h>
#include <string.h>

static uint8_t table[CRISP_TABLE], replacement[CRISP_TABLE];    /* zeros: empty tables */

static const uint8_t keyid[] = {0x05};
static const uint8_t source[] = "meter 0017";
static const uint8_t key[32] = {
    0x11, 0x22, 0x33, 0x44, 0x55, 0x66, 0x77, 0x88, 0x99, 0xaa, 0xbb, 0xcc, 0xdd, 0xee, 0xff, 0x00,
    0x01, 0x12, 0x23, 0x34, 0x45, 0x56, 0x67, 0x78, 0x89, 0x9a, 0xab, 0xbc, 0xcd, 0xde, 0xef, 0xf0,
};
static const uint8_t new_key[32] = {
    0x3c, 0x4d, 0x5e, 0x6f, 0x70, 0x81, 0x92, 0xa3, 0xb4, 0xc5, 0xd6, 0xe7, 0xf8, 0x09, 0x1a, 0x2b,
    0x2d, 0x3e, 0x4f, 0x50, 0x61, 0x72, 0x83, 0x94, 0xa5, 0xb6, 0xc7, 0xd8, 0xe9, 0xfa, 0x0b, 0x1c,
};
static const uint8_t hall_key[32] = {
    0xf1, 0xe2, 0xd3, 0xc4, 0xb5, 0xa6, 0x97, 0x88, 0x79, 0x6a, 0x5b, 0x4c, 0x3d, 0x2e, 0x1f, 0x00,
    0x0f, 0x1e, 0x2d, 0x3c, 0x4b, 0x5a, 0x69, 0x78, 0x87, 0x96, 0xa5, 0xb4, 0xc3, 0xd2, 0xe1, 0xf0,
};

struct packet {
    uint8_t bytes[CRISP_OUT];
    size_t length;
};

static int arrives(uint8_t *gateway, const struct packet *p)
{
    uint8_t out[CRISP_OUT];
    struct crisp_answer a = crisp_receive(gateway, p->bytes, p->length, source, sizeof source - 1, out, sizeof out);
    printf("arrival: reply %llu", (unsigned long long)a.reply);
    if (a.reply == CRISP_DONE)
        printf(", slot %zu, number %llu, %zu bytes: %.*s", a.slot, (unsigned long long)a.seqnum, a.length, (int)a.length, (const char *)out);
    printf("\n");
    return (int)a.reply;
}

static int sends(struct crisp_sender *sender, const char *reading, struct packet *p)
{
    struct crisp_answer a = crisp_protect(sender, (const uint8_t *)reading, strlen(reading), p->bytes, sizeof p->bytes);
    if (a.reply == CRISP_DONE) printf("sent: number %llu, %zu bytes\n", (unsigned long long)a.seqnum, a.length);
    p->length = a.length;
    return (int)a.reply;
}

static uint8_t listing[CRISP_OUT + 1];  /* the last one, and a zero behind it */
static size_t listing_length;

static int lists(const uint8_t *gateway, size_t slot)
{
    struct crisp_answer a = crisp_listing(gateway, slot, listing, CRISP_OUT);
    printf("%.*s", (int)a.length, (const char *)listing);
    listing_length = a.length;
    listing[a.length] = 0;
    return (int)a.reply;
}

/* A number of the last listing, by the name of its line. */
static uint64_t listed(const char *name, int base) { return strtoull(strstr((const char *)listing, name) + strlen(name), NULL, base); }

/* The start of a key that goes on elsewhere, or in a fresh entry: behind all that the listed entry has accepted, and not below its own start. */
static uint64_t start_behind(void)
{
    uint64_t start = listed("\nstart=", 10), highest = listed("\nhighest=", 16);
    return highest + 1 > start ? highest + 1 : start;
}

/* The meter's entry: its key has a past where start is not 0. */
static struct crisp_answer installs(uint8_t *gateway, uint64_t start)
{
    return crisp_install(gateway, 1, keyid, sizeof keyid, source, sizeof source - 1, CRISP_MAGMA_CTR, 2, key, sizeof key, 64, start);
}

/* The table is gone, and the last listing is not. The entry is installed as it was the first time, into its slot, and takes the listing. */
static int restarts(uint8_t *gateway)
{
    memset(gateway, 0, CRISP_TABLE);
    if (installs(gateway, 0).reply != CRISP_DONE) return 1;
    struct crisp_answer a = crisp_load(gateway, listing, listing_length);
    printf("load: reply %llu, slot %zu\n", (unsigned long long)a.reply, a.slot);
    return a.reply != CRISP_DONE;
}

/* The meter's entry gets another key, Size or start, in its slot. */
static int changes(uint8_t *gateway, size_t slot, const uint8_t *to, size_t length, uint64_t size, uint64_t start)
{
    struct crisp_answer a = crisp_change(gateway, slot, 1, keyid, sizeof keyid, source, sizeof source - 1, CRISP_MAGMA_CTR, 2, to, length, size,
                                         start);
    printf("change: reply %llu", (unsigned long long)a.reply);
    if (a.reply == CRISP_DONE) printf(", slot %zu", a.slot);
    printf("\n");
    return (int)a.reply;
}

/* A new key. Half of it is refused, and the meter is still heard, for nothing was removed. A new key has no past, so start is 0: what was made with the
 * old key fails its check, and counts as forged. The listing before the change has the totals and counters of the old history. */
static int gets_new_key(uint8_t *gateway, size_t slot, struct crisp_sender *sender)
{
    static struct packet old, first;
    if (changes(gateway, slot, new_key, sizeof new_key / 2, 64, 0) != CRISP_UNSOUND) return 1;
    if (sends(sender, "19.1 GJ", &old) != CRISP_DONE || arrives(gateway, &old) != CRISP_DONE) return 1;

    if (lists(gateway, slot) != CRISP_DONE || changes(gateway, slot, new_key, sizeof new_key, 64, 0) != CRISP_DONE) return 1;
    memcpy(sender->key, new_key, sizeof new_key);
    sender->current = 0;
    if (arrives(gateway, &old) != CRISP_WRONG_ICV) return 1;
    return sends(sender, "19.4 GJ", &first) != CRISP_DONE || arrives(gateway, &first) != CRISP_DONE;
}

/* A wider window. The key stays, and has a past: with start 0 every message of it would pass once more. */
static int gets_wider_window(uint8_t *gateway, size_t slot, struct crisp_sender *sender)
{
    static struct packet old, fresh;
    if (sends(sender, "19.8 GJ", &old) != CRISP_DONE || arrives(gateway, &old) != CRISP_DONE || lists(gateway, slot) != CRISP_DONE) return 1;
    if (changes(gateway, slot, new_key, sizeof new_key, CRISP_SIZE, start_behind()) != CRISP_DONE) return 1;
    if (arrives(gateway, &old) != CRISP_BELOW_FLOOR) return 1;
    return sends(sender, "20.1 GJ", &fresh) != CRISP_DONE || arrives(gateway, &fresh) != CRISP_DONE || lists(gateway, slot) != CRISP_DONE;
}

/* The hall's messages are four bytes longer, for their check value has eight. One that is passed off as a message with a short check value is refused by
 * its suite, which is not the entry's, and the true one is taken afterwards. With flag 0 an entry is found by its KeyId alone. */
static int turbine_hall(uint8_t *gateway)
{
    static struct packet packet, shortened;
    struct crisp_sender hall = {.flag = 0, .keyid = {0x06}, .keyid_len = 1, .source = "turbine hall", .source_len = 12, .suite = CRISP_MAGMA_CTR_LONG,
                                .edition = 2};
    memcpy(hall.key, hall_key, sizeof hall_key);
    struct crisp_answer a = crisp_install(gateway, hall.flag, hall.keyid, hall.keyid_len, hall.source, hall.source_len, hall.suite, hall.edition, hall_key,
                                          sizeof hall_key, 64, 0);
    if (a.reply != CRISP_DONE || sends(&hall, "41.2 MW", &packet) != CRISP_DONE) return 1;
    shortened = packet;
    shortened.bytes[2] = CRISP_MAGMA_CTR;
    return arrives(gateway, &shortened) != CRISP_OTHER_SUITE || arrives(gateway, &packet) != CRISP_DONE || lists(gateway, a.slot) != CRISP_DONE;
}

/* Three messages: the second arrives first and once more later, and behind them a forged one. An engineer reads off the listing that one message came a
 * second time and that one was not made with the key. Neither has changed anything but its counter; a counter that grows from one listing to the next is
 * worth a look. */
static int first_day(uint8_t *gateway, size_t slot, struct crisp_sender *sender, struct packet packets[3])
{
    static const char *const readings[] = {"17.3 GJ", "17.9 GJ", "18.4 GJ"};
    static struct packet forged;
    for (int i = 0; i < 3; i++)
        if (sends(sender, readings[i], &packets[i]) != CRISP_DONE) return 1;
    int order[] = {1, 0, 1, 2}, expected[] = {CRISP_DONE, CRISP_DONE, CRISP_REPEATED, CRISP_DONE};
    for (int i = 0; i < 4; i++)
        if (arrives(gateway, &packets[order[i]]) != expected[i]) return 1;
    forged = packets[2];
    forged.bytes[20] ^= 1;
    forged.bytes[9] += 1;               /* another number, and a check value that cannot be right */
    if (arrives(gateway, &forged) != CRISP_WRONG_ICV || lists(gateway, slot) != CRISP_DONE) return 1;
    return listed("\nreplays=", 10) != 1 || listed("\nforged=", 10) != 1;
}

int main(void)
{
    static struct packet packets[3];
    struct crisp_sender sender = {.flag = 1, .keyid_len = sizeof keyid, .source_len = sizeof source - 1, .suite = CRISP_MAGMA_CTR, .edition = 2};
    memcpy(sender.keyid, keyid, sizeof keyid);
    memcpy(sender.source, source, sizeof source - 1);
    memcpy(sender.key, key, sizeof key);

    struct crisp_answer a = installs(table, 0);
    if (a.reply != CRISP_DONE) return 1;
    size_t slot = a.slot;
    if (first_day(table, slot, &sender, packets)) return 1;

    /* the listing is from after the last arrival; by an older one, or by none, messages would pass once more */
    if (restarts(table)) return 1;
    for (int i = 0; i < 3; i++)
        if (arrives(table, &packets[i]) != CRISP_REPEATED) return 1;
    if (sends(&sender, "18.6 GJ", &packets[0]) != CRISP_DONE || arrives(table, &packets[0]) != CRISP_DONE) return 1;
    if (lists(table, slot) != CRISP_DONE || crisp_remove(table, slot).reply != CRISP_DONE) return 1;

    /* the key has a past: it starts behind all that was accepted, and with start 0 all would pass once more */
    a = installs(replacement, start_behind());
    if (a.reply != CRISP_DONE) return 1;
    for (int i = 0; i < 3; i++)
        if (arrives(replacement, &packets[i]) != CRISP_BELOW_FLOOR) return 1;
    if (sends(&sender, "18.8 GJ", &packets[0]) != CRISP_DONE || arrives(replacement, &packets[0]) != CRISP_DONE) return 1;
    if (lists(replacement, a.slot) != CRISP_DONE) return 1;
    if (gets_new_key(replacement, a.slot, &sender) || gets_wider_window(replacement, a.slot, &sender)) return 1;
    return turbine_hall(replacement);
}
