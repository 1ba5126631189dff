/* operations.c: one operation, N times over, for an instruction count. Built twice: with -DPLAIN over the plain C of tests/reference.c, else over the
 * library. The lines around each call are the same in both.
 *
 *   operations N NAME        exit status 0 where each call answered what it should */
#include "crisp.h"
#include <stdio.h>
#include <stdlib.h>
#include <string.h>

#ifdef PLAIN
#include "reference.h"
#define crisp_install ref_install
#define crisp_change ref_change
#define crisp_receive ref_receive
#define crisp_protect ref_protect
#define crisp_listing ref_listing
#define crisp_load ref_load
#define crisp_capture_order ref_capture_order
#define crisp_capture_record ref_capture_record
#define capture_report ref_report
#else
#include "cipher.h"
#include "report.h"
#endif

/* Appendix A of R 1323565.1.029-2019: what A.1 and A.2 share, and what they do not; A.1 as an old controller would send it; and both with a long check
 * value */
static const uint8_t key_bytes[32] = {
    0x56, 0x50, 0x94, 0x27, 0x15, 0x32, 0x49, 0x65, 0x34, 0x98, 0x52, 0x46, 0x59, 0x32, 0x46, 0x53,
    0x04, 0x53, 0x29, 0x45, 0x34, 0x65, 0x93, 0x84, 0x50, 0x73, 0x24, 0x95, 0x76, 0x35, 0x12, 0x90,
};
static const uint8_t source[12] = "020518000001";
static const char payload_a[] = "Hi! This is test for CRISP messages\n\x03";
static const struct kind {
    uint8_t suite, edition;
    uint64_t number;
} a_1 = {1, 2, 0x0b76e6736001}, a_2 = {2, 2, 0x0b76e66ea001}, old_a_1 = {1, 1, 0x0b76e6736001}, long_a_1 = {241, 2, 0x0b76e6736001},
  long_a_2 = {242, 2, 0x0b76e66ea001};

/* of a slot: its bytes, and the place and bytes of what arrivals and loads move, from highest to the counters */
enum { SLOT = CRISP_TABLE / CRISP_SLOTS, MOVED = 214, MOVED_BYTES = 72 };

static uint8_t table[CRISP_TABLE], saved[CRISP_TABLE], data[2048], out[2048], message[2048];
static volatile uint64_t sink;

static uint32_t key[8];

static struct crisp_sender sender_of(const struct kind *k)
{
    struct crisp_sender s = {.flag = 1, .keyid = {0x30}, .keyid_len = 1, .source_len = 12, .suite = k->suite, .edition = k->edition,
                             .current = k->number - 1};
    memcpy(s.source, source, 12);
    memcpy(s.key, key_bytes, 32);
    return s;
}

/* the message of `length` payload bytes is sent, n times, with the same number */
static int protects(const struct kind *k, size_t length, uint64_t n)
{
    struct crisp_sender s = sender_of(k);
    while (n--) {
        s.current = k->number - 1;
        if (crisp_protect(&s, data, length, out, sizeof out).reply) return 1;
    }
    return 0;
}

/* the entry of that kind */
static struct crisp_answer install(const struct kind *k, uint64_t size, uint64_t start)
{
    return crisp_install(table, 1, (const uint8_t *)"\x30", 1, source, 12, k->suite, k->edition, key_bytes, 32, size, start);
}

/* an entry is installed in an empty table, n times */
static int installs(uint64_t n)
{
    while (n--) {
        table[0] = 0;
        if (install(&a_1, 256, a_1.number).reply) return 1;
    }
    return 0;
}

/* the entry stands in slot `slot`, behind others, with that start */
static int stands(const struct kind *k, int slot, uint64_t start)
{
    for (int i = 0; i < slot; i++) {
        uint8_t keyid[2] = {0x81, (uint8_t)i};
        if (crisp_install(table, 1, keyid, 2, source, 12, k->suite, k->edition, key_bytes, 32, 256, 0).reply) return 0;
    }
    return install(k, 256, start).reply == 0;
}

/* the last entry of a full table gets a start, n times; a twin is looked for in all other slots */
static int changes(uint64_t n)
{
    if (!stands(&a_1, CRISP_SLOTS - 1, 0)) return 1;
    while (n--)
        if (crisp_change(table, CRISP_SLOTS - 1, 1, (const uint8_t *)"\x30", 1, source, 12, a_1.suite, a_1.edition, key_bytes, 32, 256, a_1.number).reply)
            return 1;
    return 0;
}

/* window and counters are put back before each arrival; what is to be refused as repeated has arrived before */
static int arrives(const struct kind *k, size_t length, int slot, uint64_t start, int damage, uint64_t n, uint64_t reply)
{
    if (!stands(k, slot, start)) return 1;
    struct crisp_sender s = sender_of(k);
    struct crisp_answer a = crisp_protect(&s, data, length, message, sizeof message);
    if (a.reply) return 1;
    if (damage >= 0) message[damage] ^= 1;
    if (reply == CRISP_REPEATED && crisp_receive(table, message, a.length, source, 12, out, sizeof out).reply) return 1;
    memcpy(saved, table, sizeof table);
    uint8_t *moved = table + SLOT * slot + MOVED, *before = saved + SLOT * slot + MOVED;
    while (n--) {
        memcpy(moved, before, MOVED_BYTES);
        if (crisp_receive(table, message, a.length, source, 12, out, sizeof out).reply != reply) return 1;
    }
    return 0;
}

static int receives(const struct kind *k, size_t length, int slot, int damage, uint64_t n, uint64_t reply)
{
    return arrives(k, length, slot, 0, damage, n, reply);
}

/* ---- the operations */

static int block(uint64_t n)
{
    uint64_t x = 0;
#ifdef PLAIN
    while (n--) x = ref_block(key, x);
#else
    while (n--) x = cipher_block(key, x);
#endif
    sink = x;
    return 0;
}

static int check_2048(uint64_t n)
{
    uint64_t x = 0;
#ifdef PLAIN
    while (n--) x ^= ref_check(key, data, 2048);
#else
    while (n--) x ^= cipher_check(key, data, 2048);
#endif
    sink = x;
    return 0;
}

static int counter_2048(uint64_t n)
{
    while (n--) {
#ifdef PLAIN
        ref_counter(key, (uint32_t)n, data, 2048, out);
#else
        if (!cipher_counter(key, (uint32_t)n, data, 2048, out)) return 1;
#endif
    }
    return 0;
}

static int derives(uint8_t edition, uint64_t n)
{
    uint64_t x = 0;
    while (n--) {
#ifdef PLAIN
        uint32_t check[8], cipher[8];
        ref_keys(key, 1, edition, source, 12, n, check, cipher);
        x ^= check[0] ^ cipher[7];
#else
        struct cipher_keys k = cipher_keys_1(key, edition, source, n);
        x ^= k.check[0] ^ k.cipher[7];
#endif
    }
    sink = x;
    return 0;
}

static int keys_suite_1(uint64_t n) { return derives(2, n); }
static int keys_edition_1(uint64_t n) { return derives(1, n); }

static int keys_suite_2(uint64_t n)
{
    uint64_t x = 0;
    while (n--) {
#ifdef PLAIN
        uint32_t check[8];
        ref_keys(key, 2, 2, source, 12, n, check, NULL);
        x ^= check[7];
#else
        struct cipher_key k = cipher_key_2(key, source, n);
        x ^= k.check[7];
#endif
    }
    sink = x;
    return 0;
}

/* ---- a listing, loaded into the entry as it was installed, which is put back before each load */

static int loads(size_t cut, uint64_t n, uint64_t reply)
{
    size_t length = crisp_listing(table, 0, out, sizeof out).length;
    if (length < cut) return 1;
    while (n--) {
        memcpy(table + MOVED, saved + MOVED, MOVED_BYTES);
        if (crisp_load(table, out, length - cut).reply != reply) return 1;
    }
    return 0;
}

/* 01's entry, after A.2's message */
static int loads_a_2(size_t cut, uint64_t n, uint64_t reply)
{
    if (install(&a_2, 4, 0).reply) return 1;
    memcpy(saved, table, sizeof table);
    struct crisp_sender s = sender_of(&a_2);
    struct crisp_answer a = crisp_protect(&s, data, 37, message, sizeof message);
    return a.reply || crisp_receive(table, message, a.length, source, 12, out, sizeof out).reply || loads(cut, n, reply);
}

static int load_a_2(uint64_t n) { return loads_a_2(0, n, 0); }
static int refuse_text(uint64_t n) { return loads_a_2(1, n, 21); }

/* the longest KeyId and source, and every number of the largest window marked */
static int load_longest(uint64_t n)
{
    struct crisp_sender s = {.flag = 1, .keyid_len = CRISP_KEYID, .source_len = CRISP_SOURCE, .suite = 242, .edition = 2, .current = CRISP_LAST - CRISP_SIZE};
    memset(s.keyid, 0xff, sizeof s.keyid);
    memset(s.source, 0xff, sizeof s.source);
    if (crisp_install(table, 1, s.keyid, s.keyid_len, s.source, s.source_len, s.suite, s.edition, s.key, CRISP_KEY, CRISP_SIZE, 0).reply) return 1;
    memcpy(saved, table, sizeof table);
    for (int i = 0; i < CRISP_SIZE; i++) {
        struct crisp_answer a = crisp_protect(&s, data, 0, message, sizeof message);
        if (a.reply || crisp_receive(table, message, a.length, s.source, s.source_len, out, sizeof out).reply) return 1;
    }
    return loads(0, n, 0);
}

/* ---- a capture of the greatest size, of A.2's message with rising numbers, read on a table that holds the entry */

static uint8_t capture[CRISP_CAPTURE], text[CAPTURE_TEXT];
static size_t captured;         /* its length; 818 records of 80 bytes and a header */

static void put(const void *bytes, size_t n)
{
    memcpy(capture + captured, bytes, n);
    captured += n;
}

static int capture_begins(void)
{
    static const uint8_t head[24] = {0xd4, 0xc3, 0xb2, 0xa1, 2, 0, 4, 0, [20] = 147}, entry[17] = {[8] = 64, [12] = 64, [16] = 12};
    struct crisp_sender s = sender_of(&a_2);
    put(head, sizeof head);
    while (captured + 80 <= sizeof capture) {
        struct crisp_answer a = crisp_protect(&s, data, 37, message, sizeof message);
        if (a.reply || a.length != 51) return 1;
        put(entry, sizeof entry), put(source, 12), put(message, 51);
    }
    struct crisp_answer a = install(&a_2, 4, 0);
    memcpy(saved, table, sizeof table);
    return a.reply != 0;
}

static int report_capture(uint64_t n)
{
    if (capture_begins()) return 1;
    while (n--) {
        memcpy(table, saved, sizeof table);
        struct capture_summary s = capture_report(table, capture, captured, text, sizeof text);
        if (s.reply || s.records != 818 || s.cut) return 1;
    }
    return 0;
}

/* the same as a loop in C, without lines */
static int loop_capture(uint64_t n)
{
    if (capture_begins()) return 1;
    while (n--) {
        memcpy(table, saved, sizeof table);
        uint64_t order = crisp_capture_order(capture, captured);
        struct crisp_record r;
        for (size_t at = CRISP_CAPTURE_HEADER; r = crisp_capture_record(capture, captured, order, at), r.reply != CRISP_END; at = r.next)
            if (r.reply || crisp_receive(table, capture + r.message, r.next - r.message, capture + r.source, r.message - r.source, out, sizeof out).reply) return 1;
    }
    return 0;
}

/* its records alone */
static int walk_capture(uint64_t n)
{
    if (capture_begins()) return 1;
    while (n--) {
        uint64_t order = crisp_capture_order(capture, captured), x = 0;
        struct crisp_record r;
        for (size_t at = CRISP_CAPTURE_HEADER; r = crisp_capture_record(capture, captured, order, at), r.reply != CRISP_END; at = r.next) x += r.message;
        sink = x;
    }
    return 0;
}

static int receive_a_1(uint64_t n) { return receives(&a_1, 37, 0, -1, n, 0); }
static int receive_old(uint64_t n) { return receives(&old_a_1, 37, 0, -1, n, 0); }
static int receive_a_2(uint64_t n) { return receives(&a_2, 37, 0, -1, n, 0); }
static int receive_long_1(uint64_t n) { return receives(&long_a_1, 37, 0, -1, n, 0); }
static int receive_long_2(uint64_t n) { return receives(&long_a_2, 37, 0, -1, n, 0); }
static int receive_2048_1(uint64_t n) { return receives(&a_1, CRISP_PAYLOAD_OF(1, CRISP_MAGMA_CTR), 0, -1, n, 0); }
static int receive_2048_2(uint64_t n) { return receives(&a_2, CRISP_PAYLOAD_OF(1, CRISP_MAGMA_NULL), 0, -1, n, 0); }
static int receive_2048_long(uint64_t n) { return receives(&long_a_1, CRISP_PAYLOAD_OF(1, CRISP_MAGMA_CTR_LONG), 0, -1, n, 0); }
static int receive_slot_15(uint64_t n) { return receives(&a_1, 37, 15, -1, n, 0); }
static int refuse_version(uint64_t n) { return receives(&a_1, 37, 0, 1, n, 3); }
static int refuse_no_entry(uint64_t n) { return receives(&a_1, 37, 0, 3, n, 6); }
static int refuse_no_entry_16(uint64_t n) { return receives(&a_1, 37, 15, 3, n, 6); }
static int refuse_repeated(uint64_t n) { return receives(&a_1, 37, 0, -1, n, 10); }
static int refuse_forged(uint64_t n) { return receives(&a_1, 37, 0, 50, n, 11); }
static int receive_at_start(uint64_t n) { return arrives(&a_1, 37, 0, a_1.number, -1, n, 0); }
static int refuse_below_start(uint64_t n) { return arrives(&a_1, 37, 0, a_1.number + 1, -1, n, 9); }
static int protect_a_1(uint64_t n) { return protects(&a_1, 37, n); }
static int protect_old(uint64_t n) { return protects(&old_a_1, 37, n); }
static int protect_a_2(uint64_t n) { return protects(&a_2, 37, n); }
static int protect_long_1(uint64_t n) { return protects(&long_a_1, 37, n); }
static int protect_long_2(uint64_t n) { return protects(&long_a_2, 37, n); }
static int protect_2048_1(uint64_t n) { return protects(&a_1, CRISP_PAYLOAD_OF(1, CRISP_MAGMA_CTR), n); }
static int protect_2048_2(uint64_t n) { return protects(&a_2, CRISP_PAYLOAD_OF(1, CRISP_MAGMA_NULL), n); }
static int protect_2048_long(uint64_t n) { return protects(&long_a_1, CRISP_PAYLOAD_OF(1, CRISP_MAGMA_CTR_LONG), n); }
static int forget(uint64_t n)
{
    while (n--) crisp_forget();
    return 0;
}

static const struct {
    const char *name;
    int (*run)(uint64_t n);
} operations[] = {
    {"block", block}, {"check-2048", check_2048}, {"counter-2048", counter_2048}, {"keys-suite-1", keys_suite_1}, {"keys-suite-2", keys_suite_2},
    {"receive-A.1", receive_a_1}, {"receive-A.2", receive_a_2}, {"receive-2048-suite-1", receive_2048_1}, {"receive-2048-suite-2", receive_2048_2},
    {"receive-A.1-slot-15", receive_slot_15}, {"refuse-version", refuse_version}, {"refuse-no-entry", refuse_no_entry},
    {"refuse-no-entry-16-slots", refuse_no_entry_16}, {"install", installs}, {"change-16-slots", changes}, {"receive-A.1-at-start", receive_at_start},
    {"refuse-below-start", refuse_below_start}, {"refuse-repeated", refuse_repeated}, {"refuse-forged", refuse_forged},
    {"protect-A.1", protect_a_1}, {"protect-A.2", protect_a_2},
    {"protect-2048-suite-1", protect_2048_1}, {"protect-2048-suite-2", protect_2048_2}, {"forget", forget},
    {"keys-suite-1-edition-1", keys_edition_1}, {"receive-A.1-edition-1", receive_old}, {"protect-A.1-edition-1", protect_old},
    {"receive-A.1-suite-241", receive_long_1}, {"receive-A.2-suite-242", receive_long_2}, {"receive-2048-suite-241", receive_2048_long},
    {"protect-A.1-suite-241", protect_long_1}, {"protect-A.2-suite-242", protect_long_2}, {"protect-2048-suite-241", protect_2048_long},
    {"load-A.2", load_a_2}, {"load-longest", load_longest}, {"refuse-text", refuse_text},
    {"capture-report", report_capture}, {"capture-loop", loop_capture}, {"capture-records", walk_capture},
};

int main(int argc, char **argv)
{
    if (argc != 3) return 2;
    for (size_t i = 0; i < sizeof data; i++) data[i] = (uint8_t)(i * 7 + 3);
    memcpy(data, payload_a, 37);
    for (int i = 0; i < 32; i++) key[i / 4] = key[i / 4] << 8 | key_bytes[i];
    for (size_t i = 0; i < sizeof operations / sizeof *operations; i++)
        if (!strcmp(argv[2], operations[i].name)) return operations[i].run(strtoull(argv[1], NULL, 10));
    return 2;
}
