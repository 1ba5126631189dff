/* caller.c: calls every function, in the C and C++ that all versions have in common. As it stands it is to be compiled without a warning, by each of
 * them. With one of -DSHORT_TABLE, -DIGNORED and -DNULL_SOURCE it has a fault that the compiler is to warn of, with -DPACKED one that it is to refuse. */
#ifdef PACKED
#pragma pack(1)
#endif
#include "crisp.h"

#if CRISP_PAYLOAD_OF(1, CRISP_MAGMA_NULL) != CRISP_PAYLOAD || CRISP_PAYLOAD_OF(1, CRISP_MAGMA_NULL_LONG) != CRISP_PAYLOAD - 4
#error the longest payloads do not fit each other
#endif

#ifdef SHORT_TABLE
static uint8_t table[CRISP_TABLE - 1];
#else
static uint8_t table[CRISP_TABLE];
#endif
#ifdef NULL_SOURCE
#define SOURCE NULL
#else
#define SOURCE CRISP_NOTHING
#endif
static struct crisp_sender sender;
static uint8_t message[CRISP_OUT], out[CRISP_OUT], payload[CRISP_PAYLOAD_WITH(1) + 1];

/* the longest payload of a suite, as the sender's next message, and one byte more */
static int longest(uint8_t suite)
{
    struct crisp_answer a;
    size_t length = CRISP_PAYLOAD_OF(sender.keyid_len, suite);
    sender.suite = suite;
    a = crisp_protect(&sender, payload, length + 1, message, sizeof message);
    if (a.reply != CRISP_BAD_LENGTH) return 1;
    a = crisp_protect(&sender, payload, length, message, sizeof message);
    return a.reply != CRISP_DONE || a.length != CRISP_OUT || 3 + sender.keyid_len + 6 + length + CRISP_ICV(suite) != a.length;
}

/* the reply to the message, which the entry has taken before */
static uint64_t again(void)
{
    struct crisp_answer a;
    a = crisp_receive(table, message, 14, CRISP_NOTHING, 0, out, sizeof out);
    return a.reply;
}

/* the listing in `out` is loaded into the entry, once it stands anew */
static int restores(size_t slot, size_t length)
{
    struct crisp_answer a;
    size_t accepted = length - sizeof "1\nbytes=0\nreplays=0\nforged=0\n" + 1;
    a = crisp_load(table, CRISP_NOTHING, 0);
    if (a.reply != CRISP_BAD_TEXT) return 1;
    a = crisp_load(table, out, length);
    if (a.reply != CRISP_NOT_STANDING) return 1;
    a = crisp_remove(table, slot);
    if (a.reply != CRISP_DONE) return 1;
    a = crisp_install(table, 0, sender.keyid, sender.keyid_len, sender.source, sender.source_len, sender.suite, sender.edition, sender.key, CRISP_KEY,
                      CRISP_SIZE, 0);
    if (a.reply != CRISP_DONE || a.slot != slot) return 1;
    out[accepted] = '0';                        /* nothing accepted, with a number that is marked */
    a = crisp_load(table, out, length);
    if (a.reply != CRISP_WOULD_BE_DAMAGED) return 1;
    out[accepted] = '1';
    a = crisp_load(table, out, length);
    if (a.reply != CRISP_DONE || a.slot != slot || a.length != 0 || a.seqnum != 0) return 1;
    return again() != CRISP_REPEATED;
}

/* the listing of an entry that was sent the message twice more and, with another number, once: it ends with the two counters */
static int counts(size_t slot)
{
    struct crisp_answer a;
    if (again() != CRISP_REPEATED) return 1;
    message[9] ^= 2;
    if (again() != CRISP_WRONG_ICV) return 1;
    message[9] ^= 2;
    a = crisp_listing(table, slot, out, sizeof out);
    return a.reply != CRISP_DONE || out[a.length - 11] != '2' || out[a.length - 2] != '1';
}

/* the entry is changed to the sender's key data with that key, size and start */
static uint64_t changes_to(size_t slot, const uint8_t *key, uint64_t size, uint64_t start)
{
    struct crisp_answer a;
    a = crisp_change(table, slot, 0, sender.keyid, sender.keyid_len, sender.source, sender.source_len, sender.suite, sender.edition, key, CRISP_KEY, size,
                     start);
    return a.slot != (a.reply == CRISP_DONE ? slot : 0) || a.length != 0 || a.seqnum != 0 ? CRISP_END : a.reply;
}

/* a refused change leaves the entry as it was; a start, or another key, keeps out what it has taken; the same key from 0 on does not */
static int changes(size_t slot)
{
    static const uint8_t other_key[CRISP_KEY] = {1}, other_keyid[1] = {6};
    struct crisp_answer a;
    a = crisp_install(table, 0, other_keyid, 1, sender.source, sender.source_len, sender.suite, sender.edition, sender.key, CRISP_KEY, CRISP_SIZE, 0);
    if (a.reply != CRISP_DONE || changes_to(a.slot, sender.key, CRISP_SIZE, 0) != CRISP_TWIN) return 1;
    a = crisp_remove(table, a.slot);
    if (a.reply != CRISP_DONE) return 1;
    if (changes_to(CRISP_SLOTS, sender.key, CRISP_SIZE, 0) != CRISP_NO_SLOT || changes_to(slot, sender.key, CRISP_SIZE + 1, 0) != CRISP_UNSOUND) return 1;
    if (again() != CRISP_REPEATED) return 1;
    if (changes_to(slot, sender.key, CRISP_SIZE, 2) != CRISP_DONE || again() != CRISP_BELOW_FLOOR) return 1;
    if (changes_to(slot, other_key, CRISP_SIZE, 0) != CRISP_DONE || again() != CRISP_WRONG_ICV) return 1;
    return changes_to(slot, sender.key, CRISP_SIZE, 0) != CRISP_DONE || again() != CRISP_DONE;
}

int main(void)
{
    struct crisp_answer a;
    struct crisp_record r;
    sender.keyid[0] = 5;
    sender.keyid_len = 1;
    sender.source_len = 4;
    sender.suite = CRISP_MAGMA_CTR;
    a = crisp_protect(&sender, CRISP_NOTHING, 0, message, sizeof message);      /* its edition was not set */
    if (a.reply != CRISP_DAMAGED) return 10;
    sender.edition = 2;
    a = crisp_install(table, 0, sender.keyid, sender.keyid_len, sender.source, sender.source_len, sender.suite, sender.edition, sender.key, CRISP_KEY,
                      CRISP_SIZE, 0);
    if (a.reply != CRISP_DONE || a.slot >= CRISP_SLOTS) return 1;
    a = crisp_install(table, 0, sender.keyid, sender.keyid_len, sender.source, sender.source_len, sender.suite, sender.edition, sender.key, CRISP_KEY,
                      CRISP_SIZE, CRISP_LAST + 1);
    if (a.reply != CRISP_UNSOUND) return 9;
    a = crisp_protect(&sender, CRISP_NOTHING, 0, message, sizeof message);
    if (a.reply != CRISP_DONE) return 2;
    a = crisp_receive(table, message, a.length, SOURCE, 0, out, sizeof out);
    crisp_forget();
    if (a.reply != CRISP_DONE || a.length != 0 || a.seqnum != 1) return 3;
    a = crisp_listing(table, a.slot, out, sizeof out);
    if (a.reply != CRISP_DONE) return 4;
    if (restores(a.slot, a.length)) return 12;
    if (counts(a.slot)) return 14;
    if (changes(a.slot)) return 13;
    if (crisp_capture_order(message, sizeof message) != CRISP_BAD_CAPTURE) return 6;
    r = crisp_capture_record(message, sizeof message, CRISP_BAD_CAPTURE, CRISP_CAPTURE_HEADER);
    if (r.reply != CRISP_BAD_CAPTURE || r.source != r.next || r.message != r.next || r.next != sizeof message) return 7;
    r = crisp_capture_record(message, sizeof message, 1, CRISP_CAPTURE);
    if (r.reply != CRISP_END) return 8;
    if (longest(CRISP_MAGMA_CTR) || longest(CRISP_MAGMA_NULL) || longest(CRISP_MAGMA_CTR_LONG) || longest(CRISP_MAGMA_NULL_LONG)) return 11;
#ifdef IGNORED
    crisp_remove(table, a.slot);
#else
    a = crisp_remove(table, a.slot);
#endif
    return a.reply == CRISP_DONE ? 0 : 5;
}
