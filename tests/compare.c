/* compare.c: runs the library beside the second implementation (reference.c) on seeded random sequences of calls and on sweeps, and compares after
 * every call the four numbers of the answer, all bytes of the table, of the sender's record and of the output. At times all entries are listed, the table
 * is lost, and their listings are loaded: the table must be what it was, and the same calls, loads among them, must then do the same on both. Each change
 * is held against a removal and an install. What a refusal leaves is asked besides, without the second implementation: nothing but the one counter of an
 * arrival that is turned away. At the first difference it prints the sequence that showed it and stops.
 *
 *   compare [SEQUENCES [SEED]]        100000 sequences and seed 1 where nothing is said */
#include "crisp.h"
#include "random.h"
#include "reference.h"
#include "suites.h"
#include <stdarg.h>
#include <stdio.h>
#include <stdlib.h>
#include <string.h>

enum { ENTRIES = 24, KEPT = 64, PRINTED = 16, ROOM = 2304 };

/* of a slot: its bytes, and where its parts stand in it */
enum { SLOT = CRISP_TABLE / CRISP_SLOTS, FLAG = 1, SUITE = 2, EDITION = 3, KEYID_LEN = 4, KEYID = 5, SOURCE_LEN = 133, SOURCE = 134, KEY = 166,
       SIZE = 198, START = 206, HIGHEST = 214, ACCEPTED = 254, REPLAYS = 270, FORGED = 278, BEHIND_COUNTERS = 286 };

/* a suite with these bits changed is the one that has the other length of check value: 1 and 241, 2 and 242 */
enum { OTHER_LENGTH = 0xf0 };

static uint64_t number_at(const uint8_t *p)
{
    uint64_t x = 0;
    for (int i = 0; i < 8; i++) x = x << 8 | p[i];
    return x;
}

static int is_long(uint8_t suite) { return suite == CRISP_MAGMA_CTR_LONG || suite == CRISP_MAGMA_NULL_LONG; }

/* ---- what was called, for the report */

static char trace[1 << 18];
static size_t traced;

static void say(const char *format, ...)
{
    va_list args;
    va_start(args, format);
    if (traced < sizeof trace) traced += (size_t)vsnprintf(trace + traced, sizeof trace - traced, format, args);
    va_end(args);
}

static void say_bytes(const char *name, const uint8_t *p, size_t n)
{
    say(" %s=", name);
    for (size_t i = 0; i < n && traced + 2 < sizeof trace; i++)
        trace[traced++] = "0123456789abcdef"[p[i] >> 4], trace[traced++] = "0123456789abcdef"[p[i] & 15];
}

/* ---- both sides */

static uint8_t table[CRISP_TABLE], ref_table[CRISP_TABLE];
static uint8_t out[ROOM], ref_out[ROOM];

enum call { INSTALL, REMOVE, CHANGE, RECEIVE, PROTECT, LISTING, LOAD, CALLS };
static const char *const call_names[CALLS] = {"install", "remove", "change", "receive", "protect", "listing", "load"};
enum { REPLIES = 24 };
static uint64_t replies[CALLS][REPLIES], compared;
static struct crisp_answer answered;            /* the last call's */

/* all but those on captures */
static int is_reply(uint64_t reply) { return reply <= 16 || (reply >= 21 && reply < REPLIES); }

/* what starts did: kept by an install, refused by one; messages refused with 9 or 7 that would have met another reply with start 0 */
enum start { KEPT_START, REFUSED_START, BELOW_START, DAMAGED_START, STARTS };
static const char *const start_names[STARTS] = {"kept", "refused", "above a message", "damaged"};
static uint64_t by_start[STARTS];

/* what editions did: 1 kept by an install; installs, records and senders refused that edition 2 would not have been; messages refused with 11 that the
 * entry's other edition would have opened */
enum edition { KEPT_EDITION, REFUSED_EDITION, DAMAGED_EDITION, UNSENT_EDITION, OTHER_EDITION, EDITIONS };
static const char *const edition_names[EDITIONS] = {"1 kept", "refused", "damaged", "not sent", "the other one's message"};
static uint64_t by_edition[EDITIONS];

/* what the long suites did: installed, handed out, sent; messages refused with 5, and payloads with 2, that a check value of four bytes would have left
 * room for; messages refused with 8 because of the length of their check value alone; installs and senders refused for edition 1 alone */
enum suite { LONG_KEPT, LONG_TAKEN, LONG_SENT, CUT_SHORT, TOO_LONG, NOT_ITS_LENGTH, LONG_EDITION, SUITES };
static const char *const suite_names[SUITES] = {"long kept", "long taken", "long sent", "cut short", "payload too long", "other length", "edition 1"};
static uint64_t by_suite[SUITES];

/* loads that were refused for one thing alone, which was changed in a text that would have been loaded, or in the entry: with 21 by the form, with 22 by
 * what tells the entry, with 23 by the record */
enum form { BYTE, CUT, LINE, DECIMAL, HEX, BEHIND, FORMS };
static const char *const form_names[FORMS] = {"a byte", "cut", "a line", "a decimal", "hex", "behind it"};
static uint64_t by_form[FORMS];
enum entry { OF_SLOT, OF_FLAG, OF_KEYID, OF_SOURCE, OF_SUITE, OF_EDITION, OF_SIZE, OF_START, NOT_FRESH, FREED, LONG_KEYID, LONG_SOURCE, ENTRY };
static const char *const entry_names[ENTRY] = {"slot", "flag", "KeyId", "source", "suite", "edition", "Size", "start", "accepted", "freed", "long KeyId",
                                               "long source"};
static uint64_t by_entry[ENTRY];
enum record { OUTSIDE_WINDOW, UNDER_START, UNDER_ZERO, UNMARKED, FEW, MANY, MANY_BYTES, MANY_REPLAYS, MANY_FORGED, KEY_DATA, RECORD };
static const char *const record_names[RECORD] = {"mark below the window", "below start", "below 0", "highest unmarked", "accepted too few", "too many",
                                                 "bytes", "replays", "forged", "key data"};
static uint64_t by_record[RECORD];

/* what loads did: the entry's own listing, and an older one, loaded; any that was printed before, loaded and refused; another slot's with this slot's number;
 * texts that no listing was, loaded; and restarts, with the calls that were compared after them, of which some were loads, done and refused */
enum load { OWN, OLDER, ANY, ANY_REFUSED, OTHERS, MADE, RESTARTS, LOADED_THERE, AFTERWARDS, LOADED_AFTERWARDS, REFUSED_AFTERWARDS, LOADS };
static const char *const load_names[LOADS] = {"own", "older", "any", "any refused", "another slot's", "made", "restarts", "loads in them",
                                              "calls after them", "loaded after them", "refused after them"};
static uint64_t by_load[LOADS];

/* changes that were done: with no free slot; to the name that stood there, which a lookup leads to or, as its stored length is over its room, does not;
 * to another name; of a damaged record; past another slot that would have been a twin but for a stored length over its room, or but for its first byte;
 * where a removal and an install would have come back to the slot, and where they would have taken a lower one; and to the same data, into which the
 * entry's listing was loaded */
enum change { IN_FULL, SAME_NAME, BROKEN_NAME, OTHER_NAME, OF_DAMAGED, PAST_KEYID, PAST_SOURCE, PAST_FREE, SAME_BY_TWO, LOWER_BY_TWO, THEN_LOADED, CHANGES };
static const char *const change_names[CHANGES] = {"full table", "same name", "broken name", "another name", "damaged", "past a long KeyId",
                                                  "past a long source", "past a free one", "as by two calls", "as by two in a lower slot", "then loaded"};
static uint64_t by_change[CHANGES];

/* changes that were refused: with 16; with 13 for one thing alone; with 14 by twins below alone or above alone, and so where the slot itself has the
 * name too */
enum no_slot { OVER_15, FREE, NO_SLOTS };
static const char *const no_slot_names[NO_SLOTS] = {"over 15", "free"};
static uint64_t by_no_slot[NO_SLOTS];
enum unsound { BAD_FLAG, BAD_KEYID, ABSENT_KEYID, BAD_SOURCE, BAD_SUITE, BAD_EDITION, BAD_KEY, BAD_SIZE, BAD_START, UNSOUND };
static const char *const unsound_names[UNSOUND] = {"flag", "KeyId", "80 with flag 0", "source", "suite", "edition", "key", "Size", "start"};
static uint64_t by_unsound[UNSOUND];
enum twin { TWIN_BELOW, TWIN_ABOVE, OWN_AND_BELOW, OWN_AND_ABOVE, TWINS };
static const char *const twin_names[TWINS] = {"below", "above", "own name and below", "own name and above"};
static uint64_t by_twin[TWINS];

/* messages after a change. The last that the old entry had taken, again: handed out once more by the same key with start 0, refused with 9 by the same
 * key with a start behind the highest number, with 11 by a new key, with 6 under a name that is gone. The sender's next: handed out by the same key with
 * that start, by the new key once the sender has it, after a change that was refused, and by a twin in another slot. */
enum after { AGAIN, BELOW_NEW_START, BY_OLD_KEY, NO_NAME, NEXT_SAME, NEXT_NEW, NEXT_REFUSED, NEXT_TWIN, AFTERS };
static const char *const after_names[AFTERS] = {"handed out again", "below the new start", "by the old key", "by the old name", "next, same key",
                                                "next, new key", "next, refused change", "next, at a twin"};
static uint64_t by_after[AFTERS];

/* arrivals that were turned away and counted, by 9, 10 and 11; those of them that took a counter to its limit, and those that found it there. Arrivals that
 * count nowhere: with 1 and 8, where room or the entry's suite would have had them counted, and with 7 for a counter alone; and entries that are not
 * listed for one */
enum turned { BY_9, BY_10, BY_11, LAST_REPLAY, LAST_FORGED, REPLAYS_STAY, FORGED_STAY, NO_ROOM, BY_SUITE, BAD_REPLAYS, BAD_FORGED, NOT_LISTED, TURNED };
static const char *const turned_names[TURNED] = {"by 9", "by 10", "by 11", "replays to the limit", "forged to it", "replays at it", "forged at it",
                                                 "without room", "of another suite", "damaged replays", "damaged forged", "not listed"};
static uint64_t by_turned[TURNED];

/* counters that an entry was given, by hand or in a text: next to the limit, at it, next over it, and the largest */
enum given { BELOW_LIMIT, AT_LIMIT, OVER_LIMIT, LARGEST, GIVEN };
static const char *const given_names[2 * GIVEN] = {"replays 2^32 - 2", "2^32 - 1", "2^32", "2^64 - 1", "forged 2^32 - 2", "2^32 - 1", "2^32", "2^64 - 1"};
static uint64_t by_given[2 * GIVEN];

/* texts with such counters: loaded, with one within its limit and with one at it, and refused with 23, with one over it */
enum told { TOLD_WITHIN, TOLD_AT, TOLD_OVER, TOLD };
static const char *const told_names[2 * TOLD] = {"replays within", "at the limit", "over it", "forged within", "at the limit", "over it"};
static uint64_t by_told[2 * TOLD];

static void differs(const char *what)
{
    printf("compare: %s differs after\n%.*s\n", what, (int)(traced < sizeof trace ? traced : sizeof trace), trace);
    exit(1);
}

/* ---- what stood before a call, for what the comparison asks of the library alone */

static uint8_t table_before[CRISP_TABLE], out_before[ROOM];

static void before_call(void)
{
    memcpy(table_before, table, CRISP_TABLE);
    memcpy(out_before, out, ROOM);
}

/* whether a refusal is counted; all others change nothing */
static int is_counted(enum call call, uint64_t reply) { return call == RECEIVE && reply >= 9 && reply <= 11; }

static void agree(enum call call, struct crisp_answer a, struct crisp_answer b)
{
    say(" -> %llu %zu %zu %llu, and the other %llu %zu %zu %llu\n", (unsigned long long)a.reply, a.length, a.slot, (unsigned long long)a.seqnum,
        (unsigned long long)b.reply, b.length, b.slot, (unsigned long long)b.seqnum);
    if (a.reply != b.reply || a.length != b.length || a.slot != b.slot || a.seqnum != b.seqnum) differs("the answer");
    if (!is_reply(a.reply)) differs("a reply that is not listed");
    if (call == CHANGE && a.reply && a.reply != 16 && a.reply != 13 && a.reply != 14) differs("a reply that no change has");
    if (memcmp(table, ref_table, CRISP_TABLE)) differs("the table");
    if (memcmp(out, ref_out, ROOM)) differs("the output");
    if (a.reply && (a.length || a.slot || a.seqnum)) differs("what a refusal answers beside its number");
    if (a.reply && memcmp(out, out_before, ROOM)) differs("the output after a refusal");
    if (a.reply && !is_counted(call, a.reply) && memcmp(table, table_before, CRISP_TABLE)) differs("the table after a refusal");
    replies[call][a.reply]++;
    compared++;
    answered = a;
}

/* for a call that may write an output */
static void same_outputs(void)
{
    fill(out, ROOM);
    memcpy(ref_out, out, ROOM);
    before_call();
}

/* ---- senders with their key data, from which entries are installed */

static struct crisp_sender senders[ENTRIES], ref_senders[ENTRIES];
static uint8_t editions[ENTRIES];               /* of the entries: the sender's, and now and then another one */
static uint64_t sizes[ENTRIES], starts[ENTRIES];

struct message {
    uint8_t bytes[2048];
    size_t length;
    int from;
};
static struct message kept[KEPT];
static int keeps;

struct text {
    uint8_t bytes[1 << 12];
    size_t length;
};
static struct text printed[PRINTED];            /* by listings */
static int prints;

static void make_senders(void)
{
    static const uint8_t firsts[] = {0x05, 0x81, 0x80, 0x7f, 0x83, 0xff, 0x00, 0x90};
    static const uint64_t widths[] = {1, 2, 4, 63, 64, 65, 128, 255, 256};
    for (int i = 0; i < ENTRIES; i++) {
        struct crisp_sender *s = &senders[i];
        memset(s, 0, sizeof *s);
        s->keyid[0] = firsts[i % 8];
        s->keyid_len = s->keyid[0] <= 0x80 ? 1 : s->keyid[0] - 0x7fu;
        fill(s->keyid + 1, s->keyid_len - 1);
        if (s->keyid[0] == 0x81) s->keyid[1] = 0x05;            /* 81 05 beside 05 */
        s->flag = s->keyid[0] == 0x80 ? 1 : (uint8_t)below(2);
        s->source_len = 4 + below(29);
        fill(s->source, s->source_len);
        s->suite = suites[below(EVERY_SUITE)];
        s->edition = s->suite == CRISP_MAGMA_CTR ? (uint8_t)(1 + below(2)) : 2;
        fill(s->key, 32);
        s->current = below(4) ? below(8) : below(2) ? CRISP_LAST - below(6) : below(CRISP_LAST);
        editions[i] = below(8) ? s->edition : (uint8_t)(3 - s->edition);
        sizes[i] = widths[below(sizeof widths / sizeof *widths)];
        starts[i] = below(3) ? 0 : s->current + below(4);
        if (starts[i] > CRISP_LAST) starts[i] = CRISP_LAST;
    }
    memcpy(ref_senders, senders, sizeof senders);
    keeps = prints = 0;
}

/* ---- the calls */

static void call_install(const struct crisp_sender *s, uint8_t edition, uint64_t size, uint64_t start, size_t key_len)
{
    uint8_t key[40] = {0};
    memcpy(key, s->key, 32);
    say("install flag=%d suite=%d edition=%d size=%llu start=%llu", s->flag, s->suite, edition, (unsigned long long)size, (unsigned long long)start);
    say_bytes("keyid", s->keyid, s->keyid_len);
    say_bytes("source", s->source, s->source_len);
    say_bytes("key", key, key_len);
    before_call();
    struct crisp_answer a = crisp_install(table, s->flag, s->keyid, s->keyid_len, s->source, s->source_len, s->suite, edition, key, key_len, size, start);
    struct crisp_answer b = ref_install(ref_table, s->flag, s->keyid, s->keyid_len, s->source, s->source_len, s->suite, edition, key, key_len, size,
                                        start);
    agree(INSTALL, a, b);
    if (start && !a.reply) by_start[KEPT_START]++;
    if (start > CRISP_LAST && a.reply == 13) by_start[REFUSED_START]++;
    if (edition == 1 && !a.reply) by_edition[KEPT_EDITION]++;
    if (is_long(s->suite) && !a.reply) by_suite[LONG_KEPT]++;
    if (a.reply != 13) return;
    static uint8_t other[CRISP_TABLE];
    memcpy(other, ref_table, CRISP_TABLE);
    b = ref_install(other, s->flag, s->keyid, s->keyid_len, s->source, s->source_len, s->suite, 2, key, key_len, size, start);
    if (b.reply == 13) return;
    by_edition[REFUSED_EDITION]++;
    if (edition == 1 && is_long(s->suite)) by_suite[LONG_EDITION]++;
}

static void call_remove(size_t slot)
{
    say("remove %zu", slot);
    before_call();
    struct crisp_answer a = crisp_remove(table, slot);
    agree(REMOVE, a, ref_remove(ref_table, slot));
}

/* what an entry is changed to: key data, its edition the entry's, Size and start */
struct next {
    struct crisp_sender data;
    uint64_t size, start;
    size_t key_len;
};

/* whether an occupied slot has the flag and KeyId and, for flag 1, source of sound key data; that a stored length is over its room is not looked at */
static int has_name(const uint8_t *slot, const struct crisp_sender *s)
{
    return slot[0] && slot[FLAG] == s->flag && slot[KEYID_LEN] == s->keyid_len && !memcmp(slot + KEYID, s->keyid, s->keyid_len)
        && (s->flag == 0 || (slot[SOURCE_LEN] == s->source_len && !memcmp(slot + SOURCE, s->source, s->source_len)));
}

static int within_room(const uint8_t *slot) { return slot[KEYID_LEN] <= CRISP_KEYID && slot[SOURCE_LEN] <= CRISP_SOURCE; }

/* the one thing that is unsound, or UNSOUND where there are more */
static enum unsound only_fault(const struct next *n)
{
    const struct crisp_sender *s = &n->data;
    const int faults[UNSOUND] = {s->flag > 1, s->keyid_len != (s->keyid[0] <= 0x80 ? 1 : s->keyid[0] - 0x7fu), s->flag == 0 && s->keyid[0] == 0x80,
                                 s->source_len < 4 || s->source_len > 32, s->suite != 1 && s->suite != 2 && !is_long(s->suite),
                                 s->edition != 2 && !(s->edition == 1 && s->suite == 1), n->key_len != 32, n->size < 1 || n->size > 256,
                                 n->start > CRISP_LAST};
    enum unsound found = UNSOUND;
    for (int i = 0; i < UNSOUND; i++) {
        if (faults[i] && found != UNSOUND) return UNSOUND;
        if (faults[i]) found = (enum unsound)i;
    }
    return found;
}

static void count_twins(const uint8_t *before, size_t slot, const struct crisp_sender *s)
{
    int twins = 0, own = has_name(before + SLOT * slot, s) && within_room(before + SLOT * slot);
    for (size_t i = 0; i < CRISP_SLOTS; i++)
        if (i != slot && has_name(before + SLOT * i, s) && within_room(before + SLOT * i)) twins |= i < slot ? 1 : 2;
    if (twins == 1) by_twin[own ? OWN_AND_BELOW : TWIN_BELOW]++;
    if (twins == 2) by_twin[own ? OWN_AND_ABOVE : TWIN_ABOVE]++;
}

static void count_done(const uint8_t *before, size_t slot, const struct crisp_sender *s)
{
    static uint8_t text[ROOM];
    const uint8_t *own = before + SLOT * slot;
    size_t occupied = 0;
    for (size_t i = 0; i < CRISP_SLOTS; i++) {
        const uint8_t *other = before + SLOT * i;
        occupied += other[0] != 0;
        if (i == slot || other[FLAG] != s->flag || memcmp(other + KEYID, s->keyid, s->keyid_len)) continue;
        if (!other[0]) {
            by_change[PAST_FREE] += other[KEYID_LEN] == s->keyid_len;
            continue;
        }
        if (other[KEYID_LEN] > CRISP_KEYID) by_change[PAST_KEYID]++;
        if (s->flag == 0 && other[KEYID_LEN] == s->keyid_len && other[SOURCE_LEN] > CRISP_SOURCE) by_change[PAST_SOURCE]++;
    }
    by_change[IN_FULL] += occupied == CRISP_SLOTS;
    by_change[!has_name(own, s) ? OTHER_NAME : within_room(own) ? SAME_NAME : BROKEN_NAME]++;
    by_change[OF_DAMAGED] += ref_listing(before, slot, text, sizeof text).reply == 7;
}

/* A change answers what the first that is refused of a removal and an install answers, and where none is, leaves their entry; in the same slot, their
 * table. */
static void as_by_two_calls(const uint8_t *before, size_t slot, const struct next *n, const uint8_t *keyid, const uint8_t *source, const uint8_t *key)
{
    static uint8_t two[CRISP_TABLE];
    const struct crisp_sender *s = &n->data;
    memcpy(two, before, CRISP_TABLE);
    struct crisp_answer b = ref_remove(two, slot);
    if (!b.reply) b = ref_install(two, s->flag, keyid, s->keyid_len, source, s->source_len, s->suite, s->edition, key, n->key_len, n->size, n->start);
    if (answered.reply != b.reply) differs("the reply of a removal and an install");
    if (b.reply) return;
    if (memcmp(table + SLOT * slot, two + SLOT * b.slot, SLOT)) differs("the entry of a removal and an install");
    if (b.slot == slot && memcmp(table, two, CRISP_TABLE)) differs("the table of a removal and an install");
    by_change[b.slot == slot ? SAME_BY_TWO : LOWER_BY_TWO]++;
}

static void call_change(size_t slot, const struct next *n)
{
    static uint8_t keyid[ROOM], source[ROOM], key[ROOM], before[CRISP_TABLE];           /* a length may be one that a sender has no room for */
    const struct crisp_sender *s = &n->data;
    memcpy(keyid, s->keyid, CRISP_KEYID), memcpy(source, s->source, CRISP_SOURCE), memcpy(key, s->key, CRISP_KEY);
    memcpy(before, ref_table, CRISP_TABLE);
    say("change slot=%zu flag=%d suite=%d edition=%d size=%llu start=%llu", slot, s->flag, s->suite, s->edition, (unsigned long long)n->size,
        (unsigned long long)n->start);
    say_bytes("keyid", keyid, s->keyid_len);
    say_bytes("source", source, s->source_len);
    say_bytes("key", key, n->key_len);
    before_call();
    struct crisp_answer a = crisp_change(table, slot, s->flag, keyid, s->keyid_len, source, s->source_len, s->suite, s->edition, key, n->key_len,
                                         n->size, n->start);
    struct crisp_answer b = ref_change(ref_table, slot, s->flag, keyid, s->keyid_len, source, s->source_len, s->suite, s->edition, key, n->key_len,
                                       n->size, n->start);
    agree(CHANGE, a, b);
    as_by_two_calls(before, slot, n, keyid, source, key);
    if (a.reply == 0) count_done(before, slot, s);
    if (a.reply == 14) count_twins(before, slot, s);
    if (a.reply == 16) by_no_slot[slot >= CRISP_SLOTS ? OVER_15 : FREE]++;
    if (a.reply == 13 && only_fault(n) != UNSOUND) by_unsound[only_fault(n)]++;
}

/* ---- counters, asked of the library alone */

/* the slot that a message leads to: the lowest occupied one with its flag and KeyId and, for flag 1, the source that came with it */
static size_t leads_to(const uint8_t *slots, const uint8_t *message, const uint8_t *source, size_t source_len)
{
    size_t n = message[3] <= 0x80 ? 1 : message[3] - 0x7fu;
    for (size_t i = 0; i < CRISP_SLOTS; i++) {
        const uint8_t *s = slots + SLOT * i;
        if (!s[0] || !within_room(s) || s[FLAG] != message[0] >> 7 || s[KEYID_LEN] != n || memcmp(s + KEYID, message + 3, n)) continue;
        if (s[FLAG] == 0 || (s[SOURCE_LEN] == source_len && !memcmp(s + SOURCE, source, source_len))) return i;
    }
    differs("the entry of an arrival, of which there is none,");
    return 0;
}

/* An arrival is turned away: 9 and 10 add one to the replays of its entry, 11 to its forged, and at the limit a counter stays. Nothing else changes. */
static void counts_one(uint64_t reply, const uint8_t *message, const uint8_t *source, size_t source_len)
{
    static const uint8_t limit[8] = {0, 0, 0, 0, 0xff, 0xff, 0xff, 0xff};
    static uint8_t expected[CRISP_TABLE];
    memcpy(expected, table_before, CRISP_TABLE);
    uint8_t *slot = expected + SLOT * leads_to(expected, message, source, source_len), *counter = slot + (reply == 11 ? FORGED : REPLAYS);
    if (memcmp(slot + REPLAYS, limit, 8) > 0 || memcmp(slot + FORGED, limit, 8) > 0) differs("the reply at a damaged counter");
    int stays = !memcmp(counter, limit, 8), i = 7;
    if (!stays)
        while (++counter[i] == 0) i--;
    if (memcmp(table, expected, CRISP_TABLE)) differs("the table after an arrival was turned away");
    by_turned[BY_9 + (int)reply - 9]++;
    if (stays) by_turned[reply == 11 ? FORGED_STAY : REPLAYS_STAY]++;
    else if (!memcmp(counter, limit, 8)) by_turned[reply == 11 ? LAST_FORGED : LAST_REPLAY]++;
}

/* an accepted message moves no counter */
static void counts_none(void)
{
    for (size_t at = 0; at < CRISP_TABLE; at += SLOT)
        if (memcmp(table + at + REPLAYS, table_before + at + REPLAYS, 16)) differs("a counter after an accepted message");
}

/* the last two lines of a listing are the slot's counters */
static void ends_with_counters(const uint8_t *slot, const uint8_t *text, size_t n)
{
    char lines[64];
    size_t length = (size_t)snprintf(lines, sizeof lines, "\nreplays=%llu\nforged=%llu\n", (unsigned long long)number_at(slot + REPLAYS),
                                     (unsigned long long)number_at(slot + FORGED));
    if (n < length || memcmp(text + n - length, lines, length)) differs("the end of a listing");
}

/* a text that was loaded, or refused with 23, tells two counters: loaded, none is over its limit, and the entry has them */
static void count_told(uint64_t reply, const uint8_t *text, size_t n)
{
    static const char *const names[2] = {"\nreplays=", "\nforged="};
    for (int which = 0; which < 2; which++) {
        size_t length = strlen(names[which]), i = 0;
        while (i + length < n && memcmp(text + i, names[which], length)) i++;
        if (i + length >= n) differs("a text without its counters");
        uint64_t x = strtoull((const char *)text + i + length, NULL, 10);
        enum told told = x < CRISP_COUNTED ? TOLD_WITHIN : x == CRISP_COUNTED ? TOLD_AT : TOLD_OVER;
        if ((reply == 0) == (told != TOLD_OVER)) by_told[TOLD * which + (int)told]++;
        if (reply == 0 && (told == TOLD_OVER || number_at(table + SLOT * answered.slot + (which ? FORGED : REPLAYS)) != x)) differs("a loaded counter");
    }
}

/* ---- what other replies would have met */

/* the table with start 0 in each slot, with edition 2, with the other edition, or with counters 0 */
enum otherwise { NO_START, SECOND, OTHER, NO_COUNTERS, OTHERWISE };

static uint8_t *table_with(enum otherwise what)
{
    static uint8_t other[CRISP_TABLE];
    memcpy(other, ref_table, CRISP_TABLE);
    for (uint8_t *slot = other; slot < other + CRISP_TABLE; slot += SLOT)
        if (what == NO_START) memset(slot + START, 0, 8);
        else if (what == NO_COUNTERS) memset(slot + REPLAYS, 0, 16);
        else slot[EDITION] = what == SECOND ? 2 : (uint8_t)(3 - slot[EDITION]);
    return other;
}

/* a refused message is counted where another reply would have met it with such a table */
static void count_refused(uint64_t reply, const uint8_t *message, size_t n, const uint8_t *source, size_t source_len, size_t room)
{
    static uint8_t other[ROOM];
    uint64_t with[OTHERWISE];
    for (int what = 0; what < OTHERWISE; what++)
        with[what] = ref_receive(table_with((enum otherwise)what), message, n, source, source_len, other, room).reply;
    if (reply == 9 && with[NO_START] != 9) by_start[BELOW_START]++;
    if (reply == 7 && with[NO_START] != 7) by_start[DAMAGED_START]++;
    if (reply == 7 && with[SECOND] != 7) by_edition[DAMAGED_EDITION]++;
    if (reply == 11 && with[OTHER] == 0) by_edition[OTHER_EDITION]++;
    if (reply != 7 || with[NO_COUNTERS] == 7) return;
    const uint8_t *slot = ref_table + SLOT * leads_to(ref_table, message, source, source_len);
    by_turned[BAD_REPLAYS] += number_at(slot + REPLAYS) > CRISP_COUNTED;
    by_turned[BAD_FORGED] += number_at(slot + FORGED) > CRISP_COUNTED;
}

/* so is one that another reply would have met as a message with the other length of check value */
static void count_length(uint64_t reply, const uint8_t *message, size_t n, const uint8_t *source, size_t source_len)
{
    static uint8_t other[CRISP_TABLE], other_out[ROOM], bytes[2048];
    memcpy(other, ref_table, CRISP_TABLE);
    memcpy(bytes, message, n);
    bytes[2] ^= OTHER_LENGTH;
    uint64_t with = ref_receive(other, bytes, n, source, source_len, other_out, 2048).reply;
    if (reply == 5 && with != 5) by_suite[CUT_SHORT]++;
    if (reply == 8 && with != 8 && with != 5) by_suite[NOT_ITS_LENGTH]++;
}

/* and one that is not counted, but would have been with room, or in the entry's suite */
static void count_uncounted(uint64_t reply, const uint8_t *message, size_t n, const uint8_t *source, size_t source_len)
{
    static uint8_t other[CRISP_TABLE], other_out[ROOM], bytes[2048];
    if (n > sizeof bytes) return;
    memcpy(other, ref_table, CRISP_TABLE);
    memcpy(bytes, message, n);
    if (reply == 8) bytes[2] = ref_table[SLOT * leads_to(ref_table, message, source, source_len) + SUITE];
    uint64_t with = ref_receive(other, bytes, n, source, source_len, other_out, 2048).reply;
    if (is_counted(RECEIVE, with)) by_turned[reply == 8 ? BY_SUITE : NO_ROOM]++;
}

static void call_receive(const uint8_t *message, size_t n, const uint8_t *source, size_t source_len, size_t room)
{
    say("receive out=%zu", room);
    say_bytes("message", message, n);
    say_bytes("source", source, source_len);
    same_outputs();
    struct crisp_answer a = crisp_receive(table, message, n, source, source_len, out, room);
    agree(RECEIVE, a, ref_receive(ref_table, message, n, source, source_len, ref_out, room));
    if (is_counted(RECEIVE, a.reply)) counts_one(a.reply, message, source, source_len);
    if (a.reply == 0) counts_none();
    if (a.reply == 1 || a.reply == 8) count_uncounted(a.reply, message, n, source, source_len);
    if (a.reply == 7 || a.reply == 9 || a.reply == 11) count_refused(a.reply, message, n, source, source_len, room);
    if (a.reply == 5 || a.reply == 8) count_length(a.reply, message, n, source, source_len);
    if (a.reply == 0 && is_long(message[2])) by_suite[LONG_TAKEN]++;
}

static void call_listing(size_t slot, size_t room)
{
    static uint8_t other[ROOM];
    say("listing %zu out=%zu", slot, room);
    same_outputs();
    struct crisp_answer a = crisp_listing(table, slot, out, room);
    agree(LISTING, a, ref_listing(ref_table, slot, ref_out, room));
    if (a.reply == 7) by_turned[NOT_LISTED] += ref_listing(table_with(NO_COUNTERS), slot, other, room).reply != 7;
    if (a.reply) return;
    ends_with_counters(table + SLOT * slot, out, a.length);
    struct text *t = &printed[prints++ % PRINTED];
    memcpy(t->bytes, out, a.length);
    t->length = a.length;
}

static uint64_t call_load(const uint8_t *text, size_t n)
{
    say("load");
    say_bytes("text", text, n);
    before_call();
    struct crisp_answer a = crisp_load(table, text, n);
    agree(LOAD, a, ref_load(ref_table, text, n));
    if (a.reply == 0 || a.reply == 23) count_told(a.reply, text, n);
    return a.reply;
}

/* a sender that was refused is counted where edition 2, or the other length of check value, would have met another reply */
static void count_unsent(uint64_t reply, const struct crisp_sender *s, const uint8_t *payload, size_t n, size_t room)
{
    static uint8_t other[ROOM];
    struct crisp_sender second = *s, length = *s;
    second.edition = 2;
    length.suite ^= OTHER_LENGTH;
    if (reply == 7 && ref_protect(&second, payload, n, other, room).reply != 7) {
        by_edition[UNSENT_EDITION]++;
        if (s->edition == 1 && is_long(s->suite)) by_suite[LONG_EDITION]++;
    }
    if (reply == 2 && ref_protect(&length, payload, n, other, room).reply == 0) by_suite[TOO_LONG]++;
}

static struct crisp_answer call_protect(struct crisp_sender *s, struct crisp_sender *r, const uint8_t *payload, size_t n, size_t room)
{
    say("protect suite=%d edition=%d current=%llu out=%zu", s->suite, s->edition, (unsigned long long)s->current, room);
    say_bytes("payload", payload, n);
    same_outputs();
    struct crisp_answer a = crisp_protect(s, payload, n, out, room);
    struct crisp_answer b = ref_protect(r, payload, n, ref_out, room);
    if (memcmp(s, r, sizeof *s)) differs("the sender's record");
    agree(PROTECT, a, b);
    if (a.reply == 0 && is_long(s->suite)) by_suite[LONG_SENT]++;
    if (a.reply == 2 || a.reply == 7) count_unsent(a.reply, r, payload, n, room);
    return a;
}

/* the entry of sender i */
static void install(int i) { call_install(&senders[i], editions[i], sizes[i], starts[i], 32); }

/* ---- the tables, emptied or changed by hand */

static int by_hand;                             /* whether they were, since they were empty */

static void clear_tables(void)
{
    memset(table, 0, CRISP_TABLE);
    memset(ref_table, 0, CRISP_TABLE);
    by_hand = 0;
}

static void put(size_t at, uint8_t x)
{
    say("byte %zu of the table becomes %02x\n", at, x);
    table[at] = ref_table[at] = x;
    by_hand = 1;
}

/* ---- random calls */

static size_t some_room(void) { return below(16) ? 2048 : 2040 + below(17); }
static uint8_t some_suite(void) { return (uint8_t)(below(2) ? below(4) : 240 + below(6)); }
static uint8_t some_byte(void) { return below(2) ? some_suite() : (uint8_t)rnd(); }

/* a payload's length: mostly a short one; else one about the longest, with this KeyId or with any */
static size_t some_length(size_t keyid_len) { return below(8) ? below(40) : below(2) ? 1900 + below(149) : 2028 - keyid_len + below(10); }

static void random_protect(int from, int likely)
{
    static uint8_t payload[2048];
    size_t n = some_length(senders[from].keyid_len);
    fill(payload, n);
    struct crisp_sender s = senders[from], r = ref_senders[from];
    if (!likely) {
        uint8_t *bytes[] = {&s.flag, &s.suite, &s.edition, &s.keyid[0], (uint8_t *)&s.keyid_len, (uint8_t *)&s.source_len, (uint8_t *)&s.current + 6};
        *bytes[below(7)] = some_byte();
        r = s;
        call_protect(&s, &r, payload, n, some_room());
        return;
    }
    struct crisp_answer a = call_protect(&senders[from], &ref_senders[from], payload, n, some_room());
    if (a.reply) return;
    struct message *m = &kept[keeps++ % KEPT];
    memcpy(m->bytes, out, a.length);
    m->length = a.length;
    m->from = from;
}

static void random_install(void)
{
    int i = (int)below(ENTRIES);
    struct crisp_sender s = senders[i];
    uint8_t edition = editions[i];
    uint64_t size = sizes[i], start = starts[i];
    size_t key_len = 32;
    switch (below(14)) {
    case 0: s.flag = (uint8_t)below(4); break;
    case 1: s.suite = some_suite(); break;
    case 2: s.keyid_len = below(129); break;
    case 3: s.source_len = below(33); break;
    case 4: size = below(3) ? 256 + below(2) : 0; break;
    case 5: key_len = 28 + below(9); break;
    case 6: start = below(4) ? CRISP_LAST - 1 + below(4) : rnd(); break;
    case 7: edition = some_byte(); break;
    }
    call_install(&s, edition, size, start, key_len);
}

static void random_receive(void)
{
    if (!keeps) random_protect((int)below(ENTRIES), 1);
    if (!keeps) return;
    struct message m = kept[below(4) ? (size_t)(keeps - 1) % KEPT : below((uint64_t)(keeps < KEPT ? keeps : KEPT))];
    const struct crisp_sender *s = &senders[m.from];
    size_t source_len = s->source_len;
    uint8_t source[32];
    memcpy(source, s->source, 32);
    size_t least = 9 + s->keyid_len + below(12);                                /* about that of a message without a payload */
    switch (below(12)) {
    case 0: m.bytes[below(m.length)] ^= (uint8_t)(1 << below(8)); break;        /* one bit */
    case 1: m.length = below(m.length + 1); break;                              /* cut */
    case 2: m.bytes[2] = some_suite(); break;                                   /* another suite */
    case 3: m.bytes[below(2)] ^= (uint8_t)(1 << below(8)); break;               /* version or flag */
    case 4: source_len = below(33); break;
    case 5: fill(m.bytes + 3 + s->keyid_len, 6); break;                         /* another number */
    case 6: m.bytes[2] ^= OTHER_LENGTH; break;
    case 7: if (m.length > least) m.length = least; break;
    }
    call_receive(m.bytes, m.length, source, source_len, some_room());
}

static void random_damage(void)
{
    size_t at = below(4) ? SLOT * below(16) + below(SLOT) : SLOT * below(3) + (below(3) ? SIZE + below(BEHIND_COUNTERS - SIZE) : SUITE + below(2));
    uint8_t x = below(2) ? some_byte() : (uint8_t)(table[at] ^ (below(4) ? 1 << below(8) : OTHER_LENGTH));
    put(at, x);
}

/* ---- texts of listings, line by line */

enum { AT_SLOT, AT_FLAG, AT_KEYID, AT_SOURCE, AT_SUITE, AT_EDITION, AT_SIZE, AT_START, AT_HIGHEST, AT_MARKS, AT_ACCEPTED, AT_BYTES,
       AT_REPLAYS, AT_FORGED, LINES };
static const char *const line_names[LINES] = {"slot", "flag", "keyid", "source", "suite", "edition", "size", "start", "highest", "marks", "accepted",
                                              "bytes", "replays", "forged"};

struct lines {
    char of[LINES][640];                        /* what stands behind the name */
};

static int in_hex(int line) { return line == AT_KEYID || line == AT_SOURCE || line == AT_HIGHEST || line == AT_MARKS; }

/* of a text that a listing was */
static void split(const struct text *t, struct lines *l)
{
    const uint8_t *p = t->bytes;
    for (int i = 0; i < LINES; i++) {
        p += strlen(line_names[i]) + 1;
        char *to = l->of[i];
        while (*p != '\n') *to++ = (char)*p++;
        *to = 0;
        p++;
    }
}

static void add(struct text *t, const char *string)
{
    size_t n = strlen(string);
    memcpy(t->bytes + t->length, string, n);
    t->length += n;
}

static void add_line(struct text *t, const struct lines *l, int line, const char *end)
{
    add(t, line_names[line]), add(t, "="), add(t, l->of[line]), add(t, end);
}

static void join(const struct lines *l, struct text *t)
{
    t->length = 0;
    for (int i = 0; i < LINES; i++) add_line(t, l, i, "\n");
}

static uint64_t number(const struct lines *l, int line) { return strtoull(l->of[line], NULL, in_hex(line) ? 16 : 10); }
static void set_number(struct lines *l, int line, uint64_t x) { sprintf(l->of[line], line == AT_HIGHEST ? "%012llx" : "%llu", (unsigned long long)x); }

static void set_hex(struct lines *l, int line, const uint8_t *bytes, size_t n)
{
    for (size_t i = 0; i < n; i++) sprintf(l->of[line] + 2 * i, "%02x", bytes[i]);
    l->of[line][2 * n] = 0;
}

/* highest number, marks, totals and counters, with the bounds that Size and start set them */
struct history {
    uint64_t size, start, highest, old_floor, floor, count, accepted, bytes, replays, forged;
    uint8_t marks[32];
};

static void turn(struct history *h, uint64_t i) { h->marks[31 - i / 8] ^= (uint8_t)(1 << i % 8); }

static void set_highest(struct history *h, uint64_t highest)
{
    h->highest = highest;
    h->old_floor = highest + 1 > h->size ? highest + 1 - h->size : 0;
    h->floor = h->old_floor > h->start ? h->old_floor : h->start;
}

static void history_in(const struct lines *l, struct history *h)
{
    *h = (struct history){.size = number(l, AT_SIZE), .start = number(l, AT_START), .accepted = number(l, AT_ACCEPTED), .bytes = number(l, AT_BYTES),
                          .replays = number(l, AT_REPLAYS), .forged = number(l, AT_FORGED)};
    set_highest(h, number(l, AT_HIGHEST));
    for (size_t i = 0; i < 32; i++) {
        char digits[3] = {l->of[AT_MARKS][2 * i], l->of[AT_MARKS][2 * i + 1], 0};
        h->marks[i] = (uint8_t)strtoul(digits, NULL, 16);
        for (int bit = 0; bit < 8; bit++) h->count += h->marks[i] >> bit & 1;
    }
}

static void put_history(struct lines *l, const struct history *h)
{
    set_number(l, AT_HIGHEST, h->highest), set_hex(l, AT_MARKS, h->marks, 32);
    set_number(l, AT_ACCEPTED, h->accepted), set_number(l, AT_BYTES, h->bytes);
    set_number(l, AT_REPLAYS, h->replays), set_number(l, AT_FORGED, h->forged);
}

/* ---- an entry that stands anew */

/* what a slot is filled with, so that the next install takes the one behind it */
static struct crisp_answer install_filler(size_t slot)
{
    struct crisp_sender s = {.keyid = {0x82, 0xf1, (uint8_t)slot}, .keyid_len = 3, .source = "fill", .source_len = 4, .suite = 2};
    call_install(&s, 2, 1, 0, 32);
    return answered;
}

/* the key data, Size and start that stand in a slot */
static struct next entry_in(const uint8_t *slot)
{
    struct next n = {.data = {.flag = slot[FLAG], .keyid_len = slot[KEYID_LEN], .source_len = slot[SOURCE_LEN], .suite = slot[SUITE],
                              .edition = slot[EDITION]}, .size = number_at(slot + SIZE), .start = number_at(slot + START), .key_len = 32};
    memcpy(n.data.keyid, slot + KEYID, CRISP_KEYID);
    memcpy(n.data.source, slot + SOURCE, CRISP_SOURCE);
    memcpy(n.data.key, slot + KEY, CRISP_KEY);
    return n;
}

static struct crisp_answer install_from(const uint8_t *slot)
{
    struct next n = entry_in(slot);
    call_install(&n.data, n.data.edition, n.size, n.start, n.key_len);
    return answered;
}

/* Installs in each free slot up to `last` what stands there in `from`; where that is free too, it is filled meanwhile. */
static int install_again(const uint8_t *from, size_t last)
{
    for (size_t i = 0; i <= last; i++) {
        if (table[SLOT * i]) continue;
        struct crisp_answer a = from[SLOT * i] ? install_from(from + SLOT * i) : install_filler(i);
        if (a.reply || a.slot != i) return 0;
    }
    for (size_t i = 0; i <= last; i++)
        if (!from[SLOT * i]) call_remove(i);
    return 1;
}

/* an undamaged entry, changed to its own key data, Size and start, or removed and installed again in its slot */
static int by_a_change;

static int stands_again(size_t slot)
{
    static uint8_t from[CRISP_TABLE];
    by_a_change = (int)below(2);
    if (by_a_change) {
        struct next n = entry_in(table + SLOT * slot);
        call_change(slot, &n);
        return answered.reply == 0;
    }
    memcpy(from, table, CRISP_TABLE);
    call_remove(slot);
    return install_again(from, slot);
}

/* ---- random loads */

/* that number, or any above it */
static uint64_t at_least(uint64_t x) { return below(2) ? x : x + below(UINT64_MAX - x); }

/* a counter within its limit, often at it or one below, or where the next one carries */
static uint64_t some_counter(void)
{
    switch (below(8)) {
    case 0: case 1: return CRISP_COUNTED - 1;
    case 2: return CRISP_COUNTED;
    case 3: return CRISP_COUNTED - below(6);
    case 4: return (1ULL << 8 * (1 + below(4))) - 1;
    case 5: return below(CRISP_COUNTED);
    default: return below(4);
    }
}

/* one over it */
static uint64_t over_limit(void)
{
    switch (below(4)) {
    case 0: return CRISP_COUNTED + 1ULL;
    case 1: return UINT64_MAX;
    case 2: return 1ULL << (32 + below(32));
    default: return at_least(CRISP_COUNTED + 1ULL);
    }
}

/* a history that an entry of this Size and start may have, often at its bounds */
static void make_history(struct history *h)
{
    uint64_t highest = below(4) ? h->start + below(2 * h->size + 2) : below(2) ? CRISP_LAST - below(3) : below(CRISP_LAST);
    set_highest(h, highest > CRISP_LAST ? CRISP_LAST : highest < h->start ? 0 : highest);
    memset(h->marks, 0, 32);
    h->count = 0;
    for (uint64_t i = 0; i < 256 && i <= h->highest && h->highest - i >= h->floor; i++)
        if ((i == 0 && h->highest > 0) || below(2)) turn(h, i), h->count++;
    h->accepted = h->count + (below(2) ? below(h->floor - h->start + 1) : below(2) ? h->floor - h->start : 0);
    h->bytes = below(2) ? CRISP_PAYLOAD * h->accepted : below(CRISP_PAYLOAD * h->accepted + 1);
    h->replays = some_counter(), h->forged = some_counter();
}

/* another one in a text */
static void remake_history(struct lines *l)
{
    struct history h;
    history_in(l, &h), make_history(&h), put_history(l, &h);
}

/* what is wrong with a mark of that place, or RECORD */
static enum record outside(const struct history *h, uint64_t i)
{
    if (i > h->highest) return UNDER_ZERO;
    if (h->highest - i < h->old_floor) return OUTSIDE_WINDOW;
    return h->highest - i < h->start ? UNDER_START : RECORD;
}

/* damaged in that way alone, where it can be */
static int damage_history(struct history *h, enum record way)
{
    uint64_t i = below(256), most = h->count + h->floor - h->start;
    switch (way) {
    case UNDER_ZERO: case OUTSIDE_WINDOW: case UNDER_START:
        for (int n = 0; n < 256 && outside(h, i) != way; n++) i = (i + 1) % 256;
        if (outside(h, i) != way) return 0;
        return turn(h, i), h->accepted++, 1;
    case UNMARKED:
        if (h->highest == 0) return 0;
        return turn(h, 0), h->accepted--, h->bytes = 0, 1;
    case FEW:
        if (h->count == 0) return 0;
        return h->accepted = below(2) ? h->count - 1 : below(h->count), h->bytes = 0, 1;
    case MANY: return h->accepted = at_least(most + 1), h->bytes = 0, 1;
    case MANY_REPLAYS: return h->replays = over_limit(), 1;
    case MANY_FORGED: return h->forged = over_limit(), 1;
    default: return h->bytes = at_least(CRISP_PAYLOAD * h->accepted + 1), 1;
    }
}

static void put_number(size_t at, uint64_t x)
{
    for (size_t i = 0; i < 8; i++) put(at + i, (uint8_t)(x >> (56 - 8 * i)));
}

/* key data that is unsound, in the slot and in the text */
static void damage_key_data(struct lines *l, size_t slot)
{
    size_t at = SLOT * slot;
    uint8_t x = (uint8_t)(3 + below(200));
    uint64_t size = below(2) ? 257 + below(3) : 0, start = at_least(CRISP_LAST + 1ULL);
    switch (below(7)) {
    case 0: put(at + FLAG, x), set_number(l, AT_FLAG, x); break;
    case 1: put(at + SUITE, x), set_number(l, AT_SUITE, x); break;
    case 2: put(at + EDITION, x), set_number(l, AT_EDITION, x); break;
    case 3: put_number(at + SIZE, size), set_number(l, AT_SIZE, size); break;
    case 4: put_number(at + START, start), set_number(l, AT_START, start); break;
    case 5: put(at + KEYID, table[at + KEYID_LEN] == 1 ? 0x90 : table[at + KEYID] ^ 1), set_hex(l, AT_KEYID, table + at + KEYID, table[at + KEYID_LEN]); break;
    default: put(at + SOURCE_LEN, x % 4), l->of[AT_SOURCE][2 * (x % 4)] = 0;
    }
}

static void another_number(struct lines *l, int line)
{
    uint64_t x = number(l, line);
    set_number(l, line, below(2) ? (below(2) ? x + 1 : x - 1) : x + (1ULL << below(64)));
}

static void another_hex(struct lines *l, int line)
{
    char *p = l->of[line];
    size_t n = strlen(p), at = below(n + 1);
    switch (n < 2 || at == n ? 0 : below(5)) {
    case 0: strcat(p, "00"); break;
    case 1: p[n - 2] = 0; break;
    case 2: p[0] = 0; break;
    case 3: memset(p + n, '0', 300 - n), p[300] = 0; break;
    default: p[at] = p[at] == '0' ? '1' : '0';
    }
}

/* the text tells another entry, or the slot holds none */
static void change_entry(struct lines *l, size_t slot, enum entry way)
{
    static const int lines[] = {AT_SLOT, AT_FLAG, AT_KEYID, AT_SOURCE, AT_SUITE, AT_EDITION, AT_SIZE, AT_START};
    size_t at = SLOT * slot, longer;
    switch (way) {
    case NOT_FRESH: put(at + ACCEPTED + below(8), (uint8_t)(1 + below(255))); break;
    case FREED: put(at, 0); break;
    case LONG_KEYID:
        longer = 129 + below(127);
        put(at + KEYID_LEN, (uint8_t)longer), set_hex(l, AT_KEYID, table + at + KEYID, longer);
        break;
    case LONG_SOURCE:
        longer = 33 + below(122);
        put(at + SOURCE_LEN, (uint8_t)longer), set_hex(l, AT_SOURCE, table + at + SOURCE, longer);
        break;
    default:
        if (in_hex(lines[way])) another_hex(l, lines[way]);
        else another_number(l, lines[way]);
    }
}

static const char *const not_decimal[] = {"", "+5", "-1", "05", "00", " 5", "5 ", "5\r", "0x5", "5.", "1e1", "18446744073709551616", "18446744073709551620",
                                          "18446744073709551700", "28446744073709551615", "99999999999999999999", "100000000000000000000",
                                          "000000000000000000000", "184467440737095516150", "368934881474191032320", "340282366920938463463374607431"};
enum { NOT_DECIMAL = sizeof not_decimal / sizeof *not_decimal };

static int some_line(int hex)
{
    int line;
    do line = (int)below(LINES);
    while (in_hex(line) != hex);
    return line;
}

/* a value that is not in form */
static void spoil_value(struct lines *l, enum form way)
{
    int line = some_line(way == HEX);
    char *p = l->of[line], value[32];
    size_t n = strlen(p);
    if (way == DECIMAL && below(2)) strcpy(p, not_decimal[below(NOT_DECIMAL)]);
    else if (way == DECIMAL) strcpy(value, p), sprintf(p, "0%s", value);
    else if (n == 0) strcpy(p, "0");
    else if (below(2)) p[n - 1] = 0;                                            /* an odd count */
    else if (line > AT_SOURCE && below(2)) strcat(p, "00");
    else p[below(n)] = (char)"ABCDEFg/:`@ xX"[below(14)];
}

/* a text that is not in form, or has lost it */
static void spoil_text(const struct lines *l, struct text *t, enum form way)
{
    int line = (int)below(LINES), what = (int)below(3);
    switch (way) {
    case BYTE: t->bytes[below(t->length)] ^= (uint8_t)(below(2) ? 1ULL << below(8) : 1 + below(255)); break;
    case CUT: t->length = below(t->length); break;
    case BEHIND: below(2) ? add(t, below(2) ? "\n" : " ") : add_line(t, l, line, "\n"); break;
    default:
        t->length = 0;
        for (int i = 0; i < LINES; i++) {
            int turned = what == 2 && line + 1 < LINES ? i == line ? i + 1 : i == line + 1 ? i - 1 : i : i;
            if (what != 1 || i != line) add_line(t, l, turned, what == 2 && line + 1 == LINES && i == line ? "\r\n" : "\n");
            if (what == 0 && i == line) add_line(t, l, i, "\n");
        }
    }
}

static int loads(const struct text *t)
{
    static uint8_t other[CRISP_TABLE];
    memcpy(other, ref_table, CRISP_TABLE);
    return ref_load(other, t->bytes, t->length).reply == 0;
}

/* One thing is changed in a text that would have been loaded, or more than one, which is not counted: then the order of the replies tells. */
static void load_changed(const struct lines *as_it_was, size_t slot)
{
    static struct text t;
    struct lines lines = *as_it_was, *l = &lines;
    join(l, &t);
    int counts = loads(&t);
    struct history h;
    history_in(l, &h);
    enum form form = (enum form)below(FORMS);
    enum entry entry = (enum entry)below(ENTRY);
    enum record record = below(8) ? (enum record)below(RECORD) : UNDER_START;           /* few histories have a place for a mark there */
    int which = 1 << below(3);
    if (!below(4)) which = (int)below(8);
    if (which & 4 && record == KEY_DATA) damage_key_data(l, slot);
    else if (which & 4) counts &= damage_history(&h, record), put_history(l, &h);
    if (which & 2) change_entry(l, slot, entry);
    int of_value = form == DECIMAL || form == HEX;
    if (which & 1 && of_value) spoil_value(l, form);
    join(l, &t);
    if (which & 1 && !of_value) spoil_text(l, &t, form);
    uint64_t reply = call_load(t.bytes, t.length);
    if (!counts) return;
    if (which == 1 && reply == 21) by_form[form]++;
    if (which == 2 && reply == 22) by_entry[entry]++;
    if (which == 4 && reply == 23) by_record[record]++;
}

/* any bytes, or lines in form of any numbers */
static void load_anything(void)
{
    static struct text t;
    static struct lines l;
    t.length = below(700);
    fill(t.bytes, t.length);
    if (below(2)) {
        for (int i = 0; i < LINES; i++)
            if (in_hex(i)) set_hex(&l, i, t.bytes, i == AT_HIGHEST ? 6 : i == AT_MARKS ? 32 : below(40));
            else set_number(&l, i, below(2) ? below(20) : rnd());
        join(&l, &t);
    }
    call_load(t.bytes, t.length);
}

/* whether the entry was changed by a message that arrived now, from a sender with its KeyId */
static int arrives_at(size_t slot)
{
    uint8_t before[SLOT];
    memcpy(before, table + SLOT * slot, SLOT);
    for (int i = 0; i < ENTRIES && below(4); i++)
        if (!memcmp(senders[i].keyid, before + KEYID, CRISP_KEYID)) random_protect(i, 1), random_receive();
    return memcmp(before, table + SLOT * slot, SLOT) != 0;
}

/* a text that was printed before, or the last one where it is the first */
static const struct text *any_printed(void)
{
    int behind = prints < PRINTED ? prints : PRINTED;
    return &printed[(prints - 1 - (behind > 1 ? 1 + (int)below((uint64_t)behind - 1) : 0)) % PRINTED];
}

/* a slot, mostly an occupied one */
static size_t some_slot(void)
{
    size_t slot = below(CRISP_SLOTS);
    for (int tries = 0; tries < 8 && !table[SLOT * slot]; tries++) slot = below(below(2) ? CRISP_SLOTS : 4);
    return slot;
}

/* the entry's own listing: it loads where the entry was installed again; where it was left alone, if nothing was accepted */
static void load_own(const struct text *own, size_t slot, int left_alone, int older)
{
    if (call_load(own->bytes, own->length)) {
        if (!left_alone) differs("a listing that does not load");
        by_entry[NOT_FRESH]++;
        return;
    }
    by_load[older ? OLDER : OWN]++;
    if (!left_alone && by_a_change) by_change[THEN_LOADED]++;
    call_listing(slot, 2048);
    if (answered.length != own->length || memcmp(out, own->bytes, own->length)) differs("the listing after a load");
}

static void random_load(void)
{
    static struct text own, other, t;
    static struct lines l;
    size_t slot = some_slot();
    if (!below(16)) load_anything();
    call_listing(slot, 2048);
    if (answered.reply) return;
    own = printed[(prints - 1) % PRINTED], other = *any_printed();
    int older = arrives_at(slot), left_alone = !below(8);
    if (!left_alone && !stands_again(slot)) return;
    split(&own, &l);
    switch (below(8)) {
    case 0: case 1: load_own(&own, slot, left_alone, older); break;
    case 2: by_load[call_load(other.bytes, other.length) ? ANY_REFUSED : ANY]++; break;
    case 3:
        split(&other, &l);
        by_load[OTHERS] += number(&l, AT_SLOT) != slot;
        set_number(&l, AT_SLOT, slot), join(&l, &t), call_load(t.bytes, t.length);
        break;
    case 4:
        remake_history(&l), join(&l, &t);
        by_load[MADE] += !call_load(t.bytes, t.length);
        break;
    default:
        for (int n = 0; n < 4; n++) {
            if (below(2)) remake_history(&l);
            load_changed(&l, slot);
        }
    }
}

/* ---- random changes */

/* the larger of the entry's start and one more than its highest number */
static uint64_t start_behind(const uint8_t *slot)
{
    uint64_t start = number_at(slot + START), behind = number_at(slot + HIGHEST) + 1;
    return behind > start ? behind : start;
}

/* what a slot's entry is changed to: the same key with start 0 or with a start behind its past, a new key, any sender's entry, or another slot's name */
enum how { FROM_ZERO, FROM_BEHIND, NEW_KEY, ANY_ENTRY, TWIN_NAME, HOWS };

static enum how choose_next(size_t slot, struct next *n)
{
    const uint8_t *s = table + SLOT * slot;
    enum how how = (enum how)below(HOWS);
    int i = (int)below(ENTRIES);
    *n = entry_in(s);
    if (how == FROM_ZERO) n->start = 0;
    if (how == FROM_BEHIND) n->start = start_behind(s);
    if (how == NEW_KEY) fill(n->data.key, 32), n->start = 0;
    if (how == ANY_ENTRY) n->data = senders[i], n->data.edition = editions[i], n->size = sizes[i], n->start = starts[i];
    if (how == TWIN_NAME) *n = entry_in(table + SLOT * some_slot()), fill(n->data.key, 32);
    if (how < ANY_ENTRY && below(2)) n->size = sizes[i];
    return how;
}

/* one thing of it becomes what may be unsound */
static void spoil_next(struct next *n)
{
    struct crisp_sender *s = &n->data;
    switch (below(9)) {
    case 0: s->flag = some_byte(); break;
    case 1: s->suite = some_suite(); break;
    case 2: s->keyid_len = below(2) ? below(300) : s->keyid_len + 256 * below(2); break;
    case 3: s->source_len = below(2) ? below(40) : s->source_len + 256; break;
    case 4: n->size = below(3) ? 256 + below(2) : below(2) ? 0 : rnd(); break;
    case 5: n->key_len = below(2) ? 28 + below(9) : below(300); break;
    case 6: n->start = below(4) ? CRISP_LAST - 1 + below(4) : rnd(); break;
    case 7: s->edition = some_byte(); break;
    default: s->keyid[0] = 0x80, s->keyid_len = 1, s->flag = (uint8_t)below(2);
    }
}

static size_t any_slot(void)
{
    switch (below(4)) {
    case 0: return 16 + below(300);
    case 1: return below(2) ? rnd() : ((size_t)1 << (4 + below(60))) - below(2);
    default: return below(18);
    }
}

/* a change of a slot, and how it is meant; HOWS where something of it is spoilt, or the slot is another one */
static enum how choose_change(size_t *slot, struct next *n)
{
    enum how how = choose_next(*slot, n);
    if (!below(4)) spoil_next(n), how = HOWS;
    if (!below(6)) *slot = any_slot(), how = HOWS;
    return how;
}

/* Another slot becomes a copy of this one, by hand: a twin, or none where a stored length is over its room, or where it is free for all its bytes. */
static void make_twin(size_t slot)
{
    size_t other = (slot + 1 + below(CRISP_SLOTS - 1)) % CRISP_SLOTS, at = SLOT * other;
    say("slot %zu is copied to slot %zu\n", slot, other);
    memcpy(table + at, table + SLOT * slot, SLOT);
    memcpy(ref_table + at, table + at, SLOT);
    by_hand = 1;
    switch (below(6)) {
    case 0: put(at + KEYID_LEN, (uint8_t)(129 + below(127))); break;
    case 1: put(at + SOURCE_LEN, (uint8_t)(33 + below(223))); break;
    case 2: put(at, below(2) ? 0 : (uint8_t)rnd()); break;
    }
}

/* the entry's record is damaged; at times its stored source is longer than its room, so that nothing leads to it */
static void damage_entry(size_t slot)
{
    size_t at = SLOT * slot;
    if (below(2)) put(at + SOURCE_LEN, (uint8_t)(33 + below(223)));
    else put(at + HIGHEST + below(BEHIND_COUNTERS - HIGHEST), some_byte());
}

/* whether the sender's next message is handed out; it is then the last that is kept */
static int next_passes(int from)
{
    int before = keeps;
    random_protect(from, 1);
    if (keeps == before) return 0;
    const struct message *m = &kept[(keeps - 1) % KEPT];
    call_receive(m->bytes, m->length, senders[from].source, senders[from].source_len, 2048);
    return answered.reply == 0;
}

/* the sender whose next message the entry takes now, or -1 */
static int taken_from(size_t slot)
{
    for (int i = 0; i < ENTRIES; i++)
        if (has_name(table + SLOT * slot, &senders[i]) && next_passes(i) && answered.slot == slot) return i;
    return -1;
}

/* the sender goes on with that key, from number 0 */
static void take_key(int i, const uint8_t key[CRISP_KEY])
{
    memcpy(senders[i].key, key, CRISP_KEY), senders[i].current = 0;
    memcpy(ref_senders[i].key, key, CRISP_KEY), ref_senders[i].current = 0;
}

/* a message that the slot's entry had taken before a change, once more, and the sender's next */
static void arrives_after(const struct message *old, uint64_t number, size_t slot, enum how how, const struct next *n)
{
    uint64_t refused = answered.reply;
    const struct crisp_sender *s = &senders[old->from];
    call_receive(old->bytes, old->length, s->source, s->source_len, 2048);
    int again = answered.reply == 0 && answered.slot == slot;
    if (again && (refused || n->start > number)) differs("a message from before a change");
    if (refused) {
        by_after[NEXT_REFUSED] += next_passes(old->from) && answered.slot == slot;
        return;
    }
    if (how == FROM_ZERO) by_after[AGAIN] += again;
    if (how == FROM_BEHIND) by_after[BELOW_NEW_START] += answered.reply == 9;
    if (how == NEW_KEY) by_after[BY_OLD_KEY] += answered.reply == 11;
    if (how == ANY_ENTRY) by_after[NO_NAME] += answered.reply == 6;
    if (how == NEW_KEY) take_key(old->from, n->data.key);
    if (!next_passes(old->from)) return;
    if (answered.slot != slot) by_after[NEXT_TWIN]++;
    else if (how == FROM_BEHIND) by_after[NEXT_SAME]++;
    else if (how == NEW_KEY) by_after[NEXT_NEW]++;
}

static void random_change(void)
{
    size_t slot = some_slot();
    struct next n;
    int from = below(4) ? taken_from(slot) : -1;
    uint64_t number = answered.seqnum;
    struct message old = kept[(keeps ? keeps - 1 : 0) % KEPT];
    if (below(2)) make_twin(slot);
    if (!below(8)) call_remove(below(slot + 1));
    size_t at = slot;
    enum how how = choose_change(&at, &n);
    if (!below(6)) damage_entry(slot), from = -1;
    call_change(at, &n);
    if (from >= 0) arrives_after(&old, number, slot, how, &n);
}

/* ---- random arrivals that are turned away */

static void count_given(int which, uint64_t x)
{
    static const uint64_t values[GIVEN] = {CRISP_COUNTED - 1, CRISP_COUNTED, CRISP_COUNTED + 1ULL, UINT64_MAX};
    for (int i = 0; i < GIVEN; i++) by_given[GIVEN * which + i] += x == values[i];
}

/* An entry is given two counters, by hand; of those within their limit a listing tells all. */
static void put_counters(size_t slot, uint64_t replays, uint64_t forged)
{
    int hand = by_hand || replays > CRISP_COUNTED || forged > CRISP_COUNTED;
    put_number(SLOT * slot + REPLAYS, replays), put_number(SLOT * slot + FORGED, forged);
    by_hand = hand;
}

/* the same in its listing, which it takes as it stands anew; over the limit it does not, and is a fresh one */
static void load_counters(size_t slot, uint64_t replays, uint64_t forged)
{
    static struct text t;
    static struct lines l;
    call_listing(slot, 2048);
    if (answered.reply) return;
    split(&printed[(prints - 1) % PRINTED], &l);
    set_number(&l, AT_REPLAYS, replays), set_number(&l, AT_FORGED, forged), join(&l, &t);
    if (stands_again(slot)) call_load(t.bytes, t.length);
}

/* a number, so that the check value is wrong */
static void set_seqnum(struct message *m, uint64_t x)
{
    uint8_t *p = m->bytes + 3 + senders[m->from].keyid_len;
    for (int i = 0; i < 6; i++) p[i] = (uint8_t)(x >> (40 - 8 * i));
}

/* What the entry has taken comes again: as it is (10), with a number below the floor (9), above all others (11) or of its window, with another length of
 * its check value (8), and at times without room (1). */
static void comes_again(const struct message *taken, size_t slot)
{
    struct message m = *taken;
    const struct crisp_sender *s = &senders[m.from];
    const uint8_t *entry = table + SLOT * slot;
    struct history h = {.size = number_at(entry + SIZE), .start = number_at(entry + START)};
    set_highest(&h, number_at(entry + HIGHEST));
    switch (below(7)) {
    case 0: case 1: if (h.floor) set_seqnum(&m, below(2) ? h.floor - 1 : below(h.floor)); break;
    case 2: case 3: set_seqnum(&m, h.highest + 1 + below(3)); break;
    case 4: if (h.highest > h.floor) set_seqnum(&m, h.floor + below(h.highest - h.floor)); break;
    case 5: if (!below(2)) m.bytes[2] ^= OTHER_LENGTH; break;
    }
    call_receive(m.bytes, m.length, s->source, s->source_len, below(8) ? 2048 : 2047 - below(2));
}

static void random_counts(void)
{
    size_t slot = some_slot();
    int from = taken_from(slot);
    if (from < 0) return;
    struct message taken = kept[(keeps - 1) % KEPT];
    uint64_t replays = below(8) ? some_counter() : over_limit(), forged = below(8) ? some_counter() : over_limit();
    count_given(0, replays), count_given(1, forged);
    below(3) ? put_counters(slot, replays, forged) : load_counters(slot, replays, forged);
    for (int n = 1 + (int)below(5); n > 0; n--)
        if (below(8)) comes_again(&taken, slot);
        else next_passes(from);
    call_listing(slot, 2048);
}

/* ---- restarts */

static void exchange_tables(uint8_t other[CRISP_TABLE])
{
    static uint8_t held[CRISP_TABLE];
    memcpy(held, table, CRISP_TABLE);
    memcpy(table, other, CRISP_TABLE);
    memcpy(ref_table, other, CRISP_TABLE);
    memcpy(other, held, CRISP_TABLE);
}

static void random_table_call(void)
{
    struct next n;
    size_t slot = some_slot();
    switch (below(9)) {
    case 0: random_install(); break;
    case 1: call_remove(below(18)); break;
    case 2: call_listing(below(18), some_room()); break;
    case 3: choose_change(&slot, &n), call_change(slot, &n); break;
    default: random_receive();
    }
}

/* the slot's listing, or any that was printed before, as it is, with another history, damaged or not in form; nothing at all of a free slot */
static void choose_text(size_t slot, struct text *t)
{
    static struct lines l;
    struct history h;
    t->length = 0;
    call_listing(slot, 2048);
    if (answered.reply) return;
    split(below(4) ? &printed[(prints - 1) % PRINTED] : any_printed(), &l);
    if (below(2)) remake_history(&l);
    if (!below(4)) history_in(&l, &h), damage_history(&h, (enum record)below(KEY_DATA)), put_history(&l, &h);
    join(&l, t);
    if (!below(4)) spoil_text(&l, t, (enum form)below(FORMS));
}

/* a text, mostly at the entry installed again */
static void load_in(size_t slot, const struct text *t)
{
    if (below(4)) stands_again(slot);
    call_load(t->bytes, t->length);
}

/* the same calls on the table that was never lost; the text of a load is chosen before, from what both hold */
static void go_on_with(uint8_t other[CRISP_TABLE])
{
    static uint8_t first_out[ROOM];
    static struct text t;
    for (int n = 1 + (int)below(6); n > 0; n--) {
        if (!keeps || below(2)) random_protect((int)below(ENTRIES), 1);
        if (!keeps) continue;
        int is_load = !below(3);
        size_t slot = some_slot();
        if (is_load) choose_text(slot, &t);
        uint64_t state = random_state;
        exchange_tables(other);
        is_load ? load_in(slot, &t) : random_table_call();
        struct crisp_answer first = answered;
        memcpy(first_out, out, ROOM);
        exchange_tables(other);
        random_state = state;
        is_load ? load_in(slot, &t) : random_table_call();
        if (memcmp(&first, &answered, sizeof first) || memcmp(first_out, out, ROOM)) differs("an answer or output after a restart");
        if (memcmp(table, other, CRISP_TABLE)) differs("a table after a restart");
        by_load[AFTERWARDS]++;
        if (is_load) by_load[answered.reply ? REFUSED_AFTERWARDS : LOADED_AFTERWARDS]++;
    }
}

/* The entries are listed, the table is lost, they are installed again, each in its slot, and their listings loaded. A table that was changed by hand may
 * hold what no listing tells. */
static void restart(void)
{
    static struct text texts[CRISP_SLOTS];
    static uint8_t before[CRISP_TABLE];
    if (by_hand) return;
    memcpy(before, table, CRISP_TABLE);
    for (size_t i = 0; i < CRISP_SLOTS; i++)
        if (before[SLOT * i]) call_listing(i, 2048), texts[i] = printed[(prints - 1) % PRINTED];
    say("the table is lost\n");
    clear_tables();
    if (!install_again(before, CRISP_SLOTS - 1)) differs("an install after a restart");
    for (size_t i = 0; i < CRISP_SLOTS; i++)
        if (before[SLOT * i]) {
            if (call_load(texts[i].bytes, texts[i].length)) differs("a load after a restart");
            by_load[LOADED_THERE]++;
        }
    if (memcmp(table, before, CRISP_TABLE)) differs("the table after a restart");
    by_load[RESTARTS]++;
    go_on_with(before);
}

/* ---- sequences */

static void random_call(void)
{
    switch (below(28)) {
    case 0: case 1: case 2: random_install(); break;
    case 3: if (!below(3)) call_remove(below(18)); break;
    case 4: call_listing(below(18), some_room()); break;
    case 5: if (!below(4)) random_damage(); break;
    case 6: random_protect((int)below(ENTRIES), 0); break;
    case 7: case 8: case 9: random_protect((int)below(ENTRIES), 1); break;
    case 10: case 11: random_load(); break;
    case 12: if (!below(2)) restart(); break;
    case 13: case 14: case 15: random_change(); break;
    case 16: case 17: random_counts(); break;
    default: random_receive();
    }
}

/* A sequence is told by its seed alone: new senders, an empty table, some entries, and then any calls. */
static void random_sequence(uint64_t seed)
{
    random_state = seed;
    traced = 0;
    say("sequence of seed %llu\n", (unsigned long long)seed);
    clear_tables();
    make_senders();
    int entries = below(8) ? 1 + (int)below(4) : ENTRIES;
    for (int i = 0; i < entries; i++) install(i);
    for (int n = 2 + (int)below(10); n > 0; n--) {
        if (below(4)) random_call();
        else {                                                                  /* a message to an entry that stands, and at once */
            random_protect((int)below((uint64_t)entries), 1);
            random_receive();
        }
    }
}

/* ---- sweeps: every length, every byte, every size */

static uint8_t saved[CRISP_TABLE];

static void back(void)
{
    memcpy(table, saved, CRISP_TABLE);
    memcpy(ref_table, saved, CRISP_TABLE);
    traced = 0;
}

static uint8_t swept[2048];
static size_t swept_length;

/* the next message of sender i is kept in `swept` */
static int next_message(int i, const uint8_t *payload, size_t n)
{
    struct crisp_answer a = call_protect(&senders[i], &ref_senders[i], payload, n, 2048);
    memcpy(swept, out, sizeof swept);
    swept_length = a.length;
    return a.reply == 0;
}

static void arrives(int i, size_t n, size_t source_len, size_t room) { call_receive(swept, n, senders[i].source, source_len, room); }

/* cut at every length, every bit flipped, every length of the source */
static void sweep_message(int i)
{
    size_t source_len = senders[i].source_len;
    for (size_t cut = 0; cut <= swept_length; cut++) back(), arrives(i, cut, source_len, 2048);
    for (size_t bit = 0; bit < 8 * swept_length; bit++) {
        back();
        swept[bit / 8] ^= (uint8_t)(1 << bit % 8);
        arrives(i, swept_length, source_len, 2048);
        swept[bit / 8] ^= (uint8_t)(1 << bit % 8);
    }
    for (size_t length = 0; length <= 32; length++) back(), arrives(i, swept_length, length, 2048);
}

/* outputs of every size around 2,048, and some below */
static void sweep_room(int i, const uint8_t *payload, size_t n)
{
    for (size_t room = 0; room <= 2060; room += room > 3 && room < 2030 ? 127 : 1) {
        back(), arrives(i, swept_length, senders[i].source_len, room);
        call_listing(0, room);
        call_protect(&senders[i], &ref_senders[i], payload, n, room);
    }
}

/* each byte of the entry replaced, and every function on what is left of it */
static void sweep_damage(int i)
{
    for (size_t at = 0; at < SLOT; at++)
        for (int v = 0; v < 5; v++) {
            back();
            table[at] = ref_table[at] = (uint8_t)(v == 0 ? 0 : v == 1 ? 255 : v == 2 ? saved[at] + 1 : saved[at] ^ (v == 3 ? 0x80 : OTHER_LENGTH));
            say("byte %zu becomes %02x\n", at, table[at]);
            arrives(i, swept_length, senders[i].source_len, 2048);
            call_listing(0, 2048);
            install(i);
            call_remove(0);
        }
}

static void sweep(int i, size_t n)
{
    static uint8_t payload[2048];
    fill(payload, n);
    clear_tables();
    traced = 0;
    install(i);
    if (!next_message(i, payload, n)) return;
    memcpy(saved, table, CRISP_TABLE);
    sweep_message(i);
    sweep_room(i, payload, n);
    sweep_damage(i);                                                            /* a fresh entry, and one that has taken a message */
    back();
    for (int twice = 0; twice < 2; twice++) arrives(i, swept_length, senders[i].source_len, 2048);      /* and replayed */
    memcpy(saved, table, CRISP_TABLE);
    if (next_message(i, payload, n)) sweep_damage(i);
}

static void sweep_payloads(int i)
{
    static uint8_t data[2100];
    fill(data, sizeof data);
    clear_tables();
    install(i);
    for (size_t n = 0; n <= 2100; n += n > 40 && n < 1880 ? 37 : 1) {
        traced = 0;
        struct crisp_answer a = call_protect(&senders[i], &ref_senders[i], data, n, 2048);
        if (a.reply) continue;
        uint8_t bytes[2048];
        memcpy(bytes, out, a.length);
        call_receive(bytes, a.length, senders[i].source, senders[i].source_len, 2048);
    }
}

/* the senders for the sweeps: current 5, start 0 to 6, and of each suite each edition, with a start and without. The long suites have a KeyId of one, of
 * two and of 128 bytes: senders 8, 9 and 13 are of suite 241, and 16, 17 and 21 of suite 242. */
static void make_swept(void)
{
    static const uint8_t in_suites[] = {1, 1, 2, 1}, in_editions[] = {1, 2, 2, 1};
    make_senders();
    for (int i = 0; i < ENTRIES; i++) {
        senders[i].current = 5;
        senders[i].suite = i < 8 ? in_suites[i / 2] : i < 16 ? CRISP_MAGMA_CTR_LONG : CRISP_MAGMA_NULL_LONG;
        senders[i].edition = editions[i] = i < 8 ? in_editions[i / 2] : 2;
        starts[i] = i % 2 ? 6 - (uint64_t)i / 4 : 0;
    }
    memcpy(ref_senders, senders, sizeof senders);
}

/* ---- the sweeps of loads: the listing of an entry that has a history, and everything about it, at that entry installed again */

static struct text listed;
static struct lines listed_lines;

static void load_text(const struct text *t) { back(), call_load(t->bytes, t->length); }

static void load_lines(const struct lines *l)
{
    static struct text t;
    join(l, &t), load_text(&t);
}

/* the listing with another value in a line */
static void load_with(int line, const char *value)
{
    struct lines l = listed_lines;
    strcpy(l.of[line], value);
    load_lines(&l);
}

static void load_number(int line, uint64_t x)
{
    struct lines l = listed_lines;
    set_number(&l, line, x), load_lines(&l);
}

/* what was swept last, with its last byte changed */
static void arrives_forged(int i)
{
    swept[swept_length - 1] ^= 1;
    arrives(i, swept_length, senders[i].source_len, 2048);
    swept[swept_length - 1] ^= 1;
}

/* sender i's entry in that slot, behind others, with six messages of which some have left the window. Each came twice, and before three of them a forged
 * one. Answers the last of them in `swept`. */
static int make_listed(int i, size_t slot, uint64_t size)
{
    static const uint8_t payload[8] = "17.3 GJ";
    clear_tables();
    traced = 0;
    sizes[i] = size;
    for (size_t k = 0; k < slot; k++) install_filler(k);
    install(i);
    for (uint64_t n = 0; n < 6; n++) {
        senders[i].current += n % 3, ref_senders[i].current += n % 3;
        if (!next_message(i, payload, n)) return 0;
        if (n % 2) arrives_forged(i);
        for (int twice = 0; twice < 2; twice++) arrives(i, swept_length, senders[i].source_len, 2048);
    }
    call_listing(slot, 2048);
    if (answered.reply) return 0;
    listed = printed[(prints - 1) % PRINTED];
    split(&listed, &listed_lines);
    call_remove(slot);
    install(i);
    memcpy(saved, table, CRISP_TABLE);
    return answered.slot == slot;
}

/* it loads and is printed again; the last message does not pass again, the next one does; a second load is refused */
static void sweep_history(int i, size_t slot)
{
    load_text(&listed);
    if (answered.reply) differs("a listing that does not load");
    call_listing(slot, 2048);
    if (answered.length != listed.length || memcmp(out, listed.bytes, listed.length)) differs("the listing after a load");
    arrives(i, swept_length, senders[i].source_len, 2048);
    if (answered.reply != 10) differs("a repeated message after a load");
    if (next_message(i, CRISP_NOTHING, 0)) arrives(i, swept_length, senders[i].source_len, 2048);
    if (answered.reply) differs("the next message after a load");
    call_load(listed.bytes, listed.length);
}

/* each line left out, doubled, in each other's place, ended in another way; and what stands in front of and behind the text */
static void sweep_lines(void)
{
    static const char *const ends[] = {"", "\r\n", "\n\n", "\r", " \n", "\n ", "\t\n", "\v"};
    static struct text t;
    const struct lines *l = &listed_lines;
    for (int line = 0; line < LINES; line++) {
        for (int times = 0; times <= 2; times += 2) {
            t.length = 0;
            for (int i = 0; i < LINES; i++)
                for (int n = i == line ? times : 1; n > 0; n--) add_line(&t, l, i, "\n");
            load_text(&t);
        }
        for (int other = 0; other < LINES; other++) {
            t.length = 0;
            for (int i = 0; i < LINES; i++) add_line(&t, l, i == line ? other : i == other ? line : i, "\n");
            load_text(&t);
        }
        for (size_t end = 0; end < sizeof ends / sizeof *ends; end++) {
            t.length = 0;
            for (int i = 0; i < LINES; i++) add_line(&t, l, i, i == line ? ends[end] : "\n");
            load_text(&t);
        }
    }
    for (size_t end = 0; end < sizeof ends / sizeof *ends; end++) {
        t.length = 0;
        for (int i = 0; i < LINES; i++) add_line(&t, l, i, ends[end]);
        load_text(&t);
    }
    for (int byte = 0; byte < 256; byte++) {
        t = listed, t.bytes[t.length++] = (uint8_t)byte, load_text(&t);
        t.bytes[0] = (uint8_t)byte, memcpy(t.bytes + 1, listed.bytes, listed.length), load_text(&t);
    }
    t = listed, add(&t, "answer=0\n"), load_text(&t);
    t.length = 0, add(&t, "answer=0\n"), memcpy(t.bytes + t.length, listed.bytes, listed.length), t.length += listed.length, load_text(&t);
}

/* each decimal: what is none, numbers about its own, about the powers of two, and small ones */
static void sweep_decimals(void)
{
    static const char *const around[] = {"0%s", "00%s", "+%s", "-%s", " %s", "%s ", "%s\r", "%s0", "1%s", "=%s"};
    char value[64];
    for (int line = 0; line < LINES; line++) {
        if (in_hex(line)) continue;
        uint64_t own = number(&listed_lines, line);
        for (int i = 0; i < NOT_DECIMAL; i++) load_with(line, not_decimal[i]);
        for (size_t i = 0; i < sizeof around / sizeof *around; i++) snprintf(value, sizeof value, around[i], listed_lines.of[line]), load_with(line, value);
        snprintf(value, sizeof value, "184467440737095%llu", 51616 + (unsigned long long)own), load_with(line, value);     /* its own and 2^64 */
        for (int bit = 0; bit < 64; bit++)
            for (uint64_t x = 0; x < 3; x++) load_number(line, own + (1ULL << bit) - x), load_number(line, (1ULL << bit) - x);
        for (uint64_t x = 0; x <= 300; x++) load_number(line, x), load_number(line, 18446744073709551615ULL - x);
    }
}

/* hex of each length from 0 to 300, with its own digits as far as they go, and in upper case */
static void sweep_hex(void)
{
    for (int line = 0; line < LINES; line++) {
        if (!in_hex(line)) continue;
        struct lines l = listed_lines;
        char *p = l.of[line];
        size_t n = strlen(p);
        memset(p + n, '0', 301 - n);
        for (size_t length = 0; length <= 300; length++) {
            char next = p[length];
            p[length] = 0, load_lines(&l), p[length] = next;
        }
        p[n] = 0;
        for (size_t i = 0; i < n; i++) {
            char digit = p[i];
            p[i] = 'A', load_lines(&l);
            p[i] = 'a', load_lines(&l);
            if (digit >= 'a') p[i] = (char)(digit - 'a' + 'A'), load_lines(&l);
            p[i] = digit;
        }
        for (size_t i = 0; i < n; i++)
            if (p[i] >= 'a') p[i] = (char)(p[i] - 'a' + 'A');
        load_lines(&l);
    }
}

/* whatever is wrong with the text, the entry and the record at once: the first of 21, 22, 23 is given */
static void sweep_order(size_t slot)
{
    for (int damaged = 0; damaged < 4; damaged++)
        for (int other = -1; other <= AT_START + 1; other++)
            for (int bad = -1; bad < LINES; bad++) {
                struct lines l = listed_lines;
                back();
                if (damaged == 1) set_number(&l, AT_ACCEPTED, 0);
                if (damaged > 1) set_number(&l, damaged == 2 ? AT_REPLAYS : AT_FORGED, CRISP_COUNTED + 1ULL);
                if (other == AT_START + 1) put_number(SLOT * slot + ACCEPTED, 1);
                else if (other == AT_SLOT) set_number(&l, AT_SLOT, 16 + slot);
                else if (other >= 0 && in_hex(other)) strcat(l.of[other], "00");
                else if (other >= 0) set_number(&l, other, number(&l, other) + 1);
                if (bad >= 0) strcat(l.of[bad], in_hex(bad) ? "0" : " ");
                static struct text t;
                join(&l, &t), call_load(t.bytes, t.length);
            }
}

static void load_history(const struct history *h)
{
    struct lines l = listed_lines;
    put_history(&l, h), load_lines(&l);
}

/* each mark, highest numbers, totals and counters about their bounds */
static void sweep_record(void)
{
    struct history own, h;
    history_in(&listed_lines, &own);
    uint64_t most = own.count + own.floor - own.start;
    for (uint64_t i = 0; i < 256; i++)
        for (uint64_t more = 0; more < 4; more++) h = own, turn(&h, i), h.accepted += more - 1, load_history(&h);
    for (uint64_t x = 0; x < 24; x++) {
        h = own, h.highest = x, load_history(&h);
        h = own, h.highest = own.highest + x - 12, load_history(&h);
        h = own, h.highest = CRISP_LAST - x, load_history(&h);
        h = own, h.accepted = own.count + x - 12, h.bytes = 0, load_history(&h);
        h = own, h.accepted = most + x - 12, load_history(&h);
        h = own, h.bytes = CRISP_PAYLOAD * own.accepted + x - 12, load_history(&h);
        h = own, h.replays = CRISP_COUNTED + x - 12, load_history(&h);
        h = own, h.forged = CRISP_COUNTED + x - 12, load_history(&h);
    }
    memset(&h, 0, sizeof h), load_history(&h);
    h.marks[31] = 1, h.accepted = 1, load_history(&h);
    h.highest = CRISP_LAST, load_history(&h);
    h.accepted = UINT64_MAX, load_history(&h);
    h.bytes = UINT64_MAX, load_history(&h);
}

/* each byte of the slot replaced; each value of a byte that the text tells, there and in the text; and stored lengths of every size */
static void sweep_slot(size_t slot)
{
    static const struct { int place, line; } told[] = {{FLAG, AT_FLAG}, {SUITE, AT_SUITE}, {EDITION, AT_EDITION}};
    static const uint64_t numbers[] = {0, 1, 2, 255, 256, 257, CRISP_LAST - 1, CRISP_LAST, CRISP_LAST + 1ULL, 1ULL << 63, UINT64_MAX};
    size_t at = SLOT * slot;
    struct lines l;
    static struct text t;
    for (size_t i = 0; i < SLOT; i++)
        for (int v = 0; v < 5; v++) {
            back();
            put(at + i, (uint8_t)(v == 0 ? 0 : v == 1 ? 255 : v == 2 ? saved[at + i] + 1 : saved[at + i] ^ (v == 3 ? 0x80 : OTHER_LENGTH)));
            call_load(listed.bytes, listed.length);
        }
    for (unsigned x = 0; x < 256; x++) {
        for (size_t i = 0; i < sizeof told / sizeof *told; i++) {
            back(), l = listed_lines;
            put(at + (size_t)told[i].place, (uint8_t)x), set_number(&l, told[i].line, x), join(&l, &t), call_load(t.bytes, t.length);
        }
        back(), l = listed_lines;
        put(at + KEYID, (uint8_t)x), set_hex(&l, AT_KEYID, table + at + KEYID, table[at + KEYID_LEN]), join(&l, &t), call_load(t.bytes, t.length);
        back(), l = listed_lines;
        put(at + KEYID_LEN, (uint8_t)x), set_hex(&l, AT_KEYID, table + at + KEYID, x), join(&l, &t), call_load(t.bytes, t.length);
        if (at + SOURCE + x > CRISP_TABLE) continue;
        back(), l = listed_lines;
        put(at + SOURCE_LEN, (uint8_t)x), set_hex(&l, AT_SOURCE, table + at + SOURCE, x), join(&l, &t), call_load(t.bytes, t.length);
    }
    for (size_t i = 0; i < sizeof numbers / sizeof *numbers; i++) {
        back(), l = listed_lines;
        put_number(at + SIZE, numbers[i]), set_number(&l, AT_SIZE, numbers[i]), join(&l, &t), call_load(t.bytes, t.length);
        back(), l = listed_lines;
        put_number(at + START, numbers[i]), set_number(&l, AT_START, numbers[i]), join(&l, &t), call_load(t.bytes, t.length);
    }
}

/* each beginning of the text, and each byte of it changed to each other value */
static void sweep_bytes(void)
{
    struct text t = listed;
    for (t.length = 0; t.length < listed.length; t.length++) load_text(&t);
    for (size_t i = 0; i < listed.length; i++) {
        for (unsigned x = 1; x < 256; x++) t.bytes[i] = (uint8_t)(listed.bytes[i] ^ x), load_text(&t);
        t.bytes[i] = listed.bytes[i];
    }
}

/* texts of 4 MiB: of one byte alone; as one value, in each line; and behind a whole text */
static void sweep_long_texts(void)
{
    enum { LONG = 4 << 20 };
    static uint8_t text[LONG + sizeof listed.bytes];
    static const char bytes[] = "0a1\n=s ";
    for (size_t i = 0; i < sizeof bytes; i++) memset(text, bytes[i], LONG), back(), call_load(text, LONG);
    memcpy(text, listed.bytes, listed.length);
    for (size_t i = 0; i < sizeof bytes; i++) memset(text + listed.length, bytes[i], LONG), back(), call_load(text, listed.length + LONG);
    static struct text front, behind;
    front.length = 0;
    for (int line = 0; line < LINES; line++) {
        add(&front, line_names[line]), add(&front, "=");
        behind.length = 0;
        add(&behind, "\n");
        for (int i = line + 1; i < LINES; i++) add_line(&behind, &listed_lines, i, "\n");
        memcpy(text, front.bytes, front.length);
        memset(text + front.length, in_hex(line) ? 'a' : '1', LONG);
        memcpy(text + front.length + LONG, behind.bytes, behind.length);
        back(), call_load(text, front.length + LONG + behind.length);
        add(&front, listed_lines.of[line]), add(&front, "\n");
    }
}

/* an entry of each suite and edition, in slots from the first to the last; the second has the longest KeyId */
static const struct { int sender; size_t slot; uint64_t size; } loaded[] = {{0, 0, 4}, {5, 15, 256}, {3, 1, 1}, {9, 10, 65}, {16, 7, 8}};
enum { LOADED = sizeof loaded / sizeof *loaded };

static void sweep_loads(void)
{
    for (int k = 0; k < LOADED; k++) {
        make_swept();
        if (!make_listed(loaded[k].sender, loaded[k].slot, loaded[k].size)) differs("an entry that is to be listed");
        sweep_history(loaded[k].sender, loaded[k].slot);
        sweep_lines();
        sweep_decimals();
        sweep_hex();
        sweep_order(loaded[k].slot);
        sweep_record();
        sweep_slot(loaded[k].slot);
    }
}

static void sweep_texts(void)
{
    for (int k = 0; k < LOADED; k++) {
        make_swept();
        make_listed(loaded[k].sender, loaded[k].slot, loaded[k].size);
        sweep_bytes();
        if (k == 0) sweep_long_texts();
    }
}

/* ---- the sweep of counters: an entry that has a history, with each two of these counters, and whatever an arrival, a listing, a load, a change, a removal
 * and an install make of them */

enum { FIXED = 13, COUNTERS = 20 };
static uint64_t counters[COUNTERS] = {0, 1, 255, 256, 65535, 65536, (1 << 24) - 1, 1 << 24, CRISP_COUNTED - 1, CRISP_COUNTED, CRISP_COUNTED + 1ULL,
                                      1ULL << 63, UINT64_MAX};          /* and random ones */

/* arrivals at the entry, and what they meet where it is not damaged */
enum { MEETINGS = 14 };
static struct { struct message message; uint64_t reply; size_t room; } meetings[MEETINGS];
static int met;

/* what was swept last, to be changed so that it meets that */
static struct message *meets(int from, uint64_t reply)
{
    struct message *m = &meetings[met].message;
    m->from = from, m->length = swept_length;
    memcpy(m->bytes, swept, swept_length);
    meetings[met].reply = reply;
    meetings[met++].room = reply == 1 ? 2047 : 2048;
    return m;
}

/* the entry has taken what was swept last, and will take the next message unless one byte of it is changed */
static int make_meetings(int i)
{
    struct history h;
    history_in(&listed_lines, &h);
    met = 0;
    meets(i, 10), meets(i, 1);
    set_seqnum(meets(i, 9), 0), set_seqnum(meets(i, 9), h.floor - 1), set_seqnum(meets(i, 1), h.floor - 1);
    set_seqnum(meets(i, 11), h.highest + 1), set_seqnum(meets(i, 1), h.highest + 1);
    meets(i, 2)->length = 13, meets(i, 3)->bytes[1] = 1, meets(i, 4)->bytes[2] = 3, meets(i, 6)->bytes[0] ^= 0x80;
    meets(i, 8)->bytes[2] ^= OTHER_LENGTH;
    if (h.floor == 0 || !next_message(i, CRISP_NOTHING, 0)) return 0;
    meets(i, 0), meets(i, 11)->bytes[swept_length - 1] ^= 1;
    return met == MEETINGS;
}

/* each of them, at the entry with such counters; where it is damaged, by them or otherwise, 7 takes the place of all that come behind it */
static void sweep_meetings(size_t slot, uint64_t replays, uint64_t forged, int damaged)
{
    for (int k = 0; k < MEETINGS; k++) {
        const struct message *m = &meetings[k].message;
        uint64_t reply = meetings[k].reply;
        back(), put_counters(slot, replays, forged);
        if (damaged) put_number(SLOT * slot + ACCEPTED, UINT64_MAX);
        int behind = (damaged || replays > CRISP_COUNTED || forged > CRISP_COUNTED) && (reply == 0 || reply > 7);
        call_receive(m->bytes, m->length, senders[m->from].source, senders[m->from].source_len, meetings[k].room);
        if (answered.reply != (behind ? 7 : reply)) differs("a reply beside such counters");
    }
    back(), put_counters(slot, replays, forged);
    if (damaged) put_number(SLOT * slot + ACCEPTED, UINT64_MAX);
    call_listing(slot, 2048);
}

/* a text with such counters, at the entry as it stands anew, whose own are any */
static void sweep_told(size_t slot, uint64_t replays, uint64_t forged, const uint8_t anew[CRISP_TABLE])
{
    static struct text t;
    struct lines l = listed_lines;
    set_number(&l, AT_REPLAYS, replays), set_number(&l, AT_FORGED, forged), join(&l, &t);
    traced = 0;
    memcpy(table, anew, CRISP_TABLE), memcpy(ref_table, anew, CRISP_TABLE);
    if (below(2)) put_counters(slot, counters[below(COUNTERS)], counters[below(COUNTERS)]);
    if (call_load(t.bytes, t.length) != (replays > CRISP_COUNTED || forged > CRISP_COUNTED ? 23 : 0)) differs("a load of such counters");
    if (answered.reply) return;
    call_listing(slot, 2048);
    if (answered.length != t.length || memcmp(out, t.bytes, t.length)) differs("the listing after a load of such counters");
}

/* an entry that is changed, removed, or installed in a slot that is free for all its bytes, begins with counters 0 */
static void sweep_cleared(int i, size_t slot, uint64_t replays, uint64_t forged)
{
    for (int how = 0; how < 3; how++) {
        struct next n = entry_in(saved + SLOT * slot);
        back(), put_counters(slot, replays, forged);
        if (how == 0) call_change(slot, &n);
        if (how == 1) call_remove(slot);
        if (how == 2) put(SLOT * slot, 0), install(i);
        if (answered.reply || number_at(table + SLOT * slot + REPLAYS) || number_at(table + SLOT * slot + FORGED)) differs("a counter of a fresh entry");
    }
}

/* one arrival after another: each counts, and at the limit none does */
static void sweep_climb(size_t slot, uint64_t from, uint64_t times)
{
    uint64_t counted[2] = {from, from};
    back(), put_counters(slot, from, from);
    for (uint64_t n = 0; n < times; n++)
        for (int k = 0; k < MEETINGS; k++) {
            const struct message *m = &meetings[k].message;
            uint64_t reply = meetings[k].reply;
            if (reply < 9) continue;
            traced = 0;
            call_receive(m->bytes, m->length, senders[m->from].source, senders[m->from].source_len, 2048);
            counted[reply == 11] += counted[reply == 11] < CRISP_COUNTED;
            if (answered.reply != reply || number_at(table + SLOT * slot + REPLAYS) != counted[0] || number_at(table + SLOT * slot + FORGED) != counted[1])
                differs("a counter, one arrival after another,");
        }
}

static void sweep_counters(void)
{
    static uint8_t anew[CRISP_TABLE];
    for (int k = FIXED; k < COUNTERS; k++) counters[k] = rnd() >> below(64);
    for (int k = 0; k < LOADED; k++) {
        int i = loaded[k].sender;
        size_t slot = loaded[k].slot;
        make_swept();
        if (!make_listed(i, slot, loaded[k].size) || !make_meetings(i)) differs("an entry that is to count");
        memcpy(anew, saved, CRISP_TABLE);
        load_text(&listed);
        memcpy(saved, table, CRISP_TABLE);
        for (int n = 0; n < COUNTERS * COUNTERS; n++) {
            uint64_t replays = counters[n / COUNTERS], forged = counters[n % COUNTERS];
            sweep_meetings(slot, replays, forged, 0);
            sweep_told(slot, replays, forged, anew);
            sweep_cleared(i, slot, replays, forged);
        }
        for (int n = 0; n < COUNTERS; n++) sweep_meetings(slot, counters[n], counters[COUNTERS - 1 - n], 1);
        sweep_climb(slot, 0, 100), sweep_climb(slot, CRISP_COUNTED - 20, 10);
    }
}

/* ---- the sweeps of changes: a full table, in which one entry has a history */

enum { ARCHIVE = 6 };
static struct message archive[ARCHIVE];         /* what that entry has taken, the last with the highest number */
static uint64_t archived[ARCHIVE];              /* their numbers */
static struct next own;                         /* what stands in its slot */

/* sender i's entry in that slot, fillers in all others; with that flag, where its KeyId goes with it */
static int make_archive(int i, size_t slot, uint8_t flag)
{
    static const uint8_t payload[8] = "17.3 GJ";
    make_swept();
    clear_tables();
    traced = 0;
    sizes[i] = 64;
    if (senders[i].keyid[0] != 0x80) senders[i].flag = ref_senders[i].flag = flag;
    for (size_t k = 0; k < CRISP_SLOTS; k++) k == slot ? install(i) : (void)install_filler(k);
    for (int n = 0; n < ARCHIVE; n++) {
        senders[i].current += (uint64_t)n % 3, ref_senders[i].current += (uint64_t)n % 3;
        if (!next_message(i, payload, (size_t)n)) return 0;
        archive[n].length = swept_length, archive[n].from = i;
        memcpy(archive[n].bytes, swept, swept_length);
        arrives(i, swept_length, senders[i].source_len, 2048);
        if (answered.reply || answered.slot != slot) return 0;
        archived[n] = answered.seqnum;
    }
    own = entry_in(table + SLOT * slot);
    memcpy(saved, table, CRISP_TABLE);
    return next_message(i, payload, 7);
}

static uint64_t arrives_again(int n)
{
    const struct crisp_sender *s = &senders[archive[n].from];
    call_receive(archive[n].bytes, archive[n].length, s->source, s->source_len, 2048);
    return answered.reply;
}

static uint64_t change_back(size_t slot, const struct next *n)
{
    back(), call_change(slot, n);
    return answered.reply;
}

/* The same key: from each start on, what was taken before passes once more and no more than once, and nothing below; the next message passes. */
static void sweep_starts(size_t slot)
{
    uint64_t behind = archived[ARCHIVE - 1] + 1;
    for (uint64_t start = 0; start <= behind; start++) {
        struct next n = own;
        n.start = start;
        if (change_back(slot, &n)) differs("a change to the same key");
        for (int k = 0; k < ARCHIVE; k++)
            if (arrives_again(k) != (archived[k] < start ? 9 : 0)) differs("what was taken before a change, from its start on,");
        for (int k = 0; k < ARCHIVE; k++)
            if (arrives_again(k) == 0) differs("what was taken twice after a change");
        arrives(archive[0].from, swept_length, own.data.source_len, 2048);
        if (answered.reply || answered.slot != slot) differs("the next message after a change");
        call_listing(slot, 2048);
    }
}

/* all that was taken before is answered so, by the entry as it was changed */
static void archive_meets(size_t slot, const struct next *n, uint64_t reply, const char *what)
{
    if (change_back(slot, n)) differs(what);
    for (int k = 0; k < ARCHIVE; k++)
        if (arrives_again(k) != reply) differs(what);
    call_listing(slot, 2048);
}

/* one thing of the key data is another, with start 0 */
static void sweep_other_data(size_t slot)
{
    struct next start_0 = own, n;
    start_0.start = 0;
    n = start_0, n.data.suite ^= OTHER_LENGTH, n.data.edition = 2, archive_meets(slot, &n, 8, "a change to another suite");
    n = start_0, n.data.edition ^= 3;
    if (own.data.suite == 1) archive_meets(slot, &n, 11, "a change to another edition");
    n = start_0, n.data.source[0] ^= 1, archive_meets(slot, &n, own.data.flag ? 6 : 11, "a change to another source");
    n = start_0, n.data.flag ^= 1, archive_meets(slot, &n, 6, "a change to another flag");
    n = start_0, n.data.keyid[0] = 0x2a, n.data.keyid_len = 1, archive_meets(slot, &n, 6, "a change to another KeyId");
    n = start_0, n.data.key[31] ^= 1, archive_meets(slot, &n, 11, "a change to a new key");
    struct crisp_sender s = n.data, r = n.data;
    uint8_t first[2048];
    struct crisp_answer a = call_protect(&s, &r, CRISP_NOTHING, 0, 2048);
    memcpy(first, out, sizeof first);
    call_receive(first, a.length, s.source, s.source_len, 2048);
    if (answered.reply || answered.slot != slot) differs("the first message by a new key");
}

/* every number of a slot, in a full table and in one that has a free slot */
static void sweep_numbers(size_t slot)
{
    static const size_t around[] = {0, SIZE_MAX - 300, SIZE_MAX / SLOT - 20};           /* 288 times the last ones goes round to the table's beginning */
    static size_t numbers[3 * 320 + 64 * 18];
    size_t count = 0, freed = (slot + 5) % CRISP_SLOTS;
    for (size_t k = 0; k < 3; k++)
        for (size_t i = 0; i < 320; i++) numbers[count++] = around[k] + i;
    for (int bit = 0; bit < 64; bit++)
        for (size_t i = 0; i < 18; i++) numbers[count++] = ((size_t)1 << bit) + i - 1;
    struct next n = own;
    n.data.keyid[0] = 0x2a, n.data.keyid_len = 1;
    for (size_t k = 0; k < 2 * count; k++) {
        size_t at = numbers[k / 2];
        back();
        if (k % 2) call_remove(freed);
        call_change(at, &n);
        if (answered.reply != (at > 15 || (k % 2 && at == freed) ? 16 : 0)) differs("a change by the number of a slot");
    }
}

static void change_length(size_t slot, size_t *length, size_t x, struct next *n)
{
    size_t before = *length;
    *length = x;
    change_back(slot, n);
    *length = before;
}

/* every value of a byte, every length, sizes and starts about the powers of two */
static void sweep_data(size_t slot)
{
    struct next n = own;
    for (unsigned x = 0; x < 256; x++) {
        n = own, n.data.flag = (uint8_t)x, change_back(slot, &n);
        for (size_t i = 0; i < EVERY_SUITE; i++) n = own, n.data.suite = suites[i], n.data.edition = (uint8_t)x, change_back(slot, &n);
        for (uint8_t edition = 0; edition < 4; edition++) n = own, n.data.suite = (uint8_t)x, n.data.edition = edition, change_back(slot, &n);
        for (uint8_t flag = 0; flag < 2; flag++) {
            n = own, n.data.keyid[0] = (uint8_t)x, n.data.flag = flag, change_back(slot, &n);
            size_t asked = x <= 0x80 ? 1 : x - 0x7f;
            for (size_t length = asked - 1; length < asked + 2; length++) change_length(slot, &n.data.keyid_len, length, &n);
            change_length(slot, &n.data.keyid_len, asked + 256, &n);
        }
    }
    n = own;
    for (size_t length = 0; length <= 600; length++) {
        change_length(slot, &n.data.keyid_len, length, &n);
        change_length(slot, &n.data.source_len, length, &n);
        change_length(slot, &n.key_len, length, &n);
    }
    for (int bit = 0; bit < 64; bit++)
        for (uint64_t x = 0; x < 3; x++) {
            n = own, n.size = (1ULL << bit) + x - 1, change_back(slot, &n);
            n = own, n.start = (1ULL << bit) + x - 1, change_back(slot, &n);
        }
    for (uint64_t x = 0; x <= 300; x++) n = own, n.size = x, change_back(slot, &n), n.size = UINT64_MAX - x, change_back(slot, &n);
}

/* each slot to each slot's name: its own alone is no twin; and with another source, which is part of the name for flag 1 alone */
static void sweep_names(void)
{
    for (size_t i = 0; i < CRISP_SLOTS; i++)
        for (size_t k = 0; k < CRISP_SLOTS; k++) {
            struct next n = entry_in(saved + SLOT * k);
            if (change_back(i, &n) != (i == k ? 0 : 14)) differs("a change to a slot's name");
            n.data.source[1] ^= 1;
            if (change_back(i, &n) != (i == k || n.data.flag ? 0 : 14)) differs("a change to a slot's name with another source");
            n.data.flag ^= 1, change_back(i, &n);
        }
}

/* Another slot is a copy of this one, by hand, with any first byte and each stored length: this one is changed to the name that it has, and so is the
 * other; then to another name, and messages go where the name still stands. */
static void sweep_copies(size_t slot)
{
    for (size_t i = 0; i < CRISP_SLOTS; i++) {
        if (i == slot) continue;
        size_t at = SLOT * i;
        for (int byte = 0; byte < 3 * 256; byte++) {
            for (int which = 0; which < 2; which++) {
                back();
                memcpy(table + at, saved + SLOT * slot, SLOT), memcpy(ref_table + at, saved + SLOT * slot, SLOT);
                put(at + (byte < 256 ? 0 : byte < 512 ? KEYID_LEN : SOURCE_LEN), (uint8_t)byte);
                call_change(which ? i : slot, &own);
            }
            if (byte % 256 > 1 && byte % 256 < 254) continue;
            struct next n = own;
            n.data.keyid[0] = 0x2a, n.data.keyid_len = 1;
            call_change(slot, &n);
            arrives(archive[0].from, swept_length, own.data.source_len, 2048);
        }
    }
}

/* a slot that is one, is free, is none; each thing unsound, or none; its own name, another slot's, a new one: the first of 16, 13, 14 is given */
static void sweep_change_order(size_t slot)
{
    size_t other = (slot + 1) % CRISP_SLOTS, freed = (slot + 2) % CRISP_SLOTS;
    const size_t at[] = {slot, freed, CRISP_SLOTS + slot, other};
    for (size_t k = 0; k < sizeof at / sizeof *at; k++)
        for (int fault = -1; fault < UNSOUND; fault++)
            for (int name = 0; name < 3; name++) {
                back();
                call_remove(freed);
                struct next n = name == 1 ? entry_in(saved + SLOT * other) : own;
                if (name == 2) n.data.keyid[0] = 0x2a, n.data.keyid_len = 1;
                switch (fault) {
                case BAD_FLAG: n.data.flag = 2; break;
                case BAD_KEYID: n.data.keyid_len++; break;
                case ABSENT_KEYID: n.data.keyid[0] = 0x80, n.data.keyid_len = 1, n.data.flag = 0; break;
                case BAD_SOURCE: n.data.source_len = 33; break;
                case BAD_SUITE: n.data.suite = 3; break;
                case BAD_EDITION: n.data.edition = 3; break;
                case BAD_KEY: n.key_len = 31; break;
                case BAD_SIZE: n.size = 257; break;
                case BAD_START: n.start = CRISP_LAST + 1ULL; break;
                }
                call_change(at[k], &n);
                uint64_t twin = (name == 0 && at[k] != slot) || (name == 1 && at[k] != other) ? 14 : 0;
                if (answered.reply != (k == 1 || k == 2 ? 16 : fault >= 0 ? 13 : twin)) differs("the order of 16, 13 and 14");
            }
}

/* each byte of the slot replaced, so that it is damaged, has another name, or is free; then it is changed, and in its place another one to its name */
static void sweep_change_damaged(size_t slot)
{
    for (size_t i = 0; i < SLOT; i++)
        for (int v = 0; v < 5; v++)
            for (int which = 0; which < 2; which++) {
                uint8_t x = saved[SLOT * slot + i];
                back();
                put(SLOT * slot + i, (uint8_t)(v == 0 ? 0 : v == 1 ? 255 : v == 2 ? x + 1 : x ^ (v == 3 ? 0x80 : OTHER_LENGTH)));
                call_change((slot + (size_t)which) % CRISP_SLOTS, &own);
                call_listing(slot, 2048);
                arrives_again(ARCHIVE - 1);
            }
}

static void sweep_changes(void)
{
    static const struct { int sender; size_t slot; uint8_t flag; } changed[] = {{0, 0, 0}, {0, 7, 1}, {5, 15, 1}, {3, 1, 0}, {9, 10, 0}, {16, 6, 1}};
    for (size_t k = 0; k < sizeof changed / sizeof *changed; k++) {
        size_t slot = changed[k].slot;
        if (!make_archive(changed[k].sender, slot, changed[k].flag)) differs("an entry that is to be changed");
        sweep_starts(slot);
        sweep_other_data(slot);
        sweep_numbers(slot);
        sweep_data(slot);
        sweep_names();
        sweep_copies(slot);
        sweep_change_order(slot);
        sweep_change_damaged(slot);
    }
}

/* what the sweeps have met is not counted of changes and counters: the random sequences must meet it too */
static void count_from_here(void)
{
    memset(by_turned, 0, sizeof by_turned), memset(by_given, 0, sizeof by_given), memset(by_told, 0, sizeof by_told);
    memset(by_change, 0, sizeof by_change), memset(by_no_slot, 0, sizeof by_no_slot), memset(by_unsound, 0, sizeof by_unsound);
    memset(by_twin, 0, sizeof by_twin), memset(by_after, 0, sizeof by_after);
}

static void sweep_all(void)
{
    static const int which[] = {0, 1, 2, 3, 4, 5, 6, 7, 8, 9, 13, 16, 17, 21};
    sweep_counters();
    sweep_changes();
    sweep_loads();
    make_swept();
    for (size_t k = 0; k < sizeof which / sizeof *which; k++) sweep(which[k], 7 * (size_t)(which[k] % 8));
    for (size_t k = 0; k < sizeof which / sizeof *which; k++) sweep_payloads(which[k]);
    sweep_texts();
}

/* one line of counts; answers how many are 0 */
static int print_counts(const char *name, const char *const names[], const uint64_t counts[], int n)
{
    int missing = 0;
    printf("%-8s", name);
    for (int i = 0; i < n; i++) {
        printf("  %s: %llu", names[i], (unsigned long long)counts[i]);
        missing += !counts[i];
    }
    printf("\n");
    return missing;
}

int main(int argc, char **argv)
{
    uint64_t sequences = argc > 1 ? strtoull(argv[1], NULL, 0) : 100000, seed = argc > 2 ? strtoull(argv[2], NULL, 0) : 1;
    random_state = seed;
    sweep_all();
    count_from_here();
    uint64_t swept = compared;
    for (uint64_t i = 0; i < sequences; i++) random_sequence(seed << 32 | i);
    int missing = 0;
    for (int c = 0; c < CALLS; c++) {
        printf("%-8s", call_names[c]);
        for (int r = 0; r < REPLIES; r++)
            if (replies[c][r]) printf("  %d: %llu", r, (unsigned long long)replies[c][r]);
        printf("\n");
    }
    for (int r = 0; r < REPLIES; r++) {
        uint64_t n = 0;
        for (int c = 0; c < CALLS; c++) n += replies[c][r];
        if (!n && is_reply((uint64_t)r)) printf("reply %d was never given\n", r), missing++;
    }
    missing += print_counts("start", start_names, by_start, STARTS) + print_counts("edition", edition_names, by_edition, EDITIONS)
             + print_counts("suite", suite_names, by_suite, SUITES) + print_counts("load", load_names, by_load, LOADS)
             + print_counts("by 21", form_names, by_form, FORMS) + print_counts("by 22", entry_names, by_entry, ENTRY)
             + print_counts("by 23", record_names, by_record, RECORD) + print_counts("change", change_names, by_change, CHANGES)
             + print_counts("by 16", no_slot_names, by_no_slot, NO_SLOTS) + print_counts("by 13", unsound_names, by_unsound, UNSOUND)
             + print_counts("by 14", twin_names, by_twin, TWINS) + print_counts("after", after_names, by_after, AFTERS)
             + print_counts("turned", turned_names, by_turned, TURNED) + print_counts("given", given_names, by_given, 2 * GIVEN)
             + print_counts("told", told_names, by_told, 2 * TOLD);
    printf("compare: %llu calls in sweeps and %llu in %llu random sequences, no difference\n", (unsigned long long)swept,
           (unsigned long long)(compared - swept), (unsigned long long)sequences);
    return missing ? 1 : 0;
}
