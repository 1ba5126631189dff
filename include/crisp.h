/* crisp.h: the receiver and the sender for the metering messages of a heat network (R 1323565.1.029-2019: its suites 1 and 2, and two of the house,
 * 241 and 242, with a longer check value), for C and C++ on x86-64.
 *
 * `./install PREFIX` builds libcrisp_c.a and puts it below PREFIX with this header and a pkg-config file, `crisp`. The nine functions are proved;
 * what each answers, what it leaves in the table or the record, and every byte of a buffer it was lent are those of one definition of its inputs
 * (docs/PROMISES.md).
 *
 * All functions: no input has to be checked first, and every call returns. Those on a table or a record answer a refusal by its number, with
 * length, slot and seqnum 0, and it changes nothing: not the table, not the record, not the output. There is one exception: a message that
 * crisp_receive refuses with 9, 10 or 11 is counted in its entry, and that counter is all that changes. One table or one record is used by one call
 * at a time; there is no other state, so different tables may be used at once. Keys are handed in as bytes and are copied into the table; a removed
 * entry leaves zeros, and of one that is changed nothing is left.
 *
 * Pointers: each points to as many bytes as its length says, at any address; a record is aligned as its type is. None may be null, not even with
 * length 0: CRISP_NOTHING is there for that. A buffer that a call writes must not overlap another one that it is lent. Nothing is promised of a
 * call with buffers that do: an answer of 0 with a wrong payload or a wrong message was seen. Buffers that a call only reads may overlap.
 *
 * Bare metal: libcrisp_c.a is compiled as Linux programs are. It writes up to 128 bytes below the stack pointer (the red zone), uses the
 * registers of SSE2, and needs memcpy and memset and nothing else. Where an interrupt runs on the stack of what it interrupts, or SSE2 is off or
 * not saved, take libcrisp_c_bare.a (pkg-config: `crisp-bare`): the same proved code, compiled to use neither. It needs memcpy and memset too.
 */
#ifndef CRISP_H
#define CRISP_H

#include <stddef.h>
#include <stdint.h>

#ifdef __cplusplus
extern "C" {
#endif

/* The interface's version, 100 times the major one plus the minor one: the first is raised where a call of before has to be written anew or means
 * something else, the second where something was added.
 *
 * Version 4.0 brought the counters of what is turned away. No call has to be written anew, but three mean something else. crisp_receive writes to the
 * table where it refuses with 9, 10 or 11: whoever saves a table after an accepted message only, saves counters that are older. crisp_listing writes
 * two lines more, and crisp_load asks for them: a listing that was printed by version 3.3 or earlier is refused with 21, until `replays=0` and
 * `forged=0` are put at its end. */
#define CRISP_VERSION 400

/* The version of the two layouts, the table's and the record's, raised where a place moves or gets another meaning. Keep it beside a saved table or
 * record: another layout's bytes are read as something else.
 *
 * Versions 1 and 2 of the interface saved layout 1. Its places are the same, but where layout 2 has an edition, a table of it has 0, so each entry is
 * refused with 7, and a record 0 too or, where it was not zeroed when it was made, any byte. All of them followed the rule of edition 2. A table of
 * layout 1 becomes one of layout 2 by putting 2 into byte 3 of each slot whose byte 0 is not 0 (a slot has CRISP_TABLE / CRISP_SLOTS bytes), and a
 * record by putting 2 into its edition, before it is used; examples/kept.c among the sources does so. What version 1 saved has start 0 in every entry.
 * Back to version 1 or 2 a table or a record must not go once there is edition 1 in it, which they read as 2; nor to version 1 a table once an entry of
 * it has another start, which that version does not look at.
 *
 * Suites 241 and 242 came with version 3.1 and moved nothing. Back in version 3.0 or earlier they are unsound: an entry or a record with one of them is
 * refused there with 7, and a message of theirs with 4. crisp_load came with version 3.2 and crisp_change with 3.3, and neither moved anything: a table
 * that crisp_load has written to can be used by version 3.1, and one that crisp_change has written to by version 3.2.
 *
 * The counters came with version 4.0 and moved nothing either: their places were kept for them and are zero in every entry of before, so a table that
 * version 3 has saved has counters 0. Back in version 3 they are not looked at, and stay as they are as long as their entry stands. */
#define CRISP_LAYOUT 2

/* Bytes of a table, and its slots. A table of zeros is an empty one. It may be kept and saved as it is (see "Keys" below). Any bytes are safe to
 * hand in: a record that breaks the damage rule (unsound key data, Size or start, a highest number and marks that do not fit each other, totals
 * beyond their bounds, a counter over its limit) is refused with 7; one whose stored KeyId or source is longer than its room matches no message,
 * which is then refused with 6 unless another entry has its name. Other changes, of a byte of a key, to another suite or edition that is sound, or of
 * a total or a counter within its bounds, are not noticed: whoever saves a table sees to it that it comes back as it was. */
#define CRISP_TABLE 4608
#define CRISP_SLOTS 16

/* Room that crisp_receive, crisp_protect and crisp_listing ask of an output: as much as the longest message has. */
#define CRISP_OUT 2048

/* The suites. A message ends with its check value, of four bytes in the first two and of eight in the long ones. Else 241 is as 1, and 242 as 2, but
 * that each has its own number in the message and in what keys are derived from, and that edition 1 goes with suite 1 alone.
 *
 * Which to take: a forged message passes by luck once in 2^32 tries where the check value has four bytes, and once in 2^64 where it has eight, as far as
 * the cipher and its check value are good ones. Eight make each message four bytes longer and take about as long. Sender and entry must have the same suite, for a message of
 * another is refused (8): so nobody can turn a long check value into a short one, which would be easier to guess. */
#define CRISP_MAGMA_CTR 1               /* MAGMA-CTR-CMAC: the payload is enciphered */
#define CRISP_MAGMA_NULL 2              /* MAGMA-NULL-CMAC: the payload stays in clear */
#define CRISP_MAGMA_CTR_LONG 241        /* enciphered, with a check value of eight bytes */
#define CRISP_MAGMA_NULL_LONG 242       /* in clear, with a check value of eight bytes */

/* Bytes of the check value of one of these suites. */
#define CRISP_ICV(suite) ((suite) < CRISP_MAGMA_CTR_LONG ? 4 : 8)

/* Bytes: the longest KeyId and source, and a key. */
#define CRISP_KEYID 128
#define CRISP_SOURCE 32
#define CRISP_KEY 32

/* Bytes of the longest payload: of any; with a KeyId of keyid_len bytes in a suite; and with such a KeyId where the check value is a short one. */
#define CRISP_PAYLOAD 2034
#define CRISP_PAYLOAD_OF(keyid_len, suite) (2039 - (keyid_len) - CRISP_ICV(suite))
#define CRISP_PAYLOAD_WITH(keyid_len) CRISP_PAYLOAD_OF(keyid_len, CRISP_MAGMA_CTR)

/* The largest window. */
#define CRISP_SIZE 256

/* The greatest number of a message, and the largest start of an entry: 2^48 - 1. */
#define CRISP_LAST 281474976710655

/* Where each of an entry's two counters stops, 2^32 - 1: a counter that stands there has counted so many or more. */
#define CRISP_COUNTED 4294967295

/* Bytes of the longest capture file, and of its header, behind which its first record is. */
#define CRISP_CAPTURE 65536
#define CRISP_CAPTURE_HEADER 24

/* A pointer to no bytes, which is not null: for a source, a payload or a text of length 0. */
#define CRISP_NOTHING ((const uint8_t *)"")

/* Bytes of stack that a call takes at most, below its caller's frame: measured, not proved (docs/COSTS.md). In a program whose loader binds memcpy
 * and memset at their first use (linked with -z lazy), that call takes more, for the loader: 2,568 bytes were seen. */
#define CRISP_STACK 1536

/* The replies. */
enum {
    CRISP_DONE = 0,
    CRISP_OUTPUT_SMALL = 1,     /* output under 2,048 bytes */
    CRISP_BAD_LENGTH = 2,       /* message not 14 to 2,048 bytes; payload over CRISP_PAYLOAD_OF its KeyId and suite */
    CRISP_BAD_VERSION = 3,      /* version not 0 */
    CRISP_BAD_SUITE = 4,        /* suite not 1, 2, 241 or 242 */
    CRISP_TOO_SHORT = 5,        /* message too short for its KeyId and the check value of its suite */
    CRISP_NO_ENTRY = 6,         /* no slot matches */
    CRISP_DAMAGED = 7,          /* the entry's record is damaged; of a sender: unsound key data (edition 0 is), or a number over 2^48 - 1 */
    CRISP_OTHER_SUITE = 8,      /* suite not the entry's */
    CRISP_BELOW_FLOOR = 9,      /* number below the window, or below the entry's start; counted in `replays` */
    CRISP_REPEATED = 10,        /* number accepted before; counted in `replays` */
    CRISP_WRONG_ICV = 11,       /* check value wrong, counted in `forged`; of all messages of a controller: its entry has another key or edition */
    CRISP_NO_NUMBER = 12,       /* the sender has used number 2^48 - 1 */
    CRISP_UNSOUND = 13,         /* key data (its edition is part of it), window size or start unsound */
    CRISP_TWIN = 14,            /* an occupied slot (for a change: another one) has the same flag and KeyId and, for flag 1, source */
    CRISP_FULL = 15,            /* no free slot */
    CRISP_NO_SLOT = 16,         /* slot over 15, or free */
    CRISP_BAD_CAPTURE = 17,     /* a capture's header is bad, or its size is not 24 to 65,536 bytes */
    CRISP_CUT_SHORT = 18,       /* a record's header or data runs past the capture's end */
    CRISP_LENGTHS_DIFFER = 19,  /* a record's captured and original length differ */
    CRISP_UNREADABLE = 20,      /* a record is empty, or its identifier runs past it */
    CRISP_BAD_TEXT = 21,        /* a text is not in the form of a listing */
    CRISP_NOT_STANDING = 22,    /* the listed entry is not in its slot, or has accepted something */
    CRISP_WOULD_BE_DAMAGED = 23 /* the listed highest number, marks, totals and counters would make a damaged record, or its key data does */
};

/* What every function on a table or a record answers. */
struct crisp_answer {
    uint64_t reply;
    size_t length;
    size_t slot;
    uint64_t seqnum;
};

/* A sender's record: key data, and the number of its last message. The first keyid_len and source_len bytes of the two arrays count. A new
 * sender starts with current 0.
 *
 * A number must not be used twice under one key. Of two messages with one number the receiver takes at most one; and in suites 1 and 241 both have
 * the same gamma, so whoever sees both has the exclusive or of their payloads, and with one payload the other. Therefore save the record after
 * crisp_protect and before the message leaves, and let it not leave if the record was not saved; never go on from an older copy; and where the
 * record is lost, take a new key. Numbers that were saved and never sent do no harm. examples/kept.c among the sources does so.
 *
 * The edition says from which bits of its number the keys of a message are made; nothing else depends on it. 2 is the rule of the standard's
 * examples: the top 35 of the 48. 1 is for the older controllers that were built from a copy which prints LSB: the low 35, and only with suite 1. A
 * record that a program zeroed has edition 0. It is refused with 7, and no message is made: set 2, or 1 to send as those controllers do. In edition 1
 * numbers that are 2^35 apart have the same gamma, as if one had been used twice. So take a new key before a sender has gone so far, and where a
 * sender changes its edition. */
struct crisp_sender {
    uint8_t flag;               /* ExternalKeyIdFlag, 0 or 1 */
    uint8_t keyid[CRISP_KEYID];
    size_t keyid_len;           /* 1 to 128, as the first byte of keyid asks: 00 to 80 one, 81 to ff that less 7f */
    uint8_t source[CRISP_SOURCE];
    size_t source_len;          /* 4 to 32 */
    uint8_t suite;              /* 1, 241: enciphered; 2, 242: in clear; 241 and 242 with a check value of eight bytes */
    uint8_t key[CRISP_KEY];
    uint8_t edition;            /* 2; with suite 1 also 1 */
    uint64_t current;
};

/* The record at a place of a capture file. With reply 0 its source is the bytes from `source` up to `message`, and its message those from `message`
 * up to `next`, where the next record begins; with another reply both are empty. */
struct crisp_record {
    uint64_t reply;             /* 0, 17, 18, 19, 20 or CRISP_END */
    size_t source;
    size_t message;
    size_t next;                /* the file's end with 17, 18 and CRISP_END */
};

/* In place of a reply: nothing is left of the file. */
#define CRISP_END 255

/* The structs are laid out as the library has them; a #pragma pack in force here would change that. */
#if defined(__cplusplus) && __cplusplus >= 201103L
#define CRISP_CHECK(what, holds) static_assert(holds, #what)
#elif defined(__STDC_VERSION__) && __STDC_VERSION__ >= 201112L
#define CRISP_CHECK(what, holds) _Static_assert(holds, #what)
#else
#define CRISP_CHECK(what, holds) typedef char what[(holds) ? 1 : -1]
#endif
CRISP_CHECK(crisp_answer_is_laid_out_as_in_the_library,
            offsetof(struct crisp_answer, reply) == 0 && offsetof(struct crisp_answer, length) == 8 && offsetof(struct crisp_answer, slot) == 16
            && offsetof(struct crisp_answer, seqnum) == 24 && sizeof(struct crisp_answer) == 32);
CRISP_CHECK(crisp_sender_is_laid_out_as_in_the_library,
            offsetof(struct crisp_sender, flag) == 0 && offsetof(struct crisp_sender, keyid) == 1 && offsetof(struct crisp_sender, keyid_len) == 136
            && offsetof(struct crisp_sender, source) == 144 && offsetof(struct crisp_sender, source_len) == 176
            && offsetof(struct crisp_sender, suite) == 184 && offsetof(struct crisp_sender, key) == 185
            && offsetof(struct crisp_sender, edition) == 217 && offsetof(struct crisp_sender, current) == 224 && sizeof(struct crisp_sender) == 232);
CRISP_CHECK(crisp_record_is_laid_out_as_in_the_library,
            offsetof(struct crisp_record, reply) == 0 && offsetof(struct crisp_record, source) == 8 && offsetof(struct crisp_record, message) == 16
            && offsetof(struct crisp_record, next) == 24 && sizeof(struct crisp_record) == 32);

/* What a compiler can tell a caller: the answer was ignored, a pointer is null, a buffer is shorter than its length. */
#if defined(__GNUC__)
#define CRISP_CALL __attribute__((warn_unused_result, nonnull))
#else
#define CRISP_CALL
#endif
#if defined(__GNUC__) && !defined(__clang__) && __GNUC__ >= 10
#define CRISP_READS(pointer, length) __attribute__((access(read_only, pointer, length)))
#define CRISP_WRITES(pointer, length) __attribute__((access(write_only, pointer, length)))
#else
#define CRISP_READS(pointer, length)
#define CRISP_WRITES(pointer, length)
#endif
#if defined(__STDC_VERSION__) && __STDC_VERSION__ >= 199901L && !defined(__cplusplus)
#define CRISP_AT_LEAST static
#else
#define CRISP_AT_LEAST
#endif

/* Puts a fresh entry into the lowest free slot. flag, keyid, source, suite, edition and the 32-byte key are as in the record above; size is the
 * window's, 1 to 256; start is the least number that the entry will ever take, 0 to CRISP_LAST. Done (0): slot is the slot taken; the entry has
 * highest number 0, nothing accepted, totals and counters 0. Refuses with 13 (key data unsound, also by a flag over 1, by an edition that is not 1
 * or 2, or by 1 with another suite than 1; size or start out of range), 14 (an occupied slot has the same flag and KeyId and, for flag 1, source)
 * and 15 (no free slot), in that order. Touches no other slot.
 *
 * edition is 2, and 1 for one of the older controllers that read LSB. A message does not tell it. Where an entry has the wrong one, every message of
 * its controller is refused with 11, as if the key were wrong: change the entry to the other edition (crisp_change), with the start that it has. Only
 * where the top and the low 35 bits of its number are the same does a message pass, for both editions then make the same one: this is so of 8,192 of
 * the 2^48 numbers, 0 and CRISP_LAST among them. If one has passed, the key has a past, and the start is larger, as follows.
 *
 * start is for a key that has a past. For a key that is used for the first time it is 0. For a key that comes from another gateway, whose entry was
 * removed and is installed again, or that stays where its entry is changed, it is the larger of two numbers of the old entry: its start, and one more
 * than its highest number (`start=`, in decimal, and `highest=`, in hex, of a listing that was made after its last arrival). Then nothing that was
 * handed out there is handed out here.
 *
 * Left at 0, on a replacement gateway or in the same one, the archive passes once more, in the order of its numbers all of it: each old message is
 * genuine, its number is new to the fresh entry, and it is booked a second time. A message below start that the old entry never took is refused too
 * (9), so let the old one first take what is under way. Where its highest number is not known, or is CRISP_LAST, take a new key. Where the entry comes
 * into its old slot with its old size and start, crisp_load does better with the same listing: the window comes along, and what is under way still
 * passes. */
CRISP_CALL CRISP_READS(3, 4) CRISP_READS(5, 6) CRISP_READS(9, 10)
struct crisp_answer crisp_install(uint8_t table[CRISP_AT_LEAST CRISP_TABLE], uint8_t flag, const uint8_t *keyid, size_t keyid_len,
                                  const uint8_t *source, size_t source_len, uint8_t suite, uint8_t edition, const uint8_t *key, size_t key_len,
                                  uint64_t size, uint64_t start);

/* Frees a slot, which then holds zeros only; the entry's history is over, its highest number with it: list it first where the key is to be
 * installed again, for its start or for crisp_load. Where another entry is to stand in its place, crisp_change is better. Done (0): slot is the slot
 * freed. Refuses with 16 (slot over 15, or free). Touches no other slot. */
CRISP_CALL
struct crisp_answer crisp_remove(uint8_t table[CRISP_AT_LEAST CRISP_TABLE], size_t slot);

/* Changes the entry in a slot to another one, in one move: a fresh entry of this key data, size and start stands there afterwards, or nothing has
 * happened at all. The arguments behind slot are those of crisp_install, and each byte of the slot becomes what an install would write there. Done
 * (0): slot is the slot; the entry has highest number 0, nothing accepted, totals and counters 0. Refuses with 16 (slot over 15, or free), 13 (key
 * data, size or start unsound, as for crisp_install) and 14 (another occupied slot has the same flag and KeyId and, for flag 1, source), in that order.
 * The slot's own entry is no twin, so flag, KeyId and source may stay; a full table is no hindrance, so there is no 15; and whether the old entry is
 * damaged is not looked at. Touches no other slot. What stays of the key data is handed in again, from elsewhere than the table, for the call writes
 * there.
 *
 * Use it where a controller gets another key, suite, edition, window or name. After crisp_remove the gateway is deaf to that controller (6) until
 * crisp_install is done, and stays so where that is refused; and the install takes the lowest free slot, which may be another one. Where a change is
 * refused, the old entry stands as it was, window, totals and counters, and takes the next message.
 *
 * The old entry's history ends, and a new one begins. With a new key start is 0: an old message fails its check (11) and counts as forged. The same
 * key has a past: list the entry first, after its last arrival, and hand in as start the larger of its start and one more than its highest number, as
 * is said at crisp_install. Then nothing that was accepted before the change is handed out after it. Changed to the same key with start 0, for another
 * window say, the entry lets its archive pass once more, in the order of its numbers all of it: each old message is genuine, its number is new to the
 * fresh entry, and it is booked a second time.
 *
 * The window does not come along. What is still under way is lost, with a start what lies below it (9) and with a new key what was made with the old
 * one (11): let it arrive first. Totals and counters begin at 0, so save the old listing where they are to be answered for. And save the table, or a new
 * listing, afterwards: an old table has the old key, and an old listing the old window, which shuts out a controller that numbers its messages anew
 * with its new key (9, 10). */
CRISP_CALL CRISP_READS(4, 5) CRISP_READS(6, 7) CRISP_READS(10, 11)
struct crisp_answer crisp_change(uint8_t table[CRISP_AT_LEAST CRISP_TABLE], size_t slot, uint8_t flag, const uint8_t *keyid, size_t keyid_len,
                                 const uint8_t *source, size_t source_len, uint8_t suite, uint8_t edition, const uint8_t *key, size_t key_len,
                                 uint64_t size, uint64_t start);

/* Takes a message, with the source that came with it; for flag 0 it is ignored, and CRISP_NOTHING with length 0 will do, null will not. Done (0):
 * the payload stands at the start of the output, later bytes stay; length is the payload's, slot the entry's, seqnum the message's number; the
 * entry's window has moved and its two totals have grown by 1 and by length. Refuses with 1 to 11 as listed above, in that order. Replies 1 to 6
 * are given before any cipher block is computed, and the output is written only after the check value was found right. Touches no other slot.
 * The output must not be where the message, the source or the table is: there is no opening in place.
 *
 * What is turned away is counted in the entry that the message leads to: 9 and 10 add 1 to its `replays`, 11 adds 1 to its `forged`, up to
 * CRISP_COUNTED, where a counter stays. That is all that they change. No other refusal counts or changes anything, not 7 and 8, nor 1, whatever the
 * message would have met with enough room; and an accepted message leaves both counters as they are. crisp_listing shows them; what they tell is said
 * there.
 *
 * Save the table before the payload is used, and in the same file what is to become of the payload. After a restart, a table older than what was
 * used takes the same message as new; and one that was saved without the payload refuses it as repeated. examples/kept.c among the sources does
 * so. A gateway that has its key data from elsewhere may save the listing of the message's entry in the table's place (crisp_load).
 *
 * A refusal need not be saved: a table from before it takes and refuses the same messages, only its counters are older. Save them now and then rather
 * than at each refusal, or whoever can send anything at all makes the gateway write as often as he likes; examples/kept.c saves them when it ends. */
CRISP_CALL CRISP_READS(2, 3) CRISP_READS(4, 5) CRISP_WRITES(6, 7)
struct crisp_answer crisp_receive(uint8_t table[CRISP_AT_LEAST CRISP_TABLE], const uint8_t *message, size_t message_len, const uint8_t *source,
                                  size_t source_len, uint8_t *out, size_t out_len);

/* Writes the next message for a payload. Done (0): the message stands at the start of the output, later bytes stay; length is the message's,
 * seqnum its number, which the record's current now is. Refuses with 1 (output under 2,048 bytes), 7 (unsound key data, also by an edition that was
 * not set, or current over 2^48 - 1), 2 (payload over CRISP_PAYLOAD_OF(keyid_len, suite)) and 12 (current is 2^48 - 1), in that order. Touches
 * nothing of the record but current, and writes that by every call, a refused one too, with the number that stood there: the record must not lie in
 * memory that cannot be written. The output must not be where the payload or the record is. Save the record before the message leaves, as is said at the
 * struct. */
CRISP_CALL CRISP_READS(2, 3) CRISP_WRITES(4, 5)
struct crisp_answer crisp_protect(struct crisp_sender *sender, const uint8_t *payload, size_t payload_len, uint8_t *out, size_t out_len);

/* Writes the entry in a slot as text, from `slot=` to `forged=`, each line ended by a line feed; `edition=`, in decimal, follows `suite=`, and the
 * counters `replays=` and `forged=`, in decimal, follow `bytes=`. Done (0): the text stands at the start of the output, without a zero behind it, later
 * bytes stay; length is the text's, slot the slot. Refuses with 1 (output under 2,048 bytes), 16 (slot over 15, or free) and 7 (record damaged), in that
 * order. Does not touch the table.
 *
 * What the counters tell, best by how they grow from one listing to the next: `replays` are messages whose number was accepted before or is too old
 * (10, 9). A controller repeats itself or began its numbers anew, a path delivers twice or late, or someone plays old messages back. `forged` are
 * messages with a number that would do and a wrong check value (11). Someone is guessing, the line is noisy or, where nothing at all is accepted, the
 * entry has another key or edition than its controller. The number is looked at first, so a forged message with an old number is among the replays. Both
 * count what arrived under the entry's name, whoever sent it, and prove nothing against a controller. */
CRISP_CALL CRISP_WRITES(3, 4)
struct crisp_answer crisp_listing(const uint8_t table[CRISP_AT_LEAST CRISP_TABLE], size_t slot, uint8_t *out, size_t out_len);

/* Loads a listing back: the entry that it lists, which was installed anew and has accepted nothing yet, takes the listed highest number, marks, totals
 * and counters, so that after a restart it is as it was. Done (0): slot is the entry's; a listing of it is the text again. What was accepted before
 * the text was made is refused (10, or 9 below the window), and totals and counters go on from the listed ones. Touches nothing else of the slot, and no
 * other slot. Refuses, in that order, with
 *   21  where the text is not in the form that crisp_listing writes: the fourteen lines in their order, each ended by one line feed, nothing behind the
 *       last, no spaces; decimals without leading zeros and at most 2^64 - 1; hex in lower case, 12 digits of `highest=` and 64 of `marks=`, of `keyid=`
 *       and `source=` any even count;
 *   22  where no such entry stands: the slot is over 15 or free, or its flag, KeyId, source, suite, edition, size or start is another, or its
 *       accepted total is not 0, or its stored KeyId or source is longer than its room;
 *   23  where the record would be damaged, as CRISP_TABLE says above, by what is listed or by key data that is unsound already.
 * Any bytes of any length are safe to hand in.
 *
 * A listing holds no key: first install the entry with its key data, size and start, into the slot that is listed. Installs take the lowest free slot,
 * so install in the slots' order, and where one in between was free, put an entry there that is removed afterwards. Whether the key is the old one
 * cannot be seen: with another one each message that is not refused with 9 or 10 is then refused with 11. Only an entry that has accepted nothing takes a
 * listing; where it took a wrong one, change it to its own key data, size and start, and load the right one before anything arrives. The entry's highest
 * number, marks, byte total and counters of before are not looked at, so a record with accepted 0 that is damaged in these alone is mended, and what was
 * turned away between the install and the load is not in the counters. A listing by version 3 or earlier has no lines `replays=` and `forged=`, one by
 * version 1 or 2 no `edition=`, and one by version 1 no `start=`, so it is refused with 21: it loads once `replays=0` and `forged=0` were put behind
 * `bytes=`, `edition=2` behind `suite=`, and `start=0` behind `size=`.
 *
 * An old text is as bad as an old table: each message that was accepted after it was made can pass once more. So list after the last arrival, save the
 * text before the payload is used, and in the same file what is to become of the payload. Nothing in the text shows that it was changed. Whoever can
 * change it can open the window to old messages, or shut it to true ones: keep it as safe as the table, though it tells no key. */
CRISP_CALL CRISP_READS(2, 3)
struct crisp_answer crisp_load(uint8_t table[CRISP_AT_LEAST CRISP_TABLE], const uint8_t *text, size_t text_len);

/* Captures: classic pcap of up to CRISP_CAPTURE bytes, microsecond magic a1b2c3d4 in either byte order, version 2.4, link type 147. A record's data is
 * one byte with the length of the source, the source, and the message. The two functions read a file that is in memory, whatever its bytes, and
 * change nothing. A gateway hands each record with reply 0 to crisp_receive, in the file's order, and passes over those with 19 and 20:
 *
 *     uint64_t order = crisp_capture_order(file, length);
 *     struct crisp_record r;
 *     if (order == CRISP_BAD_CAPTURE) return refused;
 *     for (size_t at = CRISP_CAPTURE_HEADER; r = crisp_capture_record(file, length, order, at), r.reply != CRISP_END; at = r.next)
 *         if (r.reply == CRISP_DONE) arrives(file + r.message, r.next - r.message, file + r.source, r.message - r.source);
 *
 * Where a record runs past the end, its reply 18 is the last before CRISP_END. What was received before it stands. A file that is read once more,
 * whatever other files came in between, hands out nothing and changes nothing but counters, unless entries were installed, removed or changed, or a
 * listing was loaded, since; an entry that is installed with a start above the file's numbers, or changed to one, or has loaded a listing from after
 * the file was read, hands out nothing of it either. examples/capture.c among the sources reads a file so.
 *
 * The first answers the order of the file's numbers, 1 (highest byte first) or 2 (lowest), or 17 (header bad, or size not 24 to 65,536 bytes). Hand
 * the order to the second as it came. */
CRISP_CALL CRISP_READS(1, 2)
uint64_t crisp_capture_order(const uint8_t *file, size_t file_len);

/* The record at a place; the first place is CRISP_CAPTURE_HEADER, the others are each record's next. Replies: 17 (order neither 1 nor 2), CRISP_END
 * (nothing is left at the place, or it lies beyond the file), 18, 19, 20, in that order, else 0. Any place is safe to hand in. */
CRISP_CALL CRISP_READS(1, 2)
struct crisp_record crisp_capture_record(const uint8_t *file, size_t file_len, uint64_t order, size_t at);

/* Keys. Tables and records hold keys in clear, and so do their saved copies: let no other account read the files (mode 0600), nor their backups.
 * crisp_receive and crisp_protect leave what they computed in the dead stack below their caller, keys among it (the base key and a derived one were
 * found), and bytes of the payload in registers. crisp_install and crisp_change copy a key, and may leave bytes of it there too. A careful caller
 * clears them, by the function below or by a stack of its own for the calls that it clears afterwards, and writes no core files. crisp_load looks at
 * no byte of a key and leaves none.
 *
 * crisp_forget clears CRISP_STACK bytes below its caller's frame, and the registers that a call need not keep. Call it from the function that
 * made the call, right after it. It is not proved; the tests find keys after crisp_receive and crisp_protect, none after crisp_load, nothing of an
 * entry's old key after crisp_change, and no key after any of these four, nor after crisp_install, once crisp_forget was called. */
#if defined(__GNUC__) && defined(__x86_64__)
__attribute__((noinline, unused)) static void crisp_forget(void)
{
    __asm__ __volatile__("subq %0, %%rsp\n\tmovq %%rsp, %%rdi\n\tmovl %1, %%ecx\n\txorl %%eax, %%eax\n\trep stosq\n\taddq %0, %%rsp"
                         : : "i"(CRISP_STACK), "i"(CRISP_STACK / 8) : "rax", "rcx", "rdi", "cc", "memory");
    __asm__ __volatile__("xorl %%edx, %%edx\n\txorl %%esi, %%esi\n\txorl %%r8d, %%r8d\n\txorl %%r9d, %%r9d\n\t"
                         "xorl %%r10d, %%r10d\n\txorl %%r11d, %%r11d" : : : "rdx", "rsi", "r8", "r9", "r10", "r11", "cc");
#ifdef __SSE2__
    __asm__ __volatile__("pxor %%xmm0, %%xmm0\n\tpxor %%xmm1, %%xmm1\n\tpxor %%xmm2, %%xmm2\n\tpxor %%xmm3, %%xmm3\n\t"
                         "pxor %%xmm4, %%xmm4\n\tpxor %%xmm5, %%xmm5\n\tpxor %%xmm6, %%xmm6\n\tpxor %%xmm7, %%xmm7"
                         : : : "xmm0", "xmm1", "xmm2", "xmm3", "xmm4", "xmm5", "xmm6", "xmm7");
    __asm__ __volatile__("pxor %%xmm8, %%xmm8\n\tpxor %%xmm9, %%xmm9\n\tpxor %%xmm10, %%xmm10\n\tpxor %%xmm11, %%xmm11\n\t"
                         "pxor %%xmm12, %%xmm12\n\tpxor %%xmm13, %%xmm13\n\tpxor %%xmm14, %%xmm14\n\tpxor %%xmm15, %%xmm15"
                         : : : "xmm8", "xmm9", "xmm10", "xmm11", "xmm12", "xmm13", "xmm14", "xmm15");
#endif
}
#endif

#undef CRISP_CHECK
#undef CRISP_CALL
#undef CRISP_READS
#undef CRISP_WRITES
#undef CRISP_AT_LEAST

#ifdef __cplusplus
}
#endif
#endif
