/* editions.c: the forty old controllers, end to end. Each sends by edition 1: a gateway that has its key data with edition 2 refuses every message with 11
 * and counts it as forged, which is all that changes there; one that has it with edition 1 hands out the payload. Forty new controllers the other way
 * round. Then every edition that is not sound with a suite, for each of the four, at a sender, at an install and in a slot; the numbers for which both
 * editions make the same message; and those that have one gamma in edition 1. Prints one line, or what does not hold. */
#include "crisp.h"
#include "random.h"
#include "suites.h"
#include <stdio.h>
#include <stdlib.h>
#include <string.h>

enum { CONTROLLERS = 40, TABLES = (CONTROLLERS + CRISP_SLOTS - 1) / CRISP_SLOTS, PAYLOAD = 40 };

/* of a slot: its bytes, the place of the edition, and the last byte of what was forged */
enum { SLOT = CRISP_TABLE / CRISP_SLOTS, EDITION = 3, FORGED = 285 };

static struct crisp_sender controllers[CONTROLLERS];
static uint8_t gateways[3][TABLES][CRISP_TABLE];        /* by edition: each has all controllers, one with edition 1 and one with 2 */
static uint8_t payload[PAYLOAD], message[CRISP_OUT], out[CRISP_OUT];
static size_t length;                                   /* of the message */
static unsigned exchanged, unsound, alike;

static void must(int holds, const char *what)
{
    if (holds) return;
    printf("editions: not so: %s\n", what);
    exit(1);
}

static uint64_t install(uint8_t *table, const struct crisp_sender *s, uint8_t edition)
{
    return crisp_install(table, s->flag, s->keyid, s->keyid_len, s->source, s->source_len, s->suite, edition, s->key, CRISP_KEY, CRISP_SIZE, 0).reply;
}

/* the sender's message with that number */
static uint64_t sends(struct crisp_sender *s, uint64_t number)
{
    s->current = number - 1;
    struct crisp_answer a = crisp_protect(s, payload, PAYLOAD, message, sizeof message);
    length = a.length;
    return a.reply;
}

static uint64_t receives(uint8_t *table, const struct crisp_sender *s)
{
    memset(out, 0, sizeof out);
    return crisp_receive(table, message, length, s->source, s->source_len, out, sizeof out).reply;
}

static int opens(uint8_t *table, const struct crisp_sender *s) { return receives(table, s) == CRISP_DONE && !memcmp(out, payload, PAYLOAD); }

/* ---- the controllers */

static void make_controllers(uint8_t edition)
{
    memset(gateways, 0, sizeof gateways);
    for (int i = 0; i < CONTROLLERS; i++) {
        struct crisp_sender *s = &controllers[i];
        *s = (struct crisp_sender){.flag = i / 2 % 2, .keyid_len = 1 + (size_t)i % 2, .source_len = 4 + (size_t)i % 29, .suite = 1, .edition = edition};
        s->keyid[0] = i % 2 ? 0x81 : (uint8_t)i;
        s->keyid[1] = i % 2 ? (uint8_t)i : 0;
        fill(s->source, s->source_len), s->source[0] = (uint8_t)i;
        fill(s->key, CRISP_KEY), s->key[0] = (uint8_t)i;
        for (uint8_t e = 1; e <= 2; e++) must(install(gateways[e][i / CRISP_SLOTS], s, e) == CRISP_DONE, "each controller has its entry");
    }
}

static void exchange(int i, uint64_t number)
{
    static uint8_t before[CRISP_TABLE];
    struct crisp_sender *s = &controllers[i];
    uint8_t *own = gateways[s->edition][i / CRISP_SLOTS], *other = gateways[3 - s->edition][i / CRISP_SLOTS];
    fill(payload, PAYLOAD);
    must(sends(s, number) == CRISP_DONE, "each controller sends");
    memcpy(before, other, CRISP_TABLE);
    before[SLOT * (i % CRISP_SLOTS) + FORGED]++;
    must(receives(other, s) == CRISP_WRONG_ICV && !memcmp(before, other, CRISP_TABLE), "an entry of the other edition refuses it and counts it as forged");
    must(opens(own, s), "an entry of its own edition opens it");
    exchanged++;
}

static void exchange_all(uint8_t edition)
{
    static const uint64_t numbers[] = {1, 8193, (1ULL << 35) + 7, 0x0b76e6736001};
    make_controllers(edition);
    for (size_t n = 0; n < sizeof numbers / sizeof *numbers; n++)
        for (int i = 0; i < CONTROLLERS; i++) exchange(i, numbers[n]);
}

/* ---- what is not sound */

static void refuses(uint8_t suite, uint8_t edition)
{
    static uint8_t table[CRISP_TABLE], before[CRISP_TABLE];
    struct crisp_sender s = controllers[0], as_it_was;
    s.suite = suite;
    s.edition = edition;
    s.current = 0;
    memcpy(&as_it_was, &s, sizeof s);
    memset(table, 0, CRISP_TABLE);
    memcpy(before, table, CRISP_TABLE);
    must(sends(&s, 1) == CRISP_DAMAGED && !memcmp(&s, &as_it_was, sizeof s), "a sender with another edition is refused and stays as it was");
    must(install(table, &s, edition) == CRISP_UNSOUND && !memcmp(table, before, CRISP_TABLE), "an install with another edition is refused");

    s.edition = 2;
    must(install(table, &s, 2) == CRISP_DONE && sends(&s, 1) == CRISP_DONE, "with edition 2 neither is");
    table[EDITION] = edition;
    memcpy(before, table, CRISP_TABLE);
    must(receives(table, &s) == CRISP_DAMAGED && !memcmp(table, before, CRISP_TABLE), "a slot with another edition is damaged and stays as it was");
    must(crisp_listing(table, 0, out, sizeof out).reply == CRISP_DAMAGED, "it is not listed either");
    table[EDITION] = 2;
    must(opens(table, &s), "with edition 2 it is not");
    unsound++;
}

static void refuse_all(void)
{
    for (int edition = 0; edition < 256; edition++)
        for (size_t i = 0; i < EVERY_SUITE; i++)
            if (edition != 2 && !(edition == 1 && suites[i] == CRISP_MAGMA_CTR)) refuses(suites[i], (uint8_t)edition);
}

/* ---- what the two editions have in common, and what numbers of edition 1 have */

/* the number whose bits repeat after 13: its top and its low 35 are the same */
static uint64_t repeating(uint64_t bits) { return (bits | bits << 13 | bits << 26 | bits << 39) & CRISP_LAST; }

static void same_message(uint64_t number)
{
    static uint8_t first[CRISP_OUT], table[CRISP_TABLE];
    struct crisp_sender old = controllers[0], new = controllers[0];
    old.edition = 1;
    new.edition = 2;
    must(sends(&old, number) == CRISP_DONE, "it is sent by edition 1");
    memcpy(first, message, length);
    must(sends(&new, number) == CRISP_DONE && !memcmp(first, message, length), "both editions make the same message of such a number");
    for (uint8_t edition = 1; edition <= 2; edition++) {
        memset(table, 0, CRISP_TABLE);
        must(install(table, &old, edition) == CRISP_DONE && opens(table, &old), "both editions open it");
    }
    alike++;
}

/* whether the enciphered payloads of two numbers are the same, as they are by one gamma */
static int one_gamma(uint8_t edition, uint64_t number, uint64_t other)
{
    static uint8_t first[CRISP_OUT];
    struct crisp_sender s = controllers[0];
    size_t at = 3 + s.keyid_len + 6;
    s.edition = edition;
    must(sends(&s, number) == CRISP_DONE, "the first is sent");
    memcpy(first, message, length);
    must(sends(&s, other) == CRISP_DONE, "the second is sent");
    return !memcmp(first + at, message + at, PAYLOAD);
}

int main(void)
{
    random_state = 1;
    exchange_all(1);
    exchange_all(2);
    refuse_all();
    for (uint64_t bits = 1; bits < 8192; bits++) same_message(repeating(bits));
    must(repeating(8191) == CRISP_LAST, "2^48 - 1 is among them");
    must(one_gamma(1, 5, 5 + (1ULL << 35)) && !one_gamma(1, 5, 5 + (1ULL << 34)), "in edition 1 numbers have one gamma where they are 2^35 apart");
    must(!one_gamma(2, 5, 5 + (1ULL << 35)), "in edition 2 they have not");
    printf("%u messages of %d old and %d new controllers refused by the other edition and opened by their own; %u unsound suites and editions refused in "
           "three ways; %u numbers alike in both\n", exchanged, CONTROLLERS, CONTROLLERS, unsound, alike);
    return 0;
}
