/* forgotten.c: after each call that has to do with keys, the base key, the derived keys and the payload are looked for in the stack below it and in the
 * registers, in groups of four bytes, as they stand and turned round, and after crisp_change the key that the entry had before. Without crisp_forget some
 * are there after crisp_protect and crisp_receive; after it none may be. crisp_load looks at no key, and crisp_change not at the old one: they may leave
 * nothing of it without crisp_forget either. */
#include "crisp.h"
#include "on_stack.h"
#include "random.h"
#include "reference.h"
#include <stdio.h>
#include <string.h>

static uint8_t table[CRISP_TABLE], out[CRISP_OUT], message[CRISP_OUT], payload[64];
static struct crisp_sender sender;
static uint8_t old_key[CRISP_KEY];     /* that an entry had before it was changed */
static uint8_t listing[CRISP_OUT];
static size_t listed;                   /* the listing's length */
static struct crisp_answer answer;
static int forgets;

static void install(void)
{
    answer = crisp_install(table, 1, sender.keyid, 1, sender.source, 32, sender.suite, sender.edition, sender.key, CRISP_KEY, 64, 0);
    if (forgets) crisp_forget();
}
static void change(void)
{
    answer = crisp_change(table, 0, 1, sender.keyid, 1, sender.source, 32, sender.suite, sender.edition, sender.key, CRISP_KEY, 64, 0);
    if (forgets) crisp_forget();
}
static void protect(void)
{
    answer = crisp_protect(&sender, payload, sizeof payload, message, sizeof message);
    if (forgets) crisp_forget();
}
static void receive(void)
{
    answer = crisp_receive(table, message, answer.length, sender.source, 32, out, sizeof out);
    if (forgets) crisp_forget();
}

static void load(void)
{
    answer = crisp_load(table, listing, listed);
    if (forgets) crisp_forget();
}

/* how many of the n / 4 groups stand somewhere */
static int found(const uint8_t *secret, size_t n, const uint8_t *place, size_t size)
{
    int count = 0;
    for (size_t i = 0; i + 4 <= n; i += 4) {
        uint8_t turned[4] = {secret[i + 3], secret[i + 2], secret[i + 1], secret[i]};
        for (size_t k = 0; k + 4 <= size; k++)
            if (memcmp(place + k, secret + i, 4) == 0 || memcmp(place + k, turned, 4) == 0) {
                count++;
                break;
            }
    }
    return count;
}

static int of_old_key;                  /* groups of it, wherever they were found */

static int look(const char *name, void (*f)(void))
{
    uint32_t base[8], keys[2][8];
    memset(stack, 0x5a, STACK);
    on_stack(f, stack + STACK, 0);
    if (answer.reply != CRISP_DONE) return -1;
    ref_key(sender.key, base);
    ref_keys(base, sender.suite, sender.edition, sender.source, 32, 1, keys[0], keys[1]);
    const struct { const void *at; size_t n; } secrets[] = {{sender.key, 32}, {keys[0], 32}, {keys[1], 32}, {payload, sizeof payload}, {old_key, 32}};
    int all = 0;
    printf("%-10s%s", name, forgets ? " forgotten:" : "          :");
    for (int i = 0; i < 5; i++) {
        int in_stack = found(secrets[i].at, secrets[i].n, stack, STACK), in_registers = found(secrets[i].at, secrets[i].n, registers, sizeof registers);
        printf(" %3d/%d", in_stack, in_registers);
        all += of_old_key = in_stack + in_registers;
    }
    printf("\n");
    return all;
}

/* the calls with key data of that suite */
static int look_at_calls(uint8_t suite)
{
    int bad = 0;
    sender = (struct crisp_sender){.flag = 1, .keyid = {5}, .keyid_len = 1, .source_len = 32, .suite = suite, .edition = 2};
    fill(sender.source, 32);
    fill(sender.key, CRISP_KEY);
    fill(payload, sizeof payload);
    fill(old_key, CRISP_KEY);
    printf("suite %d, groups of four bytes in stack/registers: base key, check key, cipher key, payload, old key\n", suite);
    for (forgets = 0; forgets < 2; forgets++) {
        memset(table, 0, sizeof table);
        sender.current = 0;
        int n = look("install", install);
        bad |= forgets ? n != 0 : n < 0;
        n = look("protect", protect);
        bad |= forgets ? n != 0 : n <= 0;
        n = look("receive", receive);
        bad |= forgets ? n != 0 : n <= 0;
        listed = crisp_listing(table, 0, listing, sizeof listing).length;
        memset(table, 0, sizeof table);
        install();
        crisp_forget();                 /* what is found next is the load's own */
        n = look("load", load);
        bad |= n != 0;
        memset(table, 0, sizeof table);
        bad |= crisp_install(table, 1, sender.keyid, 1, sender.source, 32, sender.suite, sender.edition, old_key, CRISP_KEY, 64, 0).reply != CRISP_DONE;
        crisp_forget();
        n = look("change", change);
        bad |= (forgets ? n != 0 : n < 0) || of_old_key != 0;
    }
    return bad;
}

int main(void)
{
    random_state = 1;
    int bad = look_at_calls(CRISP_MAGMA_CTR);
    return bad | look_at_calls(CRISP_MAGMA_CTR_LONG);
}
