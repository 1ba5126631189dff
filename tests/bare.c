/* bare.c: the library without a C library: -nostdlib, with memcpy and memset of its own. One message is sent, received, repeated, which is counted, and
 * listed, and is refused once its entry has another key; the listing goes to standard output by a system call, for want of a wire. */
#include "crisp.h"

void *memcpy(void *to, const void *from, size_t n)
{
    uint8_t *t = to;
    const uint8_t *f = from;
    while (n--) *t++ = *f++;
    return to;
}

void *memset(void *to, int value, size_t n)
{
    uint8_t *t = to;
    while (n--) *t++ = (uint8_t)value;
    return to;
}

static long system_call(long number, long a, const void *b, size_t c)
{
    long result;
    __asm__ __volatile__("syscall" : "=a"(result) : "a"(number), "D"(a), "S"(b), "d"(c) : "rcx", "r11", "memory");
    return result;
}

static uint8_t table[CRISP_TABLE], message[CRISP_OUT], out[CRISP_OUT];
static struct crisp_sender sender = {.flag = 0, .keyid = {0x05}, .keyid_len = 1, .source = "meter 17", .source_len = 8, .suite = 1, .key = {1, 2, 3},
                                     .edition = 2};

static int exchange(void)
{
    static const char reading[] = "17.3 GJ";
    struct crisp_answer a = crisp_install(table, sender.flag, sender.keyid, sender.keyid_len, sender.source, sender.source_len, sender.suite,
                                          sender.edition, sender.key, CRISP_KEY, CRISP_SIZE, 0);
    if (a.reply != CRISP_DONE) return 1;
    a = crisp_protect(&sender, (const uint8_t *)reading, sizeof reading, message, sizeof message);
    if (a.reply != CRISP_DONE) return 2;
    size_t length = a.length;
    a = crisp_receive(table, message, length, CRISP_NOTHING, 0, out, sizeof out);
    if (a.reply != CRISP_DONE || a.length != sizeof reading) return 3;
    for (size_t i = 0; i < sizeof reading; i++)
        if (out[i] != (uint8_t)reading[i]) return 4;
    if (crisp_receive(table, message, length, CRISP_NOTHING, 0, out, sizeof out).reply != CRISP_REPEATED) return 5;
    crisp_forget();
    a = crisp_listing(table, 0, out, sizeof out);
    if (a.reply != CRISP_DONE || system_call(1, 1, out, a.length) != (long)a.length) return 6;
    static const uint8_t key[CRISP_KEY] = {4, 5, 6};
    a = crisp_change(table, 0, sender.flag, sender.keyid, sender.keyid_len, sender.source, sender.source_len, sender.suite, sender.edition, key,
                     sizeof key, CRISP_SIZE, 0);
    if (a.reply != CRISP_DONE || crisp_receive(table, message, length, CRISP_NOTHING, 0, out, sizeof out).reply != CRISP_WRONG_ICV) return 8;
    return crisp_remove(table, 0).reply == CRISP_DONE ? 0 : 7;
}

void begin(void) { system_call(60, exchange(), out, 0); }

__asm__(".globl _start\n_start: call begin\n");
