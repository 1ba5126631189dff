/* stack.c: the deepest stack of each function of the library, in bytes. Receive, of a message that it takes and of one that it counts as forged, and protect
 * must be within 1,024, all others within CRISP_STACK, a report of a capture, which has a payload's buffer in it, within 4,096. Then counter mode by
 * itself, and the cipher's own told apart from it.
 *
 * A call runs on a stack of its own. Of the functions two depths are taken and the larger is printed: down to the lowest byte written (the stack is filled
 * with a value before, and with another value in a second run), and down to the lowest stack pointer (the call is single-stepped). The lines here that
 * make the call are counted with it, 16 to 96 bytes. x86-64, Linux. */
#define _GNU_SOURCE
#include "cipher.h"
#include "crisp.h"
#include "on_stack.h"
#include "report.h"
#include <signal.h>
#include <stdio.h>
#include <string.h>
#include <ucontext.h>

static size_t written(void (*f)(void), int value)
{
    memset(stack, value, STACK);
    on_stack(f, stack + STACK, 0);
    size_t i = 0;
    while (i < STACK && stack[i] == value) i++;
    return STACK - i;
}

static volatile uintptr_t lowest;
static void (*also)(uintptr_t sp, uintptr_t ip); /* what else looks at each step */

static void trap(int signal, siginfo_t *info, void *context)
{
    (void)signal, (void)info;
    const greg_t *r = ((ucontext_t *)context)->uc_mcontext.gregs;
    uintptr_t sp = (uintptr_t)r[REG_RSP];
    if (sp <= (uintptr_t)stack || sp > (uintptr_t)stack + STACK) return;
    if (sp < lowest) lowest = sp;
    if (also) also(sp, (uintptr_t)r[REG_RIP]);
}

static size_t reserved(void (*f)(void))
{
    static uint8_t other[1 << 16];
    stack_t alternate = {.ss_sp = other, .ss_size = sizeof other};
    struct sigaction action = {.sa_sigaction = trap, .sa_flags = SA_SIGINFO | SA_ONSTACK};
    if (sigaltstack(&alternate, NULL) || sigaction(SIGTRAP, &action, NULL)) return 0;
    lowest = (uintptr_t)stack + STACK;
    on_stack(f, stack + STACK, 1);
    return (uintptr_t)stack + STACK - lowest;
}

/* ---- the calls, each on its longest path */

static uint8_t table[CRISP_TABLE], before[CRISP_TABLE], key[32], source[32], keyid[128] = {0xff}, data[CRISP_PAYLOAD_WITH(128)], out[2048], message[2048];
static struct crisp_sender sender;
static struct crisp_answer answer;
static uint8_t suite, edition;
static size_t longest;          /* the payload's length, so that each message has 2,048 bytes */

static void install(void)
{
    memset(table, 0, sizeof table);
    answer = crisp_install(table, 1, keyid, 128, source, 32, suite, edition, key, 32, 256, 0);
}
static void receive(void)
{
    memcpy(table, before, sizeof table);
    answer = crisp_receive(table, message, sizeof message, source, 32, out, sizeof out);
}
/* with its last byte changed */
static void refuse(void)
{
    memcpy(table, before, sizeof table);
    message[sizeof message - 1] ^= 1;
    answer = crisp_receive(table, message, sizeof message, source, 32, out, sizeof out);
    message[sizeof message - 1] ^= 1;
    answer.reply -= CRISP_WRONG_ICV;
}
static void protect(void)
{
    sender.current = 5;
    answer = crisp_protect(&sender, data, longest, message, sizeof message);
}
static void listing(void) { answer = crisp_listing(table, 0, out, sizeof out); }
static uint8_t listed[2048];
static size_t listed_length;
static void load(void)
{
    memcpy(table, before, sizeof table);
    answer = crisp_load(table, listed, listed_length);
}
/* beside an entry whose source differs from its own in the last byte, so that all of a name is compared */
static void change(void)
{
    enum { SLOT = CRISP_TABLE / CRISP_SLOTS, LAST_OF_SOURCE = 134 + 31 };
    memcpy(table, before, sizeof table);
    memcpy(table + SLOT, before, SLOT);
    table[SLOT + LAST_OF_SOURCE] ^= 1;
    answer = crisp_change(table, 0, 1, keyid, 128, source, 32, suite, edition, key, 32, 256, 0);
}
static void removal(void)
{
    memcpy(table, before, sizeof table);
    answer = crisp_remove(table, 0);
}

/* a capture with that message */
static uint8_t capture[24 + 16 + 33 + sizeof message] = {0xd4, 0xc3, 0xb2, 0xa1, 2, 0, 4, 0, [20] = 147, [32] = 0x21, 8, [36] = 0x21, 8, [40] = 32}, text[CAPTURE_TEXT];
static void order(void) { answer.reply = crisp_capture_order(capture, sizeof capture) - 2; }
static void record(void) { answer.reply = crisp_capture_record(capture, sizeof capture, 2, CRISP_CAPTURE_HEADER).reply; }
static void report(void)
{
    memcpy(table, before, sizeof table);
    memcpy(capture + 73, message, sizeof message);
    answer.reply = capture_report(table, capture, sizeof capture, text, sizeof text).length != sizeof "record=1 answer=0 payload=\n" - 1 + 2 * longest;
}

/* what a caller may have pushed for the call, above the return address */
enum { PUSHED = 64 };
static int bad;

static void line(const char *name, size_t bytes, int wrong)
{
    printf("%-24s %6zu%s\n", name, bytes, wrong ? "   TOO DEEP" : "");
    bad |= wrong;
}

static void gauge_within(size_t limit, const char *name, void (*f)(void))
{
    size_t depth = written(f, 0x5a), second = written(f, 0xa5), pointer = reserved(f);
    if (second > depth) depth = second;
    if (pointer > depth) depth = pointer;
    line(name, depth, answer.reply != 0 || pointer == 0 || depth > limit);
}

static void gauge(const char *name, void (*f)(void)) { gauge_within(CRISP_STACK - PUSHED, name, f); }

/* ---- counter mode by itself
 *
 * Its frame is what lies between its return address and the cipher's, at any step outside the cipher. Scratch is what of the frame, or of the red zone
 * below it, ever depends on key, IV or data: each place has a sum of what stood there at each step, and the sums of two runs on other data are compared.
 * What depends on none of them (the low half of a counter) is not seen so; the frame has a limit too, which leaves two blocks beside what is kept:
 * return address, six registers, and five words that the loop walks by. */

enum { BLOCK = 8, SCRATCH = 2 * BLOCK, KEPT = 12 * 8, RED_ZONE = 128, LONGEST = 2048 };

static uint32_t words[8], iv;
static uint64_t image;
static size_t count;
static void block(void) { image = cipher_block(words, iv); }
static void counter(void) { answer.reply = !cipher_counter(words, iv, message, count, out); }

static uintptr_t watched, top; /* a function, and where what it takes begins: its return address */
static uintptr_t cipher, inside; /* the cipher, and where its return address is while it runs */
static size_t frame, scratch;
static uint64_t sums[2][STACK];
static int run;

/* what cipher_block does first is to hand over to the cipher */
static void find_cipher(uintptr_t sp, uintptr_t ip)
{
    if (top && !cipher) cipher = ip;
    if (ip == watched) top = sp + 8;
}

static void look_at_frame(uintptr_t sp, uintptr_t ip)
{
    if (ip == watched) top = sp + 8;
    if (!top || sp >= top) return;
    if (inside && sp > inside) memset(stack, 0, sp - (uintptr_t)stack), inside = 0; /* what the cipher left is not the frame's */
    if (ip == cipher) inside = sp;
    if (inside) return;
    if (top - sp > frame) frame = top - sp;
    for (uintptr_t at = sp - RED_ZONE; at < top; at++) {
        size_t i = at - (uintptr_t)stack;
        sums[run][i] = 31 * sums[run][i] + stack[i];
    }
}

static void fill(uint8_t *bytes, size_t n, uint8_t factor)
{
    for (size_t i = 0; i < n; i++) bytes[i] = (uint8_t)((i + 1) * factor);
}

static void step_counter(size_t n)
{
    memset(sums, 0, sizeof sums);
    for (count = n, run = 0; run < 2; run++) {
        uint8_t factor = run ? 91 : 37;
        fill(message, LONGEST, factor), fill((uint8_t *)words, sizeof words, factor), fill((uint8_t *)&iv, sizeof iv, factor);
        memset(stack, 0, STACK);
        top = 0;
        reserved(counter);
    }
    size_t differ = 0;
    for (size_t i = 0; i < STACK; i++) differ += sums[0][i] != sums[1][i];
    if (differ > scratch) scratch = differ;
}

/* down to the lowest byte written, from the return address of the function that was watched */
static size_t taken(void (*f)(void)) { return written(f, 0x5a) - (size_t)((uintptr_t)stack + STACK - top); }

static void gauge_counter(void)
{
    watched = (uintptr_t)cipher_block, top = 0, also = find_cipher;
    reserved(block);
    if (!top || !cipher) {
        line("counter mode, not seen", 0, 1);
        return;
    }
    size_t own = taken(block), deepest = 0;

    watched = (uintptr_t)cipher_counter, also = look_at_frame;
    for (size_t n = 0; n <= 2 * BLOCK + 1; n++) step_counter(n);
    step_counter(LONGEST);
    also = NULL;
    for (count = 0; count <= LONGEST; count++) {
        size_t depth = taken(counter);
        if (depth > deepest) deepest = depth;
    }
    line("counter mode, frame", frame, answer.reply != 0 || frame == 0 || frame > SCRATCH + KEPT);
    line("  scratch in it", scratch, scratch > SCRATCH);
    line("  the cipher's own", own, 0);
    line("  all, of any length", deepest, deepest > frame + own);
}

/* the calls with key data of that suite and that edition */
static void gauge_calls(uint8_t of_suite, uint8_t of_edition, const char *what)
{
    static const struct { const char *name; void (*call)(void); size_t limit; } calls[] = {
        {"install", install, CRISP_STACK - PUSHED}, {"protect", protect, 1024}, {"receive", receive, 1024}, {"listing", listing, CRISP_STACK - PUSHED},
        {"load", load, CRISP_STACK - PUSHED}, {"remove", removal, CRISP_STACK - PUSHED}, {"change", change, CRISP_STACK - PUSHED},
        {"refuse", refuse, 1024}, {"report", report, 4096 - PUSHED},
    };
    suite = of_suite, edition = of_edition, longest = CRISP_PAYLOAD_OF(sizeof keyid, suite);
    sender = (struct crisp_sender){.flag = 1, .keyid = {0xff}, .keyid_len = 128, .source_len = 32, .suite = suite, .edition = edition};
    install();
    memcpy(before, table, sizeof table);
    protect(), receive(), listing();
    memcpy(listed, out, listed_length = answer.length);
    for (size_t i = 0; i < sizeof calls / sizeof *calls; i++) {
        char name[32];
        snprintf(name, sizeof name, "%s, %s", calls[i].name, what), gauge_within(calls[i].limit, name, calls[i].call);
    }
}

/* with a word more, counter mode too */
int main(int argc, char **argv)
{
    (void)argv;
    printf("%-24s %6s\n", "deepest stack, bytes", "");
    gauge_calls(1, 2, "suite 1");
    gauge_calls(2, 2, "suite 2");
    gauge_calls(1, 1, "edition 1");
    gauge_calls(241, 2, "suite 241");
    gauge_calls(242, 2, "suite 242");
    gauge("capture order", order);
    gauge("capture record", record);
    if (argc > 1) gauge_counter();
    return bad;
}
