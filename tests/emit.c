/* emit.c: prints what the proved code makes of random keys and data, one line each, for peer.c to check: check values and texts in counter mode of 1 to
 * 2,048 bytes, and whole messages of each suite and edition, with payloads of 0 to 191 bytes, of any length, and of the greatest:
 *   check KEY DATA VALUE      ctr KEY IV DATA RESULT      sealed FLAG KEYID SOURCE SUITE EDITION KEY SEQNUM PAYLOAD MESSAGE
 * FLAG, SUITE and EDITION are in decimal, all else in hex; a payload of no bytes is a dash. */
#include "cipher.h"
#include "crisp.h"
#include "random.h"
#include <stdio.h>
#include <stdlib.h>

enum { MESSAGES = 256 };        /* of a suite and an edition */

static uint8_t data[2048], out[2048];

static void hex(const uint8_t *p, size_t n)
{
    printf(n ? " " : " -");
    for (size_t i = 0; i < n; i++) printf("%02x", p[i]);
}

static void key_words(const uint8_t bytes[32], uint32_t key[8])
{
    for (int i = 0; i < 8; i++) {
        const uint8_t *p = bytes + 4 * i;
        key[i] = (uint32_t)p[0] << 24 | (uint32_t)p[1] << 16 | (uint32_t)p[2] << 8 | p[3];
    }
}

/* a check value and a text of n bytes */
static int modes(size_t n)
{
    uint8_t bytes[32];
    uint32_t key[8], iv = (uint32_t)rnd();
    fill(bytes, 32);
    fill(data, n);
    key_words(bytes, key);
    printf("check");
    hex(bytes, 32);
    hex(data, n);
    printf(" %016llx\n", (unsigned long long)cipher_check(key, data, n));
    if (!cipher_counter(key, iv, data, n, out)) return 1;
    printf("ctr");
    hex(bytes, 32);
    printf(" %08x", iv);
    hex(data, n);
    hex(out, n);
    putchar('\n');
    return 0;
}

static struct crisp_sender some_sender(uint8_t suite, uint8_t edition)
{
    struct crisp_sender s = {.suite = suite, .edition = edition, .source_len = 4 + below(29), .current = below(CRISP_LAST)};
    s.keyid[0] = (uint8_t)rnd();
    s.keyid_len = s.keyid[0] <= 0x80 ? 1 : s.keyid[0] - 0x7fu;
    s.flag = s.keyid[0] == 0x80 ? 1 : (uint8_t)below(2);
    fill(s.keyid + 1, s.keyid_len - 1);
    fill(s.source, s.source_len);
    fill(s.key, CRISP_KEY);
    return s;
}

/* message i of a suite and an edition */
static int sealed(uint8_t suite, uint8_t edition, size_t i)
{
    struct crisp_sender s = some_sender(suite, edition);
    size_t longest = CRISP_PAYLOAD_OF(s.keyid_len, suite), n = i < 192 ? i : i < MESSAGES - 1 ? below(longest) : longest;
    fill(data, n);
    struct crisp_answer a = crisp_protect(&s, data, n, out, sizeof out);
    if (a.reply != CRISP_DONE) return 1;
    printf("sealed %d", s.flag);
    hex(s.keyid, s.keyid_len);
    hex(s.source, s.source_len);
    printf(" %d %d", suite, edition);
    hex(s.key, CRISP_KEY);
    printf(" %012llx", (unsigned long long)a.seqnum);
    hex(data, n);
    hex(out, a.length);
    putchar('\n');
    return 0;
}

int main(int argc, char **argv)
{
    static const uint8_t kinds[][2] = {{CRISP_MAGMA_CTR, 2}, {CRISP_MAGMA_NULL, 2}, {CRISP_MAGMA_CTR_LONG, 2}, {CRISP_MAGMA_NULL_LONG, 2},
                                       {CRISP_MAGMA_CTR, 1}};
    random_state = argc > 1 ? strtoull(argv[1], NULL, 0) : 1;
    for (size_t n = 1; n <= 2048; n++)
        if (modes(n)) return 1;
    for (size_t k = 0; k < sizeof kinds / sizeof *kinds; k++)
        for (size_t i = 0; i < MESSAGES; i++)
            if (sealed(kinds[k][0], kinds[k][1], i)) return 1;
    return 0;
}
