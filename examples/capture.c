/* A gateway that reads a capture file from standard input, record by record, and prints a line for each. The table holds the key data of appendix A.2
 * of R 1323565.1.029-2019. Build: cc capture.c $(pkg-config --cflags --libs crisp) */
#include "crisp.h"
#include <stdio.h>

static uint8_t table[CRISP_TABLE];              /* zeros: an empty table */
static uint8_t file[CRISP_CAPTURE + 1];         /* one byte more, so that a longer file is seen to be so */

static const uint8_t keyid[] = {0x30};
static const uint8_t source[] = "020518000001";
static const uint8_t key[32] = {
    0x56, 0x50, 0x94, 0x27, 0x15, 0x32, 0x49, 0x65, 0x34, 0x98, 0x52, 0x46, 0x59, 0x32, 0x46, 0x53,
    0x04, 0x53, 0x29, 0x45, 0x34, 0x65, 0x93, 0x84, 0x50, 0x73, 0x24, 0x95, 0x76, 0x35, 0x12, 0x90,
};

/* the line of a record that was answered so, with its payload */
static void say(size_t number, uint64_t reply, const uint8_t *payload, size_t length)
{
    printf("record=%zu answer=%llu payload=", number, (unsigned long long)reply);
    for (size_t i = 0; i < length; i++) printf("%02x", payload[i]);
    printf("\n");
}

int main(void)
{
    if (crisp_install(table, 1, keyid, sizeof keyid, source, sizeof source - 1, 2, 2, key, sizeof key, 4, 0).reply != CRISP_DONE) return 1;
    size_t length = fread(file, 1, sizeof file, stdin), number = 0;
    uint64_t order = crisp_capture_order(file, length);
    if (order == CRISP_BAD_CAPTURE) return printf("answer=%d\n", CRISP_BAD_CAPTURE) < 0;

    struct crisp_record r;
    for (size_t at = CRISP_CAPTURE_HEADER; r = crisp_capture_record(file, length, order, at), r.reply != CRISP_END; at = r.next) {
        uint8_t out[CRISP_OUT];
        struct crisp_answer a = {r.reply, 0, 0, 0};
        if (r.reply == CRISP_DONE) a = crisp_receive(table, file + r.message, r.next - r.message, file + r.source, r.message - r.source, out, sizeof out);
        say(++number, a.reply, out, a.length);
    }
    return 0;
}
