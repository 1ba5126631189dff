/* layout.c: prints the bytes of an occupied slot and of a sender's record, all fields of both in use but the slot's counters. The file tests/layout.N has
 * them for CRISP_LAYOUT N: whoever moves a field or gives it another meaning raises the number and stores a new file, so that saved bytes of before are
 * told apart. tests/layout.2 is from version 3, which had no counters.
 *
 *   layout counters    prints the slot with its counters in use too, each in four bytes that differ; tests/layout.2.counters has it
 *   layout before      takes a slot of layout 1 from standard input, as it was printed, and a record where there is one. Both must be refused as they
 *                      are; with edition 2 put in, it prints the entry's listing and the record's next message, which the entry must take
 *   layout saved       takes a slot and a record of this layout from standard input, as they were printed, and goes on with them as they are: it prints
 *                      the listing, and once more after one message was taken, refused as repeated, and refused with another number */
#include "crisp.h"
#include <stdio.h>
#include <string.h>

static void print(const char *name, const void *bytes, size_t n)
{
    printf("%s", name);
    for (size_t i = 0; i < n; i++) printf("%s%02x", i % 32 ? "" : "\n", ((const uint8_t *)bytes)[i]);
    printf("\n");
}

/* whether standard input goes on with that name and so many bytes */
static int scan(const char *name, void *bytes, size_t n)
{
    char word[8];
    unsigned byte;
    if (scanf("%7s", word) != 1 || strcmp(word, name)) return 0;
    for (size_t i = 0; i < n; i++) {
        if (scanf("%2x", &byte) != 1) return 0;
        ((uint8_t *)bytes)[i] = (uint8_t)byte;
    }
    return 1;
}

static uint8_t table[CRISP_TABLE], message[CRISP_OUT], out[CRISP_OUT];
static struct crisp_sender s = {.flag = 1, .keyid = {0x83, 0xa1, 0xa2, 0xa3}, .keyid_len = 4, .source = "meter 0017", .source_len = 10, .suite = 1,
                                .edition = 1};

/* the record's next message, and the entry's reply to it */
static int arrives(size_t *length)
{
    struct crisp_answer a = crisp_protect(&s, (const uint8_t *)"17.3 GJ", 7, message, sizeof message);
    if (a.reply != CRISP_DONE) return 100 + (int)a.reply;
    *length = a.length;
    return (int)crisp_receive(table, message, a.length, s.source, s.source_len, out, sizeof out).reply;
}

static int lists(void)
{
    struct crisp_answer a = crisp_listing(table, 0, out, sizeof out);
    printf("%.*s", (int)a.length, (const char *)out);
    return (int)a.reply;
}

static int before(void)
{
    size_t length;
    if (!scan("slot", table, CRISP_TABLE / CRISP_SLOTS) || crisp_listing(table, 0, out, sizeof out).reply != CRISP_DAMAGED) return 4;
    table[3] = 2;
    if (lists() != CRISP_DONE) return 5;
    if (!scan("record", &s, sizeof s)) return 0;
    if (arrives(&length) != 100 + CRISP_DAMAGED) return 6;
    s.edition = 2;
    if (arrives(&length) != CRISP_DONE) return 7;
    print("message", message, length);
    return 0;
}

/* the last message once more, and then with the next number */
static int turned_away(size_t length)
{
    if (crisp_receive(table, message, length, s.source, s.source_len, out, sizeof out).reply != CRISP_REPEATED) return 0;
    message[3 + s.keyid_len + 5]++;
    return crisp_receive(table, message, length, s.source, s.source_len, out, sizeof out).reply == CRISP_WRONG_ICV;
}

static int saved(void)
{
    size_t length;
    if (!scan("slot", table, CRISP_TABLE / CRISP_SLOTS) || !scan("record", &s, sizeof s)) return 8;
    if (lists() != CRISP_DONE || arrives(&length) != CRISP_DONE || !turned_away(length)) return 9;
    return lists() != CRISP_DONE;
}

/* The entry takes its own listing with other counters, and counts on. */
static int counters(size_t length)
{
    static uint8_t listing[CRISP_OUT];
    static const char none[] = "replays=0\nforged=0\n", many[] = "replays=16909060\nforged=84281096\n";         /* 01020304 and 05060708 */
    size_t n = crisp_listing(table, 0, listing, sizeof listing).length - (sizeof none - 1);
    if (memcmp(listing + n, none, sizeof none - 1)) return 10;
    memcpy(listing + n, many, sizeof many - 1);
    struct crisp_answer a = crisp_change(table, 0, s.flag, s.keyid, s.keyid_len, s.source, s.source_len, s.suite, s.edition, s.key, sizeof s.key, 65,
                                         0x7172737475);
    if (a.reply != CRISP_DONE || crisp_load(table, listing, n + sizeof many - 1).reply != CRISP_DONE || !turned_away(length)) return 11;
    print("slot", table, CRISP_TABLE / CRISP_SLOTS);
    return 0;
}

int main(int argc, char **argv)
{
    size_t length;
    if (argc > 1 && !strcmp(argv[1], "before")) return before();
    if (argc > 1 && !strcmp(argv[1], "saved")) return saved();
    for (int i = 0; i < CRISP_KEY; i++) s.key[i] = (uint8_t)(i + 1);
    struct crisp_answer a = crisp_install(table, s.flag, s.keyid, s.keyid_len, s.source, s.source_len, s.suite, s.edition, s.key, sizeof s.key, 65,
                                          0x7172737475);
    if (a.reply != CRISP_DONE) return 1;
    for (int i = 0; i < 3; i++) {
        s.current += 0x010203040500 / 2;
        if (arrives(&length) != CRISP_DONE) return 2;
    }
    if (argc > 1) return counters(length);
    print("slot", table, CRISP_TABLE / CRISP_SLOTS);
    print("record", &s, sizeof s);
    return 0;
}
