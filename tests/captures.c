/* captures.c: captures read by the library and by the second implementation (reference.c): the order of a file, the record at a place, and a report on
 * a table, with every byte of the table and of the text compared. Files are random, cut at every length, and changed in every byte of their headers.
 * Counters grow by the lines that have 9, 10 and 11. Every file is read a second time, which must hand out nothing, and change nothing but counters. At
 * the first difference it prints the file and stops.
 *
 *   captures [SEQUENCES [SEED]]        1000 sequences and seed 1 where nothing is said
 *   captures write ORDER               writes a capture to standard output, for the tools of others; ORDER is 1 or 2
 *   captures lines ORDER               the length and the bytes of its records, as those tools should find them */
#include "random.h"
#include "reference.h"
#include "suites.h"
#include <stdio.h>
#include <stdlib.h>
#include <string.h>

enum { ENTRIES = 6, KEPT = 32, LONGEST = 70000, ROOM = CAPTURE_TEXT + 64 };

/* of a slot: its bytes, and where its window begins, its two counters stand, and nothing is behind them */
enum { SLOT = CRISP_TABLE / CRISP_SLOTS, SIZE = 198, REPLAYS = 270, FORGED = 278, BEHIND_COUNTERS = 286 };

/* ---- a file */

static uint8_t file[LONGEST];
static size_t length;
static uint64_t order;

static void put(uint64_t x, int n)
{
    for (int i = 0; i < n; i++) file[length + (size_t)(order == 1 ? n - 1 - i : i)] = (uint8_t)(x >> 8 * i);
    length += (size_t)n;
}

static void begin(uint64_t in_order)
{
    order = in_order;
    length = 0;
    put(0xa1b2c3d4, 4), put(2, 2), put(4, 2);
    fill(file + length, 12), length += 12;      /* time zone, accuracy and snapshot length are not looked at */
    put(147, 4);
}

/* the header and the data of a record, with lengths that are off by so much */
static void record(const uint8_t *source, size_t source_len, const uint8_t *message, size_t n, uint64_t more_captured, uint64_t more_original)
{
    uint64_t whole = 1 + source_len + n;
    fill(file + length, 8), length += 8;
    put(whole + more_captured, 4), put(whole + more_original, 4);
    file[length++] = (uint8_t)source_len;
    memcpy(file + length, source, source_len), length += source_len;
    memcpy(file + length, message, n), length += n;
}

/* ---- both sides */

static uint8_t table[CRISP_TABLE], ref_table[CRISP_TABLE], out[ROOM], ref_out[ROOM];
static uint64_t replies[32], files, places;

static void differs(const char *what)
{
    printf("captures: %s differs after the file\n", what);
    for (size_t i = 0; i < length; i++) printf("%02x", file[i]);
    printf("\n");
    exit(1);
}

static void same_record(size_t n, uint64_t in_order, size_t at)
{
    struct crisp_record a = crisp_capture_record(file, n, in_order, at), b = ref_capture_record(file, n, in_order, at);
    if (a.reply != b.reply || a.source != b.source || a.message != b.message || a.next != b.next) differs("a record");
    if (a.source > a.message || a.message > a.next || a.next > n) differs("a record's place");
    places++;
}

/* the first n bytes of the file: its order, its records, and records at other places and in other orders */
static void same_records(size_t n)
{
    uint64_t found = crisp_capture_order(file, n);
    if (found != ref_capture_order(file, n)) differs("the order");
    for (size_t at = CRISP_CAPTURE_HEADER; at < n; at = crisp_capture_record(file, n, found, at).next) same_record(n, found, at);
    static const size_t far[] = {0, 1, SIZE_MAX, SIZE_MAX - 15, SIZE_MAX / 2, 65536};
    for (int i = 0; i < 6; i++) same_record(n, 1 + below(2), far[i]);
    for (int i = 0; i < 4; i++) same_record(n, below(19), below(n + 20));
}

/* ---- counters */

static uint8_t table_before[CRISP_TABLE];
static uint64_t counted[2], at_limit;           /* lines with 9 or 10, and with 11; and reports that left a counter at its limit */

static uint64_t counter(const uint8_t *of, size_t slot, size_t place)
{
    uint64_t x = 0;
    for (size_t i = 0; i < 8; i++) x = x << 8 | of[SLOT * slot + place + i];
    return x;
}

/* all counters of a kind together have grown by so many replays, or so many that were forged; by no more, where one of them has come to its limit */
static void counts(uint64_t replays, uint64_t forged)
{
    uint64_t grown[2] = {0, 0};
    int limit[2] = {0, 0};
    for (size_t slot = 0; slot < CRISP_SLOTS; slot++)
        for (int which = 0; which < 2; which++) {
            size_t place = which ? FORGED : REPLAYS;
            grown[which] += counter(table, slot, place) - counter(table_before, slot, place);
            limit[which] |= counter(table, slot, place) == CRISP_COUNTED;
        }
    uint64_t expected[2] = {replays, forged};
    for (int which = 0; which < 2; which++) {
        if (limit[which] ? grown[which] > expected[which] : grown[which] != expected[which]) differs("the number of arrivals that were counted");
        counted[which] += expected[which], at_limit += limit[which] && expected[which] > 0;
    }
}

/* whether all else is as it was */
static int same_but_counters(void)
{
    for (size_t at = 0; at < CRISP_TABLE; at++)
        if (table[at] != table_before[at] && (at % SLOT < REPLAYS || at % SLOT >= BEHIND_COUNTERS)) return 0;
    return 1;
}

/* a report of the first n bytes; answers how many payloads it handed out */
static size_t same_report(size_t n, size_t room)
{
    memcpy(table_before, table, CRISP_TABLE);
    memset(out, (int)(files & 255), ROOM);
    memcpy(ref_out, out, ROOM);
    struct capture_summary a = capture_report(table, file, n, out, room), b = ref_report(ref_table, file, n, ref_out, room);
    if (a.reply != b.reply || a.length != b.length || a.records != b.records || a.cut != b.cut) differs("the summary");
    if (memcmp(table, ref_table, CRISP_TABLE)) differs("the table");
    if (memcmp(out, ref_out, ROOM)) differs("the text");
    files++;
    replies[a.reply]++;
    size_t handed = 0, at = 0;
    uint64_t replays_told = 0, forged_told = 0;
    for (size_t lines = 0; lines < a.records; lines++) {
        const char *answer = strstr((const char *)out + at, "answer=") + 7;
        unsigned long reply = strtoul(answer, NULL, 10);
        if (reply > 20) differs("a reply that is not listed");
        replies[reply]++;
        handed += reply == 0, replays_told += reply == 9 || reply == 10, forged_told += reply == 11;
        at = (size_t)((const uint8_t *)strchr(answer, '\n') + 1 - out);
    }
    if (at != a.length) differs("the number of lines");
    counts(replays_told, forged_told);
    return handed;
}

/* read, and read again */
static void both_ways(size_t n)
{
    same_records(n);
    same_report(n, CAPTURE_TEXT);
    if (same_report(n, CAPTURE_TEXT + below(3)) != 0) differs("a second reading, which handed something out:");
    if (!same_but_counters()) differs("a second reading, which changed more than counters:");
}

/* ---- senders, their entries, and what they sent */

static struct crisp_sender senders[ENTRIES];
static struct { uint8_t bytes[2048]; size_t length; int from; } kept[KEPT];
static int keeps;

static void make_table(void)
{
    static const uint8_t firsts[ENTRIES] = {0x05, 0x81, 0x80, 0x7f, 0xff, 0x00};
    memset(table, 0, CRISP_TABLE);
    keeps = 0;
    for (int i = 0; i < ENTRIES; i++) {
        struct crisp_sender *s = &senders[i];
        memset(s, 0, sizeof *s);
        s->keyid[0] = firsts[i];
        s->keyid_len = firsts[i] <= 0x80 ? 1 : firsts[i] - 0x7fu;
        s->flag = firsts[i] == 0x80 ? 1 : (uint8_t)below(2);
        s->source_len = 4 + below(29);
        fill(s->source, s->source_len);
        s->suite = suites[below(EVERY_SUITE)];
        s->edition = s->suite == CRISP_MAGMA_CTR ? (uint8_t)(1 + below(2)) : 2;
        fill(s->key, 32);
        s->current = below(3) ? below(8) : (1ULL << 48) - 20;
        uint8_t suite = below(8) ? s->suite : suites[below(EVERY_SUITE)];       /* some entries have another suite, */
        uint8_t edition = suite != CRISP_MAGMA_CTR ? 2 : below(8) ? s->edition : (uint8_t)(3 - s->edition);
        uint64_t start = below(4) ? 0 : s->current + below(8);                  /* some the other edition, and some a start */
        (void)crisp_install(table, s->flag, s->keyid, s->keyid_len, s->source, s->source_len, suite, edition, s->key, 32, 1 + below(8), start).reply;
    }
    for (size_t i = 0; i < ENTRIES; i++) {                                      /* some counters are at their limit, or near it, */
        uint8_t *low_half = table + SLOT * i + (below(2) ? REPLAYS : FORGED) + 4;
        if (!below(4)) memset(low_half, 0xff, 4), low_half[3] -= (uint8_t)below(4);
    }
    if (!below(4)) table[SLOT * below(ENTRIES) + SIZE + below(BEHIND_COUNTERS - SIZE)] ^= 0x41; /* and some records damaged */
    memcpy(ref_table, table, CRISP_TABLE);
}

static void random_record(void)
{
    int again = keeps && !below(4), i = again ? (int)below((uint64_t)(keeps < KEPT ? keeps : KEPT)) : keeps++ % KEPT;
    if (!again) {
        uint8_t payload[200];
        size_t n = below(6) ? below(40) : below(200);
        fill(payload, n);
        kept[i].from = (int)below(ENTRIES);
        kept[i].length = ref_protect(&senders[kept[i].from], payload, n, kept[i].bytes, sizeof kept[i].bytes).length;
    }
    uint8_t message[2048];
    const struct crisp_sender *s = &senders[kept[i].from];
    memcpy(message, kept[i].bytes, sizeof message);
    size_t n = kept[i].length, source_len = s->source_len;
    uint64_t more = 0;
    switch (below(20)) {
    case 0: if (n) message[below(n)] ^= (uint8_t)(1 << below(8)); break;
    case 1: n = below(n + 1); break;
    case 2: source_len = below(33); break;
    case 3: source_len = 0; break;
    case 4: n = 0; break;
    case 5: message[1] ^= (uint8_t)below(2), message[2] = (uint8_t)(below(2) ? below(4) : 240 + below(4)); break;
    case 6: more = 1 + below(3); break;
    case 7: fill(message + 3 + s->keyid_len, 6); break;
    }
    record(s->source, source_len, message, n, 0, more);
    switch (below(24)) {
    case 0: put(0, 4), put(0, 4), put(0, 4), put(0, 4); break;                                          /* an empty record */
    case 1: put(0, 8), put(2, 4), put(2, 4), put(below(2) ? 0x0102 : 0x0202, 2); break;                 /* an identifier that just fits, or not */
    }
}

/* A sequence is told by its seed alone: a table, and some files on it. */
static void random_sequence(uint64_t seed)
{
    random_state = seed;
    make_table();
    for (int n = 1 + (int)below(4); n > 0; n--) {
        begin(1 + below(2));
        for (int records = (int)below(12); records > 0; records--) random_record();
        switch (below(12)) {
        case 0: length -= below(length); break;                                                         /* cut anywhere */
        case 1: file[below(24)] ^= (uint8_t)(1 << below(8)); break;
        case 2: fill(file + length, 20), length += below(20); break;                                    /* a few bytes behind the last */
        case 3: put(rnd(), 8), put(0xffffffff - below(2), 4), put(0xffffffff, 4), length += below(40); break;
        case 4: if (length > 24) file[24 + below(length - 24)] = (uint8_t)rnd(); break;
        }
        both_ways(length);
        if (!below(3)) (void)(crisp_remove(table, below(16)).reply + ref_remove(ref_table, 16).reply), memcpy(ref_table, table, CRISP_TABLE);
    }
}

/* ---- sweeps */

static uint8_t whole[LONGEST];
static uint8_t saved[CRISP_TABLE];

static void back(void)
{
    memcpy(table, saved, CRISP_TABLE);
    memcpy(ref_table, saved, CRISP_TABLE);
}

/* whether a byte of the file is of its header, of a record's, or tells the length of an identifier */
static int of_a_header(size_t n, uint64_t in_order, size_t byte)
{
    size_t at = CRISP_CAPTURE_HEADER;
    while (at <= byte && at < n) {
        if (byte < at + 17) return 1;
        at = ref_capture_record(whole, n, in_order, at).next;
    }
    return byte < CRISP_CAPTURE_HEADER;
}

/* a short file cut at every length; every byte of its headers with every value; outputs around the least */
static void sweep(uint64_t in_order)
{
    make_table();
    memcpy(saved, table, CRISP_TABLE);
    begin(in_order);
    for (int i = 0; i < 3; i++) random_record();
    size_t n = length;
    memcpy(whole, file, n);
    for (size_t cut = 0; cut <= n; cut++) back(), both_ways(cut);
    for (size_t at = 0; at < n; at++) {
        if (!of_a_header(n, in_order, at)) continue;
        for (int x = 0; x < 256; x++) {
            file[at] = (uint8_t)x;
            back(), both_ways(n);
        }
        file[at] = whole[at];
    }
    for (size_t room = 0; room <= ROOM; room += room > 2 && room < CAPTURE_TEXT - 2 ? 4095 : 1) back(), same_report(n, room);
}

/* files around the greatest size, of records as short and as long as they come */
static void sweep_sizes(uint64_t in_order)
{
    for (size_t n = CRISP_CAPTURE - 20; n <= CRISP_CAPTURE + 20; n++) {
        make_table();
        begin(in_order);
        while (length < n)
            if (n % 3 == 0) put(0, 8), put(0, 8);
            else if (n % 3 == 1) random_record();
            else record(senders[0].source, senders[0].source_len, whole, n - length < 4000 ? (n - length) / 2 : 2000, 0, 0);
        length = n;
        both_ways(n);
    }
}

static void nothing_but(const char *what, uint64_t in_order)
{
    random_state = 7;
    make_table();
    begin(in_order);
    for (int i = 0; i < 20; i++) random_record();
    if (!strcmp(what, "write")) fwrite(file, 1, length, stdout);
    else
        for (size_t at = 24, next; at < length; at = next) {
            size_t n = 0;
            for (int i = 0; i < 4; i++) n |= (size_t)file[at + 8 + (size_t)(in_order == 1 ? 3 - i : i)] << 8 * i;
            size_t original = 0;
            for (int i = 0; i < 4; i++) original |= (size_t)file[at + 12 + (size_t)(in_order == 1 ? 3 - i : i)] << 8 * i;
            printf("%zu\t%zu\t", n, original);
            for (size_t i = 0; i < n; i++) printf("%02x", file[at + 16 + i]);
            printf("\n");
            next = at + 16 + n;
        }
}

int main(int argc, char **argv)
{
    if (argc > 2 && (argv[1][0] == 'w' || argv[1][0] == 'l')) return nothing_but(argv[1], strtoull(argv[2], NULL, 0)), 0;
    uint64_t sequences = argc > 1 ? strtoull(argv[1], NULL, 0) : 1000, seed = argc > 2 ? strtoull(argv[2], NULL, 0) : 1;
    random_state = seed;
    for (uint64_t in_order = 1; in_order <= 2; in_order++) sweep(in_order), sweep_sizes(in_order);
    uint64_t swept = files;
    for (uint64_t i = 0; i < sequences; i++) random_sequence(seed << 32 | i);
    int missing = 0;
    printf("replies");
    for (int r = 0; r <= 20; r++)
        if (replies[r]) printf("  %d: %llu", r, (unsigned long long)replies[r]);
    printf("\ncounted  replays: %llu  forged: %llu  at the limit: %llu\n", (unsigned long long)counted[0], (unsigned long long)counted[1],
           (unsigned long long)at_limit);
    if (!counted[0] || !counted[1] || !at_limit) printf("one of these was never met\n"), missing++;
    for (int r = 0; r <= 20; r++)
        if (!replies[r] && (r <= 11 || r >= 17)) printf("reply %d was never given\n", r), missing++;
    printf("captures: %llu reports in sweeps and %llu in %llu random sequences, %llu places, no difference\n", (unsigned long long)swept,
           (unsigned long long)(files - swept), (unsigned long long)sequences, (unsigned long long)places);
    return missing ? 1 : 0;
}
