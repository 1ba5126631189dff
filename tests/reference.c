/* reference.c: see reference.h. Comments name the rule that a piece follows. */
#include "reference.h"
#include <stdio.h>
#include <string.h>

typedef uint8_t u8;
typedef uint32_t u32;
typedef uint64_t u64;
typedef struct crisp_answer answer;

static answer refuse(u64 reply) { return (answer){reply, 0, 0, 0}; }
static answer done(size_t length, size_t slot, u64 seqnum) { return (answer){0, length, slot, seqnum}; }

/* ---- big-endian numbers */

static u64 get(const u8 *p, size_t n)
{
    u64 x = 0;
    while (n--) x = x << 8 | *p++;
    return x;
}

static void set(u8 *p, size_t n, u64 x)
{
    while (n--) p[n] = (u8)x, x >>= 8;
}

/* ---- Magma: GOST R 34.12-2015, 5 */

static const u8 rows[8][16] = {
    {12, 4, 6, 2, 10, 5, 11, 9, 14, 8, 13, 7, 0, 3, 15, 1}, {6, 8, 2, 3, 9, 10, 5, 12, 1, 14, 4, 7, 11, 13, 0, 15},
    {11, 3, 5, 8, 2, 15, 10, 13, 14, 1, 7, 4, 12, 9, 6, 0}, {12, 8, 2, 1, 13, 4, 15, 6, 7, 0, 10, 5, 3, 14, 9, 11},
    {7, 15, 5, 10, 8, 1, 6, 13, 0, 9, 3, 14, 11, 4, 2, 12}, {5, 13, 15, 6, 9, 2, 12, 10, 11, 7, 8, 1, 4, 3, 14, 0},
    {8, 14, 2, 5, 6, 9, 1, 12, 15, 4, 11, 0, 13, 10, 3, 7}, {1, 7, 14, 13, 0, 5, 8, 3, 4, 15, 10, 6, 9, 12, 11, 2},
};

static inline u32 turn(u32 word, u32 half)
{
    u32 x = half + word, y = 0;
    for (int i = 0; i < 8; i++) y |= (u32)rows[i][x >> 4 * i & 15] << 4 * i;
    return y << 11 | y >> 21;
}

void ref_key(const u8 bytes[32], u32 key[8])
{
    for (int i = 0; i < 8; i++) key[i] = (u32)get(bytes + 4 * i, 4);
}

/* 32 rounds, two at a time so that no halves have to be swapped: the key words in order three times, then in reverse. The halves do not swap after the
 * last round, so they are joined the other way round. */
u64 ref_block(const u32 key[8], u64 block)
{
    u32 high = (u32)(block >> 32), low = (u32)block;
    for (int pass = 0; pass < 3; pass++)
        for (int i = 0; i < 8; i += 2) high ^= turn(key[i], low), low ^= turn(key[i + 1], high);
    for (int i = 7; i > 0; i -= 2) high ^= turn(key[i], low), low ^= turn(key[i - 1], high);
    return (u64)low << 32 | high;
}

/* ---- the modes: GOST R 34.13-2015, 5.2 and 5.6 */

static u64 twice(u64 x) { return x << 1 ^ (x >> 63 ? 0x1b : 0); }

struct subkeys {
    u64 full, padded;
};

static struct subkeys subkeys(const u32 key[8])
{
    u64 first = twice(ref_block(key, 0));
    return (struct subkeys){first, twice(first)};
}

static u64 check_under(const u32 key[8], struct subkeys sub, const u8 *bytes, size_t n)
{
    u64 c = 0;
    while (n > 8) {
        c = ref_block(key, c ^ get(bytes, 8));
        bytes += 8;
        n -= 8;
    }
    u8 last[8] = {0};
    memcpy(last, bytes, n);
    if (n < 8) last[n] = 0x80;
    return ref_block(key, c ^ get(last, 8) ^ (n == 8 ? sub.full : sub.padded));
}

u64 ref_check(const u32 key[8], const u8 *bytes, size_t n) { return check_under(key, subkeys(key), bytes, n); }

void ref_counter(const u32 key[8], u32 iv, const u8 *bytes, size_t n, u8 *out)
{
    u64 counter = (u64)iv << 32;
    for (size_t at = 0; at < n; at += 8) {
        u64 gamma = ref_block(key, counter++);
        size_t left = n - at < 8 ? n - at : 8;
        for (size_t i = 0; i < left; i++) out[at + i] = bytes[at + i] ^ (u8)(gamma >> (56 - 8 * i));
    }
}

/* ---- suites: R 1323565.1.029-2019, 7, and document 02, No. 5: 241 is suite 1 and 242 is suite 2, with an ICV of 8 bytes and their own number as CS */

static int listed(int suite) { return suite == 1 || suite == 2 || suite == 241 || suite == 242; }
static int enciphers(int suite) { return suite == 1 || suite == 241; }
static size_t icv_length(int suite) { return suite == 241 || suite == 242 ? 8 : 4; }

/* document 02, No. 5: the check value has 64 bits, and a caller takes the leading bytes that it needs */
static u64 leading(u64 value, size_t bytes) { return value >> (64 - 8 * bytes); }

/* ---- derived keys: R 1323565.1.029-2019, 6.4, with SN as the scope has it, and in edition 1 as document 02, No. 4, has it */

static u64 serial(int edition, u64 seqnum) { return edition == 1 ? seqnum & 0x7ffffffff : seqnum >> 13; }

static void derive(const u32 base[8], struct subkeys sub, int suite, int edition, const u8 *source, size_t source_len, u64 seqnum, int first, u32 key[8])
{
    u8 data[64];
    size_t n = 1;
    memcpy(data + n, enciphers(suite) ? "macenc" : "macmac", 6), n += 6;
    data[n++] = 6;
    set(data + n, 5, serial(edition, seqnum)), n += 5;
    memcpy(data + n, source, source_len), n += source_len;
    data[n++] = (u8)suite;
    set(data + n, 2, 6 + source_len), n += 2;
    set(data + n, 2, enciphers(suite) ? 512 : 256), n += 2;
    for (int i = 0; i < 4; i++) {
        data[0] = (u8)(first + i);
        u64 block = check_under(base, sub, data, n);
        key[2 * i] = (u32)(block >> 32);
        key[2 * i + 1] = (u32)block;
    }
}

void ref_keys(const u32 base[8], int suite, int edition, const u8 *source, size_t source_len, u64 seqnum, u32 check[8], u32 cipher[8])
{
    struct subkeys sub = subkeys(base);
    derive(base, sub, suite, edition, source, source_len, seqnum, 1, check);
    if (enciphers(suite)) derive(base, sub, suite, edition, source, source_len, seqnum, 5, cipher);
}

/* the ICV of a message: as many bytes of the check value as its suite has */
static u64 icv_of(const u32 base[8], struct subkeys sub, int suite, int edition, const u8 *source, size_t source_len, u64 seqnum, const u8 *bytes,
                  size_t n)
{
    u32 key[8];
    derive(base, sub, suite, edition, source, source_len, seqnum, 1, key);
    return leading(ref_check(key, bytes, n), icv_length(suite));
}

/* suites 1 and 241 encipher, suites 2 and 242 leave the payload as it is */
static void encipher(const u32 base[8], struct subkeys sub, int suite, int edition, const u8 *source, size_t source_len, u64 seqnum, const u8 *bytes,
                     size_t n, u8 *out)
{
    if (enciphers(suite)) {
        u32 key[8];
        derive(base, sub, suite, edition, source, source_len, seqnum, 5, key);
        ref_counter(key, (u32)seqnum, bytes, n, out);
    } else {
        memcpy(out, bytes, n);
    }
}

/* ---- key data */

static size_t keyid_length(u8 first) { return first <= 0x80 ? 1 : (size_t)first - 0x7f; }

/* document 02, No. 4: edition 2 goes with each suite, edition 1 with suite 1 alone; No. 5 adds suites and leaves this */
static int suite_and_edition(u8 suite, u8 edition) { return listed(suite) && (edition == 2 || (edition == 1 && suite == 1)); }

static int sound(u8 flag, const u8 *keyid, size_t keyid_len, size_t source_len, u8 suite, u8 edition, size_t key_len)
{
    return flag <= 1 && keyid_len >= 1 && keyid_len == keyid_length(keyid[0]) && source_len >= 4 && source_len <= 32 && key_len == 32
        && suite_and_edition(suite, edition) && !(flag == 0 && keyid[0] == 0x80);
}

/* ---- the table: where the parts of an entry stand in its slot (docs/DECISIONS.md, 13) */

enum { SLOT = 288, FLAG = 1, SUITE = 2, EDITION = 3, KEYID_LEN = 4, KEYID = 5, SOURCE_LEN = 133, SOURCE = 134, KEY = 166, SIZE = 198, START = 206,
       HIGHEST = 214, MARKS = 222, ACCEPTED = 254, BYTES = 262, REPLAYS = 270, FORGED = 278 };

#define LAST 0xffffffffffffULL

/* document 02, No. 8: where a counter stops */
#define LIMIT 0xffffffffULL

static int matches(const u8 *s, u8 flag, const u8 *keyid, size_t keyid_len, const u8 *source, size_t source_len)
{
    if (!s[0] || s[KEYID_LEN] > 128 || s[SOURCE_LEN] > 32 || s[FLAG] != flag) return 0;
    if (s[KEYID_LEN] != keyid_len || memcmp(s + KEYID, keyid, keyid_len)) return 0;
    return flag == 0 || (s[SOURCE_LEN] == source_len && !memcmp(s + SOURCE, source, source_len));
}

static int lookup(const u8 *table, u8 flag, const u8 *keyid, size_t keyid_len, const u8 *source, size_t source_len)
{
    for (int i = 0; i < 16; i++)
        if (matches(table + SLOT * i, flag, keyid, keyid_len, source, source_len)) return i;
    return -1;
}

/* the window, with its marks as 32 bytes: the bit of value 2^i stands for highest - i */
struct window {
    u64 size, start, highest;
    u8 marks[32];
};

static struct window window_in(const u8 *s)
{
    struct window w = {get(s + SIZE, 8), get(s + START, 8), get(s + HIGHEST, 8), {0}};
    memcpy(w.marks, s + MARKS, 32);
    return w;
}

/* document 02, No. 2: the larger of start and what the scope says */
static u64 floor_of(const struct window *w)
{
    u64 old = w->highest + 1 > w->size ? w->highest + 1 - w->size : 0;
    return old > w->start ? old : w->start;
}

static int mark(const struct window *w, u64 i) { return i < 256 && w->marks[31 - i / 8] >> i % 8 & 1; }

static int undamaged(const u8 *s)
{
    if (!sound(s[FLAG], s + KEYID, s[KEYID_LEN], s[SOURCE_LEN], s[SUITE], s[EDITION], 32)) return 0;
    struct window w = window_in(s);
    if (w.size < 1 || w.size > 256 || w.start > LAST || w.highest > LAST) return 0;
    u64 floor = floor_of(&w), count = 0;
    for (u64 i = 0; i < 256; i++) {
        if (!mark(&w, i)) continue;
        if (i > w.highest || w.highest - i < floor) return 0;
        count++;
    }
    if (w.highest > 0 && !mark(&w, 0)) return 0;
    u64 accepted = get(s + ACCEPTED, 8);
    if (accepted < count || accepted > count + floor - w.start) return 0;
    if (get(s + BYTES, 8) > 2034 * accepted) return 0;          /* accepted is below 2^49 here */
    return get(s + REPLAYS, 8) <= LIMIT && get(s + FORGED, 8) <= LIMIT;
}

/* all marks move up by d, and those above the window go */
static void move_up(struct window *w, u64 d)
{
    struct window old = *w;
    memset(w->marks, 0, 32);
    for (u64 i = d; i < w->size; i++)
        if (mark(&old, i - d)) w->marks[31 - i / 8] |= (u8)(1 << i % 8);
}

static void take(u8 *s, u64 seqnum, u64 length)
{
    struct window w = window_in(s);
    if (seqnum > w.highest) {
        move_up(&w, seqnum - w.highest);
        w.highest = seqnum;
    }
    u64 i = w.highest - seqnum;
    w.marks[31 - i / 8] |= (u8)(1 << i % 8);
    set(s + HIGHEST, 8, w.highest);
    memcpy(s + MARKS, w.marks, 32);
    set(s + ACCEPTED, 8, get(s + ACCEPTED, 8) + 1);
    set(s + BYTES, 8, get(s + BYTES, 8) + length);
}

/* document 02, No. 8: an arrival that 9 or 10 refuses is a replay, one that 11 refuses is forged. Its counter is the only thing that changes. */
static answer turn_away(u8 *s, u64 reply)
{
    u8 *counter = s + (reply == 11 ? FORGED : REPLAYS);
    u64 count = get(counter, 8);
    if (count < LIMIT) set(counter, 8, count + 1);
    return refuse(reply);
}

/* soundness, for an entry: the key data's, and that of Size and, as document 02, No. 2, has it, of start */
static int sound_entry(u8 flag, const u8 *keyid, size_t keyid_len, size_t source_len, u8 suite, u8 edition, size_t key_len, u64 size, u64 start)
{
    return sound(flag, keyid, keyid_len, source_len, suite, edition, key_len) && size >= 1 && size <= 256 && start <= LAST;
}

/* a fresh entry: highest 0, no mark, totals and counters 0, and zeros past its KeyId and its source, whatever stood in the slot */
static void write_fresh(u8 *s, u8 flag, const u8 *keyid, size_t keyid_len, const u8 *source, size_t source_len, u8 suite, u8 edition, const u8 *key,
                        u64 size, u64 start)
{
    memset(s, 0, SLOT);
    s[0] = 1;
    s[FLAG] = flag;
    s[SUITE] = suite;
    s[EDITION] = edition;
    s[KEYID_LEN] = (u8)keyid_len;
    memcpy(s + KEYID, keyid, keyid_len);
    s[SOURCE_LEN] = (u8)source_len;
    memcpy(s + SOURCE, source, source_len);
    memcpy(s + KEY, key, 32);
    set(s + SIZE, 8, size);
    set(s + START, 8, start);
}

/* ---- the functions on a table and on a record */

answer ref_install(u8 *table, u8 flag, const u8 *keyid, size_t keyid_len, const u8 *source, size_t source_len, u8 suite, u8 edition, const u8 *key,
                   size_t key_len, u64 size, u64 start)
{
    if (!sound_entry(flag, keyid, keyid_len, source_len, suite, edition, key_len, size, start)) return refuse(13);
    if (lookup(table, flag, keyid, keyid_len, source, source_len) >= 0) return refuse(14);
    for (size_t i = 0; i < 16; i++) {
        u8 *s = table + SLOT * i;
        if (s[0]) continue;
        write_fresh(s, flag, keyid, keyid_len, source, source_len, suite, edition, key, size, start);
        return done(0, i, 0);
    }
    return refuse(15);
}

answer ref_remove(u8 *table, size_t slot)
{
    if (slot > 15 || !table[SLOT * slot]) return refuse(16);
    memset(table + SLOT * slot, 0, SLOT);
    return done(0, slot, 0);
}

/* document 02, No. 7: 16, 13, 14 in that order, and for 14 the other slots are looked at, not this one; no free slot is needed */
answer ref_change(u8 *table, size_t slot, u8 flag, const u8 *keyid, size_t keyid_len, const u8 *source, size_t source_len, u8 suite, u8 edition,
                  const u8 *key, size_t key_len, u64 size, u64 start)
{
    if (slot > 15 || !table[SLOT * slot]) return refuse(16);
    if (!sound_entry(flag, keyid, keyid_len, source_len, suite, edition, key_len, size, start)) return refuse(13);
    for (size_t i = 0; i < 16; i++)
        if (i != slot && matches(table + SLOT * i, flag, keyid, keyid_len, source, source_len)) return refuse(14);
    u8 *s = table + SLOT * slot;
    write_fresh(s, flag, keyid, keyid_len, source, source_len, suite, edition, key, size, start);
    return done(0, slot, 0);
}

answer ref_receive(u8 *table, const u8 *m, size_t n, const u8 *source, size_t source_len, u8 *out, size_t out_len)
{
    if (out_len < 2048) return refuse(1);
    if (n < 14 || n > 2048) return refuse(2);
    if (get(m, 2) & 0x7fff) return refuse(3);
    int suite = m[2];
    if (!listed(suite)) return refuse(4);
    size_t length = keyid_length(m[3]), icv = icv_length(suite);
    if (n < 9 + length + icv) return refuse(5);
    int slot = lookup(table, m[0] >> 7, m + 3, length, source, source_len);
    if (slot < 0) return refuse(6);
    u8 *s = table + SLOT * slot;
    if (!undamaged(s)) return refuse(7);
    if (s[SUITE] != suite) return refuse(8);
    struct window w = window_in(s);
    u64 seqnum = get(m + 3 + length, 6);
    if (seqnum < floor_of(&w)) return turn_away(s, 9);
    if (seqnum <= w.highest && mark(&w, w.highest - seqnum)) return turn_away(s, 10);
    u32 base[8];
    ref_key(s + KEY, base);
    struct subkeys sub = subkeys(base);
    if (get(m + n - icv, icv) != icv_of(base, sub, suite, s[EDITION], s + SOURCE, s[SOURCE_LEN], seqnum, m, n - icv)) return turn_away(s, 11);
    size_t payload = n - icv - (9 + length);
    encipher(base, sub, suite, s[EDITION], s + SOURCE, s[SOURCE_LEN], seqnum, m + 9 + length, payload, out);
    take(s, seqnum, payload);
    return done(payload, (size_t)slot, seqnum);
}

answer ref_protect(struct crisp_sender *r, const u8 *payload, size_t n, u8 *out, size_t out_len)
{
    if (out_len < 2048) return refuse(1);
    if (r->keyid_len > 128 || r->source_len > 32 || !sound(r->flag, r->keyid, r->keyid_len, r->source_len, r->suite, r->edition, 32)) return refuse(7);
    if (r->current > LAST) return refuse(7);
    size_t icv = icv_length(r->suite);
    if (n > 2039 - r->keyid_len - icv) return refuse(2);
    if (r->current == LAST) return refuse(12);
    u64 seqnum = ++r->current;
    u8 *p = out;
    set(p, 2, (u64)r->flag << 15), p += 2;
    *p++ = r->suite;
    memcpy(p, r->keyid, r->keyid_len), p += r->keyid_len;
    set(p, 6, seqnum), p += 6;
    u32 base[8];
    ref_key(r->key, base);
    struct subkeys sub = subkeys(base);
    encipher(base, sub, r->suite, r->edition, r->source, r->source_len, seqnum, payload, n, p), p += n;
    set(p, icv, icv_of(base, sub, r->suite, r->edition, r->source, r->source_len, seqnum, out, (size_t)(p - out))), p += icv;
    return done((size_t)(p - out), 0, seqnum);
}

answer ref_listing(const u8 *table, size_t slot, u8 *out, size_t out_len)
{
    if (out_len < 2048) return refuse(1);
    if (slot > 15 || !table[SLOT * slot]) return refuse(16);
    const u8 *s = table + SLOT * slot;
    if (!undamaged(s)) return refuse(7);
    char text[2048], *p = text;
    p += sprintf(p, "slot=%zu\nflag=%d\nkeyid=", slot, s[FLAG]);
    for (int i = 0; i < s[KEYID_LEN]; i++) p += sprintf(p, "%02x", s[KEYID + i]);
    p += sprintf(p, "\nsource=");
    for (int i = 0; i < s[SOURCE_LEN]; i++) p += sprintf(p, "%02x", s[SOURCE + i]);
    p += sprintf(p, "\nsuite=%d\nedition=%d\nsize=%llu\nstart=%llu\nhighest=%012llx\nmarks=", s[SUITE], s[EDITION],
                 (unsigned long long)get(s + SIZE, 8), (unsigned long long)get(s + START, 8), (unsigned long long)get(s + HIGHEST, 8));
    for (int i = 0; i < 32; i++) p += sprintf(p, "%02x", s[MARKS + i]);
    p += sprintf(p, "\naccepted=%llu\nbytes=%llu\n", (unsigned long long)get(s + ACCEPTED, 8), (unsigned long long)get(s + BYTES, 8));
    p += sprintf(p, "replays=%llu\nforged=%llu\n", (unsigned long long)get(s + REPLAYS, 8), (unsigned long long)get(s + FORGED, 8));
    memcpy(out, text, (size_t)(p - text));
    return done((size_t)(p - text), slot, 0);
}

/* ---- a listing loaded back: document 02, No. 6, with the two lines that No. 8 puts at its end */

/* the lines in their order: the name, and what has to follow it, a decimal, an even count of hex digits, or so many of them */
enum { AT_SLOT, AT_FLAG, AT_KEYID, AT_SOURCE, AT_SUITE, AT_EDITION, AT_SIZE, AT_START, AT_HIGHEST, AT_MARKS, AT_ACCEPTED, AT_BYTES,
       AT_REPLAYS, AT_FORGED, LINES };
enum { DECIMAL = -1, EVEN = 0 };

static const struct {
    const char *name;
    int digits;
} lines[LINES] = {
    {"slot=", DECIMAL}, {"flag=", DECIMAL}, {"keyid=", EVEN}, {"source=", EVEN}, {"suite=", DECIMAL}, {"edition=", DECIMAL}, {"size=", DECIMAL},
    {"start=", DECIMAL}, {"highest=", 12}, {"marks=", 64}, {"accepted=", DECIMAL}, {"bytes=", DECIMAL}, {"replays=", DECIMAL}, {"forged=", DECIMAL},
};

/* what stands behind the name, and of a decimal its number */
struct value {
    const u8 *text;
    size_t length;
    u64 number;
};

/* no leading zero, and no number over 2^64 - 1, which has twenty digits */
static int is_decimal(const u8 *p, size_t n)
{
    if (n < 1 || n > 20 || (n > 1 && p[0] == '0')) return 0;
    for (size_t i = 0; i < n; i++)
        if (p[i] < '0' || p[i] > '9') return 0;
    return n < 20 || memcmp(p, "18446744073709551615", 20) <= 0;
}

static u64 decimal_number(const u8 *p, size_t n)
{
    u64 x = 0;
    while (n--) x = 10 * x + (u64)(*p++ - '0');
    return x;
}

/* as printed: two lower-case digits a byte */
static int hex_digit(u8 c) { return c >= '0' && c <= '9' ? c - '0' : c >= 'a' && c <= 'f' ? c - 'a' + 10 : -1; }

static int is_hex(const u8 *p, size_t n, int digits)
{
    if (digits == EVEN ? n % 2 != 0 : n != (size_t)digits) return 0;
    for (size_t i = 0; i < n; i++)
        if (hex_digit(p[i]) < 0) return 0;
    return 1;
}

static u8 hex_byte(const u8 *p) { return (u8)(hex_digit(p[0]) << 4 | hex_digit(p[1])); }

/* the text is cut at its line feeds, and each piece held against its line; behind the last there is nothing */
static int in_form(const u8 *text, size_t n, struct value v[LINES])
{
    for (int i = 0; i < LINES; i++) {
        const u8 *end = memchr(text, '\n', n);
        size_t name = strlen(lines[i].name);
        if (!end || (size_t)(end - text) < name || memcmp(text, lines[i].name, name)) return 0;
        v[i].text = text + name;
        v[i].length = (size_t)(end - v[i].text);
        if (lines[i].digits != DECIMAL && !is_hex(v[i].text, v[i].length, lines[i].digits)) return 0;
        if (lines[i].digits == DECIMAL) {
            if (!is_decimal(v[i].text, v[i].length)) return 0;
            v[i].number = decimal_number(v[i].text, v[i].length);
        }
        n -= (size_t)(end + 1 - text);
        text = end + 1;
    }
    return n == 0;
}

/* whether hex digits write these bytes */
static int writes(const struct value *v, const u8 *bytes, size_t n)
{
    if (v->length != 2 * n) return 0;
    for (size_t i = 0; i < n; i++)
        if (hex_byte(v->text + 2 * i) != bytes[i]) return 0;
    return 1;
}

/* the entry that is listed, with accepted 0, whatever its counters are; a stored length over its room is no entry's, as in a lookup */
static int stands(const u8 *table, const struct value v[LINES])
{
    if (v[AT_SLOT].number > 15) return 0;
    const u8 *s = table + SLOT * v[AT_SLOT].number;
    if (s[0] == 0) return 0;
    if (s[KEYID_LEN] > 128) return 0;
    if (s[SOURCE_LEN] > 32) return 0;
    if (s[FLAG] != v[AT_FLAG].number) return 0;
    if (!writes(&v[AT_KEYID], s + KEYID, s[KEYID_LEN])) return 0;
    if (!writes(&v[AT_SOURCE], s + SOURCE, s[SOURCE_LEN])) return 0;
    if (s[SUITE] != v[AT_SUITE].number) return 0;
    if (s[EDITION] != v[AT_EDITION].number) return 0;
    if (get(s + SIZE, 8) != v[AT_SIZE].number) return 0;
    if (get(s + START, 8) != v[AT_START].number) return 0;
    return get(s + ACCEPTED, 8) == 0;
}

answer ref_load(u8 *table, const u8 *text, size_t n)
{
    struct value v[LINES] = {{0}};
    if (!in_form(text, n, v)) return refuse(21);
    if (!stands(table, v)) return refuse(22);
    size_t slot = (size_t)v[AT_SLOT].number;
    u8 *s = table + SLOT * slot, loaded[SLOT];
    memcpy(loaded, s, SLOT);
    set(loaded + HIGHEST, 8, 0);
    for (size_t i = 0; i < 6; i++) loaded[HIGHEST + 2 + i] = hex_byte(v[AT_HIGHEST].text + 2 * i);
    for (size_t i = 0; i < 32; i++) loaded[MARKS + i] = hex_byte(v[AT_MARKS].text + 2 * i);
    set(loaded + ACCEPTED, 8, v[AT_ACCEPTED].number);
    set(loaded + BYTES, 8, v[AT_BYTES].number);
    set(loaded + REPLAYS, 8, v[AT_REPLAYS].number);
    set(loaded + FORGED, 8, v[AT_FORGED].number);
    if (!undamaged(loaded)) return refuse(23);
    memcpy(s, loaded, SLOT);
    return done(0, slot, 0);
}

/* ---- captures: document 02, No. 1 */

/* a number of n bytes in the file's order */
static u64 ordered(const u8 *p, int n, u64 order)
{
    u64 x = 0;
    for (int i = 0; i < n; i++) x = x << 8 | p[order == 1 ? i : n - 1 - i];
    return x;
}

u64 ref_capture_order(const u8 *file, size_t n)
{
    if (n < 24 || n > 65536) return 17;
    for (u64 order = 1; order <= 2; order++)
        if (ordered(file, 4, order) == 0xa1b2c3d4 && ordered(file + 4, 2, order) == 2 && ordered(file + 6, 2, order) == 4
            && ordered(file + 20, 4, order) == 147)
            return order;
    return 17;
}

static struct crisp_record nothing(u64 reply, size_t next) { return (struct crisp_record){reply, next, next, next}; }

struct crisp_record ref_capture_record(const u8 *file, size_t n, u64 order, size_t at)
{
    if (order != 1 && order != 2) return nothing(17, n);
    if (at >= n) return nothing(CRISP_END, n);
    if (n - at < 16) return nothing(18, n);
    u64 captured = ordered(file + at + 8, 4, order), original = ordered(file + at + 12, 4, order);
    if (captured > n - at - 16) return nothing(18, n);
    size_t next = at + 16 + captured;
    if (captured != original) return nothing(19, next);
    if (captured == 0 || (size_t)file[at + 16] + 1 > captured) return nothing(20, next);
    return (struct crisp_record){0, at + 17, at + 17 + file[at + 16], next};
}

static u8 *decimal(u8 *p, u64 x)
{
    if (x > 9) p = decimal(p, x / 10);
    *p++ = (u8)('0' + x % 10);
    return p;
}

static u8 *word(u8 *p, const char *name)
{
    while (*name) *p++ = (u8)*name++;
    return p;
}

struct capture_summary ref_report(u8 *table, const u8 *file, size_t n, u8 *out, size_t out_len)
{
    struct capture_summary s = {0, 0, 0, false};
    if (out_len < 131072) { s.reply = 1; return s; }
    u64 order = ref_capture_order(file, n);
    if (order == 17) { s.reply = 17; return s; }
    u8 *p = out;
    for (size_t at = 24; at < n;) {
        u8 payload[2048];
        struct crisp_record r = ref_capture_record(file, n, order, at);
        answer a = r.reply ? refuse(r.reply) : ref_receive(table, file + r.message, r.next - r.message, file + r.source, r.message - r.source, payload, sizeof payload);
        p = decimal(word(p, "record="), ++s.records);
        p = word(decimal(word(p, " answer="), a.reply), " payload=");
        for (size_t i = 0; i < a.length; i++) *p++ = (u8)"0123456789abcdef"[payload[i] >> 4], *p++ = (u8)"0123456789abcdef"[payload[i] & 15];
        *p++ = '\n';
        s.cut = r.reply == 18;
        at = r.next;
    }
    s.length = (size_t)(p - out);
    return s;
}
