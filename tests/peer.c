/* peer.c: checks the lines of emit.c by OpenSSL's gost engine, a peer that we did not write. Of a whole message it takes the key data, the number and the
 * payload, and makes the message itself from documents 01 and 02, with no cipher, counter mode or check value but the engine's. Runs on the machine
 * itself, not in the emulator.
 *
 *   peer [LINES]        with a number, so many lines of any kind; else all that emit.c prints */
#define OPENSSL_SUPPRESS_DEPRECATED
#include <openssl/engine.h>
#include <openssl/evp.h>
#include <stdio.h>
#include <stdlib.h>
#include <string.h>

static ENGINE *gost;

static void die(const char *what)
{
    fprintf(stderr, "peer: %s\n", what);
    exit(2);
}

/* ---- the engine */

static void counter(const unsigned char key[32], const unsigned char iv[4], const unsigned char *data, size_t n, unsigned char *out)
{
    EVP_CIPHER_CTX *c = EVP_CIPHER_CTX_new();
    int got = 0, last = 0;
    int ok = EVP_EncryptInit_ex(c, EVP_get_cipherbyname("magma-ctr"), gost, key, iv) && EVP_EncryptUpdate(c, out, &got, data, (int)n)
          && EVP_EncryptFinal_ex(c, out + got, &last);
    EVP_CIPHER_CTX_free(c);
    if (!ok || (size_t)(got + last) != n) die("the engine has no counter mode");
}

/* a check value of 1 to 8 bytes: the engine does the cutting */
static void check(const unsigned char key[32], const unsigned char *data, size_t n, size_t bytes, unsigned char *out)
{
    EVP_PKEY *k = EVP_PKEY_new_mac_key(NID_magma_mac, gost, key, 32);
    EVP_MD_CTX *c = EVP_MD_CTX_new();
    EVP_PKEY_CTX *options;
    char size_wanted[2] = {(char)('0' + bytes), 0};
    size_t size = bytes;
    int ok = k && EVP_DigestSignInit(c, &options, EVP_get_digestbyname("magma-mac"), gost, k) && EVP_PKEY_CTX_ctrl_str(options, "size", size_wanted) > 0
          && EVP_DigestSignUpdate(c, data, n) && EVP_DigestSignFinal(c, out, &size);
    EVP_MD_CTX_free(c);
    EVP_PKEY_free(k);
    if (!ok || size != bytes) die("the engine has no check value");
}

/* ---- a whole message: document 01, with the editions and the long suites of document 02, No. 4 and 5 */

struct kind {
    int suite, edition;
    const char *label;
    unsigned bits;              /* of the derived keys */
    size_t icv;
};
static const struct kind kinds[] = {{1, 2, "macenc", 512, 4}, {2, 2, "macmac", 256, 4}, {241, 2, "macenc", 512, 8}, {242, 2, "macmac", 256, 8},
                                    {1, 1, "macenc", 512, 4}};
enum { KINDS = sizeof kinds / sizeof *kinds };

struct bytes {
    unsigned char at[2048 + 64];
    size_t n;
};

static void add(struct bytes *b, const void *bytes, size_t n)
{
    memcpy(b->at + b->n, bytes, n);
    b->n += n;
}

static void add_number(struct bytes *b, size_t n, unsigned long long x)
{
    for (size_t i = 0; i < n; i++) b->at[b->n + i] = (unsigned char)(x >> 8 * (n - 1 - i));
    b->n += n;
}

/* four derived blocks, the first of them block `first` */
static void derive(const struct kind *k, const unsigned char base[32], const struct bytes *source, unsigned long long number, int first, unsigned char key[32])
{
    for (int i = 0; i < 4; i++) {
        struct bytes data = {.n = 0};
        add_number(&data, 1, (unsigned)(first + i));
        add(&data, k->label, 6);
        add_number(&data, 1, 6);
        add_number(&data, 5, k->edition == 1 ? number % (1ULL << 35) : number / 8192);
        add(&data, source->at, source->n);
        add_number(&data, 1, (unsigned)k->suite);
        add_number(&data, 2, 6 + source->n);
        add_number(&data, 2, k->bits);
        check(base, data.at, data.n, 8, key + 8 * i);
    }
}

static void seal(const struct kind *k, int flag, const struct bytes *keyid, const struct bytes *source, const unsigned char base[32],
                 unsigned long long number, const struct bytes *payload, struct bytes *m)
{
    unsigned char key[32];
    m->n = 0;
    add_number(m, 2, flag ? 0x8000 : 0);
    add_number(m, 1, (unsigned)k->suite);
    add(m, keyid->at, keyid->n);
    add_number(m, 6, number);
    if (k->bits == 512) {
        derive(k, base, source, number, 5, key);
        counter(key, m->at + m->n - 4, payload->at, payload->n, m->at + m->n);
        m->n += payload->n;
    } else {
        add(m, payload->at, payload->n);
    }
    derive(k, base, source, number, 1, key);
    check(key, m->at, m->n, k->icv, m->at + m->n);
    m->n += k->icv;
}

/* ---- the lines: each leaves in `made` what the engine made, and in `expected` what the line has; the answer is the length of the data or message */

static struct bytes made, expected;
static size_t checks, counters, messages[KINDS];

static char *word(void)
{
    char *w = strtok(NULL, " ");
    if (!w) die("a line that cannot be read");
    return w;
}

static struct bytes hex(void)
{
    struct bytes b = {.n = 0};
    const char *w = word();
    if (!strcmp(w, "-")) return b;
    for (unsigned x; b.n < 2048 && sscanf(w + 2 * b.n, "%2x", &x) == 1; b.n++) b.at[b.n] = (unsigned char)x;
    if (strlen(w) != 2 * b.n) die("bytes that cannot be read");
    return b;
}

static struct bytes key_of_32(void)
{
    struct bytes key = hex();
    if (key.n != 32) die("a key of another length");
    return key;
}

static size_t check_line(void)
{
    struct bytes key = key_of_32(), data = hex();
    expected = hex();
    if (data.n != ++checks) die("a length is missing");
    check(key.at, data.at, data.n, made.n = 8, made.at);
    return data.n;
}

static size_t counter_line(void)
{
    struct bytes key = key_of_32(), iv = hex(), data = hex();
    expected = hex();
    if (data.n != ++counters) die("a length is missing");
    counter(key.at, iv.at, data.at, made.n = data.n, made.at);
    return data.n;
}

static size_t message_line(void)
{
    int flag = atoi(word());
    struct bytes keyid = hex(), source = hex();
    int suite = atoi(word()), edition = atoi(word()), k = 0;
    struct bytes key = key_of_32();
    unsigned long long number = strtoull(word(), NULL, 16);
    struct bytes payload = hex();
    expected = hex();
    while (k < KINDS && (kinds[k].suite != suite || kinds[k].edition != edition)) k++;
    if (k == KINDS) die("another suite or edition");
    messages[k]++;
    seal(&kinds[k], flag, &keyid, &source, key.at, number, &payload, &made);
    return made.n;
}

int main(int argc, char **argv)
{
    static char line[16384];
    size_t lines = 0;
    gost = ENGINE_by_id("gost");
    if (!gost || !ENGINE_init(gost) || !ENGINE_set_default(gost, ENGINE_METHOD_ALL)) die("OpenSSL has no gost engine");
    while (fgets(line, sizeof line, stdin)) {
        lines++;
        line[strcspn(line, "\n")] = 0;
        const char *kind = strtok(line, " ");
        if (!kind) die("an empty line");
        size_t n = !strcmp(kind, "check") ? check_line() : !strcmp(kind, "ctr") ? counter_line() : message_line();
        if (made.n != expected.n || memcmp(made.at, expected.at, made.n)) {
            printf("peer: line %zu differs, %s of %zu bytes\n", lines, kind, n);
            return 1;
        }
    }
    printf("peer: %zu check values, %zu texts in counter mode, and whole messages", checks, counters);
    int missing = argc == 1 && (checks != 2048 || counters != 2048);
    for (int k = 0; k < KINDS; k++) {
        printf(", %zu of suite %d in edition %d", messages[k], kinds[k].suite, kinds[k].edition);
        missing |= argc == 1 && messages[k] != 256;
    }
    printf(", agree with OpenSSL's gost engine\n");
    return missing || (argc > 1 && lines != strtoull(argv[1], NULL, 10));
}
