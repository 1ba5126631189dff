/* A sender and a gateway that may be killed, or lose their power, at any point: what they know is kept in files of a folder.
 *
 *   kept new FOLDER             makes both, with a new key
 *   kept send FOLDER READING    writes a message with that reading to standard output, as a line of hex
 *   kept receive FOLDER         takes such lines from standard input and books each new reading in FOLDER/booked, once
 *   kept list FOLDER            prints the gateway's entry
 *
 * Two rules: the sender saves its record before the message leaves, so no number is used twice; the gateway saves its table and the line that it is
 * about to book in one file, and books that line again when it comes back, so each reading is booked once. What was only counted, as repeated or forged,
 * is saved with the next reading or at the end, and a kill before that loses the count, nothing else. The files hold keys: only their owner can
 * read them. A folder that was kept under layout 1 is taken over. Build: cc kept.c $(pkg-config --cflags --libs crisp) */
#define _POSIX_C_SOURCE 200809L
#include "crisp.h"
#include <errno.h>
#include <fcntl.h>
#include <stdio.h>
#include <stdlib.h>
#include <string.h>
#include <sys/file.h>
#include <unistd.h>

/* What is kept. The mark names the layout, so that a file of another one is not read as one of this. */
#define WORD(n) #n
#define MARK(what, layout) what WORD(layout)
static const char sender_mark[16] = MARK("crisp record ", CRISP_LAYOUT), gateway_mark[16] = MARK("crisp table ", CRISP_LAYOUT);

static struct {
    char mark[16];
    struct crisp_sender record;
} sender;

static struct {
    char mark[16];
    uint8_t table[CRISP_TABLE];
    uint64_t booked;                    /* bytes of FOLDER/booked in front of the line below */
    uint64_t length;
    char line[2 * CRISP_PAYLOAD + 64];  /* the line that is booked last */
} gateway;

static int folder;
static int counted;                     /* whether a counter of the table has moved since it was saved */
static const uint8_t keyid[] = {0x05}, source[] = {'m', 'e', 't', 'e', 'r', ' ', '1', '7'};

static void stop(const char *what, const char *why)
{
    fprintf(stderr, "kept: %s: %s\n", what, why);
    exit(1);
}

static void failed(const char *what) { stop(what, strerror(errno)); }

static void write_all(int file, const void *bytes, size_t n, const char *name)
{
    const char *p = bytes;
    while (n > 0) {
        ssize_t done = write(file, p, n);
        if (done < 0) failed(name);
        p += done;
        n -= (size_t)done;
    }
}

/* One program at a time has the record, and one the table, until it ends. */
static void lock(const char *name)
{
    int file = openat(folder, name, O_WRONLY | O_CREAT | O_CLOEXEC, 0600);
    if (file < 0 || flock(file, LOCK_EX)) failed(name);
}

/* Whenever it is interrupted, the old bytes or the new ones stand there, whole: a new file is written beside the old one and flushed, takes its
 * place, and the folder is flushed. Once it has returned, the new bytes stay. */
static void save(const char *name, const void *bytes, size_t n)
{
    char fresh[16];
    snprintf(fresh, sizeof fresh, "%s.new", name);
    int file = openat(folder, fresh, O_WRONLY | O_CREAT | O_TRUNC | O_CLOEXEC, 0600);
    if (file < 0) failed(name);
    write_all(file, bytes, n, name);
    if (fsync(file) || close(file)) failed(name);
    if (renameat(folder, fresh, folder, name) || fsync(folder)) failed(name);
}

/* Layout 1 had no editions, and all that was kept under it followed the rule of edition 2. Layout 2 is in the file from its next save on. */
static void take_over(void)
{
    if (memcmp(sender.mark, "crisp record 1", 15) == 0) {
        memcpy(sender.mark, "crisp record 2", 15);
        sender.record.edition = 2;
    }
    if (memcmp(gateway.mark, "crisp table 1", 14) == 0) {
        memcpy(gateway.mark, "crisp table 2", 14);
        for (uint8_t *slot = gateway.table; slot < gateway.table + CRISP_TABLE; slot += CRISP_TABLE / CRISP_SLOTS)
            if (slot[0] != 0) slot[3] = 2;
    }
}

/* A file that is missing, shorter, longer or of another layout is never taken for a fresh start. */
static void restore(const char *name, void *bytes, size_t n, const char *mark)
{
    char more;
    int file = openat(folder, name, O_RDONLY | O_CLOEXEC);
    if (file < 0) failed(name);
    int whole = read(file, bytes, n) == (ssize_t)n && read(file, &more, 1) == 0;
    close(file);
    take_over();
    if (!whole || memcmp(bytes, mark, 16) != 0) stop(name, "not as it was kept");
}

static void make(void)
{
    struct crisp_sender *r = &sender.record;
    int dice = open("/dev/urandom", O_RDONLY | O_CLOEXEC);
    lock("record.lock");
    lock("table.lock");
    if (faccessat(folder, "record", F_OK, 0) == 0) stop("record", "there is one");
    if (dice < 0 || read(dice, r->key, sizeof r->key) != (ssize_t)sizeof r->key) failed("a new key");
    close(dice);
    r->flag = 1;
    memcpy(r->keyid, keyid, r->keyid_len = sizeof keyid);
    memcpy(r->source, source, r->source_len = sizeof source);
    r->suite = CRISP_MAGMA_CTR;
    r->edition = 2;
    struct crisp_answer a = crisp_install(gateway.table, 1, keyid, sizeof keyid, source, sizeof source, r->suite, r->edition, r->key, sizeof r->key, 64, 0);
    if (a.reply != CRISP_DONE) stop("install", "refused");
    memcpy(gateway.mark, gateway_mark, 16);
    memcpy(sender.mark, sender_mark, 16);
    save("table", &gateway, sizeof gateway);
    save("record", &sender, sizeof sender);
}

static void to_hex(char *text, const uint8_t *bytes, size_t n)
{
    for (size_t i = 0; i < n; i++) snprintf(text + 2 * i, 3, "%02x", bytes[i]);
    memcpy(text + 2 * n, "\n", 2);
}

static void send_one(const char *reading)
{
    static uint8_t message[CRISP_OUT];
    static char line[2 * CRISP_OUT + 2];
    lock("record.lock");
    restore("record", &sender, sizeof sender, sender_mark);
    struct crisp_answer a = crisp_protect(&sender.record, (const uint8_t *)reading, strlen(reading), message, sizeof message);
    crisp_forget();
    if (a.reply != CRISP_DONE) stop("protect", "refused");
    to_hex(line, message, a.length);
    save("record", &sender, sizeof sender);
    write_all(STDOUT_FILENO, line, 2 * a.length + 1, "standard output");
}

/* Puts the last line where it belongs, whether it stands there already, in part, or not yet. */
static void book(void)
{
    int file = openat(folder, "booked", O_WRONLY | O_CREAT | O_CLOEXEC, 0600);
    if (file < 0 || ftruncate(file, (off_t)gateway.booked) || lseek(file, 0, SEEK_END) < 0) failed("booked");
    write_all(file, gateway.line, (size_t)gateway.length, "booked");
    if (fsync(file) || close(file) || fsync(folder)) failed("booked");
}

/* The bytes that the hex at the line's start writes, in the line's own place. */
static size_t from_hex(char *line)
{
    static const char digits[] = "0123456789abcdef";
    size_t n = 0;
    for (const char *high, *low; line[2 * n] && (high = strchr(digits, line[2 * n])); n++) {
        if (!line[2 * n + 1] || !(low = strchr(digits, line[2 * n + 1]))) break;
        line[n] = (char)((high - digits) << 4 | (low - digits));
    }
    return n;
}

static void receive_one(const uint8_t *message, size_t n)
{
    static uint8_t payload[CRISP_OUT];
    struct crisp_answer a = crisp_receive(gateway.table, message, n, source, sizeof source, payload, sizeof payload);
    crisp_forget();
    printf("reply %llu\n", (unsigned long long)a.reply);
    if (a.reply == CRISP_BELOW_FLOOR || a.reply == CRISP_REPEATED || a.reply == CRISP_WRONG_ICV) counted = 1;
    if (a.reply != CRISP_DONE) return;          /* and of the table at most a counter is new */
    gateway.booked += gateway.length;
    int front = snprintf(gateway.line, sizeof gateway.line, "slot %zu, number %llu: ", a.slot, (unsigned long long)a.seqnum);
    to_hex(gateway.line + front, payload, a.length);
    gateway.length = strlen(gateway.line);
    save("table", &gateway, sizeof gateway);
    counted = 0;
    book();
}

static void receive_all(void)
{
    char *line = NULL;
    size_t room = 0;
    lock("table.lock");
    restore("table", &gateway, sizeof gateway, gateway_mark);
    book();
    while (getline(&line, &room, stdin) > 0) {
        size_t n = from_hex(line);
        receive_one((const uint8_t *)line, n);
    }
    if (counted) save("table", &gateway, sizeof gateway);
    free(line);
}

static void list(void)
{
    static uint8_t text[CRISP_OUT];
    restore("table", &gateway, sizeof gateway, gateway_mark);
    struct crisp_answer a = crisp_listing(gateway.table, 0, text, sizeof text);
    if (a.reply != CRISP_DONE) stop("listing", "refused");
    printf("%.*s", (int)a.length, (const char *)text);
}

int main(int argc, char **argv)
{
    if (argc < 3) stop("usage", "kept new|send|receive|list FOLDER [READING]");
    folder = open(argv[2], O_RDONLY | O_DIRECTORY | O_CLOEXEC);
    if (folder < 0) failed(argv[2]);
    if (strcmp(argv[1], "new") == 0) make();
    else if (strcmp(argv[1], "send") == 0 && argc > 3) send_one(argv[3]);
    else if (strcmp(argv[1], "receive") == 0) receive_all();
    else if (strcmp(argv[1], "list") == 0) list();
    else stop(argv[1], "there is no such command");
    return 0;
}
