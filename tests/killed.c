/* killed.c: examples/kept.c, killed at each of its calls that change a file, in four ways, started again and gone on with. Afterwards no number was
 * used by two messages, each message that left whole was booked once and counted, and what the last run refused as repeated is among the replays. Then
 * several senders at once, on one record.
 *
 *   killed FOLDER        an empty folder; built with -DKEPT='"the example"' */
#define _GNU_SOURCE
#include <fcntl.h>
#include <signal.h>
#include <stdarg.h>
#include <stdio.h>
#include <stdlib.h>
#include <string.h>
#include <sys/file.h>
#include <sys/stat.h>
#include <sys/wait.h>
#include <unistd.h>

/* BEFORE and AFTER the call; HALF: of a write one half was done; POWER: after the call, and all that was not flushed is lost. */
enum way { BEFORE, HALF, AFTER, POWER, WAYS, TOGETHER };
static const char *const way_names[] = {"before", "half way", "after", "with the power"};
static enum way way;
static int kill_at, calls;

/* ---- what the power takes along: bytes written since a file was flushed, and a rename since its folder was */

static struct file {
    int copy;
    off_t flushed;
} files[64];
static int opened, renamed_in = -1, had_one;
static char renamed[64];

static off_t size_of(int file)
{
    struct stat s;
    return fstat(file, &s) ? 0 : s.st_size;
}

static int same(int a, int b)
{
    struct stat s, t;
    return fstat(a, &s) == 0 && fstat(b, &t) == 0 && s.st_ino == t.st_ino && s.st_dev == t.st_dev;
}

static void lose_power(void)
{
    for (int i = 0; i < opened; i++)
        if (ftruncate(files[i].copy, files[i].flushed)) abort();
    if (renamed_in >= 0 && (had_one ? renameat(renamed_in, "undo", renamed_in, renamed) : unlinkat(renamed_in, renamed, 0))) abort();
}

static void die(void)
{
    if (way == POWER) lose_power();
    kill(getpid(), SIGKILL);
}

/* ---- the calls of the example that change a file, with a kill before or behind them; a wrong example may do without one */

#define MAYBE __attribute__((unused)) static

static int now(void)
{
    int due = ++calls == kill_at;
    if (due && way == BEFORE) die();
    return due;
}

static int then(int due, int result)
{
    if (due) die();
    return result;
}

MAYBE int killed_openat(int in, const char *name, int flags, ...)
{
    va_list rest;
    va_start(rest, flags);
    int mode = flags & O_CREAT ? va_arg(rest, int) : 0;
    va_end(rest);
    if (way == TOGETHER) usleep(20000);
    if (!(flags & O_CREAT)) return openat(in, name, flags);
    int due = now(), file = openat(in, name, flags, mode);
    if (file >= 0 && opened < 64) files[opened++] = (struct file){dup(file), size_of(file)};
    return then(due, file);
}

MAYBE ssize_t killed_write(int file, const void *bytes, size_t n)
{
    int due = now();
    ssize_t done = write(file, bytes, due && way == HALF ? n / 2 : n);
    return then(due, 0), done;
}

MAYBE int killed_fsync(int file)
{
    int due = now(), result = fsync(file);
    for (int i = 0; i < opened; i++)
        if (same(files[i].copy, file)) files[i].flushed = size_of(file);
    if (renamed_in >= 0 && same(renamed_in, file)) {
        unlinkat(renamed_in, "undo", 0);
        renamed_in = -1;
    }
    return then(due, result);
}

MAYBE int killed_renameat(int from, const char *name, int to, const char *other)
{
    int due = now();
    if (way == POWER) {
        unlinkat(to, "undo", 0);
        had_one = linkat(to, other, to, "undo", 0) == 0;
        snprintf(renamed, sizeof renamed, "%s", other);
        renamed_in = to;
    }
    return then(due, renameat(from, name, to, other));
}

MAYBE int killed_ftruncate(int file, off_t length)
{
    int due = now();
    return then(due, ftruncate(file, length));
}

#define openat killed_openat
#define write killed_write
#define fsync killed_fsync
#define renameat killed_renameat
#define ftruncate killed_ftruncate
#define main kept_main
#include KEPT
#undef openat
#undef write
#undef main

/* ---- runs of the example, each a process of its own */

static char *place;

static const char *in_place(const char *name)
{
    static char path[2][4096];
    static int turn;
    turn = !turn;
    snprintf(path[turn], sizeof path[turn], "%s/%s", place, name);
    return path[turn];
}

static pid_t start(const char *what, const char *to, enum way how, int at)
{
    fflush(stdout);
    pid_t child = fork();
    if (child != 0) return child;
    char *words[] = {"kept", (char *)what, place, "17.3 GJ", NULL};
    way = how;
    kill_at = at;
    if (!freopen(in_place("wire"), "a+", stdin) || fseek(stdin, 0, SEEK_SET) || !freopen(in_place(to), "w", stdout)) _exit(3);
    exit(kept_main(4, words));
}

/* 0: done; 1: killed; else it failed */
static int ended(pid_t child)
{
    int status;
    if (waitpid(child, &status, 0) != child) return 3;
    return WIFSIGNALED(status) ? (WTERMSIG(status) == SIGKILL ? 1 : 3) : WEXITSTATUS(status) ? 2 : 0;
}

/* what a sender wrote goes over the wire, and the line is ended where it was torn off */
static void deliver(const char *part)
{
    char text[8192];
    FILE *from = fopen(in_place(part), "r"), *wire = fopen(in_place("wire"), "a");
    if (!from || !wire) exit(3);
    size_t n = fread(text, 1, sizeof text, from);
    if (n > 0) fprintf(wire, "%.*s%s", (int)n, text, text[n - 1] == '\n' ? "" : "\n");
    fclose(from);
    fclose(wire);
}

/* ---- what is to hold afterwards */

enum { MOST = 64, WHOLE = 42 };

static void bad(const char *what, int step, enum way how, int at)
{
    printf("killed: %s; step %d, call %d, %s\n", what, step, at, how < WAYS ? way_names[how] : "several at once");
    exit(1);
}

/* the numbers that were sent, those of whole messages first; a torn one shows its number in 20 digits */
static int sent_numbers(unsigned long long numbers[MOST], int *whole)
{
    char line[8192];
    unsigned long long number, torn[MOST];
    int tears = 0;
    FILE *wire = fopen(in_place("wire"), "r");
    *whole = 0;
    while (wire && fgets(line, sizeof line, wire) && *whole + tears < MOST) {
        if (strlen(line) < 21 || sscanf(line, "80000105%12llx", &number) != 1) continue;
        if (strlen(line) == WHOLE + 1) numbers[(*whole)++] = number;
        else torn[tears++] = number;
    }
    if (wire) fclose(wire);
    memcpy(numbers + *whole, torn, (size_t)tears * sizeof *torn);
    return *whole + tears;
}

/* the numbers that were booked; -1 where a line is not as it should be */
static int booked_numbers(unsigned long long numbers[MOST])
{
    char line[8192], right[128];
    int n = 0;
    FILE *booked = fopen(in_place("booked"), "r");
    while (booked && n >= 0 && fgets(line, sizeof line, booked) && n < MOST) {
        sscanf(line, "slot 0, number %llu", &numbers[n]);
        snprintf(right, sizeof right, "slot 0, number %llu: 31372e3320474a\n", numbers[n]);
        n = strcmp(line, right) ? -1 : n + 1;
    }
    if (booked) fclose(booked);
    return n;
}

static int twice(const unsigned long long *numbers, int n)
{
    for (int i = 0; i < n; i++)
        for (int j = 0; j < i; j++)
            if (numbers[i] == numbers[j]) return 1;
    return 0;
}

/* the entry's total and its replays, as they are listed */
static int listed(int *replays)
{
    char line[128];
    int n = -1;
    *replays = -1;
    if (ended(start("list", "part", BEFORE, 0))) return -1;
    FILE *f = fopen(in_place("part"), "r");
    while (f && fgets(line, sizeof line, f)) sscanf(line, "accepted=%d", &n), sscanf(line, "replays=%d", replays);
    if (f) fclose(f);
    return n;
}

/* how many messages the last run has refused as repeated */
static int repeated(void)
{
    char line[128];
    int n = 0;
    FILE *f = fopen(in_place("part"), "r");
    while (f && fgets(line, sizeof line, f)) n += strcmp(line, "reply 10\n") == 0;
    if (f) fclose(f);
    return n;
}

static void hold(int step, enum way how, int at)
{
    unsigned long long sent[MOST], booked[MOST];
    int whole, n = sent_numbers(sent, &whole), lines = booked_numbers(booked), again = repeated(), replays, total = listed(&replays);
    if (twice(sent, n)) bad("a number was used twice", step, how, at);
    if (twice(booked, lines)) bad("a reading was booked twice", step, how, at);
    if (lines != whole || total != whole) bad("not every message that left whole was booked and counted", step, how, at);
    if (again == 0 || replays < again) bad("what came again is not among the replays", step, how, at);
}

/* ---- all of it */

static void clean(void)
{
    static const char *const names[] = {"record", "record.new", "record.lock", "table", "table.new", "table.lock", "booked", "undo", "wire", "part"};
    for (size_t i = 0; i < sizeof names / sizeof *names; i++) unlink(in_place(names[i]));
}

/* two messages are sent, and all that came over the wire is received after each; whether the kill came before the step was through */
static int sequence(int step, enum way how, int at)
{
    static const char *const steps[] = {"new", "send", "receive", "send", "receive"};
    int killed = 0;
    clean();
    for (int i = 0; i < 5; i++) {
        int result = ended(start(steps[i], "part", how, i == step ? at : 0));
        if (strcmp(steps[i], "send") == 0) deliver("part");
        killed |= result == 1;
        if (result == 1 && i == 0 && access(in_place("record"), F_OK) == 0) result = 0;       /* made before the kill */
        if (result == 1) {
            result = ended(start(steps[i], "part", BEFORE, 0));
            if (strcmp(steps[i], "send") == 0) deliver("part");
        }
        if (result != 0) bad("it does not come back", step, how, at);
    }
    hold(step, how, at);
    return killed;
}

static void several(void)
{
    static const char *const parts[] = {"part1", "part2", "part3", "part4"};
    pid_t senders[4];
    sequence(0, TOGETHER, 0);
    for (int i = 0; i < 4; i++) senders[i] = start("send", parts[i], TOGETHER, 0);
    for (int i = 0; i < 4; i++) {
        if (ended(senders[i])) bad("a sender fails beside others", 5, TOGETHER, 0);
        deliver(parts[i]);
        unlink(in_place(parts[i]));
    }
    if (ended(start("receive", "part", BEFORE, 0))) bad("it does not come back", 5, TOGETHER, 0);
    hold(5, TOGETHER, 0);
}

int main(int argc, char **argv)
{
    int kills = 0;
    if (argc != 2) return 2;
    place = argv[1];
    for (int how = 0; how < WAYS; how++)
        for (int step = 0; step < 5; step++)
            for (int at = 1; sequence(step, (enum way)how, at); at++) kills++;
    several();
    clean();
    printf("%d kills in four ways, and four senders at once: no number was used twice, each reading was booked once, what came again was counted\n", kills);
    return kills < 100;
}
