/* Stores of many objects and many open transactions through libcolock, from C:
 *
 *     many KIND FILE CALL ROUNDS
 *
 * prints for a kind of recovery, a type file and the name of a call that is always legal there: the nanoseconds of a
 * commit at objects drawn at random, by how many there are; the milliseconds that their store takes to begin anew; and
 * the nanoseconds of a transaction of one call, by how many transactions are open at its object, and at another. */
#define _POSIX_C_SOURCE 199309L
#include "colock.h"

#include <inttypes.h>
#include <stdio.h>
#include <stdlib.h>
#include <string.h>
#include <time.h>

/* FEW is for `bench/run each`. */
#ifdef FEW
enum { MOST = 4096, OPEN = 1024, COMMITS = 1000, TURNS = 20 };
#else
enum { MOST = 65536, OPEN = 16384, COMMITS = 100000, TURNS = 2000 };
#endif

static uint64_t call;

static void need(uint32_t code, const char *what) {
    if (code) {
        fprintf(stderr, "many: %s: %s\n", what, colock_strerror(code));
        exit(1);
    }
}

static double now(void) {
    struct timespec at;
    clock_gettime(CLOCK_MONOTONIC, &at);
    return 1e9 * (double)at.tv_sec + (double)at.tv_nsec;
}

static void read_type(colock_type *type, uint32_t kind, const char *path) {
    static char text[1 << 20];
    colock_fault fault;
    FILE *file = fopen(path, "rb");
    if (file == NULL) need(COLOCK_BAD_TEXT, path);
    size_t size = fread(text, 1, sizeof text, file);
    fclose(file);
    need(colock_type_read(type, kind, text, size, &fault), path);
}

/* A store of so many objects of a type. */
static void open_store(colock_store *store, colock_type *type, uint32_t objects, const char *name) {
    need(colock_store_new(store), "new");
    for (uint32_t x = 0; x < objects; x++) need(colock_store_add(store, type), "add");
    need(colock_store_open_with(store, UINT32_MAX, MOST, MOST), "open");
    need(colock_call_number(store, 0, name, strlen(name), &call), "call number");
}

/* A transaction of one call, which commits. */
static void commit_at(colock_store *store, uint32_t object) {
    uint64_t t;
    colock_answer answer;
    need(colock_begin(store, 0, &t), "begin");
    need(colock_call_op(store, 0, t, object, call, &answer), "call");
    need(answer.kind != COLOCK_REPLY, "no reply");
    need(colock_commit(store, 0, t), "commit");
}

/* The least nanoseconds of a commit at objects drawn at random. */
static double random_commits(colock_store *store, uint32_t objects, int rounds) {
    double least = 1e18;
    uint32_t drawn = 1;
    for (int round = 0; round < rounds; round++) {
        double start = now();
        for (int at = 0; at < COMMITS; at++) {
            drawn = 1103515245u * drawn + 12345u;
            commit_at(store, (drawn >> 8) % objects);
        }
        double each = (now() - start) / COMMITS;
        if (each < least) least = each;
        need(colock_forget(store, UINT32_MAX), "forget");
    }
    return least;
}

static void by_objects(colock_type *type, const char *name, int rounds) {
    static const uint32_t counts[] = {16, 256, 4096, MOST};
    for (size_t at = 0; at < sizeof counts / sizeof *counts; at++) {
        colock_store store = COLOCK_EMPTY;
        open_store(&store, type, counts[at], name);
        printf("objects %" PRIu32 " %.1f", counts[at], random_commits(&store, counts[at], rounds));
        double start = now();
        need(colock_renew(&store), "renew");
        printf(" %.2f\n", (now() - start) / 1e6);
        need(colock_store_close(&store), "close");
    }
}

/* The least nanoseconds of a transaction at object 0, while so many are open there, and so many at object 1. */
static double beside(colock_type *type, const char *name, uint32_t here, uint32_t elsewhere, int rounds) {
    colock_store store = COLOCK_EMPTY;
    double least = 1e18;
    open_store(&store, type, 2, name);
    for (uint32_t at = 0; at < here + elsewhere; at++) {
        uint64_t t;
        colock_answer answer;
        need(colock_begin(&store, 0, &t), "begin");
        need(colock_call_op(&store, 0, t, at < here ? 0 : 1, call, &answer), "call");
    }
    for (int round = 0; round < rounds; round++) {
        double start = now();
        for (int turn = 0; turn < TURNS; turn++) commit_at(&store, 0);
        double each = (now() - start) / TURNS;
        if (each < least) least = each;
    }
    need(colock_store_close(&store), "close");
    return least;
}

static void by_open(colock_type *type, const char *name, int rounds) {
    static const uint32_t counts[] = {0, 16, 1024, OPEN};
    for (size_t at = 0; at < sizeof counts / sizeof *counts; at++)
        printf("open %" PRIu32 " %.1f %.1f\n", counts[at], beside(type, name, counts[at], 0, rounds), beside(type, name, 0, counts[at], rounds));
}

int main(int argc, char **argv) {
    static const char *const kinds[] = {"undo", "intentions", "escrow"};
    colock_type type = COLOCK_EMPTY;
    uint32_t kind = 0;
    if (argc != 5) return 2;
    while (kind < 2 && strcmp(kinds[kind], argv[1])) kind++;
    read_type(&type, kind, argv[2]);
    by_objects(&type, argv[3], atoi(argv[4]));
    by_open(&type, argv[3], atoi(argv[4]));
    return 0;
}
