/* Whole transactions and committed states through libcolock, from C:
 *
 *     attempts whole KIND FILE CALL CALLS ROUNDS
 *
 * prints for a kind of recovery, a type file and the name of a call that is always legal there the least nanoseconds of a
 * transaction of so many such calls at one object: in one call of the library and step by step, by the call's number and by
 * its name.
 *
 *     attempts committed KIND FILE CALL OPERATIONS ROUNDS
 *
 * prints the least nanoseconds of a committed state where the log has so many operations. */
#define _POSIX_C_SOURCE 199309L
#include "colock.h"

#include <stdio.h>
#include <stdlib.h>
#include <string.h>
#include <time.h>

enum { TURNS = 20000, READS = 10000, MOST_CALLS = 64, LONGEST_NAME = 32 };

/* What is called: its name, its number, and of a whole transaction the objects, the names and the numbers. */
static struct {
    const char *name;
    size_t name_count, count, text_count;
    uint64_t number, numbers[MOST_CALLS];
    uint32_t objects[MOST_CALLS];
    char text[MOST_CALLS * (LONGEST_NAME + 1)];
} call;

static void need(uint32_t code, const char *what) {
    if (code) {
        fprintf(stderr, "attempts: %s: %s\n", what, colock_strerror(code));
        exit(1);
    }
}

static double now(void) {
    struct timespec at;
    clock_gettime(CLOCK_MONOTONIC, &at);
    return 1e9 * (double)at.tv_sec + (double)at.tv_nsec;
}

static uint32_t kind_of(const char *name) {
    static const char *const kinds[] = {"undo", "intentions", "escrow"};
    for (uint32_t kind = 0; kind < 3; kind++)
        if (!strcmp(kinds[kind], name)) return kind;
    need(COLOCK_BAD_KIND, name);
    return 0;
}

static void read_type(colock_type *type, uint32_t kind, const char *path) {
    static char text[1 << 20];
    colock_fault fault;
    FILE *file = fopen(path, "rb");
    if (file == NULL) need(COLOCK_BAD_TEXT, path);
    size_t size = fread(text, 1, sizeof text, file);
    fclose(file);
    need(colock_type_read(type, kind, text, size, &fault), path);
}

static void open_store(colock_store *store, uint32_t kind, const char *path) {
    colock_type type = COLOCK_EMPTY;
    read_type(&type, kind, path);
    need(colock_store_new(store), "new");
    need(colock_store_add(store, &type), "add");
    need(colock_store_open(store, UINT32_MAX), "open");
    need(colock_type_close(&type), "close");
}

/* From now on this is called, and so often in a transaction. */
static void ask_for(colock_store *store, const char *name, size_t count) {
    call.name = name, call.name_count = strlen(name), call.count = count;
    need(count > MOST_CALLS || call.name_count > LONGEST_NAME ? COLOCK_BAD_PARAMETER : COLOCK_OK, "calls");
    need(colock_call_number(store, 0, name, call.name_count, &call.number), "call number");
    for (size_t at = 0; at < count; at++) {
        call.numbers[at] = call.number;
        if (at > 0) call.text[call.text_count++] = ' ';
        memcpy(call.text + call.text_count, name, call.name_count);
        call.text_count += call.name_count;
    }
}

/* ---- a transaction */

static uint64_t begin(colock_store *store) {
    uint64_t t;
    need(colock_begin(store, 0, &t), "begin");
    return t;
}

static void commit(colock_store *store, uint64_t t) {
    need(colock_commit(store, 0, t), "commit");
}

static void call_by_number(colock_store *store, uint64_t t) {
    colock_answer answer;
    need(colock_call_op(store, 0, t, 0, call.number, &answer), "call");
    need((uint32_t)answer.kind, "no reply");
}

static void call_by_name(colock_store *store, uint64_t t) {
    colock_answer answer;
    need(colock_call(store, 0, t, 0, call.name, call.name_count, &answer), "call");
    need((uint32_t)answer.kind, "no reply");
}

static void steps_by_number(colock_store *store) {
    uint64_t t = begin(store);
    for (size_t at = 0; at < call.count; at++) call_by_number(store, t);
    commit(store, t);
}

static void steps_by_name(colock_store *store) {
    uint64_t t = begin(store);
    for (size_t at = 0; at < call.count; at++) call_by_name(store, t);
    commit(store, t);
}

static void whole_by_number(colock_store *store) {
    uint64_t operations[MOST_CALLS];
    colock_outcome outcome;
    need(colock_attempt_op(store, 0, call.objects, call.count, call.numbers, call.count, operations, call.count, &outcome), "attempt");
    need((uint32_t)outcome.kind, "not done");
}

static void whole_by_name(colock_store *store) {
    uint64_t operations[MOST_CALLS];
    colock_outcome outcome;
    need(colock_attempt(store, 0, call.objects, call.count, call.text, call.text_count, operations, call.count, &outcome), "attempt");
    need((uint32_t)outcome.kind, "not done");
}

/* ---- times */

static const struct {
    const char *name;
    void (*transact)(colock_store *store);
} ways[] = {
    {"whole_by_number", whole_by_number},
    {"steps_by_number", steps_by_number},
    {"whole_by_name", whole_by_name},
    {"steps_by_name", steps_by_name},
};

enum { WAYS = sizeof ways / sizeof *ways };

/* The least nanoseconds of each way, which take turns. */
static void time_transactions(colock_store *store, int rounds) {
    double least[WAYS] = {1e18, 1e18, 1e18, 1e18};
    for (int round = 0; round < rounds; round++)
        for (size_t way = 0; way < WAYS; way++) {
            double start = now();
            for (int turn = 0; turn < TURNS; turn++) ways[way].transact(store);
            double each = (now() - start) / TURNS;
            if (each < least[way]) least[way] = each;
            need(colock_forget(store, UINT32_MAX), "forget");
        }
    for (size_t way = 0; way < WAYS; way++) printf("%s %.1f\n", ways[way].name, least[way]);
}

/* The least nanoseconds of a committed state where the log has so many operations: one of a transaction that is open,
 * and behind it those of others, which committed. */
static void time_committed(colock_store *store, uint64_t operations, int rounds) {
    uint64_t state, commits = 0;
    double least = 1e18;
    call_by_number(store, begin(store));
    for (uint64_t at = 1; at < operations; at++) steps_by_number(store);
    for (int round = 0; round < rounds; round++) {
        double start = now();
        for (int turn = 0; turn < READS; turn++) need(colock_committed(store, 0, &state, &commits), "committed");
        double each = (now() - start) / READS;
        if (each < least) least = each;
    }
    need(commits != operations - 1, "commits");
    printf("committed %.1f\n", least);
}

int main(int argc, char **argv) {
    colock_store store = COLOCK_EMPTY;
    if (argc != 7) return 2;
    uint64_t number = strtoull(argv[5], NULL, 10);
    open_store(&store, kind_of(argv[2]), argv[3]);
    if (!strcmp(argv[1], "whole")) {
        ask_for(&store, argv[4], number);
        time_transactions(&store, atoi(argv[6]));
    } else {
        ask_for(&store, argv[4], 1);
        time_committed(&store, number, atoi(argv[6]));
    }
    need(colock_store_close(&store), "close");
    return 0;
}
