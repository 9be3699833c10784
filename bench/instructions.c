/* Calls of libcolock whose instructions are counted, from C:
 *
 *     instructions TABLE NUMBER
 *
 * takes the files of a table type and of a number, and writes for each row a line of how often its work is done and its
 * name. Then it does the work in `counted`, which is what callgrind collects; it dumps what it has behind each.
 *
 *     commit KIND OPEN     a transaction of one call, where so many are open at the object, this one among them
 *     attempt KIND         a transaction of one call in one call of the library, by name
 *     attempt_op KIND      the same by number
 *     peek KIND            a read of the committed state, beside 16 open transactions
 *     follow KIND          an event that a new store of 16 objects follows */
#include "colock.h"

#include <inttypes.h>
#include <stdio.h>
#include <stdlib.h>
#include <string.h>

enum { TURNS = 1000, OBJECTS = 16, BESIDE = 16, FOLLOWED = 6000 };

/* A kind of recovery: where its type file is among the words, a call that is always legal, and one that reads. */
static const struct kind {
    const char *name, *call, *read;
    uint32_t kind;
    int file;
} kinds[] = {
    {"undo", "insert:a", "member:a", COLOCK_UNDO, 1},
    {"intentions", "insert:a", "member:a", COLOCK_INTENTIONS, 1},
    {"escrow", "give:1", "value", COLOCK_ESCROW, 2},
};

static const struct kind *kind;
static colock_type type;
static uint64_t call;
static colock_event events[3 * FOLLOWED];

static void need(uint32_t code, const char *what) {
    if (code) {
        fprintf(stderr, "instructions: %s: %s\n", what, colock_strerror(code));
        exit(1);
    }
}

static void read_type(const char *path) {
    static char text[1 << 20];
    colock_fault fault;
    FILE *file = fopen(path, "rb");
    if (file == NULL) need(COLOCK_BAD_TEXT, path);
    size_t size = fread(text, 1, sizeof text, file);
    fclose(file);
    need(colock_type_read(&type, kind->kind, text, size, &fault), path);
}

static void open_store(colock_store *store, uint32_t objects) {
    need(colock_store_new(store), "new");
    for (uint32_t x = 0; x < objects; x++) need(colock_store_add(store, &type), "add");
    need(colock_store_open(store, UINT32_MAX), "open");
    need(colock_call_number(store, 0, kind->call, strlen(kind->call), &call), "call number");
}

/* Begins a transaction of one call at an object. */
static uint64_t begin_at(colock_store *store, uint32_t object) {
    uint64_t t;
    colock_answer answer;
    need(colock_begin(store, 0, &t), "begin");
    need(colock_call_op(store, 0, t, object, call, &answer), "call");
    need((uint32_t)answer.kind, "no reply");
    return t;
}

static void commit(colock_store *store) {
    need(colock_commit(store, 0, begin_at(store, 0)), "commit");
}

static void attempt(colock_store *store) {
    uint32_t object = 0;
    uint64_t operation;
    colock_outcome outcome;
    need(colock_attempt(store, 0, &object, 1, kind->call, strlen(kind->call), &operation, 1, &outcome), "attempt");
    need((uint32_t)outcome.kind, "not done");
}

static void attempt_op(colock_store *store) {
    uint32_t object = 0;
    uint64_t operation;
    colock_outcome outcome;
    need(colock_attempt_op(store, 0, &object, 1, &call, 1, &operation, 1, &outcome), "attempt_op");
    need((uint32_t)outcome.kind, "not done");
}

static void peek(colock_store *store) {
    uint64_t commits;
    colock_answer answer;
    need(colock_peek(store, 0, kind->read, strlen(kind->read), &answer, &commits), "peek");
    need((uint32_t)answer.kind, "no reply");
}

static void follow(colock_store *store) {
    uint64_t made;
    need(colock_follow(store, events, 3 * FOLLOWED, &made), "follow");
}

/* What is counted. */
__attribute__((noinline, noclone)) void counted(void (*work)(colock_store *), colock_store *store, int turns) {
    for (int turn = 0; turn < turns; turn++) work(store);
}

static void show(int count, const char *name) {
    printf("%d %s %s", count, name, kind->name);
}

/* A row at a new store of one object, where so many transactions are open. */
static void row(const char *name, void (*work)(colock_store *), int open) {
    colock_store store = COLOCK_EMPTY;
    open_store(&store, 1);
    for (int at = 0; at < open; at++) begin_at(&store, 0);
    show(TURNS, name);
    if (work == commit) printf(" %d", open + 1);
    puts("");
    counted(work, &store, TURNS);
    need(colock_store_close(&store), "close");
}

/* What a store of so many objects did is followed by another one. */
static void follow_row(void) {
    colock_store first = COLOCK_EMPTY, second = COLOCK_EMPTY;
    uint64_t count;
    open_store(&first, OBJECTS);
    for (int at = 0; at < FOLLOWED; at++) need(colock_commit(&first, 0, begin_at(&first, (uint32_t)at % OBJECTS)), "commit");
    need(colock_events(&first, 0, events, 3 * FOLLOWED, &count), "events");
    need(count != 3 * FOLLOWED, "another number of events");
    open_store(&second, OBJECTS);
    show(3 * FOLLOWED, "follow");
    puts("");
    counted(follow, &second, 1);
    need(colock_store_close(&first), "close");
    need(colock_store_close(&second), "close");
}

int main(int argc, char **argv) {
    static const int opened[] = {1, 16, 1024};
    if (argc != 3) return 2;
    for (size_t place = 0; place < sizeof kinds / sizeof *kinds; place++) {
        kind = &kinds[place];
        read_type(argv[kind->file]);
        for (size_t at = 0; at < sizeof opened / sizeof *opened; at++) row("commit", commit, opened[at] - 1);
        row("attempt", attempt, 0);
        row("attempt_op", attempt_op, 0);
        row("peek", peek, BESIDE);
        follow_row();
        need(colock_type_close(&type), "close");
    }
    return 0;
}
