/* The commands of a workload through libcolock, from C:
 *
 *     library KIND FILE OBJECTS COMMANDS ROUNDS
 *
 * prints the least nanoseconds of a run of the commands of a file (`bench/store/main.rattle` says what is in it), and of a new store
 * that follows the events of the run, and what came of it. */
#define _POSIX_C_SOURCE 199309L
#include "colock.h"

#include <inttypes.h>
#include <stdio.h>
#include <stdlib.h>
#include <string.h>
#include <time.h>

#define MOST_EVENTS 1000000

/* What is asked for: a begin, a call, a commit, an abort, or a rollback of x operations. */
enum what { BEGIN, CALL, COMMIT, ABORT, ROLLBACK };

struct command {
    uint32_t what, t, x, c;
};

struct outcome {
    uint64_t nanoseconds, follow, refused, ops, busy, none, commits, kept, history;
};

static void need(int it, const char *what) {
    if (!it) {
        fprintf(stderr, "library: %s\n", what);
        exit(1);
    }
}

static char *read_file(const char *path, size_t *count) {
    FILE *file = fopen(path, "rb");
    need(file != NULL && fseek(file, 0, SEEK_END) == 0, "no file");
    *count = (size_t)ftell(file);
    rewind(file);
    char *text = malloc(*count + 1);
    need(text != NULL && fread(text, 1, *count, file) == *count, "not read");
    fclose(file);
    text[*count] = 0;
    return text;
}

static uint32_t number(char **text) {
    return (uint32_t)strtoul(*text, text, 10);
}

/* The commands of a text: a line of four numbers for each. */
static uint32_t commands_of(char *text, struct command **commands) {
    uint32_t count = 0;
    for (const char *at = text; *at != 0; at++) count += *at == '\n';
    *commands = calloc((size_t)count + 1, sizeof **commands);
    need(*commands != NULL, "no memory");
    for (struct command *it = *commands; it < *commands + count; it++) {
        it->what = number(&text);
        it->t = number(&text);
        it->x = number(&text);
        it->c = number(&text);
    }
    return count;
}

/* Gives a store the commands, and answers how many of them it refused. */
static uint64_t run(colock_store *store, const struct command *commands, uint32_t count) {
    uint64_t refused = 0, begun;
    colock_answer answer;
    for (const struct command *it = commands; it < commands + count; it++) {
        uint32_t code = COLOCK_OK;
        switch ((enum what)it->what) {
        case BEGIN: code = colock_begin(store, 0, &begun); break;
        case CALL: code = colock_call_op(store, 0, it->t, it->x, it->c, &answer); break;
        case COMMIT: code = colock_commit(store, 0, it->t); break;
        case ABORT: code = colock_abort(store, 0, it->t); break;
        case ROLLBACK: code = colock_rollback(store, 0, it->t, it->x); break;
        }
        refused += code != COLOCK_OK;
    }
    return refused;
}

/* A sum, and a further number. */
static uint64_t folded(uint64_t sum, uint32_t number) {
    return ((sum << 5 | sum >> 59) ^ number) * 0x517cc1b727220a95u;
}

static uint64_t with_event(uint64_t sum, const colock_event *e) {
    uint32_t t = (uint32_t)e->transaction, other = (uint32_t)e->other;
    uint32_t at_object = e->kind == COLOCK_EVENT_OP || e->kind == COLOCK_EVENT_BUSY || e->kind == COLOCK_EVENT_NONE;
    uint32_t words[] = {e->kind, t, at_object ? e->object : other, e->op, at_object ? other : 0, e->worker};
    for (size_t i = 0; i < sizeof words / sizeof *words; i++) sum = folded(sum, words[i]);
    return sum;
}

static colock_store store_of(colock_type *type, uint32_t objects) {
    colock_store store = COLOCK_EMPTY;
    need(colock_store_new(&store) == COLOCK_OK, "no store");
    for (uint32_t x = 0; x < objects; x++) need(colock_store_add(&store, type) == COLOCK_OK, "no object");
    need(colock_store_open(&store, MOST_EVENTS) == COLOCK_OK, "not opened");
    return store;
}

static uint64_t now(void) {
    struct timespec at;
    clock_gettime(CLOCK_MONOTONIC, &at);
    return (uint64_t)at.tv_sec * 1000000000u + (uint64_t)at.tv_nsec;
}

/* The whole history, after the abort of what is open. */
static colock_event *events_of(colock_store *store, uint64_t *count) {
    uint64_t forgotten;
    need(colock_abort_all(store) == COLOCK_OK, "no abort");
    need(colock_event_count(store, count, &forgotten) == COLOCK_OK, "no count");
    colock_event *events = calloc((size_t)*count + 1, sizeof *events);
    need(events != NULL && colock_events(store, 0, events, (size_t)*count, count) == COLOCK_OK, "no events");
    return events;
}

static void note_events(const colock_event *events, uint64_t count, struct outcome *told) {
    for (const colock_event *it = events; it < events + count; it++) {
        told->ops += it->kind == COLOCK_EVENT_OP;
        told->busy += it->kind == COLOCK_EVENT_BUSY;
        told->none += it->kind == COLOCK_EVENT_NONE;
        told->commits += it->kind == COLOCK_EVENT_COMMIT;
        told->history = with_event(told->history, it);
    }
}

/* The nanoseconds in which a new store follows these events. */
static uint64_t following(colock_type *type, uint32_t objects, const colock_event *events, uint64_t count) {
    colock_store store = store_of(type, objects);
    uint64_t made, start = now();
    need(colock_follow(&store, events, (size_t)count, &made) == COLOCK_OK, "not followed");
    uint64_t time = now() - start;
    colock_store_close(&store);
    return time;
}

/* A run in a new store. */
static struct outcome measured(colock_type *type, uint32_t objects, const struct command *commands, uint32_t count) {
    struct outcome told = {0};
    colock_store store = store_of(type, objects);
    uint64_t made, start = now();
    told.refused = run(&store, commands, count);
    told.nanoseconds = now() - start;
    for (uint32_t x = 0; x < objects; x++) {
        uint64_t state;
        need(colock_kept(&store, x, &state) == COLOCK_OK, "no state");
        told.kept = folded(told.kept, (uint32_t)state);
    }
    colock_event *events = events_of(&store, &made);
    note_events(events, made, &told);
    colock_store_close(&store);
    told.follow = following(type, objects, events, made);
    free(events);
    return told;
}

static uint64_t least(uint64_t one, uint64_t other) {
    return one < other ? one : other;
}

int main(int count, char **words) {
    need(count == 6, "KIND FILE OBJECTS COMMANDS ROUNDS");
    size_t bytes;
    char *text = read_file(words[2], &bytes);
    colock_type type = COLOCK_EMPTY;
    colock_fault fault;
    uint32_t kind = strcmp(words[1], "undo") == 0 ? COLOCK_UNDO : strcmp(words[1], "escrow") == 0 ? COLOCK_ESCROW : COLOCK_INTENTIONS;
    need(colock_type_read(&type, kind, text, bytes, &fault) == COLOCK_OK, "no type");
    free(text);
    text = read_file(words[4], &bytes);
    struct command *commands;
    uint32_t objects = (uint32_t)atoi(words[3]), made = commands_of(text, &commands);
    struct outcome it = {0};
    uint64_t run_time = UINT64_MAX, follow_time = UINT64_MAX;
    for (int round = 0; round < atoi(words[5]); round++) {
        it = measured(&type, objects, commands, made);
        run_time = least(run_time, it.nanoseconds);
        follow_time = least(follow_time, it.follow);
    }
    printf("nanoseconds %" PRIu64 "\nfollow %" PRIu64 "\nevent_bytes %zu\n", run_time, follow_time, sizeof(colock_event));
    printf("refused %" PRIu64 "\nops %" PRIu64 "\nbusy %" PRIu64 "\n", it.refused, it.ops, it.busy);
    printf("none %" PRIu64 "\ncommits %" PRIu64 "\n", it.none, it.commits);
    printf("kept %" PRIu64 "\nhistory %" PRIu64 "\n", it.kept, it.history);
    free(commands);
    free(text);
    return colock_type_close(&type) != COLOCK_OK;
}
