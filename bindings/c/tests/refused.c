/* Each allocation of a run refused in turn: refused TRANSACTIONS. Linked with --wrap of malloc, realloc and free. */
#include "refusing.h"
#include "want.h"

/* Does a call. Memory that is refused is the one code but that of success, and the same call is done then. */
static long refusals = 0;
static bool is_met[400]; /* the lines whose call was refused memory in some run */
enum { TYPES = 10 };
#define DO(e) \
    do { \
        uint32_t code = (e); \
        WANT(code == COLOCK_OK || code == COLOCK_NO_MEMORY); \
        if (code) is_met[__LINE__] = true, refusals++, code = (e); \
        WANT(code == COLOCK_OK); \
    } while (0)

static void make_types(colock_type types[TYPES]) {
    static const uint64_t amounts[] = {1, 2};
    static const uint32_t small[] = {1, 2};
    colock_fault f;
    DO(colock_type_read(&types[0], COLOCK_UNDO, TEXT(CTR2), &f));
    DO(colock_type_tables(&types[1], COLOCK_INTENTIONS, TEXT(CTR2), &f));
    DO(colock_type_account(&types[2], COLOCK_UNDO, 5, amounts, 2, &f));
    DO(colock_type_counter(&types[3], COLOCK_INTENTIONS, 5, amounts, 2, &f));
    DO(colock_type_set(&types[4], COLOCK_UNDO, TEXT("a b"), &f));
    DO(colock_type_counter(&types[5], COLOCK_ESCROW, 50, amounts, 2, &f));
    DO(colock_type_read(&types[6], COLOCK_ESCROW, TEXT(FIVE), &f));
    DO(colock_type_read(&types[7], COLOCK_ESCROW, TEXT(PURSE), &f));
    DO(colock_type_number(&types[8], COLOCK_ESCROW, UINT32_MAX, small, 2, &f));
    DO(colock_type_semiqueue(&types[9], COLOCK_INTENTIONS, TEXT("a b"), 2, &f));
}

static void make_objects(colock_store *store, colock_type types[TYPES]) {
    DO(colock_store_new(store));
    for (int i = 0; i < TYPES; i++) DO(colock_store_add(store, &types[i]));
}

/* Begins anew with more objects, of the same types. Where memory is refused the store stays, and those are taken. */
static void extend(colock_store *store, colock_type types[TYPES]) {
    colock_store added = COLOCK_EMPTY;
    uint64_t kept;
    make_objects(&added, types);
    uint32_t code = colock_store_extend(store, &added);
    WANT(code == COLOCK_OK || code == COLOCK_NO_MEMORY);
    if (code) {
        is_met[__LINE__] = true, refusals++;
        WANT(colock_kept(store, TYPES, &kept) == COLOCK_NO_OBJECT);
        for (int i = 0; i < TYPES; i++) WANT(colock_store_add(&added, &types[i]) == COLOCK_OK);
        WANT(colock_store_extend(store, &added) == COLOCK_OK);
    }
    WANT(colock_kept(store, 2 * TYPES - 1, &kept) == COLOCK_OK && colock_store_close(&added) == COLOCK_OK);
}

/* What is committed is read without memory. */
static void read_committed(colock_store *store) {
    colock_answer answer;
    uint64_t states[2 * TYPES], commits;
    DO(colock_peek(store, 7, TEXT("value"), &answer, &commits));
    DO(colock_committed(store, 9, states, &commits));
    DO(colock_snapshot(store, states, 2 * TYPES, &commits));
    DO(colock_commit_count(store, &commits));
}

/* Transactions that are all open before the first of them ends. */
static void use(colock_store *store, uint64_t transactions) {
    static const char *const calls[TYPES] = {"inc:1", "dec:1", "deposit:2", "inc:2", "insert:a", "inc:1", "give:1", "give:17", "give:1", "enq:b"};
    colock_answer answer;
    uint64_t t;
    for (uint64_t i = 0; i < transactions; i++) {
        DO(colock_begin(store, 1, &t));
        WANT(t == i);
        for (uint32_t x = 0; x < TYPES; x++) {
            DO(colock_would(store, t, x, TEXT(calls[x]), &answer));
            DO(colock_call(store, 1, t, x, TEXT(calls[x]), &answer));
        }
        if (answer.kind == COLOCK_REPLY) DO(colock_rollback(store, 1, t, 1));
    }
    read_committed(store);
    for (t = 0; t < transactions; t++) {
        if (t % 3) DO(colock_abort(store, 1, t));
        if (t % 3 == 0) DO(colock_commit(store, 1, t));
    }
}

/* The events of the one are those of the run in which nothing was refused, so a refusal has changed nothing.
 * They are made again at the other, in as many steps as memory allows. */
static void follow(colock_store *store, colock_store *other) {
    static colock_event room[100000], first[100000];
    static uint64_t first_count = 0;
    uint64_t count, made, done = 0;
    DO(colock_events(store, 0, room, 100000, &count));
    if (!first_count) {
        first_count = count;
        memcpy(first, room, count * sizeof *room);
    }
    WANT(count == first_count && !memcmp(first, room, count * sizeof *room));
    while (done < count) {
        uint32_t code = colock_follow(other, room + done, count - done, &made);
        WANT(code == COLOCK_OK || code == COLOCK_NO_MEMORY);
        if (code) is_met[__LINE__] = true, refusals++;
        done += made;
    }
    for (uint32_t x = 0; x < TYPES; x++) {
        DO(colock_kept(store, x, &count));
        DO(colock_kept(other, x, &made));
        WANT(count == made);
    }
}

static void go(uint64_t transactions) {
    colock_type types[TYPES] = {COLOCK_EMPTY};
    colock_store store = COLOCK_EMPTY, other = COLOCK_EMPTY;
    make_types(types);
    make_objects(&store, types);
    DO(colock_store_open(&store, 100000));
    make_objects(&other, types);
    DO(colock_store_open_with(&other, 100000, 2000, 20));
    use(&store, transactions);
    follow(&store, &other);
    DO(colock_renew(&store));
    use(&store, transactions);
    extend(&store, types);
    use(&store, transactions);
    for (int i = 0; i < TYPES; i++) WANT(colock_type_close(&types[i]) == COLOCK_OK);
    WANT(colock_store_close(&store) == COLOCK_OK && colock_store_close(&other) == COLOCK_OK);
    WANT(live == 0);
}

/* ---- whole transactions */

/* The events of a store, of which none is open. */
static uint64_t events_of(colock_store *store, colock_event room[9]) {
    uint64_t count, open;
    WANT(colock_events(store, 0, room, 9, &count) == COLOCK_OK && count < 9);
    WANT(colock_open_count(store, &open) == COLOCK_OK && open == 0);
    return count;
}

/* Attempts the calls of these names, or of their numbers. */
static uint32_t attempt_as(colock_store *store, bool by_number, uint64_t room[5], colock_outcome *outcome) {
    static const char *const names[] = {"inc:1", "inc:2", "give:17", "enq:b"};
    static const uint32_t objects[] = {0, 3, 7, 9};
    uint64_t calls[4];
    long granted = left;
    left = -1;
    for (int i = 0; i < 4; i++) WANT(colock_call_number(store, objects[i], TEXT(names[i]), &calls[i]) == COLOCK_OK);
    left = granted;
    if (by_number) return colock_attempt_op(store, 1, objects, 4, calls, 4, room, 5, outcome);
    return colock_attempt(store, 1, objects, 4, TEXT("inc:1 inc:2 give:17 enq:b"), room, 5, outcome);
}

/* An attempt of which one allocation is refused: it isn't begun, and nothing has changed; or a call ends it, and what came
 * before is aborted; or it is done. Then the same one is done. Which it was, and whether it was refused at all, is told. */
static int attempt(colock_type types[TYPES], bool by_number, long granted) {
    static const uint32_t objects[] = {0, 3, 7, 9};
    colock_store store = COLOCK_EMPTY;
    colock_outcome outcome = {UNTOUCHED, UNTOUCHED, UNTOUCHED};
    colock_event events[9];
    uint64_t room[5] = {UNTOUCHED, UNTOUCHED, UNTOUCHED, UNTOUCHED, UNTOUCHED};
    int met = 0;
    make_objects(&store, types);
    WANT(colock_store_open(&store, 100) == COLOCK_OK);
    left = granted;
    uint32_t code = attempt_as(&store, by_number, room, &outcome);
    bool was_refused = left < 0;
    left = -1;
    uint64_t count = events_of(&store, events);
    if (code == COLOCK_NO_MEMORY) {
        WANT(count == 0 && outcome.kind == UNTOUCHED && room[0] == UNTOUCHED);
        met = 1;
    } else if (outcome.kind) {
        WANT(code == COLOCK_OK && outcome.kind == COLOCK_OUTCOME_REFUSED && outcome.number == COLOCK_NO_MEMORY && (by_number || room[0] == UNTOUCHED));
        WANT(outcome.at < 4 && count == outcome.at + 2 && events[0].kind == COLOCK_EVENT_BEGIN && events[count - 1].kind == COLOCK_EVENT_ABORT);
        for (uint64_t i = 0; i < outcome.at; i++) WANT(events[i + 1].kind == COLOCK_EVENT_OP && events[i + 1].object == objects[i]);
        met = 2;
    } else WANT(code == COLOCK_OK && count == 6 && events[5].kind == COLOCK_EVENT_COMMIT && room[3] != UNTOUCHED && room[4] == UNTOUCHED);
    WANT(was_refused == (met > 0) || !met);
    WANT(attempt_as(&store, by_number, room, &outcome) == COLOCK_OK && outcome.kind == COLOCK_OUTCOME_DONE);
    WANT(colock_store_close(&store) == COLOCK_OK);
    return was_refused ? met : 3;
}

/* Each allocation of an attempt refused in turn. */
static long attempts(bool by_number) {
    colock_type types[TYPES] = {COLOCK_EMPTY};
    long n = 0, met[4] = {0};
    make_types(types);
    do {
        met[attempt(types, by_number, n)]++;
    } while (!met[3] && ++n);
    WANT(met[1] > 0 && met[2] > 0); /* before its begin, and at a call */
    for (int i = 0; i < TYPES; i++) WANT(colock_type_close(&types[i]) == COLOCK_OK);
    WANT(live == 0);
    return n;
}

/* One by numbers takes no memory of its own: where the store has room it needs none. One by names always does. */
static void none_of_its_own(void) {
    static const uint32_t objects[] = {7, 8};
    uint64_t calls[2], room[2], done = 0;
    colock_type types[TYPES] = {COLOCK_EMPTY};
    colock_outcome outcome;
    colock_store store = COLOCK_EMPTY;
    make_types(types), make_objects(&store, types);
    WANT(colock_store_open(&store, 1000) == COLOCK_OK && colock_call_number(&store, 7, TEXT("give:17"), &calls[0]) == COLOCK_OK);
    WANT(colock_call_number(&store, 8, TEXT("give:1"), &calls[1]) == COLOCK_OK);
    for (int i = 0; i < 20; i++) {
        left = 0;
        WANT(colock_attempt(&store, 1, objects, 2, TEXT("give:17 give:1"), room, 2, &outcome) == COLOCK_NO_MEMORY);
        left = 0;
        uint32_t code = colock_attempt_op(&store, 1, objects, 2, calls, 2, room, 2, &outcome);
        bool was_refused = left < 0;
        left = -1;
        if (was_refused) code = colock_attempt_op(&store, 1, objects, 2, calls, 2, room, 2, &outcome);
        WANT(code == COLOCK_OK && outcome.kind == COLOCK_OUTCOME_DONE);
        done += !was_refused;
    }
    WANT(done >= 10 && colock_store_close(&store) == COLOCK_OK);
    for (int i = 0; i < TYPES; i++) WANT(colock_type_close(&types[i]) == COLOCK_OK);
}

int main(int argc, char **argv) {
    uint64_t transactions = argc > 1 ? strtoull(argv[1], NULL, 10) : 20;
    long n = 0, met = 0;
    go(transactions); /* nothing is refused */
    for (;; n++) {
        left = n, refusals = 0;
        go(transactions);
        if (left >= 0) break; /* fewer allocations than that */
        WANT(refusals <= 1);
    }
    for (int line = 0; line < 400; line++) met += is_met[line];
    WANT(met == 20); /* each call that may take memory, and no other */
    left = -1;
    none_of_its_own();
    printf("%ld allocations, each refused in turn, at %ld calls: one code, the same call is done then, no leak; %ld of an attempt, %ld of one by numbers\n", n, met, attempts(false), attempts(true));
    return 0;
}
