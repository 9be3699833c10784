/* The limits: open transactions and objects, 1,024 and 256 of them or a limit of the store's own; a full history, the
 * largest type, the bounds of numbers; a store that forgets goes on. */
#include "want.h"

enum { MOST = 65536 };

/* As many as may be open, of which one in the middle ends and another one begins. */
static void only_so_many_are_open(colock_store *store, uint64_t most) {
    uint64_t t = UNTOUCHED, count = UNTOUCHED;
    for (uint64_t i = 0; i < most; i++) WANT(begin(store, (uint8_t)i) == i);
    WANT(colock_begin(store, 0, &t) == COLOCK_TOO_MANY_OPEN && t == UNTOUCHED);
    WANT(colock_open_count(store, &count) == COLOCK_OK && count == most);
    WANT(colock_abort(store, 0, most / 2) == COLOCK_OK && begin(store, 0) == most);
    WANT(colock_begin(store, 0, &t) == COLOCK_TOO_MANY_OPEN);
    WANT(colock_abort_all(store) == COLOCK_OK && begin(store, 0) == most + 1);
    WANT(colock_store_close(store) == COLOCK_OK);
}

static void open_transactions_are_limited(void) {
    static const uint32_t limits[] = {1, 2, 1023, 1024, 1025, MOST - 1, MOST};
    colock_store store = COLOCK_EMPTY;
    open_counters(&store, 1, 1000000);
    only_so_many_are_open(&store, 1024);
    for (int i = 0; i < 7; i++) {
        add_counters(&store, 1);
        WANT(colock_store_open_with(&store, 1000000, limits[i], 1) == COLOCK_OK);
        only_so_many_are_open(&store, limits[i]);
    }
}

/* Each object is one by itself: one in three is counted up, and the last is there. */
static void each_object_is_kept(colock_store *store, uint32_t objects) {
    static uint64_t states[MOST + 1];
    colock_answer answer = {UNTOUCHED, UNTOUCHED};
    colock_event event;
    uint64_t kept, count, commits;
    WANT(begin(store, 0) == 0);
    for (uint32_t x = objects - 1; x < objects; x -= 3) WANT(colock_call_op(store, 0, 0, x, 0, &answer) == COLOCK_OK && answer.kind == COLOCK_REPLY);
    answer.kind = UNTOUCHED;
    WANT(colock_call_op(store, 0, 0, objects, 0, &answer) == COLOCK_NO_OBJECT && colock_call(store, 0, 0, UINT32_MAX, TEXT("inc:1"), &answer) == COLOCK_NO_OBJECT);
    WANT(colock_would_op(store, 0, objects, 0, &answer) == COLOCK_NO_OBJECT && answer.kind == UNTOUCHED);
    WANT(colock_events(store, 1, &event, 1, &count) == COLOCK_OK && event.object == objects - 1);
    for (uint32_t x = 0; x <= MOST; x++) states[x] = UNTOUCHED;
    WANT(colock_snapshot(store, states, objects - 1, &commits) == COLOCK_NO_ROOM && states[0] == UNTOUCHED);
    WANT(colock_snapshot(store, states, objects, &commits) == COLOCK_OK && commits == 0 && states[objects] == UNTOUCHED);
    for (uint32_t x = 0; x < objects; x++) WANT(states[x] == 0); /* nothing is committed */
    WANT(colock_commit(store, 0, 0) == COLOCK_OK && colock_kept(store, objects, &kept) == COLOCK_NO_OBJECT);
    WANT(colock_snapshot(store, states, objects, &commits) == COLOCK_OK && commits == 1 && states[objects] == UNTOUCHED);
    for (uint32_t x = 0; x < objects; x++) WANT(states[x] == (x % 3 == (objects - 1) % 3));
    WANT(colock_committed(store, objects, &kept, &commits) == COLOCK_NO_OBJECT && colock_committed(store, objects - 1, &kept, &commits) == COLOCK_OK && kept == 1);
    WANT(colock_renew(store) == COLOCK_OK && begin(store, 0) == 0);
    for (uint32_t x = 0; x < objects; x++) WANT(colock_kept(store, x, &kept) == COLOCK_OK && kept == (x % 3 == (objects - 1) % 3));
    WANT(colock_store_close(store) == COLOCK_OK);
}

static void objects_are_limited(void) {
    colock_store store = COLOCK_EMPTY;
    add_counters(&store, 257);
    WANT(colock_store_open(&store, 1000000) == COLOCK_TOO_MANY_OBJECTS && colock_store_open_with(&store, 1000000, 1, 256) == COLOCK_TOO_MANY_OBJECTS);
    WANT(colock_store_open_with(&store, 1000000, 1, 257) == COLOCK_OK); /* they have stayed */
    each_object_is_kept(&store, 257);
    open_counters(&store, 256, 1000000);
    each_object_is_kept(&store, 256);
    add_counters(&store, MOST);
    WANT(colock_store_open(&store, 1000000) == COLOCK_TOO_MANY_OBJECTS && colock_store_open_with(&store, 1000000, 1, MOST - 1) == COLOCK_TOO_MANY_OBJECTS);
    WANT(colock_store_open_with(&store, 1000000, 1, MOST + 1) == COLOCK_BAD_MAX && colock_store_open_with(&store, 1, 1, MOST) == COLOCK_BAD_MAX);
    WANT(colock_store_open_with(&store, 1000000, 1, MOST) == COLOCK_OK);
    each_object_is_kept(&store, MOST);
}

/* Gives a store this many more counters, which are taken however it ends. */
static uint32_t extend(colock_store *store, int more) {
    colock_store added = COLOCK_EMPTY;
    add_counters(&added, more);
    uint32_t code = colock_store_extend(store, &added);
    WANT(colock_store_open(&added, 9) == COLOCK_NO_OBJECTS && colock_store_close(&added) == COLOCK_OK);
    return code;
}

/* A store begins with some objects, and gets as many as its limit leaves. */
static void objects_are_added_up_to_the_limit(int objects, uint32_t limit) {
    int left = (int)limit - objects;
    colock_store store = COLOCK_EMPTY;
    colock_answer answer;
    uint64_t kept;
    add_counters(&store, objects);
    WANT(colock_store_open_with(&store, 1000000, 1, limit) == COLOCK_OK && extend(&store, left + 1) == COLOCK_TOO_MANY_OBJECTS);
    WANT(begin(&store, 0) == 0 && colock_call_op(&store, 0, 0, (uint32_t)objects - 1, 0, &answer) == COLOCK_OK);
    WANT(colock_call_op(&store, 0, 0, (uint32_t)objects, 0, &answer) == COLOCK_NO_OBJECT && extend(&store, left + 1) == COLOCK_STILL_OPEN);
    WANT(colock_commit(&store, 0, 0) == COLOCK_OK && extend(&store, MOST) == COLOCK_TOO_MANY_OBJECTS && begin(&store, 0) == 1);
    WANT(colock_abort(&store, 0, 1) == COLOCK_OK && extend(&store, left) == COLOCK_OK && begin(&store, 0) == 0);
    for (uint32_t x = 0; x < limit; x++) WANT(colock_kept(&store, x, &kept) == COLOCK_OK && kept == (x == (uint32_t)objects - 1));
    WANT(colock_call_op(&store, 0, 0, limit - 1, 0, &answer) == COLOCK_OK && answer.kind == COLOCK_REPLY);
    WANT(colock_call_op(&store, 0, 0, limit, 0, &answer) == COLOCK_NO_OBJECT && colock_commit(&store, 0, 0) == COLOCK_OK);
    WANT(extend(&store, 1) == COLOCK_TOO_MANY_OBJECTS && extend(&store, 0) == COLOCK_OK);
    WANT(colock_kept(&store, limit - 1, &kept) == COLOCK_OK && kept > 0 && colock_store_close(&store) == COLOCK_OK);
}

/* One more than any store may have. They stay, and more may be added. */
static void more_objects_than_any_store_has(void) {
    colock_store store = COLOCK_EMPTY;
    colock_type type = COLOCK_EMPTY;
    colock_fault fault;
    add_counters(&store, MOST + 1);
    WANT(colock_type_read(&type, COLOCK_UNDO, TEXT(CTR2), &fault) == COLOCK_OK);
    for (int i = 0; i < 2; i++) {
        WANT(colock_store_open_with(&store, 1000000, 1, MOST) == COLOCK_TOO_MANY_OBJECTS);
        WANT(colock_store_open_with(&store, 1000000, 1, UINT32_MAX) == COLOCK_BAD_MAX);
        WANT(colock_store_add(&store, &type) == COLOCK_OK);
    }
    WANT(colock_store_close(&store) == COLOCK_OK && colock_type_close(&type) == COLOCK_OK);
}

/* Objects of a number that many take from at once. */
static void add_pools(colock_store *store, uint32_t objects) {
    static const char pool[] = "number pool\nmax 100000\ninitial 50000\ntake 1\ngive 1\nend\n";
    colock_type type = COLOCK_EMPTY;
    colock_fault fault;
    WANT(colock_type_read(&type, COLOCK_ESCROW, TEXT(pool), &fault) == COLOCK_OK && colock_store_new(store) == COLOCK_OK);
    for (uint32_t x = 0; x < objects; x++) WANT(colock_store_add(store, &type) == COLOCK_OK);
    WANT(colock_type_close(&type) == COLOCK_OK);
}

static bool keeps(colock_store *store, uint32_t x, uint64_t state) {
    uint64_t kept = UNTOUCHED;
    return colock_kept(store, x, &kept) == COLOCK_OK && kept == state;
}

/* Of so many objects, with these limits of events, of open transactions and of objects, a store is made or not. Those of
 * which none is made stay. */
static void stores_are_made_within_their_limits(void) {
    static const struct { uint32_t count; uint64_t events; uint32_t open, objects, code; } offers[] = {
        {1, 2, 1, 1, COLOCK_OK},
        {1, UINT32_MAX, MOST, MOST, COLOCK_OK},
        {MOST, 20, 1, MOST, COLOCK_OK},
        {MOST + 1, 20, 1, MOST, COLOCK_TOO_MANY_OBJECTS},
        {MOST + 1, 1, 0, MOST, COLOCK_TOO_MANY_OBJECTS},
        {2, 20, 1, 1, COLOCK_TOO_MANY_OBJECTS},
        {1, 20, 1, 0, COLOCK_TOO_MANY_OBJECTS},
        {1, 1, 1, 1, COLOCK_BAD_MAX},
        {1, 0, 1, 1, COLOCK_BAD_MAX},
        {1, 20, 0, 1, COLOCK_BAD_MAX},
        {1, 20, MOST + 1, 1, COLOCK_BAD_MAX},
        {1, 20, 1, MOST + 1, COLOCK_BAD_MAX},
        {1, 20, UINT32_MAX, 1, COLOCK_BAD_MAX},
        {0, 20, 1, 1, COLOCK_NO_OBJECTS},
        {0, 0, 0, 0, COLOCK_NO_OBJECTS},
    };
    for (size_t i = 0; i < sizeof offers / sizeof *offers; i++) {
        uint32_t count = offers[i].count, code = count == 0 ? COLOCK_NO_OBJECTS : count > MOST ? COLOCK_TOO_MANY_OBJECTS : COLOCK_OK;
        colock_store store = COLOCK_EMPTY;
        uint64_t kept = UNTOUCHED;
        add_pools(&store, count);
        WANT(colock_store_open_with(&store, offers[i].events, offers[i].open, offers[i].objects) == offers[i].code);
        if (offers[i].code) WANT(colock_store_open_with(&store, 20, 1, MOST) == code);
        if (code == COLOCK_OK) WANT(keeps(&store, 0, 50000) && keeps(&store, count - 1, 50000) && colock_kept(&store, count, &kept) == COLOCK_NO_OBJECT);
        WANT(colock_store_close(&store) == COLOCK_OK);
    }
}

/* Whether this transaction takes 1 from an object. */
static bool takes(colock_store *store, uint64_t t, uint32_t x) {
    colock_answer answer = {UNTOUCHED, UNTOUCHED};
    return colock_call(store, 0, t, x, TEXT("take:1"), &answer) == COLOCK_OK && answer.kind == COLOCK_REPLY && answer.number == 0;
}

/* As many may be open as the limit says, each with an operation at the last object, and no more. */
static void the_limit_of_open_transactions_is_met(uint32_t open, uint32_t objects) {
    colock_store store = COLOCK_EMPTY;
    uint64_t t = UNTOUCHED, count = UNTOUCHED;
    add_pools(&store, objects);
    WANT(colock_store_open_with(&store, 1000000, open, objects) == COLOCK_OK);
    for (uint64_t i = 0; i < open; i++) WANT(begin(&store, 0) == i && takes(&store, i, objects - 1));
    WANT(colock_open_count(&store, &count) == COLOCK_OK && count == open);
    WANT(colock_begin(&store, 0, &t) == COLOCK_TOO_MANY_OPEN && t == UNTOUCHED);
    WANT(colock_commit(&store, 0, 0) == COLOCK_OK && begin(&store, 0) == open);
    WANT(colock_abort_all(&store) == COLOCK_OK && colock_open_count(&store, &count) == COLOCK_OK && count == 0);
    WANT(keeps(&store, objects - 1, 49999) && colock_store_close(&store) == COLOCK_OK);
}

/* A transaction takes from each of 1,000 objects twice, and takes 1,500 of that back. The limits stay in the next epoch. */
static void a_transaction_works_at_each_of_many_objects(void) {
    colock_store store = COLOCK_EMPTY;
    uint64_t t = UNTOUCHED, count = UNTOUCHED, forgotten = UNTOUCHED;
    add_pools(&store, 1000);
    WANT(colock_store_open_with(&store, 1000000, 1, 1000) == COLOCK_OK && begin(&store, 0) == 0);
    for (int i = 0; i < 2; i++)
        for (uint32_t x = 0; x < 1000; x++) WANT(takes(&store, 0, x));
    WANT(colock_rollback(&store, 0, 0, 1500) == COLOCK_OK && colock_commit(&store, 0, 0) == COLOCK_OK);
    WANT(keeps(&store, 0, 49999) && keeps(&store, 499, 49999) && keeps(&store, 500, 50000) && keeps(&store, 999, 50000));
    WANT(colock_event_count(&store, &count, &forgotten) == COLOCK_OK && count == 2003);
    WANT(colock_renew(&store) == COLOCK_OK && keeps(&store, 499, 49999) && extend(&store, 1) == COLOCK_TOO_MANY_OBJECTS);
    WANT(begin(&store, 0) == 0 && colock_begin(&store, 0, &t) == COLOCK_TOO_MANY_OPEN && colock_store_close(&store) == COLOCK_OK);
}

/* Many at one object, each with an operation, which end from both sides. */
static void many_work_at_one_object(const char *text, uint32_t kind, uint64_t wanted) {
    enum { MANY = 16384 };
    colock_store store = COLOCK_EMPTY;
    colock_type type = COLOCK_EMPTY;
    colock_fault fault;
    colock_answer answer;
    uint64_t kept, count, forgotten;
    WANT(colock_type_read(&type, kind, TEXT(text), &fault) == COLOCK_OK);
    WANT(colock_store_new(&store) == COLOCK_OK && colock_store_add(&store, &type) == COLOCK_OK && colock_type_close(&type) == COLOCK_OK);
    WANT(colock_store_open_with(&store, 1000000, MANY, 1) == COLOCK_OK);
    for (uint64_t t = 0; t < MANY; t++) {
        WANT(begin(&store, 0) == t && colock_call(&store, 0, t, 0, TEXT("give:1"), &answer) == COLOCK_OK);
        WANT(answer.kind == COLOCK_REPLY && answer.number == 0);
    }
    for (uint64_t t = 0; t < MANY / 2; t++) WANT(colock_commit(&store, 0, t) == COLOCK_OK && colock_abort(&store, 0, MANY - 1 - t) == COLOCK_OK);
    WANT(colock_kept(&store, 0, &kept) == COLOCK_OK && kept == wanted);
    WANT(colock_open_count(&store, &count) == COLOCK_OK && count == 0);
    WANT(colock_event_count(&store, &count, &forgotten) == COLOCK_OK && count == 3 * MANY);
    WANT(colock_store_close(&store) == COLOCK_OK);
}

/* A transaction over many objects takes its operations back, the last ones first. */
static void operations_at_many_objects_are_taken_back(uint32_t kind) {
    enum { OBJECTS = 8192 };
    static const uint64_t one[] = {1};
    colock_store store = COLOCK_EMPTY;
    colock_type type = COLOCK_EMPTY;
    colock_fault fault;
    colock_answer answer;
    uint64_t kept;
    WANT(colock_type_counter(&type, kind, 2, one, 1, &fault) == COLOCK_OK && colock_store_new(&store) == COLOCK_OK);
    for (int x = 0; x < OBJECTS; x++) WANT(colock_store_add(&store, &type) == COLOCK_OK);
    WANT(colock_store_open_with(&store, 1000000, 2, OBJECTS) == COLOCK_OK && colock_type_close(&type) == COLOCK_OK);
    WANT(begin(&store, 0) == 0 && begin(&store, 0) == 1);
    for (int i = 0; i < 2; i++)
        for (uint32_t x = 0; x < OBJECTS; x++) WANT(colock_call(&store, 0, 0, x, TEXT("inc:1"), &answer) == COLOCK_OK && answer.kind == COLOCK_REPLY);
    WANT(colock_rollback(&store, 0, 0, 2 * OBJECTS + 1) == COLOCK_BAD_ROLLBACK);
    WANT(colock_rollback(&store, 0, 0, OBJECTS + OBJECTS / 2) == COLOCK_OK); /* it has one at each of the first half */
    WANT(colock_rollback(&store, 0, 0, OBJECTS / 2 + 1) == COLOCK_BAD_ROLLBACK);
    WANT(colock_call(&store, 0, 1, OBJECTS - 1, TEXT("inc:1"), &answer) == COLOCK_OK && answer.kind == COLOCK_REPLY);
    WANT(colock_commit(&store, 0, 0) == COLOCK_OK && colock_abort(&store, 0, 1) == COLOCK_OK);
    for (uint32_t x = 0; x < OBJECTS; x++) WANT(colock_kept(&store, x, &kept) == COLOCK_OK && kept == (x < OBJECTS / 2));
    WANT(colock_store_close(&store) == COLOCK_OK);
}

/* There is always room for the end of each open transaction. */
static void a_history_is_full(void) {
    colock_store store = COLOCK_EMPTY;
    colock_answer answer = {UNTOUCHED, UNTOUCHED};
    uint64_t t = UNTOUCHED, count, forgotten;
    open_counters(&store, 1, 6);
    WANT(begin(&store, 0) == 0 && begin(&store, 0) == 1);
    WANT(colock_call_op(&store, 0, 0, 0, 0, &answer) == COLOCK_OK);
    WANT(colock_begin(&store, 0, &t) == COLOCK_HISTORY_FULL && t == UNTOUCHED);
    WANT(colock_call_op(&store, 0, 1, 0, 0, &answer) == COLOCK_OK);
    answer.kind = UNTOUCHED;
    WANT(colock_call(&store, 0, 1, 0, TEXT("dec:1"), &answer) == COLOCK_HISTORY_FULL);
    WANT(colock_call_op(&store, 0, 1, 0, 0, &answer) == COLOCK_HISTORY_FULL);
    WANT(colock_would(&store, 1, 0, TEXT("inc:1"), &answer) == COLOCK_HISTORY_FULL);
    WANT(colock_would_op(&store, 1, 0, 0, &answer) == COLOCK_HISTORY_FULL);
    WANT(colock_rollback(&store, 0, 1, 1) == COLOCK_HISTORY_FULL && answer.kind == UNTOUCHED);
    WANT(colock_commit(&store, 0, 0) == COLOCK_OK && colock_abort(&store, 0, 1) == COLOCK_OK);
    WANT(colock_forget(&store, 6) == COLOCK_OK && colock_begin(&store, 0, &t) == COLOCK_HISTORY_FULL);
    WANT(colock_event_count(&store, &count, &forgotten) == COLOCK_OK && count == 6 && forgotten == 6);
    WANT(colock_renew(&store) == COLOCK_OK && begin(&store, 0) == 0);
    WANT(colock_store_close(&store) == COLOCK_OK);
}

/* A hundred thousand transactions, of which a thousand are in memory. */
static void much_is_forgotten(void) {
    colock_store store = COLOCK_EMPTY;
    colock_answer answer;
    colock_event event;
    uint64_t count = UNTOUCHED, forgotten = UNTOUCHED;
    open_counters(&store, 1, UINT32_MAX);
    for (uint64_t i = 0; i < 100000; i++) {
        WANT(begin(&store, 7) == i && colock_call_op(&store, 7, i, 0, i % 2, &answer) == COLOCK_OK);
        WANT(answer.kind == COLOCK_REPLY && colock_commit(&store, 7, i) == COLOCK_OK);
        if (i % 1000 == 999) WANT(colock_forget(&store, 3000) == COLOCK_OK);
    }
    WANT(colock_event_count(&store, &count, &forgotten) == COLOCK_OK && count == 300000 && forgotten == 300000);
    WANT(begin(&store, 9) == 100000);
    WANT(colock_events(&store, 300000, &event, 1, &count) == COLOCK_OK && count == 1 && event.worker == 9);
    WANT(colock_store_close(&store) == COLOCK_OK);
}

/* A type of 1,024 states and 64 operations, each legal everywhere, of which each two conflict. */
static void the_largest_type_is_read(void) {
    size_t room = 4000000, at = 0;
    char *text = malloc(room), name[COLOCK_LONGEST_NAME];
    colock_type type = COLOCK_EMPTY;
    colock_store store = COLOCK_EMPTY;
    colock_fault fault;
    colock_answer answer;
    colock_shape shape;
    uint64_t to, count, state;
    WANT(text != NULL);
#define PUT(...) at += (size_t)snprintf(text + at, room - at, __VA_ARGS__)
    PUT("type a-name-of-thirty-two-bytes-000000\nstates 1024\ninitial 1023\n");
    for (int k = 0; k < 64; k++) PUT("op add:%d a-reply-of-thirty-two-bytes-%04d\n", k, k);
    for (int s = 0; s < 1024; s++)
        for (int k = 0; k < 64; k++) PUT("step %d %d %d\n", s, k, (s + k) % 1024);
    for (int p = 0; p < 64; p++)
        for (int q = 0; q < 64; q++) PUT("conflict undo %d %d\n", p, q);
    PUT("end\n");
    WANT(at < room && colock_type_read(&type, COLOCK_UNDO, text, at, &fault) == COLOCK_BAD_TEXT);
    WANT(fault.line == 1 && fault.kind == COLOCK_UNKNOWN_WORD); /* it is 33 bytes long */
    text[strlen("type ") + 32] = ' ';
    WANT(colock_type_read(&type, COLOCK_UNDO, text, at, &fault) == COLOCK_OK);
    WANT(colock_type_shape(&type, &shape) == COLOCK_OK && shape.states == 1024 && shape.ops == 64 && shape.initial == 1023);
    WANT(colock_type_name(&type, name, 31, &count) == COLOCK_NO_ROOM);
    WANT(colock_type_name(&type, name, 32, &count) == COLOCK_OK && count == 32);
    WANT(colock_type_reply(&type, 63, name, 32, &count) == COLOCK_OK && count == 32 && !memcmp(name + 28, "0063", 4));
    WANT(colock_type_step(&type, 1023, 63, &to) == COLOCK_OK && to == 62);
    WANT(colock_store_new(&store) == COLOCK_OK && colock_store_add(&store, &type) == COLOCK_OK);
    WANT(colock_store_open(&store, 9) == COLOCK_OK && begin(&store, 0) == 0);
    WANT(colock_call(&store, 0, 0, 0, TEXT("add:63"), &answer) == COLOCK_OK && answer.number == 63);
    WANT(colock_kept(&store, 0, &state) == COLOCK_OK && state == 62);
    WANT(colock_store_close(&store) == COLOCK_OK && colock_type_close(&type) == COLOCK_OK);
    free(text);
}

/* A number of 0 to 1,023 at 0: as many as that count it up side by side, and one more waits for the first. */
static void only_so_many_count_up(void) {
    static const uint64_t amounts[] = {1};
    colock_store store = COLOCK_EMPTY;
    colock_type type = COLOCK_EMPTY;
    colock_fault fault;
    colock_answer answer;
    uint64_t kept;
    WANT(colock_type_counter(&type, COLOCK_ESCROW, 1023, amounts, 1, &fault) == COLOCK_OK);
    WANT(colock_store_new(&store) == COLOCK_OK && colock_store_add(&store, &type) == COLOCK_OK);
    WANT(colock_store_open(&store, 1000000) == COLOCK_OK && colock_type_close(&type) == COLOCK_OK);
    for (uint64_t t = 0; t < 1024; t++) {
        WANT(begin(&store, 0) == t && colock_call(&store, 0, t, 0, TEXT("inc:1"), &answer) == COLOCK_OK);
        WANT(t < 1023 ? answer.kind == COLOCK_REPLY : answer.kind == COLOCK_BUSY && answer.number == 0);
    }
    WANT(colock_abort(&store, 0, 500) == COLOCK_OK);
    WANT(colock_call(&store, 0, 1023, 0, TEXT("inc:1"), &answer) == COLOCK_OK && answer.kind == COLOCK_REPLY);
    for (uint64_t t = 0; t < 1024; t++) WANT(t == 500 || colock_commit(&store, 0, t) == COLOCK_OK);
    WANT(colock_kept(&store, 0, &kept) == COLOCK_OK && kept == 1023);
    WANT(colock_store_close(&store) == COLOCK_OK);
}

/* A number of 32 bits, which has no table, from its greatest value to 0 and up again by one. */
static void a_number_has_32_bits(void) {
    static const char text[] = "number large\nmax 4294967295\ninitial 4294967295\ntake 4294967295\ngive 1\nend\n";
    colock_store store = COLOCK_EMPTY;
    colock_type type = COLOCK_EMPTY;
    colock_fault fault;
    colock_answer answer;
    colock_shape shape;
    uint64_t to = UNTOUCHED, kept, t;
    WANT(colock_type_read(&type, COLOCK_ESCROW, TEXT(text), &fault) == COLOCK_OK);
    WANT(colock_type_shape(&type, &shape) == COLOCK_OK && shape.states == (uint64_t)1 << 32 && shape.initial == UINT32_MAX);
    WANT(shape.ops == 4 && shape.kind == COLOCK_ESCROW);
    WANT(colock_type_step(&type, UINT32_MAX, 2, &to) == COLOCK_NOT_LEGAL);
    WANT(colock_type_step(&type, (uint64_t)1 << 32, 0, &to) == COLOCK_NO_STATE && to == UNTOUCHED);
    WANT(colock_type_step(&type, UINT32_MAX, 0, &to) == COLOCK_OK && to == 0);
    WANT(colock_type_step(&type, UINT32_MAX - 1, 2, &to) == COLOCK_OK && to == UINT32_MAX);
    WANT(colock_store_new(&store) == COLOCK_OK && colock_store_add(&store, &type) == COLOCK_OK);
    WANT(colock_store_open(&store, 100) == COLOCK_OK && colock_type_close(&type) == COLOCK_OK);
    WANT(colock_kept(&store, 0, &kept) == COLOCK_OK && kept == UINT32_MAX);
    t = begin(&store, 0);
    WANT(colock_call(&store, 0, t, 0, TEXT("give:1"), &answer) == COLOCK_OK && answer.number == 3); /* full */
    WANT(colock_call(&store, 0, t, 0, TEXT("take:4294967295"), &answer) == COLOCK_OK && answer.number == 0);
    WANT(colock_call(&store, 0, t, 0, TEXT("give:1"), &answer) == COLOCK_OK && answer.number == 2);
    WANT(colock_commit(&store, 0, t) == COLOCK_OK && colock_kept(&store, 0, &kept) == COLOCK_OK && kept == 1);
    WANT(colock_store_close(&store) == COLOCK_OK);
}

/* Sixteen amounts, the greatest of which is as large as may be. */
static void a_number_is_made_of_amounts(void) {
    colock_type type = COLOCK_EMPTY;
    colock_fault fault;
    colock_shape shape;
    uint32_t amounts[16] = {[15] = UINT32_MAX};
    uint64_t to = UNTOUCHED, count;
    char name[COLOCK_LONGEST_NAME];
    for (uint32_t i = 0; i < 15; i++) amounts[i] = i + 1;
    WANT(colock_type_number(&type, COLOCK_ESCROW, UINT32_MAX, amounts, 16, &fault) == COLOCK_OK);
    WANT(colock_type_shape(&type, &shape) == COLOCK_OK && shape.states == (uint64_t)1 << 32 && shape.initial == 0);
    WANT(shape.ops == 64 && shape.kind == COLOCK_ESCROW);
    WANT(colock_type_call(&type, 62, name, sizeof name, &count) == COLOCK_OK && count == 15 && !memcmp(name, "give:4294967295", 15));
    WANT(colock_type_step(&type, 0, 62, &to) == COLOCK_OK && to == UINT32_MAX);
    WANT(colock_type_step(&type, UINT32_MAX, 30, &to) == COLOCK_OK && to == 0);
    WANT(colock_type_step(&type, 5, 2, &to) == COLOCK_OK && to == 3);
    WANT(colock_type_close(&type) == COLOCK_OK);
}

int main(void) {
    static const char anything[] = "type free\nstates 1\ninitial 0\nop give:1 ok\nstep 0 0 0\nend\n";
    static const char number[] = "number large\nmax 4294967295\ninitial 0\ngive 1\nend\n";
    the_largest_type_is_read();
    only_so_many_count_up();
    a_number_has_32_bits();
    a_number_is_made_of_amounts();
    open_transactions_are_limited();
    objects_are_limited();
    objects_are_added_up_to_the_limit(1, 1);
    objects_are_added_up_to_the_limit(2, 5);
    objects_are_added_up_to_the_limit(255, 256);
    objects_are_added_up_to_the_limit(1, MOST);
    objects_are_added_up_to_the_limit(MOST - 1, MOST);
    more_objects_than_any_store_has();
    stores_are_made_within_their_limits();
    the_limit_of_open_transactions_is_met(1, 1);
    the_limit_of_open_transactions_is_met(1024, 256);
    the_limit_of_open_transactions_is_met(16384, MOST);
    a_transaction_works_at_each_of_many_objects();
    many_work_at_one_object(anything, COLOCK_UNDO, 0);
    many_work_at_one_object(anything, COLOCK_INTENTIONS, 0);
    many_work_at_one_object(number, COLOCK_ESCROW, 8192);
    operations_at_many_objects_are_taken_back(COLOCK_UNDO);
    operations_at_many_objects_are_taken_back(COLOCK_INTENTIONS);
    operations_at_many_objects_are_taken_back(COLOCK_ESCROW);
    a_history_is_full();
    much_is_forgotten();
    puts("limits: as they have to be");
    return 0;
}
