/* Reads of what is committed, beside transactions that are open: in each kind of recovery. */
#include "want.h"

/* The operations of an account of 0 to 5 with the amounts 1 and 2: at these places, and balance by what there is. */
enum { DEPOSIT_1 = 0, WITHDRAW_1 = 2, DEPOSIT_2 = 4, WITHDRAW_2 = 6, BALANCE = 8, KINDS = 3 };

static void add_account(colock_store *store, uint32_t kind) {
    static const uint64_t amounts[] = {1, 2};
    colock_type type = COLOCK_EMPTY;
    colock_fault fault;
    WANT(colock_type_account(&type, kind, 5, amounts, 2, &fault) == COLOCK_OK);
    WANT(colock_store_add(store, &type) == COLOCK_OK && colock_type_close(&type) == COLOCK_OK);
}

/* A store of an account of each kind, at the place of its number. */
static void open_accounts(colock_store *store, uint64_t max_events) {
    WANT(colock_store_new(store) == COLOCK_OK);
    for (uint32_t kind = 0; kind < KINDS; kind++) add_account(store, kind);
    WANT(colock_store_open(store, max_events) == COLOCK_OK);
}

/* Whether a transaction's call is answered so. */
static bool answers(colock_store *store, uint64_t t, uint32_t x, const char *name, uint64_t kind, uint64_t number) {
    colock_answer a = {UNTOUCHED, UNTOUCHED};
    return colock_call(store, 0, t, x, TEXT(name), &a) == COLOCK_OK && a.kind == kind && a.number == number;
}

/* Whether a read is answered so, after so many commits. */
static bool peeks(colock_store *store, uint32_t x, const char *name, uint64_t kind, uint64_t number, uint64_t commits) {
    colock_answer a = {UNTOUCHED, UNTOUCHED};
    uint64_t seen = UNTOUCHED;
    return colock_peek(store, x, TEXT(name), &a, &seen) == COLOCK_OK && a.kind == kind && a.number == number && seen == commits;
}

/* Whether it isn't answered, by this code, and nothing is written. */
static bool peeks_not(colock_store *store, uint32_t x, const char *name, uint32_t code) {
    colock_answer a = {UNTOUCHED, UNTOUCHED};
    uint64_t seen = UNTOUCHED;
    return colock_peek(store, x, TEXT(name), &a, &seen) == code && a.kind == UNTOUCHED && a.number == UNTOUCHED && seen == UNTOUCHED;
}

static uint64_t kept(colock_store *store, uint32_t x) {
    uint64_t state = UNTOUCHED;
    WANT(colock_kept(store, x, &state) == COLOCK_OK);
    return state;
}

/* Whether this is committed of an object, after so many commits. */
static bool is_committed(colock_store *store, uint32_t x, uint64_t state, uint64_t commits) {
    uint64_t told = UNTOUCHED, seen = UNTOUCHED;
    return colock_committed(store, x, &told, &seen) == COLOCK_OK && told == state && seen == commits;
}

/* Whether the accounts have these balances, by each of the reads, after so many commits. */
static bool are_committed(colock_store *store, const uint64_t states[KINDS], uint64_t commits) {
    uint64_t room[KINDS + 1] = {UNTOUCHED, UNTOUCHED, UNTOUCHED, UNTOUCHED}, seen = UNTOUCHED, count = UNTOUCHED;
    WANT(colock_snapshot(store, room, KINDS + 1, &seen) == COLOCK_OK && room[KINDS] == UNTOUCHED);
    WANT(colock_commit_count(store, &count) == COLOCK_OK);
    for (uint32_t x = 0; x < KINDS; x++)
        if (room[x] != states[x] || !is_committed(store, x, states[x], commits) || !peeks(store, x, "balance", COLOCK_REPLY, BALANCE + states[x], commits)) return false;
    return seen == commits && count == commits;
}

static uint64_t events_of(colock_store *store) {
    uint64_t count = UNTOUCHED, forgotten = UNTOUCHED;
    WANT(colock_event_count(store, &count, &forgotten) == COLOCK_OK);
    return count;
}

/* Who has paid in and is open keeps out whoever asks for the balance, and no one who peeks. A peek keeps nobody out. */
static void nobody_waits(void) {
    static const uint64_t none[KINDS] = {0, 0, 0}, two[KINDS] = {2, 2, 2};
    colock_store s = COLOCK_EMPTY;
    open_accounts(&s, 100);
    WANT(are_committed(&s, none, 0) && begin(&s, 0) == 0 && begin(&s, 0) == 1);
    for (uint32_t x = 0; x < KINDS; x++) {
        WANT(answers(&s, 0, x, "deposit:2", COLOCK_REPLY, DEPOSIT_2) && answers(&s, 1, x, "balance", COLOCK_BUSY, 0));
        WANT(kept(&s, x) == (x == COLOCK_UNDO ? 2 : 0)); /* in place, with what is open */
    }
    uint64_t events = events_of(&s);
    WANT(are_committed(&s, none, 0) && events_of(&s) == events);
    WANT(colock_commit(&s, 0, 0) == COLOCK_OK && are_committed(&s, two, 1));
    for (uint32_t x = 0; x < KINDS; x++) WANT(answers(&s, 1, x, "withdraw:1", COLOCK_REPLY, WITHDRAW_1) && kept(&s, x) == (x == COLOCK_UNDO ? 1 : 2));
    WANT(are_committed(&s, two, 1) && colock_rollback(&s, 0, 1, 1) == COLOCK_OK && are_committed(&s, two, 1));
    WANT(colock_abort(&s, 0, 1) == COLOCK_OK && are_committed(&s, two, 1) && begin(&s, 0) == 2);
    WANT(colock_commit(&s, 0, 2) == COLOCK_OK && are_committed(&s, two, 2)); /* it did nothing */
    WANT(colock_store_close(&s) == COLOCK_OK);
}

/* What is open is left out, wherever it is in the log: the second counted up before the first, which committed, and gives
 * nine to a purse of 20. */
static void what_is_open_is_left_out(void) {
    static const uint32_t kinds[] = {COLOCK_UNDO, COLOCK_ESCROW};
    static const char *const texts[] = {CTR2, SMALL_PURSE};
    uint64_t states[2] = {UNTOUCHED, UNTOUCHED}, seen = UNTOUCHED, state = UNTOUCHED;
    colock_store s = COLOCK_EMPTY;
    WANT(colock_store_new(&s) == COLOCK_OK);
    for (int x = 0; x < 2; x++) {
        colock_type type = COLOCK_EMPTY;
        colock_fault fault;
        WANT(colock_type_read(&type, kinds[x], TEXT(texts[x]), &fault) == COLOCK_OK);
        WANT(colock_store_add(&s, &type) == COLOCK_OK && colock_type_close(&type) == COLOCK_OK);
    }
    WANT(colock_store_open(&s, 20) == COLOCK_OK && begin(&s, 0) == 0 && begin(&s, 0) == 1);
    WANT(answers(&s, 1, 0, "inc:1", COLOCK_REPLY, 0) && answers(&s, 0, 0, "inc:1", COLOCK_REPLY, 0));
    WANT(answers(&s, 1, 1, "give:9", COLOCK_REPLY, COLOCK_OPERATION(4, 9)) && colock_commit(&s, 0, 0) == COLOCK_OK);
    WANT(kept(&s, 0) == 2 && is_committed(&s, 0, 1, 1) && is_committed(&s, 1, 20, 1));
    WANT(colock_committed(&s, 2, &state, &seen) == COLOCK_NO_OBJECT);
    WANT(colock_snapshot(&s, states, 2, &seen) == COLOCK_OK && states[0] == 1 && states[1] == 20 && seen == 1);
    WANT(peeks(&s, 1, "value", COLOCK_REPLY, COLOCK_OPERATION(8, 20), 1));
    WANT(peeks_not(&s, 1, "take:1", COLOCK_CHANGES) && peeks_not(&s, 0, "inc:1", COLOCK_CHANGES));
    WANT(peeks_not(&s, 0, "inc:9", COLOCK_NO_CALL) && peeks_not(&s, 2, "value", COLOCK_NO_OBJECT));
    WANT(events_of(&s) == 6 && colock_store_close(&s) == COLOCK_OK);
}

/* A call is a read where none of its operations changes anything: here not even one that is refused now. */
static void what_may_change_something_is_no_read(void) {
    colock_store s = COLOCK_EMPTY;
    colock_type purse = COLOCK_EMPTY, set = COLOCK_EMPTY;
    colock_fault fault;
    WANT(colock_type_read(&purse, COLOCK_ESCROW, TEXT(PURSE), &fault) == COLOCK_OK);
    WANT(colock_type_set(&set, COLOCK_INTENTIONS, TEXT("a b"), &fault) == COLOCK_OK);
    WANT(colock_store_new(&s) == COLOCK_OK && colock_store_add(&s, &purse) == COLOCK_OK && colock_store_add(&s, &set) == COLOCK_OK);
    add_account(&s, COLOCK_UNDO);
    WANT(colock_store_open(&s, 100) == COLOCK_OK && colock_type_close(&purse) == COLOCK_OK && colock_type_close(&set) == COLOCK_OK);
    static const char *const changing[] = {"take:17", "take:100", "give:1", "insert:a", "delete:b", "deposit:1", "withdraw:2"};
    for (uint32_t i = 0; i < 7; i++) WANT(peeks_not(&s, i < 3 ? 0 : i < 5 ? 1 : 2, changing[i], COLOCK_CHANGES));
    WANT(peeks(&s, 0, "value", COLOCK_REPLY, COLOCK_OPERATION(VALUE, 500), 0) && begin(&s, 0) == 0);
    WANT(answers(&s, 0, 0, "take:17", COLOCK_REPLY, COLOCK_OPERATION(TAKE_ANY, 17)) && is_committed(&s, 0, 500, 0));
    WANT(peeks(&s, 0, "value", COLOCK_REPLY, COLOCK_OPERATION(VALUE, 500), 0) && colock_commit(&s, 0, 0) == COLOCK_OK);
    WANT(peeks(&s, 0, "value", COLOCK_REPLY, COLOCK_OPERATION(VALUE, 483), 1) && is_committed(&s, 0, 483, 1));
    WANT(colock_store_close(&s) == COLOCK_OK);
}

/* What isn't there comes before what isn't a read. */
static void what_is_not_there_is_not_read(void) {
    static const char *const names[] = {"", " ", "balance ", "balances", "deposit", "deposit:3"};
    uint64_t state = UNTOUCHED, seen = UNTOUCHED;
    colock_store s = COLOCK_EMPTY;
    open_accounts(&s, 100);
    for (int i = 0; i < 6; i++) WANT(peeks_not(&s, 0, names[i], COLOCK_NO_CALL) && peeks_not(&s, KINDS, names[i], COLOCK_NO_OBJECT));
    WANT(peeks_not(&s, KINDS, "balance", COLOCK_NO_OBJECT) && peeks_not(&s, UINT32_MAX, "deposit:1", COLOCK_NO_OBJECT));
    WANT(colock_committed(&s, KINDS, &state, &seen) == COLOCK_NO_OBJECT && colock_committed(&s, UINT32_MAX, &state, &seen) == COLOCK_NO_OBJECT);
    WANT(state == UNTOUCHED && seen == UNTOUCHED && events_of(&s) == 0 && colock_store_close(&s) == COLOCK_OK);
}

/* A read of which no operation is legal, as long as the one that makes it legal isn't committed. */
static void there_may_be_none(uint32_t kind) {
    static const char text[] = "type flag\nstates 2\ninitial 0\nop set ok\nop is:set yes\nstep 0 0 1\nstep 1 1 1\nend\n";
    colock_store s = COLOCK_EMPTY;
    colock_type type = COLOCK_EMPTY;
    colock_fault fault;
    WANT(colock_type_tables(&type, kind, TEXT(text), &fault) == COLOCK_OK && colock_store_new(&s) == COLOCK_OK);
    WANT(colock_store_add(&s, &type) == COLOCK_OK && colock_store_open(&s, 100) == COLOCK_OK && colock_type_close(&type) == COLOCK_OK);
    WANT(peeks(&s, 0, "is:set", COLOCK_NONE, 0, 0) && begin(&s, 0) == 0 && answers(&s, 0, 0, "set", COLOCK_REPLY, 0));
    WANT(peeks(&s, 0, "is:set", COLOCK_NONE, 0, 0) && peeks_not(&s, 0, "set", COLOCK_CHANGES));
    WANT(colock_commit(&s, 0, 0) == COLOCK_OK && peeks(&s, 0, "is:set", COLOCK_REPLY, 1, 1) && peeks_not(&s, 0, "set", COLOCK_CHANGES));
    WANT(colock_store_close(&s) == COLOCK_OK);
}

/* A snapshot has a place for each object, or isn't taken. */
static void a_snapshot_has_room_or_is_not_taken(void) {
    uint64_t room[5], seen = UNTOUCHED;
    colock_store s = COLOCK_EMPTY;
    open_accounts(&s, 100);
    WANT(begin(&s, 0) == 0 && answers(&s, 0, 1, "deposit:2", COLOCK_REPLY, DEPOSIT_2) && colock_commit(&s, 0, 0) == COLOCK_OK);
    for (size_t places = 0; places <= 5; places++) {
        for (int i = 0; i < 5; i++) room[i] = UNTOUCHED;
        seen = UNTOUCHED;
        uint32_t code = colock_snapshot(&s, room, places, &seen);
        WANT(code == (places < KINDS ? COLOCK_NO_ROOM : COLOCK_OK) && seen == (code ? UNTOUCHED : 1));
        for (uint64_t i = 0; i < 5; i++) WANT(room[i] == (code || i >= KINDS ? UNTOUCHED : i == 1 ? 2 : 0));
    }
    WANT(colock_snapshot(&s, NULL, 0, &seen) == COLOCK_NO_ROOM && seen == 1 && colock_store_close(&s) == COLOCK_OK);
}

/* Commits count from 0 again where the store begins anew, and those of forgotten events count too. */
static void commits_are_counted(void) {
    static const uint64_t first[KINDS] = {1, 0, 1};
    colock_store s = COLOCK_EMPTY;
    open_accounts(&s, 100);
    WANT(begin(&s, 0) == 0 && begin(&s, 0) == 1 && begin(&s, 0) == 2);
    WANT(answers(&s, 2, 0, "deposit:1", COLOCK_REPLY, DEPOSIT_1) && answers(&s, 2, 2, "deposit:1", COLOCK_REPLY, DEPOSIT_1));
    WANT(colock_commit(&s, 0, 2) == COLOCK_OK && colock_abort(&s, 0, 0) == COLOCK_OK && colock_commit(&s, 0, 1) == COLOCK_OK);
    WANT(colock_commit(&s, 0, 1) == COLOCK_NOT_OPEN && are_committed(&s, first, 2));
    WANT(colock_forget(&s, 6) == COLOCK_OK && are_committed(&s, first, 2)); /* the commit of 2 among them */
    WANT(colock_forget(&s, 100) == COLOCK_OK && are_committed(&s, first, 2));
    WANT(begin(&s, 0) == 3 && colock_commit(&s, 0, 3) == COLOCK_OK && are_committed(&s, first, 3));
    WANT(colock_renew(&s) == COLOCK_OK && are_committed(&s, first, 0));
    WANT(begin(&s, 0) == 0 && colock_commit(&s, 0, 0) == COLOCK_OK && are_committed(&s, first, 1));
    WANT(colock_store_close(&s) == COLOCK_OK);
}

/* ---- random runs */

enum { OPEN = 4, MOST_DONE = 6 };

/* What an open transaction did: at which account, and what that adds to it. */
typedef struct work {
    bool is_open;
    uint64_t t;
    int count, adds[MOST_DONE];
    uint32_t at[MOST_DONE];
} work;

static uint64_t drawn = 1;

static uint32_t draw(uint32_t below) {
    drawn = drawn * 6364136223846793005u + 1442695040888963407u;
    return (uint32_t)((drawn >> 33) % below);
}

/* What an operation adds to an account. */
static int adds(uint64_t operation) {
    switch (operation) {
    case DEPOSIT_1: return 1;
    case DEPOSIT_2: return 2;
    case WITHDRAW_1: return -1;
    case WITHDRAW_2: return -2;
    default: return 0;
    }
}

static void call_once(colock_store *s, work *w) {
    static const char *const names[] = {"deposit:1", "deposit:2", "withdraw:1", "withdraw:2", "balance"};
    const char *name = names[draw(5)];
    uint32_t x = draw(KINDS);
    colock_answer a;
    WANT(colock_call(s, 0, w->t, x, TEXT(name), &a) == COLOCK_OK);
    if (a.kind == COLOCK_REPLY) w->at[w->count] = x, w->adds[w->count++] = adds(a.number);
}

static void roll_back(colock_store *s, work *w) {
    WANT(colock_rollback(s, 0, w->t, 1) == COLOCK_OK);
    w->count--;
}

/* Ends a transaction. Where it commits, what it did is added to what is committed. */
static void end(colock_store *s, work *w, uint64_t states[KINDS], uint64_t *commits) {
    w->is_open = false;
    if (draw(3) == 0) {
        WANT(colock_abort(s, 0, w->t) == COLOCK_OK);
        return;
    }
    WANT(colock_commit(s, 0, w->t) == COLOCK_OK);
    ++*commits;
    for (int i = 0; i < w->count; i++) states[w->at[i]] += (uint64_t)(int64_t)w->adds[i];
}

/* Open transactions call, roll back and end in a random order. After each step the accounts have what the committed ones
 * added to them, and no more. */
static void what_is_committed_is_the_sum_of_what_committed(long steps) {
    uint64_t states[KINDS] = {0, 0, 0}, commits = 0;
    work works[OPEN] = {{.is_open = false}};
    colock_store s = COLOCK_EMPTY;
    open_accounts(&s, UINT32_MAX);
    for (long i = 0; i < steps; i++) {
        work *w = &works[draw(OPEN)];
        if (!w->is_open) *w = (work){.is_open = true, .t = begin(&s, 0)};
        else if (w->count && draw(6) == 0) roll_back(&s, w);
        else if (w->count < MOST_DONE && draw(4)) call_once(&s, w);
        else end(&s, w, states, &commits);
        WANT(are_committed(&s, states, commits));
    }
    WANT(colock_abort_all(&s) == COLOCK_OK && are_committed(&s, states, commits));
    for (uint32_t x = 0; x < KINDS; x++) WANT(kept(&s, x) == states[x]);
    WANT(commits > 0 && colock_store_close(&s) == COLOCK_OK);
}

int main(void) {
    nobody_waits();
    what_is_open_is_left_out();
    what_may_change_something_is_no_read();
    what_is_not_there_is_not_read();
    for (uint32_t kind = 0; kind < KINDS; kind++) there_may_be_none(kind);
    a_snapshot_has_room_or_is_not_taken();
    commits_are_counted();
    what_is_committed_is_the_sum_of_what_committed(20000);
    puts("reads of what is committed: as they have to be");
    return 0;
}
