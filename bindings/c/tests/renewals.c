/* Stores that begin anew while transactions are open: beside ones that don't, and at limits. */
#include "want.h"

/* ---- stores */

static const char ONE_WAY[] =
    "type oneway\nstates 5\ninitial 0\nop p ok\nop q ok\nop r ok\nstep 0 0 2\nstep 0 1 1\nstep 1 0 3\nstep 2 1 4\nstep 4 2 4\n"
    "equi 1 0\nequi 3 0\nequi 3 1\nequi 3 2\nequi 3 4\nconflict undo 1 0\nconflict undo 2 1\nconflict intentions 0 0\n"
    "conflict intentions 0 1\nconflict intentions 1 0\nconflict intentions 1 1\nend\n";

static const char SEMIQUEUE[] = "a b c";

/* Adds an object of a type that was made with this code. */
static void add(colock_store *store, colock_type *type, uint32_t made) {
    WANT(made == COLOCK_OK && colock_store_add(store, type) == COLOCK_OK && colock_type_close(type) == COLOCK_OK);
}

/* Begins a store of objects of each kind of recovery: accounts, counters, semiqueues and a purse. */
static uint32_t add_objects(colock_store *store) {
    static const uint64_t amounts[] = {1, 2};
    colock_fault fault;
    colock_type type = COLOCK_EMPTY;
    uint32_t count = 0;
    WANT(colock_store_new(store) == COLOCK_OK);
    for (uint32_t kind = 0; kind < 3; kind++) {
        add(store, &type, colock_type_account(&type, kind, 5, amounts, 2, &fault)), count++;
        add(store, &type, colock_type_counter(&type, kind, 4, amounts, 1, &fault)), count++;
        if (kind != COLOCK_ESCROW) add(store, &type, colock_type_semiqueue(&type, kind, TEXT(SEMIQUEUE), 2, &fault)), count++;
    }
    add(store, &type, colock_type_read(&type, COLOCK_ESCROW, TEXT(SMALL_PURSE), &fault));
    return count + 1;
}

static void open_one_way(colock_store *store, uint32_t kind) {
    colock_type type = COLOCK_EMPTY;
    colock_fault fault;
    WANT(colock_store_new(store) == COLOCK_OK);
    add(store, &type, colock_type_read(&type, kind, TEXT(ONE_WAY), &fault));
    WANT(colock_store_open(store, 100) == COLOCK_OK);
}

static bool keeps(colock_store *store, uint32_t x, uint64_t state) {
    uint64_t kept = UNTOUCHED;
    return colock_kept(store, x, &kept) == COLOCK_OK && kept == state;
}

static bool are_open(colock_store *store, uint64_t count) {
    uint64_t told = UNTOUCHED;
    return colock_open_count(store, &told) == COLOCK_OK && told == count;
}

static bool does(colock_store *store, uint8_t worker, uint64_t t, uint32_t x, const char *name) {
    colock_answer answer = {UNTOUCHED, UNTOUCHED};
    return colock_call(store, worker, t, x, TEXT(name), &answer) == COLOCK_OK && answer.kind == COLOCK_REPLY;
}

static uint64_t events_of(colock_store *store) {
    uint64_t count = UNTOUCHED, forgotten = UNTOUCHED;
    WANT(colock_event_count(store, &count, &forgotten) == COLOCK_OK && forgotten == 0);
    return count;
}

static bool is_event(const colock_event *e, uint32_t kind, uint32_t worker, uint64_t t, uint32_t x, uint64_t op) {
    return e->kind == kind && e->worker == worker && e->transaction == t && e->object == x && e->op == op && e->other == 0 && e->reserved == 0;
}

/* ---- one renewal */

/* 1 and 3 are open, over two objects in turn, 3 before 1 at the first. They go on as 0 and 1. */
static void what_is_open_goes_on(void) {
    colock_store s = COLOCK_EMPTY;
    colock_event room[9];
    colock_answer answer;
    uint64_t count = UNTOUCHED;
    open_counters(&s, 2, 40);
    for (uint8_t w = 10; w < 14; w++) WANT(begin(&s, w) == (uint64_t)w - 10);
    WANT(does(&s, 10, 0, 0, "inc:1") && colock_commit(&s, 10, 0) == COLOCK_OK && colock_abort(&s, 12, 2) == COLOCK_OK);
    WANT(does(&s, 9, 1, 1, "inc:1") && does(&s, 13, 3, 0, "inc:1") && does(&s, 11, 1, 1, "inc:1") && colock_rollback(&s, 11, 1, 1) == COLOCK_OK);
    WANT(keeps(&s, 0, 2) && keeps(&s, 1, 1) && colock_forget(&s, UINT64_MAX) == COLOCK_OK);
    WANT(colock_renew(&s) == COLOCK_OK && are_open(&s, 2) && keeps(&s, 0, 2) && keeps(&s, 1, 1));
    WANT(colock_events(&s, 0, room, 9, &count) == COLOCK_OK && count == 4 && events_of(&s) == 4);
    WANT(is_event(&room[0], COLOCK_EVENT_BEGIN, 11, 0, 0, 0) && is_event(&room[1], COLOCK_EVENT_BEGIN, 13, 1, 0, 0));
    /* each by the worker that began its transaction */
    WANT(is_event(&room[2], COLOCK_EVENT_OP, 11, 0, 1, 0) && is_event(&room[3], COLOCK_EVENT_OP, 13, 1, 0, 0));
    WANT(begin(&s, 5) == 2 && colock_call(&s, 5, 2, 0, TEXT("dec:1"), &answer) == COLOCK_OK && answer.kind == COLOCK_BUSY && answer.number == 1);
    WANT(colock_commit(&s, 7, 3) == COLOCK_NOT_OPEN && colock_commit(&s, 7, 1) == COLOCK_OK && keeps(&s, 0, 2));
    WANT(colock_abort_all(&s) == COLOCK_OK && keeps(&s, 0, 2) && keeps(&s, 1, 0));
    WANT(colock_events(&s, 6, room, 9, &count) == COLOCK_OK && count == 3);
    WANT(is_event(&room[1], COLOCK_EVENT_ABORT, 11, 0, 0, 0) && is_event(&room[2], COLOCK_EVENT_ABORT, 5, 2, 0, 0));
    WANT(colock_renew(&s) == COLOCK_OK && events_of(&s) == 0 && keeps(&s, 0, 2) && begin(&s, 0) == 0 && colock_store_close(&s) == COLOCK_OK);
}

/* A rollback goes back along the order in which its transaction worked, whichever the objects. */
static void rollbacks_go_on(void) {
    for (uint32_t first = 0; first < 2; first++) {
        colock_store s = COLOCK_EMPTY;
        open_counters(&s, 2, 40);
        WANT(begin(&s, 0) == 0 && begin(&s, 0) == 1);
        WANT(does(&s, 0, 1, 1 - first, "inc:1") && does(&s, 0, 1, first, "inc:1") && does(&s, 0, 0, first, "inc:1"));
        for (int i = 0; i < 3; i++) WANT(colock_renew(&s) == COLOCK_OK && keeps(&s, first, 2) && keeps(&s, 1 - first, 1) && events_of(&s) == 5);
        WANT(colock_rollback(&s, 0, 1, 3) == COLOCK_BAD_ROLLBACK && colock_rollback(&s, 0, 1, 1) == COLOCK_OK && keeps(&s, first, 1) && keeps(&s, 1 - first, 1));
        WANT(colock_renew(&s) == COLOCK_OK && events_of(&s) == 4 && colock_rollback(&s, 0, 1, 1) == COLOCK_OK && keeps(&s, first, 1) && keeps(&s, 1 - first, 0));
        WANT(colock_store_close(&s) == COLOCK_OK);
    }
}

/* Where a yes is one-way a store begins anew only while nobody is open. */
static void one_way_waits(void) {
    colock_store s = COLOCK_EMPTY;
    open_one_way(&s, COLOCK_UNDO);
    WANT(begin(&s, 0) == 0 && does(&s, 0, 0, 0, "q") && colock_renew(&s) == COLOCK_STILL_OPEN);
    WANT(events_of(&s) == 2 && keeps(&s, 0, 1) && colock_commit(&s, 0, 0) == COLOCK_OK);
    WANT(colock_renew(&s) == COLOCK_OK && events_of(&s) == 0 && keeps(&s, 0, 1) && colock_store_close(&s) == COLOCK_OK);
    open_one_way(&s, COLOCK_INTENTIONS);
    WANT(begin(&s, 0) == 0 && does(&s, 0, 0, 0, "q") && colock_renew(&s) == COLOCK_OK && events_of(&s) == 2 && keeps(&s, 0, 0));
    WANT(colock_commit(&s, 0, 0) == COLOCK_OK && keeps(&s, 0, 1) && colock_store_close(&s) == COLOCK_OK);
    /* one object among others is enough */
    colock_type type = COLOCK_EMPTY;
    colock_fault fault;
    add_counters(&s, 3);
    add(&s, &type, colock_type_read(&type, COLOCK_UNDO, TEXT(ONE_WAY), &fault));
    WANT(colock_store_open(&s, 100) == COLOCK_OK && begin(&s, 0) == 0 && colock_renew(&s) == COLOCK_STILL_OPEN && colock_store_close(&s) == COLOCK_OK);
}

/* ---- no end */

/* In a history of 40 events a transaction stays open while 3,000 others come and go. */
static void a_store_has_no_end(void) {
    colock_store s = COLOCK_EMPTY;
    uint64_t mine, renewals = 0;
    open_counters(&s, 2, 40);
    mine = begin(&s, 3);
    WANT(does(&s, 3, mine, 1, "inc:1"));
    for (int i = 0; i < 3000; i++) {
        if (events_of(&s) > 30) {
            WANT(colock_renew(&s) == COLOCK_OK && events_of(&s) == 2);
            mine = 0, renewals++;
        }
        uint64_t t = begin(&s, 1);
        WANT(t == mine + 1 + (events_of(&s) - 3) / 3 && does(&s, 1, t, 0, i % 2 ? "dec:1" : "inc:1") && colock_commit(&s, 1, t) == COLOCK_OK);
    }
    WANT(renewals > 200 && keeps(&s, 0, 0) && keeps(&s, 1, 1) && colock_commit(&s, 3, mine) == COLOCK_OK && keeps(&s, 1, 1) && colock_store_close(&s) == COLOCK_OK);
}

/* What is carried counts: where it is nearly all, the history is full all the same. */
static void what_is_carried_counts(void) {
    colock_store s = COLOCK_EMPTY;
    uint64_t t = UNTOUCHED;
    open_counters(&s, 1, 8);
    WANT(begin(&s, 0) == 0 && does(&s, 0, 0, 0, "inc:1") && does(&s, 0, 0, 0, "dec:1") && does(&s, 0, 0, 0, "inc:1") && does(&s, 0, 0, 0, "inc:1"));
    WANT(does(&s, 0, 0, 0, "dec:1") && does(&s, 0, 0, 0, "dec:1") && colock_renew(&s) == COLOCK_OK && events_of(&s) == 7);
    WANT(colock_begin(&s, 0, &t) == COLOCK_HISTORY_FULL && t == UNTOUCHED && colock_commit(&s, 0, 0) == COLOCK_OK);
    WANT(colock_renew(&s) == COLOCK_OK && events_of(&s) == 0 && keeps(&s, 0, 0) && colock_store_close(&s) == COLOCK_OK);
}

/* ---- beside a store that never begins anew */

enum { MOST = 9 };

static uint64_t drawn = 1;

static uint64_t draw(uint64_t below) {
    drawn = drawn * 6364136223846793005u + 1442695040888963407u;
    return (drawn >> 33) % below;
}

/* A store that begins anew, one that doesn't, and the numbers of those that are open in both, ascending. */
typedef struct pair {
    colock_store anew, other;
    uint32_t objects;
    uint64_t in_anew[MOST], in_other[MOST];
    size_t open;
    uint64_t renewals, replies, blocked;
} pair;

static void same_states(pair *p) {
    uint64_t first[16], second[16], commits;
    WANT(p->objects <= 16);
    for (uint32_t x = 0; x < p->objects; x++) {
        WANT(colock_kept(&p->anew, x, &first[x]) == COLOCK_OK && keeps(&p->other, x, first[x]));
    }
    WANT(colock_snapshot(&p->anew, first, p->objects, &commits) == COLOCK_OK && colock_snapshot(&p->other, second, p->objects, &commits) == COLOCK_OK);
    WANT(!memcmp(first, second, p->objects * sizeof *first) && are_open(&p->anew, p->open) && are_open(&p->other, p->open));
}

static void renew(pair *p) {
    if (draw(2)) WANT(colock_forget(&p->anew, draw(50)) == COLOCK_OK);
    WANT(colock_renew(&p->anew) == COLOCK_OK);
    for (size_t i = 0; i < p->open; i++) p->in_anew[i] = i;
    p->renewals++;
    same_states(p);
}

/* A call, of which some objects have none: by its number, or of the purse with an amount that is taken or given. */
static void call_both(pair *p, size_t i) {
    uint32_t x = (uint32_t)draw(p->objects);
    uint64_t call = draw(3) ? draw(10) : COLOCK_OPERATION(draw(2) ? 0 : 4, draw(9));
    colock_answer first = {UNTOUCHED, UNTOUCHED}, second = {UNTOUCHED, UNTOUCHED};
    uint32_t code = colock_call_op(&p->anew, 0, p->in_anew[i], x, call, &first);
    WANT(code == colock_call_op(&p->other, 0, p->in_other[i], x, call, &second) && first.kind == second.kind);
    WANT(code == COLOCK_OK || code == COLOCK_NO_CALL);
    if (code != COLOCK_OK) return;
    p->replies += first.kind == COLOCK_REPLY;
    if (first.kind != COLOCK_BUSY) {
        WANT(first.number == second.number);
        return;
    }
    size_t who = 0;
    while (who < p->open && p->in_anew[who] != first.number) who++;
    WANT(who < p->open && p->in_other[who] == second.number);
    p->blocked++;
}

static void end_both(pair *p, size_t i) {
    if (draw(2)) WANT(colock_commit(&p->anew, 0, p->in_anew[i]) == COLOCK_OK && colock_commit(&p->other, 0, p->in_other[i]) == COLOCK_OK);
    else WANT(colock_abort(&p->anew, 0, p->in_anew[i]) == COLOCK_OK && colock_abort(&p->other, 0, p->in_other[i]) == COLOCK_OK);
    for (p->open--; i < p->open; i++) p->in_anew[i] = p->in_anew[i + 1], p->in_other[i] = p->in_other[i + 1];
}

static void step_both(pair *p) {
    uint64_t what = draw(20);
    if (what == 0) renew(p);
    else if (p->open == 0 || (what < 4 && p->open < MOST)) {
        p->in_anew[p->open] = begin(&p->anew, 0), p->in_other[p->open] = begin(&p->other, 0);
        p->open++;
    } else if (what < 6) end_both(p, draw(p->open));
    else if (what < 8) {
        size_t i = draw(p->open);
        uint64_t back = 1 + draw(3);
        WANT(colock_rollback(&p->anew, 0, p->in_anew[i], back) == colock_rollback(&p->other, 0, p->in_other[i], back));
    } else call_both(p, draw(p->open));
}

static void nobody_can_tell(void) {
    uint64_t renewals = 0, replies = 0, blocked = 0;
    for (int run = 0; run < 60; run++) {
        pair p = {.anew = COLOCK_EMPTY, .other = COLOCK_EMPTY};
        p.objects = add_objects(&p.anew);
        WANT(add_objects(&p.other) == p.objects && colock_store_open(&p.anew, 100000) == COLOCK_OK && colock_store_open(&p.other, 100000) == COLOCK_OK);
        for (int i = 0; i < 600; i++) step_both(&p), same_states(&p);
        WANT(colock_store_close(&p.anew) == COLOCK_OK && colock_store_close(&p.other) == COLOCK_OK);
        renewals += p.renewals, replies += p.replies, blocked += p.blocked;
    }
    WANT(renewals > 1000 && replies > 2000 && blocked > 100);
    printf("%" PRIu64 " renewals that nobody can tell, among %" PRIu64 " replies and %" PRIu64 " times busy\n", renewals, replies, blocked);
}

int main(void) {
    what_is_open_goes_on();
    rollbacks_go_on();
    one_way_waits();
    a_store_has_no_end();
    what_is_carried_counts();
    nobody_can_tell();
    return 0;
}
