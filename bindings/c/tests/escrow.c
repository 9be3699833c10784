/* Types that are numeric and types that aren't, and what transactions do side by side at a number in escrow. */
#include "want.h"

enum { GIVE = 0, TAKE = 1, SHORT = 2 };

static const uint64_t AMOUNTS[] = {1, 2};

static bool is(const colock_fault *f, uint64_t line, uint64_t kind, uint64_t a, uint64_t b, uint64_t c) {
    return f->line == line && f->kind == kind && f->first == a && f->second == b && f->third == c;
}

/* ---- types */

/* Whether a type was made for escrow. It is closed. */
static bool is_made(uint32_t code, colock_type *type) {
    colock_shape shape = {UNTOUCHED, UNTOUCHED, UNTOUCHED, UNTOUCHED};
    WANT(code == COLOCK_OK && colock_type_shape(type, &shape) == COLOCK_OK);
    return colock_type_close(type) == COLOCK_OK && shape.kind == COLOCK_ESCROW;
}

/* A counter and a stock move each number as far, and a balance is legal at one number alone. Of one element, or with
 * room for one item, each operation of a semiqueue or a queue is legal from a lowest to a highest number of its states;
 * so is each of one seat. */
static void these_are_numeric(void) {
    colock_type type = COLOCK_EMPTY;
    colock_fault f;
    WANT(is_made(colock_type_counter(&type, COLOCK_ESCROW, 5, AMOUNTS, 2, &f), &type));
    WANT(is_made(colock_type_account(&type, COLOCK_ESCROW, 5, AMOUNTS, 2, &f), &type));
    WANT(is_made(colock_type_stock(&type, COLOCK_ESCROW, 5, AMOUNTS, 2, &f), &type));
    WANT(is_made(colock_type_queue(&type, COLOCK_ESCROW, TEXT("a"), 9, &f), &type));
    WANT(is_made(colock_type_queue(&type, COLOCK_ESCROW, TEXT("a b"), 1, &f), &type));
    WANT(is_made(colock_type_seats(&type, COLOCK_ESCROW, 1, &f), &type));
    WANT(is_made(colock_type_semiqueue(&type, COLOCK_ESCROW, TEXT("a"), 9, &f), &type));
    WANT(is_made(colock_type_semiqueue(&type, COLOCK_ESCROW, TEXT("a b"), 1, &f), &type));
    WANT(is_made(colock_type_read(&type, COLOCK_ESCROW, TEXT(FIVE), &f), &type));
    WANT(is_made(colock_type_tables(&type, COLOCK_ESCROW, TEXT(FIVE), &f), &type));
}

static void is_refused(uint32_t code, const colock_fault *fault, uint64_t kind, uint64_t operation, uint64_t state) {
    WANT(code == COLOCK_REFUSED && is(fault, 0, kind, operation, state, 0));
}

/* An element that is put in moves the empty set by one, and a set that has it by nothing. With two items of the second
 * element, which is state 2, there is no room for the first; with none, and with one of the first, there is. */
static void these_are_not(void) {
    static const char gap[] = "type gap\nstates 4\ninitial 0\nop a b\nop c d\nstep 0 0 0\nstep 0 1 0\nstep 2 1 2\nend\n";
    colock_type type = COLOCK_EMPTY;
    colock_fault f = {UNTOUCHED, UNTOUCHED, UNTOUCHED, UNTOUCHED, UNTOUCHED};
    is_refused(colock_type_set(&type, COLOCK_ESCROW, TEXT("a"), &f), &f, COLOCK_NOT_NUMERIC, 0, 1);
    is_refused(colock_type_set(&type, COLOCK_ESCROW, TEXT("a b c"), &f), &f, COLOCK_NOT_NUMERIC, 0, 1);
    is_refused(colock_type_semiqueue(&type, COLOCK_ESCROW, TEXT("a b"), 2, &f), &f, COLOCK_NOT_NUMERIC, 0, 2);
    is_refused(colock_type_queue(&type, COLOCK_ESCROW, TEXT("a b"), 2, &f), &f, COLOCK_NOT_NUMERIC, 0, 1);
    is_refused(colock_type_seats(&type, COLOCK_ESCROW, 2, &f), &f, COLOCK_NOT_NUMERIC, 0, 1);
    is_refused(colock_type_read(&type, COLOCK_ESCROW, TEXT(gap), &f), &f, COLOCK_NOT_NUMERIC, 1, 1);
    is_refused(colock_type_tables(&type, COLOCK_ESCROW, TEXT(gap), &f), &f, COLOCK_NOT_NUMERIC, 1, 1);
    is_refused(colock_type_read(&type, COLOCK_UNDO, TEXT(FIVE), &f), &f, COLOCK_INITIAL_OUTSIDE, 0, 0);
    WANT(colock_type_close(&type) == COLOCK_NOT_HELD);
}

static void a_type_has_no_conflicts(void) {
    colock_type type = COLOCK_EMPTY;
    colock_fault fault;
    colock_shape shape;
    uint64_t to = UNTOUCHED;
    uint32_t told = UNTOUCHED;
    WANT(colock_type_read(&type, COLOCK_ESCROW, TEXT(FIVE), &fault) == COLOCK_OK);
    WANT(colock_type_shape(&type, &shape) == COLOCK_OK);
    WANT(shape.states == 6 && shape.initial == 3 && shape.ops == 3 && shape.kind == COLOCK_ESCROW);
    WANT(colock_type_step(&type, 3, TAKE, &to) == COLOCK_OK && to == 1);
    for (uint64_t p = 0; p < 3; p++)
        for (uint64_t q = 0; q < 3; q++) {
            told = UNTOUCHED;
            WANT(colock_type_conflict(&type, p, q, &told) == COLOCK_OK && told == 0);
        }
    told = UNTOUCHED;
    WANT(colock_type_conflict(&type, 3, 0, &told) == COLOCK_NO_OPERATION);
    WANT(colock_type_conflict(&type, 0, 3, &told) == COLOCK_NO_OPERATION && told == UNTOUCHED);
    WANT(colock_type_close(&type) == COLOCK_OK);
}

/* ---- objects */

/* A store of one number of the type of FIVE, with this many open transactions. */
static void open_five(colock_store *store, uint64_t transactions) {
    colock_type type = COLOCK_EMPTY;
    colock_fault fault;
    WANT(colock_type_read(&type, COLOCK_ESCROW, TEXT(FIVE), &fault) == COLOCK_OK);
    WANT(colock_store_new(store) == COLOCK_OK && colock_store_add(store, &type) == COLOCK_OK);
    WANT(colock_store_open(store, 100) == COLOCK_OK && colock_type_close(&type) == COLOCK_OK);
    for (uint64_t t = 0; t < transactions; t++) WANT(begin(store, 0) == t);
}

/* Whether a call is answered so, and would be. */
static bool answers(colock_store *store, uint64_t t, const char *name, uint64_t kind, uint64_t number) {
    colock_answer foreseen = {UNTOUCHED, UNTOUCHED}, answer = {UNTOUCHED, UNTOUCHED};
    WANT(colock_would(store, t, 0, TEXT(name), &foreseen) == COLOCK_OK);
    WANT(colock_call(store, 0, t, 0, TEXT(name), &answer) == COLOCK_OK);
    return answer.kind == kind && answer.number == number && foreseen.kind == kind && foreseen.number == number;
}

static bool keeps(colock_store *store, uint64_t number) {
    uint64_t kept = UNTOUCHED;
    return colock_kept(store, 0, &kept) == COLOCK_OK && kept == number;
}

/* One takes and another gives, both at once. Where both end there are two, but where the give is aborted there is
 * one, so a second take has to wait for the first. What is kept is what is committed. */
static void a_give_and_a_take_are_side_by_side(void) {
    colock_store s = COLOCK_EMPTY;
    open_five(&s, 3);
    WANT(answers(&s, 0, "take:2", COLOCK_REPLY, TAKE) && answers(&s, 1, "give:1", COLOCK_REPLY, GIVE));
    WANT(keeps(&s, 3));
    WANT(answers(&s, 2, "take:2", COLOCK_BUSY, 0));
    WANT(colock_abort(&s, 0, 0) == COLOCK_OK);
    WANT(answers(&s, 2, "take:2", COLOCK_REPLY, TAKE));
    WANT(keeps(&s, 3));
    WANT(colock_commit(&s, 0, 1) == COLOCK_OK && keeps(&s, 4));
    WANT(colock_commit(&s, 0, 2) == COLOCK_OK && keeps(&s, 2));
    WANT(colock_renew(&s) == COLOCK_OK && keeps(&s, 2));
    WANT(colock_store_close(&s) == COLOCK_OK);
}

/* That there isn't enough is a reply as any other: it may have to wait, and others for it. */
static void that_there_is_not_enough_is_a_reply(void) {
    colock_store s = COLOCK_EMPTY;
    open_five(&s, 4);
    WANT(answers(&s, 0, "take:2", COLOCK_REPLY, TAKE) && colock_commit(&s, 0, 0) == COLOCK_OK && keeps(&s, 1));
    WANT(answers(&s, 1, "take:2", COLOCK_REPLY, SHORT));
    WANT(answers(&s, 2, "give:1", COLOCK_BUSY, 1)); /* with it there might be two */
    WANT(colock_commit(&s, 0, 1) == COLOCK_OK && answers(&s, 2, "give:1", COLOCK_REPLY, GIVE));
    WANT(answers(&s, 3, "take:2", COLOCK_BUSY, 2)); /* it sees one, and there may be two */
    WANT(answers(&s, 2, "take:2", COLOCK_REPLY, TAKE)); /* what it gave is there for itself */
    WANT(colock_commit(&s, 0, 2) == COLOCK_OK && answers(&s, 3, "take:2", COLOCK_REPLY, SHORT));
    WANT(keeps(&s, 0) && colock_store_close(&s) == COLOCK_OK);
}

/* Who gives one and then takes two takes one from the others at most, whatever of it is taken back. So of three there
 * are two for another one, and then none. */
static void what_was_given_before_covers_what_is_taken(void) {
    colock_store s = COLOCK_EMPTY;
    open_five(&s, 3);
    WANT(answers(&s, 0, "give:1", COLOCK_REPLY, GIVE) && answers(&s, 0, "take:2", COLOCK_REPLY, TAKE));
    WANT(answers(&s, 1, "take:2", COLOCK_REPLY, TAKE));
    WANT(answers(&s, 2, "take:2", COLOCK_BUSY, 1)); /* without the second there would be two, without the first there wouldn't */
    WANT(colock_rollback(&s, 0, 0, 1) == COLOCK_OK); /* its take: it takes nothing now */
    WANT(answers(&s, 2, "take:2", COLOCK_BUSY, 1));
    WANT(answers(&s, 0, "take:2", COLOCK_REPLY, TAKE) && keeps(&s, 3));
    WANT(colock_commit(&s, 0, 0) == COLOCK_OK && keeps(&s, 2));
    WANT(colock_commit(&s, 0, 1) == COLOCK_OK && keeps(&s, 0));
    WANT(answers(&s, 2, "take:2", COLOCK_REPLY, SHORT));
    WANT(colock_store_close(&s) == COLOCK_OK);
}

/* Above, too: five are the most. */
static void there_is_room_for_so_many(void) {
    colock_store s = COLOCK_EMPTY, other = COLOCK_EMPTY;
    colock_event room[20];
    uint64_t count = UNTOUCHED, made = UNTOUCHED;
    open_five(&s, 4);
    WANT(answers(&s, 0, "give:1", COLOCK_REPLY, GIVE) && answers(&s, 1, "give:1", COLOCK_REPLY, GIVE));
    WANT(answers(&s, 2, "give:1", COLOCK_BUSY, 0) && answers(&s, 2, "take:2", COLOCK_REPLY, TAKE));
    WANT(answers(&s, 2, "give:1", COLOCK_REPLY, GIVE)); /* in the place of what it took */
    WANT(answers(&s, 3, "give:1", COLOCK_BUSY, 0));
    WANT(colock_commit(&s, 0, 0) == COLOCK_OK && colock_commit(&s, 0, 1) == COLOCK_OK && keeps(&s, 5));
    WANT(answers(&s, 3, "give:1", COLOCK_NONE, 0)); /* by what it sees, there is no room at all */
    WANT(colock_commit(&s, 0, 2) == COLOCK_OK && keeps(&s, 4) && answers(&s, 3, "give:1", COLOCK_REPLY, GIVE));
    WANT(colock_events(&s, 4, room, 20, &count) == COLOCK_OK && count == 11);
    open_five(&other, 4);
    WANT(colock_follow(&other, room, count, &made) == COLOCK_OK && made == count && keeps(&other, 4));
    WANT(colock_store_close(&s) == COLOCK_OK && colock_store_close(&other) == COLOCK_OK);
}

int main(void) {
    these_are_numeric();
    these_are_not();
    a_type_has_no_conflicts();
    a_give_and_a_take_are_side_by_side();
    that_there_is_not_enough_is_a_reply();
    what_was_given_before_covers_what_is_taken();
    there_is_room_for_so_many();
    puts("numbers in escrow: as they have to be");
    return 0;
}
