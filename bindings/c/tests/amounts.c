/* Calls with any amount, and a value that is read, at a number in escrow: names, numbers, answers and events. */
#include "want.h"

/* ---- numbers of operations */

/* 17 of the place 2 is 2 + 256 * 18. The greatest number is that of the last place with the greatest amount. */
static void an_operation_is_one_number(void) {
    WANT(COLOCK_OPERATION(TAKE_ANY, 17) == 4610);
    WANT(COLOCK_PLACE(4610) == TAKE_ANY && COLOCK_HAS_AMOUNT(4610) && COLOCK_AMOUNT(4610) == 17);
    WANT(COLOCK_OPERATION(0, 0) == 256 && COLOCK_HAS_AMOUNT(256) && COLOCK_AMOUNT(256) == 0 && COLOCK_PLACE(256) == 0);
    WANT(!COLOCK_HAS_AMOUNT(255) && COLOCK_PLACE(255) == 255);
    WANT(COLOCK_OPERATION(255, UINT32_MAX) == ((uint64_t)1 << 40) + 255 && COLOCK_AMOUNT(((uint64_t)1 << 40) + 255) == UINT32_MAX);
}

static bool is_named(uint32_t code, const char *room, const uint64_t *count, const char *name) {
    return code == COLOCK_OK && *count == strlen(name) && !memcmp(room, name, *count);
}

/* Whether an operation has these names. */
static bool has_names(colock_type *type, uint64_t k, const char *call, const char *reply) {
    char room[COLOCK_LONGEST_NAME];
    uint64_t count = UNTOUCHED;
    bool is_called = is_named(colock_type_call(type, k, room, sizeof room, &count), room, &count, call);
    return is_called && is_named(colock_type_reply(type, k, room, sizeof room, &count), room, &count, reply);
}

static bool is_no_operation(colock_type *type, uint64_t k) {
    char room[COLOCK_LONGEST_NAME];
    uint64_t count = UNTOUCHED;
    WANT(colock_type_reply(type, k, room, sizeof room, &count) == COLOCK_NO_OPERATION);
    return colock_type_call(type, k, room, sizeof room, &count) == COLOCK_NO_OPERATION && count == UNTOUCHED;
}

static void read_purse(colock_type *type) {
    colock_fault fault;
    WANT(colock_type_read(type, COLOCK_ESCROW, TEXT(PURSE), &fault) == COLOCK_OK);
}

/* At a place alone are the names of its line, with an amount those of the operation. */
static void operations_have_names(void) {
    static const uint64_t none[] = {
        7, COLOCK_OPERATION(7, 1), COLOCK_OPERATION(TAKE_100, 100), COLOCK_OPERATION(TAKE_ANY, 0), COLOCK_OPERATION(TAKE_ANY, 10001),
        COLOCK_OPERATION(VALUE, 10001), COLOCK_OPERATION(TAKE_ANY, UINT32_MAX), COLOCK_OPERATION(255, UINT32_MAX) + 1, UINT64_MAX,
    };
    colock_type type = COLOCK_EMPTY;
    colock_shape shape;
    read_purse(&type);
    WANT(colock_type_shape(&type, &shape) == COLOCK_OK && shape.states == 10001 && shape.initial == 500 && shape.ops == 7);
    WANT(has_names(&type, TAKE_100, "take:100", "ok") && has_names(&type, 1, "take:100", "short"));
    WANT(has_names(&type, TAKE_ANY, "take:any", "ok") && has_names(&type, TAKE_SHORT, "take:any", "short"));
    WANT(has_names(&type, GIVE_ANY, "give:any", "ok") && has_names(&type, GIVE_FULL, "give:any", "full"));
    WANT(has_names(&type, VALUE, "value", "n"));
    WANT(has_names(&type, COLOCK_OPERATION(TAKE_ANY, 17), "take:17", "ok") && has_names(&type, COLOCK_OPERATION(TAKE_SHORT, 17), "take:17", "short"));
    WANT(has_names(&type, COLOCK_OPERATION(GIVE_ANY, 10000), "give:10000", "ok") && has_names(&type, COLOCK_OPERATION(GIVE_FULL, 1), "give:1", "full"));
    WANT(has_names(&type, COLOCK_OPERATION(VALUE, 0), "value", "0") && has_names(&type, COLOCK_OPERATION(VALUE, 10000), "value", "10000"));
    for (size_t i = 0; i < sizeof none / sizeof *none; i++) WANT(is_no_operation(&type, none[i]));
    WANT(colock_type_close(&type) == COLOCK_OK);
}

static uint64_t step(colock_type *type, uint64_t s, uint64_t k) {
    uint64_t to = UNTOUCHED;
    uint32_t code = colock_type_step(type, s, k, &to);
    WANT(code == COLOCK_OK || (code == COLOCK_NOT_LEGAL && to == UNTOUCHED));
    return code ? UINT64_MAX : to;
}

static void operations_have_steps(void) {
    colock_type type = COLOCK_EMPTY;
    uint64_t to = UNTOUCHED;
    uint32_t told = UNTOUCHED;
    read_purse(&type);
    WANT(step(&type, 500, COLOCK_OPERATION(TAKE_ANY, 17)) == 483 && step(&type, 17, COLOCK_OPERATION(TAKE_ANY, 17)) == 0);
    WANT(step(&type, 16, COLOCK_OPERATION(TAKE_ANY, 17)) == UINT64_MAX && step(&type, 16, COLOCK_OPERATION(TAKE_SHORT, 17)) == 16);
    WANT(step(&type, 17, COLOCK_OPERATION(TAKE_SHORT, 17)) == UINT64_MAX);
    WANT(step(&type, 9997, COLOCK_OPERATION(GIVE_ANY, 3)) == 10000 && step(&type, 9998, COLOCK_OPERATION(GIVE_ANY, 3)) == UINT64_MAX);
    WANT(step(&type, 9998, COLOCK_OPERATION(GIVE_FULL, 3)) == 9998 && step(&type, 9997, COLOCK_OPERATION(GIVE_FULL, 3)) == UINT64_MAX);
    WANT(step(&type, 486, COLOCK_OPERATION(VALUE, 486)) == 486 && step(&type, 485, COLOCK_OPERATION(VALUE, 486)) == UINT64_MAX);
    /* 100 is taken by the line that lists it */
    WANT(step(&type, 500, TAKE_100) == 400 && step(&type, 500, COLOCK_OPERATION(TAKE_ANY, 100)) == UINT64_MAX);
    WANT(colock_type_step(&type, 500, TAKE_ANY, &to) == COLOCK_NO_OPERATION && colock_type_step(&type, 500, VALUE, &to) == COLOCK_NO_OPERATION);
    WANT(colock_type_step(&type, 500, COLOCK_OPERATION(TAKE_ANY, 10001), &to) == COLOCK_NO_OPERATION && to == UNTOUCHED);
    WANT(colock_type_conflict(&type, COLOCK_OPERATION(TAKE_ANY, 17), 0, &told) == COLOCK_NO_OPERATION && told == UNTOUCHED);
    WANT(colock_type_conflict(&type, TAKE_ANY, VALUE, &told) == COLOCK_OK && told == 0);
    WANT(colock_type_close(&type) == COLOCK_OK);
}

/* ---- objects */

/* A store of one purse, with this many open transactions. */
static void open_purse(colock_store *store, uint64_t transactions) {
    colock_type type = COLOCK_EMPTY;
    read_purse(&type);
    WANT(colock_store_new(store) == COLOCK_OK && colock_store_add(store, &type) == COLOCK_OK);
    WANT(colock_store_open(store, 100) == COLOCK_OK && colock_type_close(&type) == COLOCK_OK);
    for (uint64_t t = 0; t < transactions; t++) WANT(begin(store, 0) == t);
}

/* Whether a call is answered so, by its name and by its number, and would be. */
static bool answers(colock_store *store, uint64_t t, const char *name, uint64_t kind, uint64_t number) {
    colock_answer a = {UNTOUCHED, UNTOUCHED}, would = {UNTOUCHED, UNTOUCHED}, would_op = {UNTOUCHED, UNTOUCHED};
    uint64_t call = UNTOUCHED;
    WANT(colock_would(store, t, 0, TEXT(name), &would) == COLOCK_OK && would.kind == kind && would.number == number);
    WANT(colock_call_number(store, 0, TEXT(name), &call) == COLOCK_OK);
    WANT(colock_would_op(store, t, 0, call, &would_op) == COLOCK_OK && would_op.kind == kind && would_op.number == number);
    if (t % 2) WANT(colock_call_op(store, 0, t, 0, call, &a) == COLOCK_OK);
    else WANT(colock_call(store, 0, t, 0, TEXT(name), &a) == COLOCK_OK);
    return a.kind == kind && a.number == number;
}

static bool keeps(colock_store *store, uint64_t number) {
    uint64_t kept = UNTOUCHED;
    return colock_kept(store, 0, &kept) == COLOCK_OK && kept == number;
}

/* 500 - 17 + 3 = 486, and without the 100 that are taken by a line of their own 386. */
static void any_amount_is_taken_and_given(colock_store *s) {
    open_purse(s, 1);
    WANT(answers(s, 0, "take:17", COLOCK_REPLY, COLOCK_OPERATION(TAKE_ANY, 17)));
    WANT(answers(s, 0, "give:3", COLOCK_REPLY, COLOCK_OPERATION(GIVE_ANY, 3)));
    WANT(answers(s, 0, "value", COLOCK_REPLY, COLOCK_OPERATION(VALUE, 486)));
    WANT(answers(s, 0, "take:100", COLOCK_REPLY, TAKE_100) && answers(s, 0, "value", COLOCK_REPLY, COLOCK_OPERATION(VALUE, 386)));
    WANT(answers(s, 0, "take:387", COLOCK_REPLY, COLOCK_OPERATION(TAKE_SHORT, 387)));
    WANT(answers(s, 0, "give:9615", COLOCK_REPLY, COLOCK_OPERATION(GIVE_FULL, 9615)));
    WANT(keeps(s, 500) && colock_commit(s, 0, 0) == COLOCK_OK && keeps(s, 386));
}

static bool is_event(const colock_event *e, uint32_t kind, uint64_t t, uint64_t op, uint64_t other) {
    return e->kind == kind && e->transaction == t && e->op == op && e->other == other && e->object == 0 && e->worker == 0 && e->reserved == 0;
}

/* What was done there, with its amounts, another purse does again; and not with an amount that isn't legal, or none. */
static void events_have_amounts(colock_store *s) {
    static const uint64_t illegal[] = {COLOCK_OPERATION(TAKE_ANY, 387), COLOCK_OPERATION(VALUE, 387), COLOCK_OPERATION(TAKE_ANY, 100), TAKE_ANY, VALUE};
    colock_store other = COLOCK_EMPTY;
    colock_event room[10];
    uint64_t count = UNTOUCHED, made = UNTOUCHED;
    WANT(colock_events(s, 0, room, 10, &count) == COLOCK_OK && count == 9);
    WANT(is_event(&room[1], COLOCK_EVENT_OP, 0, 4610, 0)); /* op 0 0 0 2 17 */
    WANT(is_event(&room[2], COLOCK_EVENT_OP, 0, COLOCK_OPERATION(GIVE_ANY, 3), 0));
    WANT(is_event(&room[3], COLOCK_EVENT_OP, 0, COLOCK_OPERATION(VALUE, 486), 0) && is_event(&room[4], COLOCK_EVENT_OP, 0, TAKE_100, 0));
    open_purse(&other, 0);
    WANT(colock_follow(&other, room, count, &made) == COLOCK_OK && made == count && keeps(&other, 386));
    WANT(begin(&other, 0) == 1);
    for (int i = 0; i < 5; i++) {
        colock_event wrong = {.transaction = 1, .kind = COLOCK_EVENT_OP, .op = illegal[i]};
        WANT(colock_follow(&other, &wrong, 1, &made) == COLOCK_NOT_MADE && made == 0);
    }
    WANT(colock_store_close(&other) == COLOCK_OK);
}

static void these_are_no_calls(colock_store *s) {
    static const char *const names[] = {"take:0", "take:007", "take:10001", "take:4294967313", "take:any", "take:", "take", "give:any", "value:500", "500"};
    /* the place alone, an amount that is listed, a second operation, a value that isn't 0, and more than there may be */
    static const uint64_t numbers[] = {
        TAKE_ANY, VALUE, COLOCK_OPERATION(TAKE_ANY, 100), COLOCK_OPERATION(TAKE_SHORT, 17), COLOCK_OPERATION(VALUE, 1),
        COLOCK_OPERATION(TAKE_ANY, 10001), COLOCK_OPERATION(TAKE_ANY, 0), COLOCK_OPERATION(TAKE_100, 100), UINT64_MAX,
    };
    colock_answer a = {UNTOUCHED, UNTOUCHED};
    uint64_t call = UNTOUCHED, t = begin(s, 0);
    for (size_t i = 0; i < sizeof names / sizeof *names; i++) {
        WANT(colock_call(s, 0, t, 0, TEXT(names[i]), &a) == COLOCK_NO_CALL && colock_would(s, t, 0, TEXT(names[i]), &a) == COLOCK_NO_CALL);
        WANT(colock_call_number(s, 0, TEXT(names[i]), &call) == COLOCK_NO_CALL && call == UNTOUCHED);
    }
    for (size_t i = 0; i < sizeof numbers / sizeof *numbers; i++) {
        WANT(colock_call_op(s, 0, t, 0, numbers[i], &a) == COLOCK_NO_CALL && colock_would_op(s, t, 0, numbers[i], &a) == COLOCK_NO_CALL);
    }
    WANT(a.kind == UNTOUCHED && a.number == UNTOUCHED);
    WANT(colock_call_number(s, 0, TEXT("take:17"), &call) == COLOCK_OK && call == COLOCK_OPERATION(TAKE_ANY, 17));
    WANT(colock_call_number(s, 0, TEXT("take:100"), &call) == COLOCK_OK && call == TAKE_100);
    WANT(colock_call_number(s, 0, TEXT("value"), &call) == COLOCK_OK && call == COLOCK_OPERATION(VALUE, 0));
    WANT(colock_abort(s, 0, t) == COLOCK_OK);
}

/* A value is read where nobody else may move the number, and then nobody may until the reader ends. */
static void a_value_waits_for_an_open_give(void) {
    colock_store s = COLOCK_EMPTY;
    colock_event room[12];
    uint64_t count = UNTOUCHED;
    open_purse(&s, 3);
    WANT(answers(&s, 0, "give:3", COLOCK_REPLY, COLOCK_OPERATION(GIVE_ANY, 3)));
    WANT(answers(&s, 1, "value", COLOCK_BUSY, 0)); /* event 4 */
    WANT(answers(&s, 1, "take:17", COLOCK_REPLY, COLOCK_OPERATION(TAKE_ANY, 17))); /* beside the give */
    WANT(colock_commit(&s, 0, 0) == COLOCK_OK && keeps(&s, 503));
    WANT(answers(&s, 1, "value", COLOCK_REPLY, COLOCK_OPERATION(VALUE, 486)));
    WANT(answers(&s, 2, "give:1", COLOCK_BUSY, 1)); /* event 8: the reader has seen 486 */
    WANT(answers(&s, 2, "value", COLOCK_BUSY, 1)); /* its take may yet be aborted */
    WANT(colock_events(&s, 0, room, 12, &count) == COLOCK_OK && count == 10);
    WANT(is_event(&room[4], COLOCK_EVENT_BUSY, 1, VALUE, 0) && is_event(&room[8], COLOCK_EVENT_BUSY, 2, GIVE_ANY, 1));
    WANT(colock_commit(&s, 0, 1) == COLOCK_OK && keeps(&s, 486));
    WANT(answers(&s, 2, "value", COLOCK_REPLY, COLOCK_OPERATION(VALUE, 486)));
    WANT(colock_store_close(&s) == COLOCK_OK);
}

int main(void) {
    colock_store s = COLOCK_EMPTY;
    an_operation_is_one_number();
    operations_have_names();
    operations_have_steps();
    any_amount_is_taken_and_given(&s);
    events_have_amounts(&s);
    these_are_no_calls(&s);
    WANT(colock_store_close(&s) == COLOCK_OK);
    a_value_waits_for_an_open_give();
    puts("amounts and values: as they have to be");
    return 0;
}
