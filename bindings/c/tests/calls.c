/* Each code of each call, but for refused memory. */
#include "want.h"

/* The structs as the library has them. */
_Static_assert(sizeof(colock_type) == 16 && offsetof(colock_type, at_) == 8, "a type");
_Static_assert(sizeof(colock_store) == 16 && offsetof(colock_store, at_) == 8, "a store");
_Static_assert(sizeof(colock_answer) == 16 && offsetof(colock_answer, number) == 8, "an answer");
_Static_assert(sizeof(colock_fault) == 40 && offsetof(colock_fault, third) == 32, "a fault");
_Static_assert(sizeof(colock_shape) == 32 && offsetof(colock_shape, kind) == 24, "a shape");
_Static_assert(sizeof(colock_outcome) == 24 && offsetof(colock_outcome, at) == 8 && offsetof(colock_outcome, number) == 16, "an outcome");
_Static_assert(sizeof(colock_event) == 40 && offsetof(colock_event, other) == 8 && offsetof(colock_event, op) == 16, "an event");
_Static_assert(offsetof(colock_event, object) == 24 && offsetof(colock_event, kind) == 28, "an event");
_Static_assert(offsetof(colock_event, worker) == 32 && offsetof(colock_event, reserved) == 36, "an event");

static const colock_fault NO_FAULT = {UNTOUCHED, UNTOUCHED, UNTOUCHED, UNTOUCHED, UNTOUCHED};

static bool is(const colock_fault *f, uint64_t line, uint64_t kind, uint64_t a, uint64_t b, uint64_t c) {
    return f->line == line && f->kind == kind && f->first == a && f->second == b && f->third == c;
}

static void a_text_has(const char *text, uint64_t line, uint64_t kind) {
    colock_type type = COLOCK_EMPTY;
    colock_fault fault = NO_FAULT;
    WANT(colock_type_read(&type, COLOCK_UNDO, TEXT(text), &fault) == COLOCK_BAD_TEXT);
    WANT(is(&fault, line, kind, 0, 0, 0));
    fault = NO_FAULT;
    WANT(colock_type_tables(&type, COLOCK_UNDO, TEXT(text), &fault) == COLOCK_BAD_TEXT);
    WANT(is(&fault, line, kind, 0, 0, 0));
    WANT(colock_type_close(&type) == COLOCK_NOT_HELD);
}

static void texts_have_faults(void) {
    char longest[300] = "#";
    memset(longest + 1, 'x', 200);
    strcpy(longest + 201, "\n");
    a_text_has("type \t\n", 1, COLOCK_NOT_ASCII);
    a_text_has(longest, 1, COLOCK_LINE_TOO_LONG);
    a_text_has("type counter", 1, COLOCK_UNTERMINATED);
    a_text_has("tipe counter\n", 1, COLOCK_UNKNOWN_WORD);
    a_text_has("type counter\nstates x\n", 2, COLOCK_BAD_NUMBER);
    a_text_has("type counter\nstates 1025\n", 2, COLOCK_OUT_OF_RANGE);
    a_text_has("type counter\ntype counter\n", 2, COLOCK_OUT_OF_ORDER);
    a_text_has("", 1, COLOCK_MISSING);
    a_text_has("type c\nstates 1\ninitial 0\nop a b\nend\nend\n", 6, COLOCK_AFTER_END);
    a_text_has("type c\nstates 1\ninitial 0\nop a b\nop a b\n", 5, COLOCK_TWICE_OP);
}

static void a_type_is_refused(const char *text, uint64_t kind, uint64_t a, uint64_t b, uint64_t c) {
    colock_type type = COLOCK_EMPTY;
    colock_fault fault = NO_FAULT;
    WANT(colock_type_read(&type, COLOCK_UNDO, TEXT(text), &fault) == COLOCK_REFUSED);
    WANT(is(&fault, 0, kind, a, b, c));
    WANT(colock_type_close(&type) == COLOCK_NOT_HELD);
}

static void types_are_refused(void) {
    static const char four[] = "type c\nstates 4\ninitial 0\nop a b\nop c d\n";
    char text[300];
    snprintf(text, sizeof text, "%sreach 1\nend\n", four);
    a_type_is_refused(text, COLOCK_INITIAL_OUTSIDE, 0, 0, 0);
    snprintf(text, sizeof text, "%sstep 0 1 1\nreach 0\nend\n", four);
    a_type_is_refused(text, COLOCK_NOT_CLOSED, 0, 1, 0);
    colock_type type = COLOCK_EMPTY;
    colock_fault fault = NO_FAULT;
    WANT(colock_type_tables(&type, COLOCK_UNDO, TEXT(text), &fault) == COLOCK_REFUSED);
    WANT(is(&fault, 0, COLOCK_NOT_CLOSED, 0, 1, 0));
    snprintf(text, sizeof text, "%sstep 0 1 0\nequi 0 2\nend\n", four);
    a_type_is_refused(text, COLOCK_NOT_SIMULATION, 0, 2, 1);
    snprintf(text, sizeof text, "%sstep 2 0 3\nstep 3 1 0\nend\n", four);
    a_type_is_refused(text, COLOCK_NOT_COMMUTING, 1, 0, 2);
}

/* A number is for escrow alone, which is said of a text without a fault. No table is made of it. */
static void a_number_needs_escrow(void) {
    colock_type type = COLOCK_EMPTY;
    colock_fault f = NO_FAULT;
    WANT(colock_type_read(&type, COLOCK_UNDO, TEXT(CENTS), &f) == COLOCK_NEEDS_ESCROW);
    WANT(colock_type_read(&type, COLOCK_INTENTIONS, TEXT(CENTS), &f) == COLOCK_NEEDS_ESCROW);
    WANT(colock_type_read(&type, 3, TEXT(CENTS), &f) == COLOCK_BAD_KIND);
    WANT(is(&f, UNTOUCHED, UNTOUCHED, UNTOUCHED, UNTOUCHED, UNTOUCHED));
    WANT(colock_type_close(&type) == COLOCK_NOT_HELD);
    WANT(colock_type_read(&type, COLOCK_UNDO, TEXT("number cents\nmax 0\n"), &f) == COLOCK_BAD_TEXT);
    WANT(is(&f, 2, COLOCK_OUT_OF_RANGE, 0, 0, 0));
    WANT(colock_type_read(&type, COLOCK_ESCROW, TEXT("number cents\nmax 5\ninitial 0\nop take ok\n"), &f) == COLOCK_BAD_TEXT);
    WANT(is(&f, 4, COLOCK_UNKNOWN_WORD, 0, 0, 0));
    WANT(colock_type_tables(&type, COLOCK_ESCROW, TEXT(CENTS), &f) == COLOCK_BAD_TEXT);
    WANT(is(&f, 1, COLOCK_UNKNOWN_WORD, 0, 0, 0));
    WANT(colock_type_read(&type, COLOCK_ESCROW, TEXT(CENTS), &f) == COLOCK_OK);
    WANT(is(&f, 1, COLOCK_UNKNOWN_WORD, 0, 0, 0));
    WANT(colock_type_read(&type, COLOCK_UNDO, TEXT(CENTS), &f) == COLOCK_IN_USE);
    WANT(colock_type_close(&type) == COLOCK_OK);
}

/* A handle of the other sort, which the library tells by what it holds. */
static colock_type *as_type(colock_store *store) {
    return (colock_type *)store;
}

static colock_store *as_store(colock_type *type) {
    return (colock_store *)type;
}

/* Each maker refuses a kind that isn't, and a handle that holds something, of whatever sort. */
static void makers_refuse(colock_type *held) {
    static const uint64_t one[] = {1};
    static const uint32_t small[] = {1};
    colock_type type = COLOCK_EMPTY;
    colock_fault f = NO_FAULT;
    WANT(colock_type_read(&type, 3, TEXT(CTR2), &f) == COLOCK_BAD_KIND);
    WANT(colock_type_tables(&type, 3, TEXT(CTR2), &f) == COLOCK_BAD_KIND);
    WANT(colock_type_account(&type, 3, 5, one, 1, &f) == COLOCK_BAD_KIND);
    WANT(colock_type_counter(&type, UINT32_MAX, 5, one, 1, &f) == COLOCK_BAD_KIND);
    WANT(colock_type_set(&type, 3, TEXT("a"), &f) == COLOCK_BAD_KIND);
    WANT(colock_type_semiqueue(&type, 3, TEXT("a"), 2, &f) == COLOCK_BAD_KIND);
    WANT(colock_type_stock(&type, 3, 5, one, 1, &f) == COLOCK_BAD_KIND);
    WANT(colock_type_queue(&type, 3, TEXT("a"), 2, &f) == COLOCK_BAD_KIND);
    WANT(colock_type_seats(&type, 3, 2, &f) == COLOCK_BAD_KIND);
    WANT(colock_type_number(&type, 3, 5, small, 1, &f) == COLOCK_BAD_KIND);
    WANT(colock_type_close(&type) == COLOCK_NOT_HELD);
    WANT(colock_type_read(held, 3, TEXT(CTR2), &f) == COLOCK_IN_USE);
    WANT(colock_type_tables(held, 0, TEXT(CTR2), &f) == COLOCK_IN_USE);
    WANT(colock_type_account(held, 0, 5, one, 1, &f) == COLOCK_IN_USE);
    WANT(colock_type_counter(held, 0, 5, one, 1, &f) == COLOCK_IN_USE);
    WANT(colock_type_set(held, 0, TEXT("a"), &f) == COLOCK_IN_USE);
    WANT(colock_type_semiqueue(held, 0, TEXT("a"), 2, &f) == COLOCK_IN_USE);
    WANT(colock_type_stock(held, 0, 5, one, 1, &f) == COLOCK_IN_USE);
    WANT(colock_type_queue(held, 0, TEXT("a"), 2, &f) == COLOCK_IN_USE);
    WANT(colock_type_seats(held, 0, 2, &f) == COLOCK_IN_USE);
    WANT(colock_type_number(held, COLOCK_ESCROW, 5, small, 1, &f) == COLOCK_IN_USE);
    WANT(colock_store_new(as_store(held)) == COLOCK_IN_USE);
    WANT(is(&f, UNTOUCHED, UNTOUCHED, UNTOUCHED, UNTOUCHED, UNTOUCHED));
}

static void families_have_ranges(void) {
    static const uint64_t down[] = {2, 1}, large[] = {(uint64_t)1 << 40}, one[] = {1};
    static const uint32_t falling[] = {2, 1}, small[] = {1};
    uint64_t many[40];
    uint32_t few[17];
    for (int i = 0; i < 40; i++) many[i] = (uint64_t)i + 1;
    for (int i = 0; i < 17; i++) few[i] = (uint32_t)i + 1;
    colock_type type = COLOCK_EMPTY;
    colock_fault f = NO_FAULT;
    WANT(colock_type_account(&type, 0, 5, down, 2, &f) == COLOCK_BAD_PARAMETER);
    WANT(colock_type_account(&type, 0, 5, one, 0, &f) == COLOCK_BAD_PARAMETER);
    WANT(colock_type_account(&type, 0, 0, one, 1, &f) == COLOCK_BAD_PARAMETER);
    WANT(colock_type_account(&type, 0, 1000, one, 1, &f) == COLOCK_TOO_LARGE);
    WANT(colock_type_counter(&type, 0, (uint64_t)1 << 40, one, 1, &f) == COLOCK_BAD_PARAMETER);
    WANT(colock_type_counter(&type, 0, 5, large, 1, &f) == COLOCK_BAD_PARAMETER);
    WANT(colock_type_counter(&type, 0, 1023, many, 40, &f) == COLOCK_TOO_LARGE);
    WANT(colock_type_set(&type, 0, TEXT("a a"), &f) == COLOCK_BAD_PARAMETER);
    WANT(colock_type_set(&type, 0, TEXT("A"), &f) == COLOCK_BAD_PARAMETER);
    WANT(colock_type_set(&type, 0, TEXT(""), &f) == COLOCK_BAD_PARAMETER);
    WANT(colock_type_set(&type, 0, TEXT("a b c d e f g h i j k"), &f) == COLOCK_TOO_LARGE);
    WANT(colock_type_semiqueue(&type, 0, TEXT("a"), 0, &f) == COLOCK_BAD_PARAMETER);
    WANT(colock_type_semiqueue(&type, 0, TEXT("a"), UINT64_MAX, &f) == COLOCK_BAD_PARAMETER);
    WANT(colock_type_semiqueue(&type, 0, TEXT("a b c"), 100, &f) == COLOCK_TOO_LARGE);
    WANT(colock_type_stock(&type, 0, 5, down, 2, &f) == COLOCK_BAD_PARAMETER);
    WANT(colock_type_stock(&type, 0, (uint64_t)1 << 40, one, 1, &f) == COLOCK_BAD_PARAMETER);
    WANT(colock_type_stock(&type, 0, 1023, many, 40, &f) == COLOCK_TOO_LARGE);
    WANT(colock_type_queue(&type, 0, TEXT("a a"), 2, &f) == COLOCK_BAD_PARAMETER);
    WANT(colock_type_queue(&type, 0, TEXT("a"), UINT64_MAX, &f) == COLOCK_BAD_PARAMETER);
    WANT(colock_type_queue(&type, 0, TEXT("a b"), 10, &f) == COLOCK_TOO_LARGE);
    WANT(colock_type_seats(&type, 0, 0, &f) == COLOCK_BAD_PARAMETER);
    WANT(colock_type_seats(&type, 0, UINT64_MAX, &f) == COLOCK_BAD_PARAMETER);
    WANT(colock_type_seats(&type, 0, 7, &f) == COLOCK_TOO_LARGE);
    WANT(colock_type_number(&type, COLOCK_ESCROW, 5, falling, 2, &f) == COLOCK_BAD_PARAMETER);
    WANT(colock_type_number(&type, COLOCK_ESCROW, 5, small, 0, &f) == COLOCK_BAD_PARAMETER);
    WANT(colock_type_number(&type, COLOCK_ESCROW, 0, small, 1, &f) == COLOCK_BAD_PARAMETER);
    WANT(colock_type_number(&type, COLOCK_ESCROW, 16, few, 17, &f) == COLOCK_BAD_PARAMETER);
    WANT(colock_type_number(&type, COLOCK_ESCROW, UINT32_MAX, few, 17, &f) == COLOCK_TOO_LARGE);
    WANT(colock_type_number(&type, COLOCK_UNDO, 5, falling, 2, &f) == COLOCK_BAD_PARAMETER);
    WANT(colock_type_number(&type, COLOCK_UNDO, 5, small, 1, &f) == COLOCK_NEEDS_ESCROW);
    WANT(colock_type_number(&type, COLOCK_INTENTIONS, 5, small, 1, &f) == COLOCK_NEEDS_ESCROW);
    WANT(is(&f, UNTOUCHED, UNTOUCHED, UNTOUCHED, UNTOUCHED, UNTOUCHED));
    WANT(colock_type_close(&type) == COLOCK_NOT_HELD);
}

static bool is_named(uint32_t code, const char *room, const uint64_t *count, const char *name) {
    return code == COLOCK_OK && *count == strlen(name) && !memcmp(room, name, *count) && room[*count] == '!';
}

static void a_type_is_read(void) {
    static const uint64_t amounts[] = {1, 2};
    colock_type type = COLOCK_EMPTY;
    colock_fault fault = NO_FAULT;
    colock_shape shape = {UNTOUCHED, UNTOUCHED, UNTOUCHED, UNTOUCHED};
    char room[COLOCK_LONGEST_NAME + 1];
    uint64_t count = UNTOUCHED, to = UNTOUCHED;
    uint32_t told = UNTOUCHED;
    memset(room, '!', sizeof room);
    WANT(colock_type_account(&type, COLOCK_INTENTIONS, 5, amounts, 2, &fault) == COLOCK_OK);
    WANT(colock_type_shape(&type, &shape) == COLOCK_OK);
    WANT(shape.states == 6 && shape.initial == 0 && shape.ops == 14 && shape.kind == COLOCK_INTENTIONS);
    WANT(colock_type_name(&type, room, 6, &count) == COLOCK_NO_ROOM && count == UNTOUCHED && room[0] == '!');
    WANT(is_named(colock_type_name(&type, room, 7, &count), room, &count, "account"));
    memset(room, '!', sizeof room);
    WANT(colock_type_call(&type, 14, room, 32, &count) == COLOCK_NO_OPERATION);
    WANT(colock_type_call(&type, (uint64_t)1 << 32, room, 32, &count) == COLOCK_NO_OPERATION);
    WANT(colock_type_call(&type, 3, room, 9, &count) == COLOCK_NO_ROOM && room[0] == '!' && count == 7);
    WANT(is_named(colock_type_call(&type, 3, room, 32, &count), room, &count, "withdraw:1"));
    memset(room, '!', sizeof room);
    WANT(colock_type_reply(&type, 14, room, 32, &count) == COLOCK_NO_OPERATION);
    WANT(colock_type_reply(&type, 3, room, 0, &count) == COLOCK_NO_ROOM && room[0] == '!');
    WANT(is_named(colock_type_reply(&type, 3, room, 32, &count), room, &count, "short"));
    WANT(colock_type_step(&type, 6, 0, &to) == COLOCK_NO_STATE);
    WANT(colock_type_step(&type, 65536, 0, &to) == COLOCK_NO_STATE);
    WANT(colock_type_step(&type, 0, 14, &to) == COLOCK_NO_OPERATION);
    WANT(colock_type_step(&type, 0, 256, &to) == COLOCK_NO_OPERATION);
    WANT(colock_type_step(&type, 0, 2, &to) == COLOCK_NOT_LEGAL && to == UNTOUCHED);
    WANT(colock_type_step(&type, 1, 4, &to) == COLOCK_OK && to == 3);
    WANT(colock_type_conflict(&type, 14, 0, &told) == COLOCK_NO_OPERATION);
    WANT(colock_type_conflict(&type, 0, 14, &told) == COLOCK_NO_OPERATION && told == UNTOUCHED);
    WANT(colock_type_conflict(&type, 2, 2, &told) == COLOCK_OK && told == 1);
    WANT(colock_type_conflict(&type, 3, 3, &told) == COLOCK_OK && told == 0);
    makers_refuse(&type);
    WANT(colock_type_close(&type) == COLOCK_OK && colock_type_close(&type) == COLOCK_NOT_HELD);
}

/* A text without tables is refused, and accepted with made ones. */
static void tables_are_made(void) {
    static const char text[] = "type up\nstates 2\ninitial 0\nop inc ok\nop inc full\nstep 0 0 1\nstep 1 1 1\nend\n";
    colock_type type = COLOCK_EMPTY;
    colock_fault fault = NO_FAULT;
    uint32_t told = UNTOUCHED;
    WANT(colock_type_read(&type, COLOCK_UNDO, TEXT(text), &fault) == COLOCK_REFUSED);
    WANT(colock_type_tables(&type, COLOCK_UNDO, TEXT(text), &fault) == COLOCK_OK);
    WANT(colock_type_conflict(&type, 1, 0, &told) == COLOCK_OK && told == 1);
    WANT(colock_type_conflict(&type, 1, 1, &told) == COLOCK_OK && told == 0);
    WANT(colock_type_close(&type) == COLOCK_OK);
}

/* What is read of a type isn't read of a handle that holds none. */
static void is_no_type(colock_type *handle) {
    colock_shape shape = {UNTOUCHED, 0, 0, 0};
    char room[32] = "!";
    uint64_t count = UNTOUCHED;
    uint32_t told = UNTOUCHED;
    WANT(colock_type_shape(handle, &shape) == COLOCK_NOT_HELD && shape.states == UNTOUCHED);
    WANT(colock_type_name(handle, room, 32, &count) == COLOCK_NOT_HELD);
    WANT(colock_type_call(handle, 0, room, 32, &count) == COLOCK_NOT_HELD);
    WANT(colock_type_reply(handle, 0, room, 32, &count) == COLOCK_NOT_HELD);
    WANT(colock_type_step(handle, 0, 0, &count) == COLOCK_NOT_HELD);
    WANT(colock_type_conflict(handle, 0, 0, &told) == COLOCK_NOT_HELD);
    WANT(room[0] == '!' && count == UNTOUCHED && told == UNTOUCHED);
}

/* Nor is any call of a store made at one that holds none. */
static void is_no_store(colock_store *handle) {
    uint64_t n = UNTOUCHED, m = UNTOUCHED;
    uint64_t call = UNTOUCHED;
    colock_answer answer = {UNTOUCHED, UNTOUCHED};
    colock_event event = {.kind = UNTOUCHED};
    colock_outcome outcome = {UNTOUCHED, UNTOUCHED, UNTOUCHED};
    WANT(colock_begin(handle, 0, &n) == COLOCK_NOT_HELD);
    WANT(colock_call(handle, 0, 0, 0, TEXT("inc:1"), &answer) == COLOCK_NOT_HELD);
    WANT(colock_call_op(handle, 0, 0, 0, 0, &answer) == COLOCK_NOT_HELD);
    WANT(colock_call_number(handle, 0, TEXT("inc:1"), &call) == COLOCK_NOT_HELD);
    WANT(colock_would(handle, 0, 0, TEXT("inc:1"), &answer) == COLOCK_NOT_HELD);
    WANT(colock_would_op(handle, 0, 0, 0, &answer) == COLOCK_NOT_HELD);
    WANT(colock_attempt(handle, 0, &(uint32_t){0}, 1, TEXT("inc:1"), &n, 1, &outcome) == COLOCK_NOT_HELD);
    WANT(colock_attempt(handle, 0, NULL, 0, TEXT("inc:1"), NULL, 0, &outcome) == COLOCK_NOT_HELD);
    WANT(colock_attempt_op(handle, 0, &(uint32_t){0}, 1, &(uint64_t){0}, 1, &n, 1, &outcome) == COLOCK_NOT_HELD);
    WANT(colock_attempt_op(handle, 0, NULL, 0, &(uint64_t){0}, 1, NULL, 0, &outcome) == COLOCK_NOT_HELD);
    WANT(colock_commit(handle, 0, 0) == COLOCK_NOT_HELD);
    WANT(colock_abort(handle, 0, 0) == COLOCK_NOT_HELD);
    WANT(colock_rollback(handle, 0, 0, 1) == COLOCK_NOT_HELD);
    WANT(colock_kept(handle, 0, &n) == COLOCK_NOT_HELD);
    WANT(colock_open_count(handle, &n) == COLOCK_NOT_HELD);
    WANT(colock_abort_all(handle) == COLOCK_NOT_HELD);
    WANT(colock_peek(handle, 0, TEXT("inc:1"), &answer, &n) == COLOCK_NOT_HELD);
    WANT(colock_committed(handle, 0, &n, &m) == COLOCK_NOT_HELD);
    WANT(colock_snapshot(handle, &n, 1, &m) == COLOCK_NOT_HELD && colock_snapshot(handle, NULL, 0, &m) == COLOCK_NOT_HELD);
    WANT(colock_commit_count(handle, &n) == COLOCK_NOT_HELD);
    WANT(colock_events(handle, 0, &event, 1, &n) == COLOCK_NOT_HELD);
    WANT(colock_event_count(handle, &n, &m) == COLOCK_NOT_HELD);
    WANT(colock_forget(handle, 1) == COLOCK_NOT_HELD);
    WANT(colock_follow(handle, &event, 0, &n) == COLOCK_NOT_HELD);
    WANT(colock_renew(handle) == COLOCK_NOT_HELD);
    WANT(n == UNTOUCHED && m == UNTOUCHED && call == UNTOUCHED && event.kind == UNTOUCHED);
    WANT(answer.kind == UNTOUCHED && answer.number == UNTOUCHED);
    WANT(outcome.kind == UNTOUCHED && outcome.at == UNTOUCHED && outcome.number == UNTOUCHED);
}

static void a_store_is_made(void) {
    colock_store store = COLOCK_EMPTY, none = COLOCK_EMPTY;
    colock_type type = COLOCK_EMPTY;
    colock_fault fault = NO_FAULT;
    WANT(colock_type_read(&type, COLOCK_UNDO, TEXT(CTR2), &fault) == COLOCK_OK);
    is_no_type(as_type(&store)), is_no_store(&store), is_no_store(as_store(&type));
    WANT(colock_store_add(&store, &type) == COLOCK_NOT_HELD);
    WANT(colock_store_open(&store, 9) == COLOCK_NOT_HELD && colock_store_open(as_store(&type), 9) == COLOCK_NOT_HELD);
    WANT(colock_store_new(&store) == COLOCK_OK);
    makers_refuse(as_type(&store)), is_no_type(as_type(&store)), is_no_store(&store);
    WANT(colock_store_add(&store, as_type(&none)) == COLOCK_NOT_HELD && colock_store_add(as_store(&type), as_type(&store)) == COLOCK_NOT_HELD);
    WANT(colock_store_open(&store, 9) == COLOCK_NO_OBJECTS);
    WANT(colock_store_add(&store, &type) == COLOCK_OK && colock_store_add(&store, &type) == COLOCK_OK);
    WANT(colock_store_open(&store, 0) == COLOCK_BAD_MAX && colock_store_open(&store, 1) == COLOCK_BAD_MAX);
    WANT(colock_store_open(&store, (uint64_t)1 << 32) == COLOCK_BAD_MAX);
    WANT(colock_store_open(&store, UINT64_MAX) == COLOCK_BAD_MAX);
    WANT(colock_store_open(&store, UINT32_MAX) == COLOCK_OK);
    makers_refuse(as_type(&store)), is_no_type(as_type(&store));
    WANT(colock_store_open(&store, 9) == COLOCK_NOT_HELD && colock_store_add(&store, &type) == COLOCK_NOT_HELD);
    WANT(colock_store_new(&none) == COLOCK_OK && colock_store_add(&none, as_type(&store)) == COLOCK_NOT_HELD);
    WANT(colock_store_close(&none) == COLOCK_OK && colock_type_close(&type) == COLOCK_OK);
    WANT(begin(&store, 0) == 0); /* the type is still in it */
    WANT(colock_store_close(&store) == COLOCK_OK && colock_store_close(&store) == COLOCK_NOT_HELD);
    is_no_type(as_type(&store)), is_no_store(&store);
    open_counters(&store, 1, 9); /* the handle may be used again */
    WANT(begin(&store, 0) == 0 && colock_store_close(&store) == COLOCK_OK);
}

/* A store with limits of its own, which is refused by the first reason that holds. */
static void limits_have_ranges(void) {
    static const uint64_t events[] = {0, 1, (uint64_t)1 << 32, UINT64_MAX};
    static const uint32_t others[] = {0, 65537, UINT32_MAX};
    colock_store store = COLOCK_EMPTY;
    colock_type type = COLOCK_EMPTY;
    colock_fault fault = NO_FAULT;
    WANT(colock_type_read(&type, COLOCK_UNDO, TEXT(CTR2), &fault) == COLOCK_OK);
    WANT(colock_store_open_with(&store, 9, 1, 1) == COLOCK_NOT_HELD && colock_store_open_with(as_store(&type), 9, 1, 1) == COLOCK_NOT_HELD);
    WANT(colock_store_new(&store) == COLOCK_OK && colock_store_open_with(&store, 0, 0, 0) == COLOCK_NO_OBJECTS);
    WANT(colock_store_add(&store, &type) == COLOCK_OK && colock_store_add(&store, &type) == COLOCK_OK);
    for (uint32_t objects = 0; objects < 2; objects++) {
        WANT(colock_store_open_with(&store, 9, 1, objects) == COLOCK_TOO_MANY_OBJECTS);
        WANT(colock_store_open_with(&store, 0, 0, objects) == COLOCK_TOO_MANY_OBJECTS);
    }
    for (int i = 0; i < 4; i++) WANT(colock_store_open_with(&store, events[i], 1, 2) == COLOCK_BAD_MAX);
    for (int i = 0; i < 3; i++) WANT(colock_store_open_with(&store, 9, others[i], 2) == COLOCK_BAD_MAX);
    for (int i = 1; i < 3; i++) WANT(colock_store_open_with(&store, 9, 1, others[i]) == COLOCK_BAD_MAX);
    is_no_store(&store);
    WANT(colock_store_open_with(&store, 2, 1, 2) == COLOCK_OK && colock_store_open_with(&store, 2, 1, 2) == COLOCK_NOT_HELD);
    WANT(begin(&store, 0) == 0 && colock_commit(&store, 0, 0) == COLOCK_OK && colock_store_close(&store) == COLOCK_OK);
    add_counters(&store, 1);
    WANT(colock_store_open_with(&store, UINT32_MAX, 65536, 65536) == COLOCK_OK && begin(&store, 0) == 0);
    WANT(colock_store_close(&store) == COLOCK_OK && colock_type_close(&type) == COLOCK_OK);
}

static bool is_told(uint32_t code, const colock_answer *answer, uint64_t kind, uint64_t number) {
    return code == COLOCK_OK && answer->kind == kind && answer->number == number;
}

static void calls_are_answered(colock_store *s) {
    colock_answer a = {UNTOUCHED, UNTOUCHED};
    uint64_t c = UNTOUCHED;
    WANT(begin(s, 3) == 0 && begin(s, 4) == 1);
    WANT(is_told(colock_would(s, 0, 0, TEXT("inc:1"), &a), &a, COLOCK_REPLY, 0));
    WANT(is_told(colock_call(s, 3, 0, 0, TEXT("inc:1"), &a), &a, COLOCK_REPLY, 0));
    WANT(is_told(colock_would_op(s, 1, 0, 1, &a), &a, COLOCK_BUSY, 0));
    WANT(is_told(colock_call(s, 4, 1, 0, TEXT("dec:1"), &a), &a, COLOCK_BUSY, 0));
    WANT(colock_call_number(s, 0, TEXT("dec:1"), &c) == COLOCK_OK && c == 1);
    WANT(colock_call_number(s, 0, TEXT("dec:2"), &c) == COLOCK_NO_CALL);
    WANT(colock_call_number(s, 0, TEXT(""), &c) == COLOCK_NO_CALL);
    WANT(colock_call_number(s, 2, TEXT("dec:1"), &c) == COLOCK_NO_OBJECT && c == 1);
    WANT(is_told(colock_call_op(s, 4, 1, 1, 1, &a), &a, COLOCK_NONE, 0));
    WANT(is_told(colock_would(s, 1, 1, TEXT("dec:1"), &a), &a, COLOCK_NONE, 0));
}

static void calls_are_refused(colock_store *s) {
    colock_answer a = {UNTOUCHED, UNTOUCHED};
    static const uint64_t none[] = {2, (uint64_t)1 << 32, UINT64_MAX};
    for (int i = 0; i < 3; i++) {
        WANT(colock_call(s, 0, none[i], 0, TEXT("inc:1"), &a) == COLOCK_NOT_OPEN);
        WANT(colock_call_op(s, 0, none[i], 0, 0, &a) == COLOCK_NOT_OPEN);
        WANT(colock_would(s, none[i], 0, TEXT("inc:1"), &a) == COLOCK_NOT_OPEN);
        WANT(colock_would_op(s, none[i], 0, 0, &a) == COLOCK_NOT_OPEN);
        WANT(colock_commit(s, 0, none[i]) == COLOCK_NOT_OPEN && colock_abort(s, 0, none[i]) == COLOCK_NOT_OPEN);
        WANT(colock_rollback(s, 0, none[i], 1) == COLOCK_NOT_OPEN);
    }
    WANT(colock_call(s, 3, 0, 2, TEXT("inc:1"), &a) == COLOCK_NO_OBJECT);
    WANT(colock_call_op(s, 3, 0, UINT32_MAX, 0, &a) == COLOCK_NO_OBJECT);
    WANT(colock_would(s, 0, 2, TEXT("inc:1"), &a) == COLOCK_NO_OBJECT);
    WANT(colock_would_op(s, 0, 2, 0, &a) == COLOCK_NO_OBJECT);
    WANT(colock_call(s, 3, 0, 0, TEXT("inc"), &a) == COLOCK_NO_CALL);
    WANT(colock_call_op(s, 3, 0, 0, 2, &a) == COLOCK_NO_CALL);
    WANT(colock_would(s, 0, 0, TEXT("inc:10"), &a) == COLOCK_NO_CALL);
    static const uint64_t no_call[] = {255, 256, COLOCK_OPERATION(0, 1), COLOCK_OPERATION(255, UINT32_MAX), COLOCK_OPERATION(255, UINT32_MAX) + 1, UINT64_MAX};
    for (int i = 0; i < 6; i++) {
        WANT(colock_call_op(s, 3, 0, 0, no_call[i], &a) == COLOCK_NO_CALL && colock_would_op(s, 0, 0, no_call[i], &a) == COLOCK_NO_CALL);
        WANT(colock_call_op(s, 3, 0, 2, no_call[i], &a) == COLOCK_NO_OBJECT && colock_would_op(s, 2, 0, no_call[i], &a) == COLOCK_NOT_OPEN);
    }
    WANT(a.kind == UNTOUCHED && a.number == UNTOUCHED);
}

static void transactions_end(colock_store *s) {
    uint64_t n = UNTOUCHED;
    WANT(colock_rollback(s, 3, 0, 0) == COLOCK_BAD_ROLLBACK && colock_rollback(s, 3, 0, 2) == COLOCK_BAD_ROLLBACK);
    WANT(colock_rollback(s, 3, 0, ((uint64_t)1 << 32) + 1) == COLOCK_BAD_ROLLBACK);
    WANT(colock_kept(s, 0, &n) == COLOCK_OK && n == 1);
    WANT(colock_rollback(s, 3, 0, 1) == COLOCK_OK);
    WANT(colock_kept(s, 0, &n) == COLOCK_OK && n == 0 && colock_kept(s, 2, &n) == COLOCK_NO_OBJECT);
    WANT(colock_open_count(s, &n) == COLOCK_OK && n == 2);
    WANT(colock_commit(s, 3, 0) == COLOCK_OK && colock_commit(s, 3, 0) == COLOCK_NOT_OPEN);
    WANT(colock_abort(s, 4, 1) == COLOCK_OK && colock_abort(s, 4, 1) == COLOCK_NOT_OPEN);
    WANT(begin(s, 5) == 2 && begin(s, 6) == 3 && colock_abort_all(s) == COLOCK_OK);
    WANT(colock_open_count(s, &n) == COLOCK_OK && n == 0 && colock_abort_all(s) == COLOCK_OK);
}

static bool is_event(const colock_event *e, uint32_t kind, uint32_t worker, uint64_t t, uint32_t x, uint64_t op, uint64_t other) {
    return e->kind == kind && e->worker == worker && e->transaction == t && e->object == x && e->op == op && e->other == other && e->reserved == 0;
}

static void events_are_copied(colock_store *s, colock_event room[16]) {
    uint64_t count = UNTOUCHED, forgotten = UNTOUCHED;
    memset(room, 0x55, 16 * sizeof *room);
    WANT(colock_events(s, 0, room, 16, &count) == COLOCK_OK && count == 12 && room[12].kind == 0x55555555);
    WANT(is_event(&room[0], COLOCK_EVENT_BEGIN, 3, 0, 0, 0, 0) && is_event(&room[1], COLOCK_EVENT_BEGIN, 4, 1, 0, 0, 0));
    WANT(is_event(&room[2], COLOCK_EVENT_OP, 3, 0, 0, 0, 0) && is_event(&room[3], COLOCK_EVENT_BUSY, 4, 1, 0, 1, 0));
    WANT(is_event(&room[4], COLOCK_EVENT_NONE, 4, 1, 1, 1, 0) && is_event(&room[5], COLOCK_EVENT_ROLLBACK, 3, 0, 0, 0, 1));
    WANT(is_event(&room[6], COLOCK_EVENT_COMMIT, 3, 0, 0, 0, 0) && is_event(&room[7], COLOCK_EVENT_ABORT, 4, 1, 0, 0, 0));
    WANT(is_event(&room[10], COLOCK_EVENT_ABORT, 5, 2, 0, 0, 0) && is_event(&room[11], COLOCK_EVENT_ABORT, 6, 3, 0, 0, 0));
    colock_event two[3];
    memset(two, 0x55, sizeof two);
    WANT(colock_events(s, 6, two, 2, &count) == COLOCK_OK && count == 2 && two[2].kind == 0x55555555);
    WANT(two[0].kind == COLOCK_EVENT_COMMIT && two[1].kind == COLOCK_EVENT_ABORT);
    WANT(colock_events(s, 12, two, 2, &count) == COLOCK_OK && count == 0);
    WANT(colock_events(s, UINT64_MAX, two, 2, &count) == COLOCK_OK && count == 0);
    WANT(colock_forget(s, 5) == COLOCK_OK && colock_events(s, 4, two, 2, &count) == COLOCK_FORGOTTEN && count == 0);
    WANT(colock_events(s, 5, two, 1, &count) == COLOCK_OK && count == 1 && two[0].kind == COLOCK_EVENT_ROLLBACK);
    WANT(colock_event_count(s, &count, &forgotten) == COLOCK_OK && count == 12 && forgotten == 5);
    WANT(colock_forget(s, UINT64_MAX) == COLOCK_OK);
    WANT(colock_event_count(s, &count, &forgotten) == COLOCK_OK && count == 12 && forgotten == 12);
}

static void events_are_followed(colock_event room[16]) {
    colock_store s = COLOCK_EMPTY;
    uint64_t made = UNTOUCHED, kept = UNTOUCHED;
    open_counters(&s, 2, 40);
    WANT(colock_follow(&s, room, 3, &made) == COLOCK_OK && made == 3);
    WANT(colock_kept(&s, 0, &kept) == COLOCK_OK && kept == 1);
    WANT(colock_follow(&s, room + 2, 10, &made) == COLOCK_OK && made == 10); /* the same operation once more */
    WANT(colock_follow(&s, room + 6, 1, &made) == COLOCK_NOT_MADE && made == 0);
    colock_event begins[3] = {{.transaction = 4}, {.transaction = 5, .reserved = 9}, {.transaction = 7}};
    WANT(colock_follow(&s, begins, 3, &made) == COLOCK_NOT_MADE && made == 2);
    colock_event wrong[7] = {
        {.transaction = 6, .kind = 7},
        {.transaction = 6, .worker = 256},
        {.transaction = ((uint64_t)1 << 32) + 6},
        {.transaction = 4, .kind = COLOCK_EVENT_OP, .op = 256}, /* the first operation with the amount 0 */
        {.transaction = 4, .kind = COLOCK_EVENT_OP, .op = UINT64_MAX},
        {.transaction = 4, .kind = COLOCK_EVENT_BUSY, .op = 256},
        {.transaction = 4, .kind = COLOCK_EVENT_NONE, .op = 257, .object = 1},
    };
    for (int i = 0; i < 7; i++) WANT(colock_follow(&s, wrong + i, 1, &made) == COLOCK_NOT_MADE && made == 0);
    WANT(colock_follow(&s, wrong, 0, &made) == COLOCK_OK && made == 0);
    WANT(colock_store_close(&s) == COLOCK_OK);
}

static void a_store_begins_anew(colock_store *s) {
    uint64_t n = UNTOUCHED, forgotten = UNTOUCHED;
    colock_answer a;
    WANT(begin(s, 0) == 4 && colock_call_op(s, 0, 4, 1, 0, &a) == COLOCK_OK && colock_commit(s, 0, 4) == COLOCK_OK);
    WANT(colock_renew(s) == COLOCK_OK && colock_event_count(s, &n, &forgotten) == COLOCK_OK && n == 0 && forgotten == 0);
    WANT(colock_kept(s, 1, &n) == COLOCK_OK && n == 1 && begin(s, 0) == 0);
}

/* How many objects a store has that was begun. It is opened for that where it has any. */
static uint32_t objects_of(colock_store *added) {
    uint32_t count = 0;
    uint64_t kept;
    if (colock_store_open(added, 9) == COLOCK_NO_OBJECTS) return 0;
    while (colock_kept(added, count, &kept) == COLOCK_OK) count++;
    return count;
}

/* Whether the objects keep these states, and there are no more of them. */
static bool keep(colock_store *store, const uint64_t *states, uint32_t count) {
    uint64_t kept;
    for (uint32_t x = 0; x < count; x++)
        if (colock_kept(store, x, &kept) != COLOCK_OK || kept != states[x]) return false;
    return colock_kept(store, count, &kept) == COLOCK_NO_OBJECT;
}

/* Who isn't asked with a store and with objects of one changes neither. */
static void only_a_store_is_extended(void) {
    colock_store store = COLOCK_EMPTY, other = COLOCK_EMPTY, added = COLOCK_EMPTY, none = COLOCK_EMPTY;
    colock_type type = COLOCK_EMPTY;
    colock_fault fault = NO_FAULT;
    uint64_t n = UNTOUCHED;
    open_counters(&store, 2, 100), open_counters(&other, 1, 100), add_counters(&added, 3);
    WANT(colock_type_read(&type, COLOCK_UNDO, TEXT(CTR2), &fault) == COLOCK_OK && begin(&other, 0) == 0);
    WANT(colock_store_extend(&none, &added) == COLOCK_NOT_HELD && colock_store_extend(as_store(&type), &added) == COLOCK_NOT_HELD);
    WANT(colock_store_extend(&store, &none) == COLOCK_NOT_HELD && colock_store_extend(&store, as_store(&type)) == COLOCK_NOT_HELD);
    WANT(colock_store_extend(&store, &other) == COLOCK_NOT_HELD && colock_store_extend(&added, &other) == COLOCK_NOT_HELD);
    WANT(colock_store_extend(&none, as_store(&type)) == COLOCK_NOT_HELD && colock_commit(&other, 0, 0) == COLOCK_OK);
    WANT(colock_kept(&store, 1, &n) == COLOCK_OK && colock_kept(&store, 2, &n) == COLOCK_NO_OBJECT);
    WANT(colock_store_close(&none) == COLOCK_NOT_HELD && colock_type_close(&type) == COLOCK_OK && objects_of(&added) == 3);
    WANT(colock_store_close(&store) == COLOCK_OK && colock_store_close(&other) == COLOCK_OK && colock_store_close(&added) == COLOCK_OK);
}

/* Those that there are keep their states, and those that are added begin at those of their types. */
static void a_store_is_extended(void) {
    static const uint64_t extended[] = {0, 1, 3, 3}, at_last[] = {0, 0, 3, 1};
    colock_store store = COLOCK_EMPTY, added = COLOCK_EMPTY;
    colock_type five = COLOCK_EMPTY;
    colock_fault fault = NO_FAULT;
    colock_answer a;
    uint64_t n = UNTOUCHED, forgotten = UNTOUCHED;
    open_counters(&store, 2, 100), add_counters(&added, 1);
    WANT(begin(&store, 0) == 0 && colock_call(&store, 0, 0, 1, TEXT("inc:1"), &a) == COLOCK_OK);
    WANT(colock_store_extend(&store, &added) == COLOCK_STILL_OPEN && objects_of(&added) == 0); /* they were taken */
    WANT(colock_kept(&store, 2, &n) == COLOCK_NO_OBJECT && colock_event_count(&store, &n, &forgotten) == COLOCK_OK && n == 2);
    WANT(colock_commit(&store, 0, 0) == COLOCK_OK && colock_forget(&store, 1) == COLOCK_OK);
    WANT(colock_type_read(&five, COLOCK_ESCROW, TEXT(FIVE), &fault) == COLOCK_OK);
    WANT(colock_store_add(&added, &five) == COLOCK_OK && colock_store_add(&added, &five) == COLOCK_OK);
    WANT(colock_type_close(&five) == COLOCK_OK && colock_store_extend(&store, &added) == COLOCK_OK);
    WANT(colock_event_count(&store, &n, &forgotten) == COLOCK_OK && n == 0 && forgotten == 0);
    WANT(keep(&store, extended, 4) && begin(&store, 5) == 0);
    WANT(is_told(colock_call(&store, 5, 0, 3, TEXT("take:2"), &a), &a, COLOCK_REPLY, 1));
    WANT(is_told(colock_call(&store, 5, 0, 1, TEXT("dec:1"), &a), &a, COLOCK_REPLY, 1) && colock_commit(&store, 5, 0) == COLOCK_OK);
    WANT(colock_store_extend(&store, &added) == COLOCK_OK); /* with none it begins anew */
    WANT(keep(&store, at_last, 4) && objects_of(&added) == 0 && colock_store_close(&added) == COLOCK_OK && colock_store_close(&store) == COLOCK_OK);
}

static void a_store_is_used(void) {
    colock_store store = COLOCK_EMPTY;
    colock_event room[16];
    open_counters(&store, 2, 100);
    calls_are_answered(&store);
    calls_are_refused(&store);
    transactions_end(&store);
    events_are_copied(&store, room);
    events_are_followed(room);
    a_store_begins_anew(&store);
    WANT(colock_store_close(&store) == COLOCK_OK);
}

/* From the text of a type to the close of all. */
static void a_store_is_made_and_closed(void) {
    static const char text[] = "type up\nstates 2\ninitial 0\nop inc ok\nstep 0 0 1\nconflict undo 0 0\nend\n";
    colock_type up = COLOCK_EMPTY;
    colock_store store = COLOCK_EMPTY;
    colock_fault fault = NO_FAULT;
    colock_answer a = {UNTOUCHED, UNTOUCHED};
    WANT(colock_type_read(&up, COLOCK_UNDO, TEXT("tipe\n"), &fault) == COLOCK_BAD_TEXT && fault.line == 1);
    WANT(colock_type_read(&up, COLOCK_UNDO, TEXT(text), &fault) == COLOCK_OK);
    WANT(colock_store_new(&store) == COLOCK_OK && colock_store_add(&store, &up) == COLOCK_OK);
    WANT(colock_store_open(&store, 9) == COLOCK_OK && begin(&store, 0) == 0);
    WANT(is_told(colock_call(&store, 0, 0, 0, TEXT("inc"), &a), &a, COLOCK_REPLY, 0));
    WANT(colock_commit(&store, 0, 0) == COLOCK_OK && colock_commit(&store, 0, 0) == COLOCK_NOT_OPEN);
    WANT(colock_commit(&store, 0, (uint64_t)1 << 40) == COLOCK_NOT_OPEN);
    WANT(colock_store_close(&store) == COLOCK_OK && colock_store_close(&store) == COLOCK_NOT_HELD);
    WANT(colock_type_close(&up) == COLOCK_OK);
}

static void open_store_of(colock_store *store, colock_type *type) {
    WANT(colock_store_new(store) == COLOCK_OK && colock_store_add(store, type) == COLOCK_OK);
    WANT(colock_store_open(store, 10) == COLOCK_OK);
}

/* What one store did, another of the same type does again, up to what is no event. */
static void events_cross_and_are_made_again(void) {
    static const uint64_t amounts[] = {1, (uint64_t)1 << 40};
    colock_type counter = COLOCK_EMPTY;
    colock_store store = COLOCK_EMPTY, other = COLOCK_EMPTY;
    colock_fault fault = NO_FAULT;
    colock_answer a = {UNTOUCHED, UNTOUCHED};
    colock_event room[3] = {{0}, {0}, {.transaction = 9, .other = 9, .op = 9, .object = 9, .kind = 9, .worker = 9}};
    uint64_t count = UNTOUCHED;
    WANT(colock_type_counter(&counter, COLOCK_UNDO, 5, amounts, 2, &fault) == COLOCK_BAD_PARAMETER);
    WANT(colock_type_counter(&counter, COLOCK_UNDO, 5, amounts, 1, &fault) == COLOCK_OK);
    open_store_of(&store, &counter), open_store_of(&other, &counter);
    WANT(begin(&store, 3) == 0 && colock_call(&store, 3, 0, 0, TEXT("inc:1"), &a) == COLOCK_OK);
    WANT(colock_events(&store, 0, room, 3, &count) == COLOCK_OK && count == 2);
    WANT(is_event(&room[1], COLOCK_EVENT_OP, 3, 0, 0, 0, 0) && is_event(&room[2], 9, 9, 9, 9, 9, 9));
    WANT(colock_follow(&other, room, 3, &count) == COLOCK_NOT_MADE && count == 2);
    WANT(colock_renew(&other) == COLOCK_OK && colock_kept(&other, 0, &count) == COLOCK_OK && count == 1);
    WANT(colock_store_close(&store) == COLOCK_OK && colock_store_close(&other) == COLOCK_OK && colock_type_close(&counter) == COLOCK_OK);
}

/* Types without a text, an element or an amount: no pointer is needed where the count is 0. */
static void types_of_nothing(void) {
    colock_type type = COLOCK_EMPTY;
    colock_fault fault = NO_FAULT;
    WANT(colock_type_read(&type, COLOCK_UNDO, NULL, 0, &fault) == COLOCK_BAD_TEXT && fault.line == 1 && fault.kind == COLOCK_MISSING);
    WANT(colock_type_tables(&type, COLOCK_UNDO, NULL, 0, &fault) == COLOCK_BAD_TEXT);
    WANT(colock_type_account(&type, COLOCK_UNDO, 5, NULL, 0, &fault) == colock_type_account(&type, COLOCK_UNDO, 5, &(uint64_t){0}, 0, &fault));
    WANT(colock_type_counter(&type, COLOCK_UNDO, 5, NULL, 0, &fault) == COLOCK_BAD_PARAMETER);
    WANT(colock_type_stock(&type, COLOCK_UNDO, 5, NULL, 0, &fault) == COLOCK_BAD_PARAMETER);
    WANT(colock_type_number(&type, COLOCK_ESCROW, 5, NULL, 0, &fault) == COLOCK_BAD_PARAMETER);
    WANT(colock_type_set(&type, COLOCK_UNDO, NULL, 0, &fault) == COLOCK_BAD_PARAMETER);
    WANT(colock_type_semiqueue(&type, COLOCK_UNDO, NULL, 0, 1, &fault) == COLOCK_BAD_PARAMETER);
    WANT(colock_type_queue(&type, COLOCK_UNDO, NULL, 0, 1, &fault) == COLOCK_BAD_PARAMETER);
    WANT(colock_type_close(&type) == COLOCK_NOT_HELD);
}

/* Nor is it for rooms, names and events; those who call by an address say where it is. */
static void calls_of_nothing(void) {
    colock_type type = COLOCK_EMPTY;
    colock_store store = COLOCK_EMPTY;
    colock_fault fault = NO_FAULT;
    colock_answer answer = {UNTOUCHED, UNTOUCHED};
    uint64_t count = UNTOUCHED;
    uint32_t (*by_address)(colock_store *, uint32_t, const char *, size_t, uint64_t *) = colock_call_number;
    WANT(colock_type_read(&type, COLOCK_UNDO, TEXT(CTR2), &fault) == COLOCK_OK);
    WANT(colock_type_name(&type, NULL, 0, &count) == COLOCK_NO_ROOM && colock_type_call(&type, 0, NULL, 0, &count) == COLOCK_NO_ROOM);
    WANT(colock_type_reply(&type, 0, NULL, 0, &count) == COLOCK_NO_ROOM && colock_type_close(&type) == COLOCK_OK);
    open_counters(&store, 1, 9);
    WANT(begin(&store, 0) == 0 && colock_call(&store, 0, 0, 0, NULL, 0, &answer) == COLOCK_NO_CALL);
    WANT(colock_would(&store, 0, 0, NULL, 0, &answer) == COLOCK_NO_CALL && colock_call_number(&store, 0, NULL, 0, &count) == COLOCK_NO_CALL);
    WANT(colock_peek(&store, 0, NULL, 0, &answer, &count) == COLOCK_NO_CALL && colock_snapshot(&store, NULL, 0, &count) == COLOCK_NO_ROOM);
    WANT(count == UNTOUCHED && answer.kind == UNTOUCHED && by_address(&store, 0, "", 0, &count) == COLOCK_NO_CALL);
    WANT(colock_events(&store, 0, NULL, 0, &count) == COLOCK_OK && count == 0);
    count = UNTOUCHED;
    WANT(colock_follow(&store, NULL, 0, &count) == COLOCK_OK && count == 0);
    WANT(colock_store_close(&store) == COLOCK_OK);
}

/* Each code has words of its own, and no other number has. */
static void codes_have_words(void) {
    const char *unknown = colock_strerror(UINT32_MAX);
    WANT(!strcmp(unknown, "the code is unknown") && !strcmp(colock_strerror(COLOCK_CHANGES + 1), unknown));
    for (uint32_t code = COLOCK_OK; code <= COLOCK_CHANGES; code++) {
        WANT(strcmp(colock_strerror(code), unknown));
        for (uint32_t other = COLOCK_OK; other < code; other++) WANT(strcmp(colock_strerror(code), colock_strerror(other)));
    }
    WANT(!strcmp(colock_strerror(COLOCK_STILL_OPEN), "a transaction is open"));
}

int main(void) {
    codes_have_words();
    types_of_nothing();
    calls_of_nothing();
    WANT(colock_version() == COLOCK_VERSION);
    texts_have_faults();
    types_are_refused();
    a_number_needs_escrow();
    families_have_ranges();
    a_type_is_read();
    tables_are_made();
    a_store_is_made();
    limits_have_ranges();
    a_store_is_used();
    only_a_store_is_extended();
    a_store_is_extended();
    a_store_is_made_and_closed();
    events_cross_and_are_made_again();
    puts("each code of each call: as it has to be");
    return 0;
}
