/* any_calls SEED CALLS: random calls at four handles, whatever they hold. A call at a handle that holds what is
 * meant isn't COLOCK_NOT_HELD, and at any other it is; what isn't done writes nothing; no code is unknown. */
#include "want.h"

enum { HANDLES = 4 };

typedef enum sort { NOTHING, A_TYPE, OBJECTS, A_STORE } sort;

/* Each is given to calls of either sort, which tell by what it holds. */
typedef union handle {
    colock_type type;
    colock_store store;
} handle;

static handle handles[HANDLES];
static sort holds[HANDLES];
static uint64_t drawn;
static long by_code[COLOCK_CHANGES + 1];

static uint64_t draw(uint64_t below) {
    drawn = drawn * 6364136223846793005u + 1442695040888963407u;
    return (drawn >> 33) % below;
}

/* A number that is small mostly, and else at some edge. */
static uint64_t number(void) {
    static const uint64_t edges[] = {63, 64, 255, 256, 1023, 1024, 65535, 65536, UINT32_MAX, (uint64_t)UINT32_MAX + 1, UINT64_MAX};
    return draw(8) ? draw(6) : edges[draw(sizeof edges / sizeof *edges)];
}

/* The number of an operation, or of a call: half of them have an amount. */
static uint64_t operation(void) {
    return draw(2) ? number() : COLOCK_OPERATION(draw(6), (uint32_t)number());
}

/* By either name, whatever is there. */
static uint32_t ended(int h) {
    return draw(2) ? colock_type_close(&handles[h].type) : colock_store_close(&handles[h].store);
}

static void counted(uint32_t code) {
    WANT(code <= COLOCK_CHANGES && code != COLOCK_NO_MEMORY && code != COLOCK_NOT_FRESH);
    by_code[code]++;
}

/* A call that reads or changes what is of one sort. */
static uint32_t meant_for(int h, sort meant, uint32_t code) {
    WANT((code == COLOCK_NOT_HELD) == (holds[h] != meant));
    counted(code);
    return code;
}

static void make_type(int h) {
    static const char *const texts[] = {CTR2, "type counter\nstates x\n", "type c\nstates 1\ninitial 0\nop a b\nreach 0\nend\n", "", FIVE, CENTS, PURSE};
    static const char *const elements[] = {"a b", "a a", "A", "", "a b c d e f g h i j k"};
    uint64_t amounts[3] = {number(), number(), number()};
    uint32_t small[3] = {(uint32_t)amounts[0], (uint32_t)amounts[1], (uint32_t)amounts[2]};
    const char *text = texts[draw(7)], *words = elements[draw(5)];
    colock_fault fault = {UNTOUCHED, UNTOUCHED, UNTOUCHED, UNTOUCHED, UNTOUCHED};
    uint32_t kind = (uint32_t)(draw(9) ? draw(3) : number()), code = 0;
    switch (draw(10)) {
    case 0: code = colock_type_read(&handles[h].type, kind, TEXT(text), &fault); break;
    case 1: code = colock_type_tables(&handles[h].type, kind, TEXT(text), &fault); break;
    case 2: code = colock_type_account(&handles[h].type, kind, number(), amounts, draw(4), &fault); break;
    case 3: code = colock_type_counter(&handles[h].type, kind, number(), amounts, draw(4), &fault); break;
    case 4: code = colock_type_set(&handles[h].type, kind, TEXT(words), &fault); break;
    case 5: code = colock_type_semiqueue(&handles[h].type, kind, TEXT(words), number(), &fault); break;
    case 6: code = colock_type_stock(&handles[h].type, kind, number(), amounts, draw(4), &fault); break;
    case 7: code = colock_type_queue(&handles[h].type, kind, TEXT(words), number(), &fault); break;
    case 8: code = colock_type_seats(&handles[h].type, kind, number(), &fault); break;
    case 9: code = colock_type_number(&handles[h].type, kind, (uint32_t)number(), small, draw(4), &fault); break;
    }
    WANT((code == COLOCK_IN_USE) == (holds[h] != NOTHING));
    WANT((code == COLOCK_BAD_TEXT || code == COLOCK_REFUSED) == (fault.line != UNTOUCHED));
    counted(code);
    if (!code) holds[h] = A_TYPE;
}

static void read_type(int h) {
    colock_shape shape = {UNTOUCHED, 0, 0, 0};
    char room[COLOCK_LONGEST_NAME];
    size_t size = draw(COLOCK_LONGEST_NAME + 1);
    uint64_t count = UNTOUCHED, to = UNTOUCHED;
    uint32_t told = UNTOUCHED;
    uint32_t code = meant_for(h, A_TYPE, colock_type_shape(&handles[h].type, &shape));
    WANT((code == COLOCK_OK) == (shape.states != UNTOUCHED));
    memset(room, '!', sizeof room);
    switch (draw(3)) {
    case 0: code = colock_type_name(&handles[h].type, room, size, &count); break;
    case 1: code = colock_type_call(&handles[h].type, operation(), room, size, &count); break;
    case 2: code = colock_type_reply(&handles[h].type, operation(), room, size, &count); break;
    }
    meant_for(h, A_TYPE, code);
    WANT(code ? count == UNTOUCHED && room[0] == '!' : count <= size && room[count - 1] != '!');
    code = meant_for(h, A_TYPE, colock_type_step(&handles[h].type, number(), operation(), &to));
    WANT(code == COLOCK_OK || to == UNTOUCHED);
    code = meant_for(h, A_TYPE, colock_type_conflict(&handles[h].type, operation(), operation(), &told));
    WANT(code ? told == UNTOUCHED : told <= 1);
}

static void make_store(int h) {
    int of = (h + 1 + (int)draw(HANDLES - 1)) % HANDLES;
    uint32_t code = colock_store_new(&handles[h].store);
    WANT((code == COLOCK_IN_USE) == (holds[h] != NOTHING));
    counted(code);
    if (!code) holds[h] = OBJECTS;
    for (uint64_t n = draw(4); n; n--) {
        code = colock_store_add(&handles[h].store, &handles[of].type);
        WANT((code == COLOCK_NOT_HELD) == (holds[h] != OBJECTS || holds[of] != A_TYPE));
        counted(code);
    }
    uint64_t events = draw(2) ? 1000 : number();
    code = draw(2) ? colock_store_open(&handles[h].store, events)
                   : colock_store_open_with(&handles[h].store, events, (uint32_t)number(), (uint32_t)number());
    meant_for(h, OBJECTS, code);
    if (!code) holds[h] = A_STORE;
}

/* A store gets the objects of another handle. */
static void extend(int h) {
    int from = (h + 1 + (int)draw(HANDLES - 1)) % HANDLES;
    uint32_t code = colock_store_extend(&handles[h].store, &handles[from].store);
    WANT((code == COLOCK_NOT_HELD) == (holds[h] != A_STORE || holds[from] != OBJECTS));
    counted(code);
}

static void transact(int h) {
    static const char *const names[] = {
        "inc:1", "dec:1", "give:1", "take:2", "deposit:1", "withdraw:2", "balance", "insert:a", "enq:a", "deq", "", "x",
        "take:any", "take:1", "take:4294967295", "give:any", "give:5", "value",
    };
    const char *name = names[draw(sizeof names / sizeof *names)];
    colock_answer answer = {UNTOUCHED, UNTOUCHED};
    uint64_t t = number();
    uint32_t x = (uint32_t)number(), code = 0;
    uint8_t worker = (uint8_t)number();
    uint64_t c = operation();
    switch (draw(7)) {
    case 0: code = colock_call(&handles[h].store, worker, t, x, TEXT(name), &answer); break;
    case 1: code = colock_call_op(&handles[h].store, worker, t, x, c, &answer); break;
    case 2: code = colock_would(&handles[h].store, t, x, TEXT(name), &answer); break;
    case 3: code = colock_would_op(&handles[h].store, t, x, c, &answer); break;
    case 4: meant_for(h, A_STORE, colock_commit(&handles[h].store, worker, t)); return;
    case 5: meant_for(h, A_STORE, colock_abort(&handles[h].store, worker, t)); return;
    case 6: meant_for(h, A_STORE, colock_rollback(&handles[h].store, worker, t, number())); return;
    }
    meant_for(h, A_STORE, code);
    WANT(code ? answer.kind == UNTOUCHED : answer.kind <= COLOCK_NONE);
}

/* A whole transaction, of words and objects of which there may be more or fewer. */
static void attempt(int h) {
    static const char *const texts[] = {"inc:1", "inc:1 dec:1", "deposit:1 withdraw:2", "give:5 take:1", "enq:a deq", "x", "", " "};
    const char *names = texts[draw(8)];
    uint32_t objects[3] = {(uint32_t)number(), (uint32_t)number(), (uint32_t)number()};
    uint64_t room[4] = {UNTOUCHED, UNTOUCHED, UNTOUCHED, UNTOUCHED}, count = draw(4), places = draw(4);
    colock_outcome outcome = {UNTOUCHED, UNTOUCHED, UNTOUCHED};
    uint32_t code = meant_for(h, A_STORE, colock_attempt(&handles[h].store, (uint8_t)number(), objects, count, TEXT(names), room, places, &outcome));
    WANT(code ? outcome.kind == UNTOUCHED : outcome.kind <= COLOCK_OUTCOME_REFUSED && outcome.at <= count && count <= places);
    for (uint64_t i = 0; i < 4; i++) WANT((room[i] != UNTOUCHED) == (!code && outcome.kind == COLOCK_OUTCOME_DONE && i < count));
}

/* The same by numbers, of which there may be more or fewer, and of which some are no call's. */
static void attempt_op(int h) {
    uint32_t objects[3] = {(uint32_t)number(), (uint32_t)number(), (uint32_t)number()};
    uint64_t calls[3] = {operation(), operation(), operation()}, room[4] = {UNTOUCHED, UNTOUCHED, UNTOUCHED, UNTOUCHED}, count = draw(4), calls_count = draw(4), places = draw(4);
    colock_outcome outcome = {UNTOUCHED, UNTOUCHED, UNTOUCHED};
    uint32_t code = meant_for(h, A_STORE, colock_attempt_op(&handles[h].store, (uint8_t)number(), objects, count, calls, calls_count, room, places, &outcome));
    WANT(code ? outcome.kind == UNTOUCHED : outcome.kind <= COLOCK_OUTCOME_REFUSED && outcome.at <= count && count == calls_count && count <= places);
    uint64_t filled = code ? 0 : outcome.kind == COLOCK_OUTCOME_DONE ? count : outcome.at;
    for (uint64_t i = 0; i < 4; i++) WANT(i < filled || room[i] == UNTOUCHED);
}

/* What is committed, in some room. */
static void read_committed(int h) {
    static const char *const names[] = {"balance", "value", "member:a", "free", "inc:1", "take:5", "deq", ""};
    uint64_t room[5] = {UNTOUCHED, UNTOUCHED, UNTOUCHED, UNTOUCHED, UNTOUCHED}, seen = UNTOUCHED, state = UNTOUCHED, count = UNTOUCHED;
    const char *name = names[draw(8)];
    colock_answer answer = {UNTOUCHED, UNTOUCHED};
    uint32_t code = meant_for(h, A_STORE, colock_peek(&handles[h].store, (uint32_t)number(), TEXT(name), &answer, &seen));
    WANT(code ? answer.kind == UNTOUCHED && seen == UNTOUCHED : answer.kind == COLOCK_REPLY || answer.kind == COLOCK_NONE);
    code = meant_for(h, A_STORE, colock_commit_count(&handles[h].store, &count));
    WANT(code == COLOCK_OK || count == UNTOUCHED);
    seen = UNTOUCHED;
    code = meant_for(h, A_STORE, colock_committed(&handles[h].store, (uint32_t)number(), &state, &seen));
    WANT(code ? state == UNTOUCHED && seen == UNTOUCHED : seen == count);
    seen = UNTOUCHED;
    code = meant_for(h, A_STORE, colock_snapshot(&handles[h].store, room, draw(5), &seen));
    WANT(room[4] == UNTOUCHED && (code ? room[0] == UNTOUCHED && seen == UNTOUCHED : seen == count));
}

static void read_store(int h) {
    uint64_t n = UNTOUCHED, m = UNTOUCHED;
    uint64_t c = UNTOUCHED;
    uint32_t code = meant_for(h, A_STORE, colock_kept(&handles[h].store, (uint32_t)number(), &n));
    WANT(code == COLOCK_OK || n == UNTOUCHED);
    n = UNTOUCHED;
    code = meant_for(h, A_STORE, colock_event_count(&handles[h].store, &n, &m));
    WANT(code ? n == UNTOUCHED && m == UNTOUCHED : m <= n);
    code = meant_for(h, A_STORE, colock_call_number(&handles[h].store, (uint32_t)number(), TEXT("dec:1"), &c));
    WANT(code == COLOCK_OK || c == UNTOUCHED);
    if (!draw(9)) meant_for(h, A_STORE, colock_forget(&handles[h].store, number()));
    if (!draw(9)) meant_for(h, A_STORE, colock_abort_all(&handles[h].store));
    if (!draw(9)) meant_for(h, A_STORE, colock_renew(&handles[h].store));
}

/* Events of one store at another, or made up ones. */
static void follow(int h) {
    int from = (int)draw(HANDLES);
    colock_event room[9];
    uint64_t count = UNTOUCHED, made = UNTOUCHED;
    memset(room, 0x55, sizeof room);
    uint32_t code = meant_for(from, A_STORE, colock_events(&handles[from].store, number(), room, draw(9), &count));
    WANT(code ? count == UNTOUCHED : count <= 8);
    WANT(room[code ? 0 : count].kind == 0x55555555);
    room[8] = (colock_event){number(), number(), operation(), (uint32_t)number(), (uint32_t)draw(9), (uint32_t)number(), (uint32_t)number()};
    uint64_t size = code ? 0 : count;
    code = meant_for(h, A_STORE, colock_follow(&handles[h].store, draw(2) ? room : room + 8, size > 1 ? 1 : size, &made));
    WANT(code == COLOCK_NOT_HELD ? made == UNTOUCHED : made <= size);
}

int main(int argc, char **argv) {
    WANT(argc == 3);
    drawn = strtoull(argv[1], NULL, 10);
    long calls = atol(argv[2]), codes = 0;
    memset(handles, 0, sizeof handles);
    for (long i = 0; i < calls; i++) {
        int h = (int)draw(HANDLES);
        uint64_t t;
        switch (draw(40)) {
        case 0:
            WANT(ended(h) == (holds[h] == NOTHING ? COLOCK_NOT_HELD : COLOCK_OK));
            holds[h] = NOTHING;
            break;
        case 1: case 2: case 3: make_type(h); break;
        case 4: case 5: read_type(h); break;
        case 6: case 7: case 8: make_store(h); break;
        case 9: case 10: read_store(h); break;
        case 11: case 12: follow(h); break;
        case 13: extend(h); break;
        case 16: case 17: attempt(h); break;
        case 18: read_committed(h); break;
        case 19: case 20: attempt_op(h); break;
        case 14: case 15: meant_for(h, A_STORE, colock_begin(&handles[h].store, (uint8_t)number(), &t)); break;
        default: transact(h);
        }
    }
    for (int h = 0; h < HANDLES; h++) WANT(ended(h) == (holds[h] == NOTHING ? COLOCK_NOT_HELD : COLOCK_OK));
    for (int code = 0; code <= COLOCK_CHANGES; code++) codes += by_code[code] > 0;
    printf("%ld random calls at handles that hold anything: %ld codes, each where it has to be\n", calls, codes);
    return 0;
}
