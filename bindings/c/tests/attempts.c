/* Whole transactions in one call, by names and by numbers, beside the same commands one by one. */
#include "want.h"

enum { MOST_EVENTS = 4000, ROOM = 8 };

/* ---- stores */

/* Begins a store of this many accounts of 0 to 5 with the amounts 1 and 2, of the kinds in turn. */
static void add_accounts(colock_store *store, uint32_t objects) {
    static const uint64_t amounts[] = {1, 2};
    WANT(colock_store_new(store) == COLOCK_OK);
    for (uint32_t x = 0; x < objects; x++) {
        colock_type type = COLOCK_EMPTY;
        colock_fault fault;
        WANT(colock_type_account(&type, x % 3, 5, amounts, 2, &fault) == COLOCK_OK);
        WANT(colock_store_add(store, &type) == COLOCK_OK && colock_type_close(&type) == COLOCK_OK);
    }
}

static void open_accounts(colock_store *store, uint32_t objects, uint64_t events, uint32_t open) {
    add_accounts(store, objects);
    WANT(colock_store_open_with(store, events, open, objects) == COLOCK_OK);
}

/* The operations of such an account: at these places, and balance by what there is. */
enum { DEPOSIT_1 = 0, WITHDRAW_1 = 2, WITHDRAW_1_SHORT = 3, DEPOSIT_2 = 4, BALANCE = 8 };

static bool keeps(colock_store *store, uint32_t x, uint64_t state) {
    uint64_t kept = UNTOUCHED;
    return colock_kept(store, x, &kept) == COLOCK_OK && kept == state;
}

static bool are_open(colock_store *store, uint64_t count) {
    uint64_t told = UNTOUCHED;
    return colock_open_count(store, &told) == COLOCK_OK && told == count;
}

/* ---- an attempt */

/* What comes of one: its code, its outcome, and the room for its operations. */
typedef struct attempt {
    uint32_t code;
    colock_outcome outcome;
    uint64_t operations[ROOM];
} attempt;

/* Whether the calls are given by their numbers. */
static bool by_number;

/* The numbers of the calls whose names are the words of a text, each at the object at its place. What isn't there gets one that
 * no call has: that of an operation which isn't the first of its call, or of none. */
static size_t numbers_of(colock_store *store, const uint32_t *objects, size_t count, const char *names, uint64_t calls[ROOM]) {
    static const uint64_t none[] = {WITHDRAW_1_SHORT, 255, COLOCK_OPERATION(0, 1), UINT64_MAX};
    static size_t turn;
    size_t made = 0;
    for (size_t length; *(names += strspn(names, " ")); names += length, made++) {
        length = strcspn(names, " ");
        WANT(made < ROOM);
        if (made >= count || colock_call_number(store, objects[made], names, length, &calls[made]) != COLOCK_OK) calls[made] = none[turn++ % 4];
    }
    return made;
}

static attempt attempted_in(colock_store *store, uint8_t w, const uint32_t *objects, size_t count, const char *names, size_t places) {
    attempt a = {UNTOUCHED, {UNTOUCHED, UNTOUCHED, UNTOUCHED}, {0}};
    uint64_t calls[ROOM];
    for (int i = 0; i < ROOM; i++) a.operations[i] = UNTOUCHED;
    if (!by_number) {
        a.code = colock_attempt(store, w, objects, count, TEXT(names), a.operations, places, &a.outcome);
        return a;
    }
    size_t made = numbers_of(store, objects, count, names, calls);
    a.code = colock_attempt_op(store, w, objects, count, calls, made, a.operations, places, &a.outcome);
    if (!a.code && a.outcome.kind) /* there may be operations of the calls before */
        for (uint64_t i = 0; i < a.outcome.at; i++) a.operations[i] = UNTOUCHED;
    return a;
}

static attempt attempted(colock_store *store, uint8_t w, const uint32_t *objects, size_t count, const char *names) {
    return attempted_in(store, w, objects, count, names, ROOM);
}

/* Whether the operations of the first places are these, and nothing is behind them. */
static bool has_operations(const attempt *a, const uint64_t *operations, size_t count) {
    for (size_t i = 0; i < ROOM; i++)
        if (a->operations[i] != (i < count ? operations[i] : UNTOUCHED)) return false;
    return true;
}

static bool is_done(attempt a, const uint64_t *operations, size_t count) {
    return a.code == COLOCK_OK && a.outcome.kind == COLOCK_OUTCOME_DONE && a.outcome.at == 0 && a.outcome.number == 0 && has_operations(&a, operations, count);
}

static bool is_ended(attempt a, uint64_t kind, uint64_t at, uint64_t number) {
    return a.code == COLOCK_OK && a.outcome.kind == kind && a.outcome.at == at && a.outcome.number == number && has_operations(&a, NULL, 0);
}

static bool is_not_begun(attempt a, uint32_t code) {
    return a.code == code && a.outcome.kind == UNTOUCHED && a.outcome.at == UNTOUCHED && a.outcome.number == UNTOUCHED && has_operations(&a, NULL, 0);
}

/* ---- events */

static uint64_t events_of(colock_store *store, colock_event room[MOST_EVENTS]) {
    uint64_t count = UNTOUCHED;
    WANT(colock_events(store, 0, room, MOST_EVENTS, &count) == COLOCK_OK && count < MOST_EVENTS);
    return count;
}

/* Whether the last events of a store are of these kinds, and those of a worker. */
static bool has_last(colock_store *store, const uint32_t *kinds, uint64_t count, uint32_t worker) {
    static colock_event room[MOST_EVENTS];
    uint64_t all = events_of(store, room);
    for (uint64_t i = 0; i < count; i++)
        if (all < count || room[all - count + i].kind != kinds[i] || room[all - count + i].worker != worker) return false;
    return true;
}

static void are_same(colock_store *store, colock_store *other) {
    static colock_event here[MOST_EVENTS], there[MOST_EVENTS];
    uint64_t count = events_of(store, here);
    WANT(events_of(other, there) == count && !memcmp(here, there, count * sizeof *here));
}

/* ---- what comes of them */

static void all_calls_are_done(void) {
    static const uint32_t objects[] = {0, 1, 2, 0}, kinds[] = {COLOCK_EVENT_BEGIN, COLOCK_EVENT_OP, COLOCK_EVENT_OP, COLOCK_EVENT_OP, COLOCK_EVENT_OP, COLOCK_EVENT_COMMIT};
    static const uint64_t operations[] = {DEPOSIT_2, DEPOSIT_1, WITHDRAW_1_SHORT, WITHDRAW_1};
    colock_store s = COLOCK_EMPTY;
    uint64_t commits = UNTOUCHED;
    open_accounts(&s, 3, 100, 4);
    WANT(is_done(attempted(&s, 7, objects, 4, "deposit:2 deposit:1 withdraw:1 withdraw:1"), operations, 4));
    WANT(has_last(&s, kinds, 6, 7) && keeps(&s, 0, 1) && keeps(&s, 1, 1) && keeps(&s, 2, 0) && are_open(&s, 0));
    WANT(is_done(attempted_in(&s, 7, objects, 1, "  deposit:2   ", 1), operations, 1)); /* spaces around a name, and just one place */
    WANT(keeps(&s, 0, 3) && colock_commit_count(&s, &commits) == COLOCK_OK && commits == 2);
    WANT(begin(&s, 0) == 2 && colock_store_close(&s) == COLOCK_OK);
}

static void no_call_is_a_transaction_too(void) {
    static const uint32_t kinds[] = {COLOCK_EVENT_BEGIN, COLOCK_EVENT_COMMIT};
    colock_outcome outcome = {UNTOUCHED, UNTOUCHED, UNTOUCHED};
    colock_store s = COLOCK_EMPTY;
    open_accounts(&s, 1, 4, 1);
    WANT((by_number ? colock_attempt_op(&s, 9, NULL, 0, NULL, 0, NULL, 0, &outcome) : colock_attempt(&s, 9, NULL, 0, NULL, 0, NULL, 0, &outcome)) == COLOCK_OK);
    WANT(outcome.kind == COLOCK_OUTCOME_DONE && outcome.at == 0 && outcome.number == 0 && has_last(&s, kinds, 2, 9));
    WANT(is_done(attempted(&s, 9, NULL, 0, "   "), NULL, 0) && has_last(&s, kinds, 2, 9));
    WANT(is_not_begun(attempted(&s, 9, NULL, 0, ""), COLOCK_HISTORY_FULL) && colock_store_close(&s) == COLOCK_OK);
}

/* At each place the call ends it, those before it are aborted with it, and those behind it aren't made. */
static void a_call_ends_it(uint32_t at) {
    static const char *const names[] = {"balance balance balance", "deposit:1 deposit:1 deposit:1"};
    uint32_t objects[] = {0, 1, 2}, ended[6] = {COLOCK_EVENT_BEGIN};
    char missing[80];
    colock_store s = COLOCK_EMPTY;
    colock_answer answer;
    open_accounts(&s, 3, 100, 4);
    for (uint32_t i = 0; i < at; i++) ended[i + 1] = COLOCK_EVENT_OP;
    ended[at + 1] = COLOCK_EVENT_BUSY, ended[at + 2] = COLOCK_EVENT_ABORT;
    WANT(begin(&s, 1) == 0 && begin(&s, 1) == 1 && colock_call(&s, 1, 1, at, TEXT("deposit:2"), &answer) == COLOCK_OK && answer.kind == COLOCK_REPLY);
    WANT(is_ended(attempted(&s, 2, objects, 3, names[0]), COLOCK_OUTCOME_BUSY, at, 1) && has_last(&s, ended, at + 3, 2));
    WANT(colock_abort(&s, 1, 1) == COLOCK_OK && colock_abort(&s, 1, 0) == COLOCK_OK);
    ended[at + 1] = COLOCK_EVENT_ABORT; /* a call that is refused is no event */
    objects[at] = 3;
    WANT(is_ended(attempted(&s, 3, objects, 3, names[1]), COLOCK_OUTCOME_REFUSED, at, COLOCK_NO_OBJECT) && has_last(&s, ended, at + 2, 3));
    objects[at] = UINT32_MAX;
    WANT(is_ended(attempted(&s, 4, objects, 3, names[1]), COLOCK_OUTCOME_REFUSED, at, COLOCK_NO_OBJECT) && has_last(&s, ended, at + 2, 4));
    objects[at] = at;
    snprintf(missing, sizeof missing, "%s %s %s", at == 0 ? "no" : "deposit:1", at == 1 ? "no" : "deposit:1", at == 2 ? "no" : "deposit:1");
    WANT(is_ended(attempted(&s, 5, objects, 3, missing), COLOCK_OUTCOME_REFUSED, at, COLOCK_NO_CALL) && has_last(&s, ended, at + 2, 5));
    for (uint32_t x = 0; x < 3; x++) WANT(keeps(&s, x, 0));
    WANT(are_open(&s, 0) && colock_store_close(&s) == COLOCK_OK);
}

/* And so where none of its operations is legal: a counter at 0 doesn't count down. */
static void a_call_of_no_legal_operation_ends_it(uint32_t at) {
    static const char *const names[] = {"dec:1 inc:1 inc:1", "inc:1 dec:1 inc:1", "inc:1 inc:1 dec:1"};
    static const uint32_t objects[] = {0, 1, 2};
    uint32_t ended[6] = {COLOCK_EVENT_BEGIN};
    colock_store s = COLOCK_EMPTY;
    open_counters(&s, 3, 100);
    for (uint32_t i = 0; i < at; i++) ended[i + 1] = COLOCK_EVENT_OP;
    ended[at + 1] = COLOCK_EVENT_NONE, ended[at + 2] = COLOCK_EVENT_ABORT;
    WANT(is_ended(attempted(&s, 6, objects, 3, names[at]), COLOCK_OUTCOME_NONE, at, 0) && has_last(&s, ended, at + 3, 6));
    for (uint32_t x = 0; x < 3; x++) WANT(keeps(&s, x, 0));
    WANT(are_open(&s, 0) && colock_store_close(&s) == COLOCK_OK);
}

/* It isn't begun where its begin, its calls and its end don't all fit below the limit, beside the ends of those that are
 * open; nor where as many are open as may be, which comes first. */
static void it_is_begun_where_there_is_room(void) {
    static const uint32_t objects[] = {0, 0, 0};
    static const uint64_t operations[] = {DEPOSIT_1, DEPOSIT_1, DEPOSIT_1};
    colock_store s = COLOCK_EMPTY;
    open_accounts(&s, 1, 8, 2);
    WANT(begin(&s, 0) == 0 && is_done(attempted(&s, 0, objects, 1, "deposit:1"), operations, 1)); /* four events, and one that ends 0 */
    WANT(is_not_begun(attempted(&s, 0, objects, 2, "deposit:1 deposit:1"), COLOCK_HISTORY_FULL) && are_open(&s, 1));
    WANT(is_not_begun(attempted(&s, 0, objects, 3, "no no no"), COLOCK_HISTORY_FULL) && begin(&s, 0) == 2);
    WANT(is_not_begun(attempted(&s, 0, objects, 3, "deposit:1 deposit:1 deposit:1"), COLOCK_TOO_MANY_OPEN) && is_not_begun(attempted(&s, 0, NULL, 0, ""), COLOCK_TOO_MANY_OPEN));
    WANT(colock_abort_all(&s) == COLOCK_OK && colock_renew(&s) == COLOCK_OK && keeps(&s, 0, 1));
    WANT(is_done(attempted(&s, 0, objects, 3, "deposit:1 deposit:1 deposit:1"), operations, 3) && keeps(&s, 0, 4)); /* five of eight */
    WANT(is_not_begun(attempted(&s, 0, objects, 2, "deposit:1 deposit:1"), COLOCK_HISTORY_FULL) && is_done(attempted(&s, 0, objects, 1, "deposit:1"), operations, 1));
    WANT(keeps(&s, 0, 5) && colock_store_close(&s) == COLOCK_OK);
}

/* Each object has a name, and each operation a place, or nothing is begun. */
static void parameters_fit_or_nothing_is_begun(void) {
    static const uint32_t objects[] = {0, 1, 2};
    static const uint64_t operations[] = {DEPOSIT_1, DEPOSIT_1, DEPOSIT_1};
    static const char *const others[] = {"", " ", "deposit:1", "deposit:1 deposit:1", "deposit:1 deposit:1deposit:1", "deposit:1 deposit:1 deposit:1 deposit:1"};
    static const char three[] = "deposit:1 deposit:1 deposit:1";
    static colock_event room[MOST_EVENTS];
    colock_store s = COLOCK_EMPTY;
    open_accounts(&s, 3, 100, 4);
    for (int i = 0; i < 6; i++) WANT(is_not_begun(attempted_in(&s, 0, objects, 3, others[i], (size_t)i), COLOCK_BAD_PARAMETER));
    for (size_t places = 0; places < 3; places++) WANT(is_not_begun(attempted_in(&s, 0, objects, 3, three, places), COLOCK_NO_ROOM));
    WANT(events_of(&s, room) == 0 && is_done(attempted_in(&s, 0, objects, 3, three, 3), operations, 3));
    WANT(colock_store_close(&s) == COLOCK_OK);
}

/* ---- one by one */

/* Accounts, of which each call is replied to or busy, and behind them a counter from 0 to 2. */
enum { ACCOUNTS = 3, OBJECTS = 4, MOST_CALLS = 5, MOST_OPEN = 4 };

static void open_all(colock_store *store, uint64_t events, uint32_t open) {
    colock_type type = COLOCK_EMPTY;
    colock_fault fault;
    add_accounts(store, ACCOUNTS);
    WANT(colock_type_read(&type, COLOCK_UNDO, TEXT(CTR2), &fault) == COLOCK_OK && colock_store_add(store, &type) == COLOCK_OK);
    WANT(colock_type_close(&type) == COLOCK_OK && colock_store_open_with(store, events, open, OBJECTS) == COLOCK_OK);
}

static uint64_t drawn = 1;

static uint32_t draw(uint32_t below) {
    drawn = drawn * 6364136223846793005u + 1442695040888963407u;
    return (uint32_t)((drawn >> 33) % below);
}

/* An object, of which some aren't there. */
static uint32_t drawn_object(void) {
    return draw(25) ? draw(OBJECTS) : OBJECTS;
}

/* And a call of it. */
static const char *drawn_name(uint32_t x) {
    static const char *const of_accounts[] = {"deposit:1", "deposit:2", "withdraw:1", "withdraw:2", "balance"};
    static const char *const of_counter[] = {"inc:1", "dec:1"};
    return draw(20) == 0 ? "no" : x < ACCOUNTS ? of_accounts[draw(5)] : of_counter[draw(2)];
}

/* The same as `colock_attempt` by the calls that it stands for, where it is begun. */
static attempt one_by_one(colock_store *store, uint8_t w, const uint32_t *objects, size_t count, char names[][16]) {
    attempt a = {COLOCK_OK, {COLOCK_OUTCOME_DONE, 0, 0}, {0}};
    uint64_t t = begin(store, w);
    for (int i = 0; i < ROOM; i++) a.operations[i] = UNTOUCHED;
    for (size_t i = 0; i < count; i++) {
        colock_answer answer = {UNTOUCHED, UNTOUCHED};
        uint32_t code = colock_call(store, w, t, objects[i], TEXT(names[i]), &answer);
        if (code == COLOCK_OK && answer.kind == COLOCK_REPLY) {
            a.operations[i] = answer.number;
            continue;
        }
        a.outcome = code ? (colock_outcome){COLOCK_OUTCOME_REFUSED, i, code} : (colock_outcome){answer.kind, i, answer.number};
        for (int k = 0; k < ROOM; k++) a.operations[k] = UNTOUCHED;
        WANT(colock_abort(store, w, t) == COLOCK_OK);
        return a;
    }
    WANT(colock_commit(store, w, t) == COLOCK_OK);
    return a;
}

/* Why it isn't begun, by how many events and open transactions there are. */
static uint32_t refusal_of(colock_store *store, size_t calls, uint64_t events, uint64_t open) {
    uint64_t count = UNTOUCHED, forgotten = UNTOUCHED, still = UNTOUCHED;
    WANT(colock_event_count(store, &count, &forgotten) == COLOCK_OK && colock_open_count(store, &still) == COLOCK_OK);
    return still >= open ? COLOCK_TOO_MANY_OPEN : count + still + calls + 2 > events ? COLOCK_HISTORY_FULL : COLOCK_OK;
}

/* An attempt at one store, and the same commands at the other. Its code, or how it ended, is counted. */
static void attempt_both(colock_store *store, colock_store *other, uint64_t events, uint64_t open, long met[8]) {
    uint32_t objects[MOST_CALLS];
    char names[MOST_CALLS][16], text[MOST_CALLS * 16 + 1] = "";
    size_t count = draw(MOST_CALLS + 1);
    uint8_t w = (uint8_t)draw(256);
    for (size_t i = 0; i < count; i++) {
        objects[i] = drawn_object();
        strcpy(names[i], drawn_name(objects[i]));
        strcat(strcat(text, names[i]), " ");
    }
    uint32_t refusal = refusal_of(store, count, events, open);
    attempt a = attempted(store, w, objects, count, text);
    if (refusal) {
        WANT(is_not_begun(a, refusal));
        met[refusal == COLOCK_HISTORY_FULL ? 4 : 5]++;
        return;
    }
    attempt b = one_by_one(other, w, objects, count, names);
    WANT(a.code == b.code && !memcmp(&a.outcome, &b.outcome, sizeof a.outcome) && has_operations(&a, b.operations, ROOM));
    met[a.outcome.kind]++;
}

/* A step of a transaction that is open at both. */
static void step_both(colock_store *store, colock_store *other, uint64_t *of, uint64_t open) {
    colock_store *both[] = {store, other};
    uint32_t x = drawn_object(), how = draw(6), codes[2] = {UNTOUCHED, UNTOUCHED};
    const char *name = drawn_name(x);
    uint64_t still = UNTOUCHED;
    colock_answer answers[2] = {{UNTOUCHED, UNTOUCHED}, {UNTOUCHED, UNTOUCHED}};
    WANT(colock_open_count(store, &still) == COLOCK_OK);
    for (int i = 0; i < 2; i++) {
        uint64_t t = *of;
        if (t == UINT64_MAX) codes[i] = still < open ? colock_begin(both[i], 0, &t) : COLOCK_OK;
        else if (how == 0) codes[i] = colock_commit(both[i], 0, t), t = UINT64_MAX;
        else if (how == 1) codes[i] = colock_abort(both[i], 0, t), t = UINT64_MAX;
        else codes[i] = colock_call(both[i], 0, t, x, TEXT(name), &answers[i]);
        if (i == 1) *of = t;
    }
    WANT(codes[0] == codes[1] && !memcmp(&answers[0], &answers[1], sizeof answers[0]));
}

/* Random attempts, by names or by numbers, beside transactions that are open, at a store; and the same commands one by one at another. */
static void attempts_are_the_same_one_by_one(uint64_t events, uint32_t open, long steps, long met[8]) {
    uint64_t of[MOST_OPEN] = {UINT64_MAX, UINT64_MAX, UINT64_MAX, UINT64_MAX};
    colock_store s = COLOCK_EMPTY, other = COLOCK_EMPTY;
    open_all(&s, events, open), open_all(&other, events, open);
    for (long i = 0; i < steps; i++) {
        if (draw(2)) by_number = draw(2), attempt_both(&s, &other, events, open, met);
        else step_both(&s, &other, &of[draw(MOST_OPEN)], open);
    }
    are_same(&s, &other);
    for (uint32_t x = 0; x < OBJECTS; x++) {
        uint64_t kept = UNTOUCHED;
        WANT(colock_kept(&s, x, &kept) == COLOCK_OK && keeps(&other, x, kept));
    }
    WANT(colock_store_close(&s) == COLOCK_OK && colock_store_close(&other) == COLOCK_OK);
}

/* ---- rows, worked out by hand */

/* The worker of an attempt, its calls, and what comes of it. */
typedef struct row {
    uint8_t w;
    size_t count;
    uint32_t objects[3];
    const char *names;
    colock_outcome outcome;
} row;

/* A store of a counter in place, one of intentions, and a purse of 20 that holds up to 100. */
static void open_mixed(colock_store *store, uint64_t events, uint32_t open) {
    static const uint32_t kinds[] = {COLOCK_UNDO, COLOCK_INTENTIONS, COLOCK_ESCROW};
    static const char *const texts[] = {CTR2, CTR2, SMALL_PURSE};
    WANT(colock_store_new(store) == COLOCK_OK);
    for (int x = 0; x < 3; x++) {
        colock_type type = COLOCK_EMPTY;
        colock_fault fault;
        WANT(colock_type_read(&type, kinds[x], TEXT(texts[x]), &fault) == COLOCK_OK);
        WANT(colock_store_add(store, &type) == COLOCK_OK && colock_type_close(&type) == COLOCK_OK);
    }
    WANT(colock_store_open_with(store, events, open, 3) == COLOCK_OK);
}

/* The names of a row, apart. */
static void split(const row *r, char names[][16]) {
    const char *name = r->names;
    for (size_t i = 0; i < r->count; i++) {
        size_t length = strcspn(name += strspn(name, " "), " ");
        WANT(length > 0 && length < 16);
        memcpy(names[i], name, length);
        names[i][length] = 0;
        name += length;
    }
    WANT(!*name);
}

/* An attempt of a row. By numbers a name that is no call's has one that no call has. */
static attempt attempted_row(colock_store *store, const row *r) {
    attempt a = {UNTOUCHED, {UNTOUCHED, UNTOUCHED, UNTOUCHED}, {0}};
    char names[MOST_CALLS][16];
    uint64_t calls[MOST_CALLS];
    if (!by_number) return attempted(store, r->w, r->objects, r->count, r->names);
    split(r, names);
    for (size_t i = 0; i < r->count; i++)
        if (colock_call_number(store, r->objects[i], TEXT(names[i]), &calls[i]) != COLOCK_OK) calls[i] = UINT64_MAX;
    for (int i = 0; i < ROOM; i++) a.operations[i] = UNTOUCHED;
    a.code = colock_attempt_op(store, r->w, r->objects, r->count, calls, r->count, a.operations, ROOM, &a.outcome);
    for (uint64_t i = 0; !a.code && a.outcome.kind && i < a.outcome.at; i++) a.operations[i] = UNTOUCHED;
    return a;
}

static bool has_outcome(const attempt *a, const colock_outcome *outcome) {
    return a->code == COLOCK_OK && !memcmp(&a->outcome, outcome, sizeof *outcome);
}

/* An attempt does as its commands one by one do at another store, with the same operations. */
static void rows_are_the_same_one_by_one(colock_store *store, colock_store *other, const row *rows, size_t count) {
    char names[MOST_CALLS][16];
    for (const row *r = rows; r < rows + count; r++) {
        split(r, names);
        attempt a = attempted_row(store, r), b = one_by_one(other, r->w, r->objects, r->count, names);
        WANT(has_outcome(&a, &r->outcome) && has_outcome(&b, &r->outcome) && has_operations(&a, b.operations, ROOM));
        are_same(store, other);
    }
}

/* Attempts where nobody is open, or where transaction 0 is open and counted up at the first counter. */
static void rows_are_done(const row *rows, size_t count, bool is_counting, const uint64_t states[3]) {
    colock_store s = COLOCK_EMPTY, other = COLOCK_EMPTY, *both[] = {&s, &other};
    colock_answer answer;
    for (int i = 0; i < 2; i++) {
        open_mixed(both[i], 100, 1024);
        if (is_counting) WANT(begin(both[i], 1) == 0 && colock_call(both[i], 1, 0, 0, TEXT("inc:1"), &answer) == COLOCK_OK && answer.kind == COLOCK_REPLY);
    }
    rows_are_the_same_one_by_one(&s, &other, rows, count);
    for (uint32_t x = 0; states && x < 3; x++) WANT(keeps(&s, x, states[x]));
    WANT(colock_store_close(&s) == COLOCK_OK && colock_store_close(&other) == COLOCK_OK);
}

#define DONE {COLOCK_OUTCOME_DONE, 0, 0}
#define REFUSED(at, code) {COLOCK_OUTCOME_REFUSED, at, code}

static void attempts_are_their_commands(void) {
    static const row tried[] = {
        {4, 3, {0, 1, 2}, "inc:1 inc:1 take:5", DONE},
        {4, 2, {1, 0}, "inc:1 dec:1", {COLOCK_OUTCOME_BUSY, 1, 0}},
        {5, 2, {1, 1}, "dec:1 dec:1", {COLOCK_OUTCOME_NONE, 1, 0}},
        {5, 1, {9}, "inc:1", REFUSED(0, COLOCK_NO_OBJECT)},
        {6, 3, {2, 1, 0}, "give:9 inc dec:1", REFUSED(1, COLOCK_NO_CALL)},
        {6, 0, {0}, "", DONE},
        {7, 2, {2, 1}, "take:30 dec:1", DONE},
        {7, 2, {1, 2}, "dec:1 give:1", {COLOCK_OUTCOME_NONE, 0, 0}},
    };
    rows_are_done(tried, sizeof tried / sizeof *tried, true, NULL);
}

static void an_only_call_is_its_commands(void) {
    static const uint64_t states[] = {0, 0, 16};
    static const row alone[] = {
        {1, 1, {0}, "inc:1", DONE}, {2, 1, {0}, "dec:1", DONE}, {3, 1, {0}, "dec:1", {COLOCK_OUTCOME_NONE, 0, 0}},
        {1, 1, {1}, "inc:1", DONE}, {2, 1, {1}, "dec:1", DONE}, {3, 1, {1}, "dec:1", {COLOCK_OUTCOME_NONE, 0, 0}},
        {1, 1, {2}, "take:5", DONE}, {2, 1, {2}, "give:1", DONE}, {3, 1, {2}, "give", REFUSED(0, COLOCK_NO_CALL)},
    };
    static const row beside[] = {
        {1, 1, {0}, "inc:1", DONE}, {2, 1, {0}, "dec:1", {COLOCK_OUTCOME_BUSY, 0, 0}},
        {3, 1, {1}, "inc:1", DONE}, {4, 1, {2}, "take:1", DONE},
    };
    rows_are_done(alone, sizeof alone / sizeof *alone, false, states);
    rows_are_done(beside, sizeof beside / sizeof *beside, true, NULL);
}

/* Where all the events of an attempt fit it is made, and else nothing has changed. */
static void it_fits_or_is_not_begun(void) {
    static const struct { uint64_t events; uint32_t open; bool is_begun; size_t count; const char *names; uint32_t code; } fits[] = {
        {5, 9, false, 3, "take:1 take:1 take:1", COLOCK_OK}, {4, 9, false, 3, "take:1 take:1 take:1", COLOCK_HISTORY_FULL},
        {3, 9, false, 1, "take:1", COLOCK_OK}, {2, 9, false, 1, "take:1", COLOCK_HISTORY_FULL}, {2, 9, false, 0, "", COLOCK_OK},
        {7, 9, true, 3, "take:1 take:1 take:1", COLOCK_OK}, {6, 9, true, 3, "take:1 take:1 take:1", COLOCK_HISTORY_FULL},
        {7, 1, true, 3, "take:1 take:1 take:1", COLOCK_TOO_MANY_OPEN}, {6, 1, true, 3, "take:1 take:1 take:1", COLOCK_TOO_MANY_OPEN},
    };
    static const uint32_t objects[] = {2, 2, 2};
    static const uint64_t taken[] = {COLOCK_OPERATION(0, 1), COLOCK_OPERATION(0, 1), COLOCK_OPERATION(0, 1)};
    static colock_event room[MOST_EVENTS];
    for (size_t i = 0; i < sizeof fits / sizeof *fits; i++) {
        colock_store s = COLOCK_EMPTY;
        open_mixed(&s, fits[i].events, fits[i].open);
        if (fits[i].is_begun) WANT(begin(&s, 1) == 0);
        uint64_t before = events_of(&s, room), more = fits[i].code ? 0 : fits[i].count + 2;
        attempt a = attempted(&s, 4, objects, fits[i].count, fits[i].names);
        WANT(fits[i].code ? is_not_begun(a, fits[i].code) : is_done(a, taken, fits[i].count));
        WANT(events_of(&s, room) == before + more && keeps(&s, 2, fits[i].code ? 20 : 20 - fits[i].count));
        WANT(colock_store_close(&s) == COLOCK_OK);
    }
}

/* Three calls, of which one isn't there, are all taken back. */
static void a_call_that_is_not_there_takes_all_back(void) {
    static const row away[] = {
        {4, 3, {3, 1, 2}, "inc:1 inc:1 take:1", REFUSED(0, COLOCK_NO_OBJECT)},
        {4, 3, {0, 3, 2}, "inc:1 inc:1 take:1", REFUSED(1, COLOCK_NO_OBJECT)},
        {4, 3, {0, 1, UINT32_MAX}, "inc:1 inc:1 take:1", REFUSED(2, COLOCK_NO_OBJECT)},
        {4, 3, {0, 1, 2}, "take:1 inc:1 take:1", REFUSED(0, COLOCK_NO_CALL)},
        {4, 3, {0, 1, 2}, "inc:1 inc:1 take:101", REFUSED(2, COLOCK_NO_CALL)},
    };
    for (size_t i = 0; i < sizeof away / sizeof *away; i++) {
        colock_store s = COLOCK_EMPTY;
        open_mixed(&s, 20, 9);
        attempt a = attempted_row(&s, &away[i]);
        WANT(has_outcome(&a, &away[i].outcome) && has_operations(&a, NULL, 0) && are_open(&s, 0));
        WANT(keeps(&s, 0, 0) && keeps(&s, 1, 0) && keeps(&s, 2, 20) && begin(&s, 4) == 1);
        WANT(colock_store_close(&s) == COLOCK_OK);
    }
}

static void as_they_have_to_be(void) {
    all_calls_are_done();
    no_call_is_a_transaction_too();
    for (uint32_t at = 0; at < 3; at++) a_call_ends_it(at), a_call_of_no_legal_operation_ends_it(at);
    it_is_begun_where_there_is_room();
    parameters_fit_or_nothing_is_begun();
    attempts_are_their_commands();
    an_only_call_is_its_commands();
    it_fits_or_is_not_begun();
    a_call_that_is_not_there_takes_all_back();
}

int main(void) {
    long met[8] = {0};
    as_they_have_to_be();
    by_number = true;
    as_they_have_to_be();
    for (int i = 0; i < 300; i++) attempts_are_the_same_one_by_one(i % 3 ? 60 : 3000, 2 + (uint32_t)i % 4, 200, met);
    for (int i = 0; i < 6; i++) WANT(met[i] > 0); /* each outcome, and each reason not to begin */
    puts("whole transactions in one call: as they have to be");
    return 0;
}
