/* escrow_futures MOST DEPTH [any]: whether an object in escrow answers exactly where every future stays legal.
 *
 * Of a number from 0 to MOST it goes through each committed number, and all that three open transactions may have done
 * by takes and gives of 1 and of 2, at most DEPTH operations together. The type is a table; with `any` it is a number
 * without one, which takes and gives any amount, and whose value they read too. (A state that the store admits is reached
 * whatever the order of its operations, since fronts of what is safe are safe.) In each state it asks the store what
 * each call of each transaction would be answered, and finds out by itself which operation of the call, the first one,
 * is legal after what the transaction sees and safe: with it, what each transaction did is legal when it commits,
 * whichever others commit before, in any order, each of them all that it did or a front of it. This operation has to be
 * the reply. Where there is none, the answer has to be busy, with another transaction that did something there, or none
 * where no operation of the call is legal. What is kept has to be the committed number. */
#include "colock.h"

#include <inttypes.h>
#include <stdio.h>
#include <stdlib.h>
#include <string.h>

enum { CALLS = 6, GREATEST = 100, OPS = 2 * CALLS + GREATEST, OPEN = 3, LONGEST = 12, BUSY = -1, NONE = -2 };

/* Where an operation is legal, how far it moves the number, and its own number in the store. */
typedef struct operation {
    const char *words;
    int low, high, move;
    uint64_t number;
} operation;

/* The operations of a call, in order. The first names the call. */
typedef struct operations {
    int first, count;
    uint64_t number;
} operations;

/* What a transaction did. */
typedef struct done {
    int ops[LONGEST + 1];
    int count;
} done;

static operation ops[OPS];
static operations calls[CALLS];
/* How many of the first calls are executed, and not asked alone. */
static int executed;
static int most, base;
static colock_store store = COLOCK_EMPTY;
static uint64_t transactions[OPEN];
static done own[OPEN];
static uint64_t states, requests, replies, busies, nones;

/* Of a table call c has the operations 2c and 2c + 1. The first four calls have one legal operation at each number; of
 * the last two, both may be legal, or none. */
static void make_table(void) {
    const operation made[2 * CALLS] = {
        {"take:1 ok", 1, most, -1, 0}, {"take:1 short", 0, 0, 0, 1},
        {"give:1 ok", 0, most - 1, 1, 2}, {"give:1 full", most, most, 0, 3},
        {"take:2 ok", 2, most, -2, 4}, {"take:2 short", 0, 1, 0, 5},
        {"give:2 ok", 0, most - 2, 2, 6}, {"give:2 full", most - 1, most, 0, 7},
        {"draw two", 2, most, -2, 8}, {"draw one", 1, most, -1, 9},
        {"put two", 0, most - 2, 2, 10}, {"put one", 0, most - 1, 1, 11},
    };
    for (int op = 0; op < 2 * CALLS; op++) ops[op] = made[op];
    for (int c = 0; c < CALLS; c++) calls[c] = (operations){2 * c, 2, (uint64_t)(2 * c)};
    executed = 4;
}

/* The number of the operation at a place with an amount. */
static uint64_t with_amount(uint64_t place, int amount) {
    return place + 256 * ((uint64_t)amount + 1);
}

/* Of a number without a table: takes of 1 and of 2, gives of 1 and of 2, a test, and the value, whose operations are its
 * numbers. A take of 2 and a give of 2 are there where the number is one that may be so much. */
static void make_number(void) {
    const int two = most < 2 ? 1 : 2;
    const operation made[] = {
        {"take:1 ok", 1, most, -1, with_amount(0, 1)}, {"take:1 short", 0, 0, 0, with_amount(1, 1)},
        {"give:1 ok", 0, most - 1, 1, with_amount(2, 1)}, {"give:1 full", most, most, 0, with_amount(3, 1)},
        {"take:2 ok", two, most, -two, with_amount(0, two)}, {"take:2 short", 0, two - 1, 0, with_amount(1, two)},
        {"give:2 ok", 0, most - two, two, with_amount(2, two)},
        {"give:2 full", most - two + 1, most, 0, with_amount(3, two)},
        {"atleast:1 yes", 1, most, 0, 4}, {"atleast:1 no", 0, 0, 0, 5},
    };
    const int listed = (int)(sizeof made / sizeof *made);
    for (int op = 0; op < listed; op++) ops[op] = made[op];
    for (int n = 0; n <= most; n++) ops[listed + n] = (operation){"value", n, n, 0, with_amount(6, n)};
    for (int c = 0; c < CALLS - 1; c++) calls[c] = (operations){2 * c, 2, made[2 * c].number};
    calls[CALLS - 1] = (operations){listed, most + 1, with_amount(6, 0)};
    executed = CALLS;
}

/* Says what the store did wrong, and where. */
static void fail(const char *what, int t, int call) {
    fprintf(stderr, "%s: of 0 to %d, %d is committed, and ", what, most, base);
    fprintf(stderr, "transaction %d asks for %s\n", t, ops[calls[call].first].words);
    for (int u = 0; u < OPEN; u++)
        for (int i = 0; i < own[u].count; i++) fprintf(stderr, "transaction %d did %s\n", u, ops[own[u].ops[i]].words);
    exit(1);
}

/* What has to succeed whatever is tested. */
static void want(uint32_t code, const char *what) {
    if (code != COLOCK_OK) {
        fprintf(stderr, "%s: code %" PRIu32 "\n", what, code);
        exit(1);
    }
}

/* The next number, or -1. */
static int step(int number, int op) {
    return number >= ops[op].low && number <= ops[op].high ? number + ops[op].move : -1;
}

/* The number after the first operations of d, or -1. */
static int run(int number, const done *d, int count) {
    for (int i = 0; i < count && number >= 0; i++) number = step(number, d->ops[i]);
    return number;
}

/* Whether what t did is legal, whatever of these two commits before it in this order. */
static bool is_safe_behind(int t, int first, int second) {
    for (int a = 0; a <= own[first].count; a++) {
        int between = run(base, &own[first], a);
        for (int b = 0; b <= own[second].count; b++) {
            int number = between < 0 ? -1 : run(between, &own[second], b);
            if (number < 0 || run(number, &own[t], own[t].count) < 0) return false;
        }
    }
    return true;
}

static bool is_safe(void) {
    for (int t = 0; t < OPEN; t++) {
        int u = (t + 1) % OPEN, v = (t + 2) % OPEN;
        if (!is_safe_behind(t, u, v) || !is_safe_behind(t, v, u)) return false;
    }
    return true;
}

static bool is_safe_with(int t, int op) {
    own[t].ops[own[t].count++] = op;
    bool safe = is_safe();
    own[t].count--;
    return safe;
}

/* What a call of t has to be answered: an operation, BUSY or NONE. */
static int wanted(int t, int call) {
    int seen = run(base, &own[t], own[t].count), answer = NONE;
    for (int op = calls[call].first; op < calls[call].first + calls[call].count; op++)
        if (step(seen, op) >= 0) {
            if (is_safe_with(t, op)) return op;
            answer = BUSY;
        }
    return answer;
}

/* Whether the blocker is another transaction that did something. */
static bool is_in_the_way(int t, uint64_t blocker) {
    for (int u = 0; u < OPEN; u++)
        if (transactions[u] == blocker) return u != t && own[u].count > 0;
    return false;
}

/* Asks what a call of t would be answered, and compares. */
static int ask(int t, int call) {
    colock_answer answer;
    int op = wanted(t, call);
    want(colock_would_op(&store, transactions[t], 0, calls[call].number, &answer), "would");
    requests++;
    if (op >= 0) {
        if (answer.kind != COLOCK_REPLY) fail("safe, and not executed", t, call);
        if (answer.number != ops[op].number) fail("another operation is executed than the first safe one", t, call);
        replies++;
    } else if (op == BUSY) {
        if (answer.kind != COLOCK_BUSY) fail("legal and not safe, and not busy", t, call);
        if (!is_in_the_way(t, answer.number)) fail("the blocker is no other one that did something", t, call);
        busies++;
    } else {
        if (answer.kind != COLOCK_NONE) fail("not legal, and not none", t, call);
        nones++;
    }
    return op;
}

static void execute(int t, int call, int op) {
    colock_answer answer;
    want(colock_call_op(&store, 0, transactions[t], 0, calls[call].number, &answer), "call");
    if (answer.kind != COLOCK_REPLY || answer.number != ops[op].number) fail("executed otherwise than it would", t, call);
    own[t].ops[own[t].count++] = op;
}

static void take_back(int t) {
    want(colock_rollback(&store, 0, transactions[t], 1), "rollback");
    want(colock_forget(&store, UINT64_MAX), "forget");
    own[t].count--;
}

/* Compares in this state, and in all in which transactions from t on did something more. */
static void go(int t, int left) {
    int answers[OPEN][CALLS];
    uint64_t kept;
    for (int u = 0; u < OPEN; u++)
        for (int call = 0; call < CALLS; call++) answers[u][call] = ask(u, call);
    want(colock_kept(&store, 0, &kept), "kept");
    if (kept != (uint64_t)base) fail("something else is kept", t, 0);
    states++;
    for (int u = t; u < OPEN && left > 0; u++)
        for (int call = 0; call < executed; call++)
            if (answers[u][call] >= 0) {
                execute(u, call, answers[u][call]);
                go(u, left - 1);
                take_back(u);
            }
}

/* The text of the table, beginning at 0. */
static size_t write_table(char *text, size_t room) {
    size_t n = (size_t)snprintf(text, room, "type number\nstates %d\ninitial 0\n", most + 1);
    for (int op = 0; op < 2 * CALLS; op++) n += (size_t)snprintf(text + n, room - n, "op %s\n", ops[op].words);
    for (int number = 0; number <= most; number++)
        for (int op = 0; op < 2 * CALLS; op++)
            if (step(number, op) >= 0)
                n += (size_t)snprintf(text + n, room - n, "step %d %d %d\n", number, op, step(number, op));
    return n + (size_t)snprintf(text + n, room - n, "end\n");
}

/* The text of the number, beginning at 0. */
static size_t write_number(char *text, size_t room) {
    return (size_t)snprintf(text, room, "number any\nmax %d\ninitial 0\ntake any\ngive any\natleast 1\nvalue\nend\n", most);
}

static void open_store(bool is_any) {
    static char text[65536];
    size_t count = is_any ? write_number(text, sizeof text) : write_table(text, sizeof text);
    colock_type type = COLOCK_EMPTY;
    colock_fault fault;
    want(colock_type_read(&type, COLOCK_ESCROW, text, count, &fault), "type");
    want(colock_store_new(&store), "new store");
    want(colock_store_add(&store, &type), "object");
    want(colock_store_open(&store, UINT32_MAX), "store");
    want(colock_type_close(&type), "close");
}

/* A first transaction gives what is committed, and the others begin. */
static void begin(void) {
    uint64_t first;
    colock_answer answer;
    want(colock_begin(&store, 0, &first), "begin");
    for (int n = 0; n < base; n++) want(colock_call(&store, 0, first, 0, "give:1", 6, &answer), "give");
    want(colock_commit(&store, 0, first), "commit");
    for (int t = 0; t < OPEN; t++) want(colock_begin(&store, 0, &transactions[t]), "begin");
}

int main(int count, char **words) {
    int depth = count >= 3 ? atoi(words[2]) : -1;
    bool is_any = count == 4 && strcmp(words[3], "any") == 0;
    most = count >= 3 ? atoi(words[1]) : 0;
    if (count > 4 || (count == 4 && !is_any)) return 2;
    if (most < 1 || most >= GREATEST || depth < 0 || depth > LONGEST) return 2;
    if (is_any) make_number();
    else make_table();
    for (base = 0; base <= most; base++) {
        open_store(is_any);
        begin();
        go(0, depth);
        want(colock_store_close(&store), "close");
    }
    printf("a %s from 0 to %d, at most %d operations: ", is_any ? "number" : "table", most, depth);
    printf("%" PRIu64 " states, ", states);
    printf("%" PRIu64 " requests: %" PRIu64 " replies, ", requests, replies);
    printf("%" PRIu64 " busy, %" PRIu64 " none\n", busies, nones);
    return 0;
}
