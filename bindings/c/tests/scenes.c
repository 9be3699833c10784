/* Scenes: calls of a store, one after another, whose answers, kept states and histories were worked out by hand. Each scene
 * is played again with each of its allocations refused in turn: then nothing has changed, and the same call is done. */
#include "refusing.h"
#include "want.h"

static const char FROM_ONE[] =
    "type counter\nstates 3\ninitial 1\nop inc:1 ok\nop dec:1 ok\n"
    "step 0 0 1\nstep 1 0 2\nstep 1 1 0\nstep 2 1 1\n"
    "conflict undo 0 1\nconflict undo 1 0\nconflict intentions 0 0\nconflict intentions 1 1\nend\n";

/* State 3 allows nothing and state 4 allows `r`: one end looks like the other, and not the reverse. */
static const char ONE_WAY[] =
    "type oneway\nstates 5\ninitial 0\nop p ok\nop q ok\nop r ok\n"
    "step 0 0 2\nstep 0 1 1\nstep 1 0 3\nstep 2 1 4\nstep 4 2 4\nequi 3 4\nconflict undo 1 0\nconflict undo 2 1\nend\n";

/* States 3 and 4 are equieffective and not equal. */
static const char TWIN[] =
    "type twin\nstates 5\ninitial 0\nop p ok\nop q ok\nop r ok\n"
    "step 0 0 1\nstep 0 1 2\nstep 1 1 3\nstep 2 0 4\nstep 3 2 3\nstep 4 2 4\nequi 3 4\nequi 4 3\n"
    "conflict undo 2 0\nconflict undo 2 1\nconflict intentions 0 0\nconflict intentions 1 1\nend\n";

/* A semiqueue of two items, each `a` or `b`. */
static const char SEMIQUEUE[] =
    "type semiqueue\nstates 6\ninitial 0\nop enq:a ok\nop enq:b ok\nop deq a\nop deq b\n"
    "step 0 0 3\nstep 0 1 1\nstep 1 0 4\nstep 1 1 2\nstep 1 3 0\nstep 2 3 1\n"
    "step 3 0 5\nstep 3 1 4\nstep 3 2 0\nstep 4 2 1\nstep 4 3 3\nstep 5 2 3\n"
    "conflict undo 0 2\nconflict undo 0 3\nconflict undo 1 2\nconflict undo 1 3\nconflict undo 2 0\nconflict undo 3 1\n"
    "conflict intentions 0 0\nconflict intentions 0 1\nconflict intentions 1 0\nconflict intentions 1 1\n"
    "conflict intentions 2 2\nconflict intentions 3 3\nend\n";

enum { MOST_OBJECTS = 2, MOST_EVENTS = 50 };

typedef struct sort {
    uint32_t kind;
    const char *text;
} sort;

/* A store; its calls, each with the worker that calls and what comes of it; its history, once what is open is aborted; and
 * the states in which its objects are then. `number` is a call by its number, `name` asks for the number of a name. */
typedef struct scene {
    sort sorts[MOST_OBJECTS];
    uint64_t max_events;
    const char *calls;
    const char *history;
    uint64_t states[MOST_OBJECTS];
} scene;

static const scene SCENES[] = {
    /* An operation of each kind before any commit. */
    {{{COLOCK_UNDO, CTR2}, {COLOCK_INTENTIONS, CTR2}}, 20,
     "0 begin > 0; 1 begin > 1; 0 call 0 0 'inc:1' > op 0; 0 kept 0 > 1; 1 call 1 1 'inc:1' > op 0; 0 kept 1 > 0; "
     "0 kept 2 > NoObject; 0 kept 256 > NoObject; 0 commit 0 > ok; 1 commit 1 > ok; 0 kept 0 > 1; 0 kept 1 > 1; ",
     "begin 0 0; begin 1 1; op 0 0 0 0; op 1 1 1 0; commit 0 0; commit 1 1; ",
     {1, 1}},
    /* One up and one down from 1, both deferred. */
    {{{COLOCK_INTENTIONS, FROM_ONE}}, 20,
     "0 begin > 0; 0 begin > 1; 0 call 0 0 'inc:1' > op 0; 0 call 1 0 'dec:1' > op 1; 0 kept 0 > 1; "
     "0 commit 0 > ok; 0 kept 0 > 2; 0 commit 1 > ok; 0 kept 0 > 1; ",
     "begin 0 0; begin 0 1; op 0 0 0 0; op 0 1 0 1; commit 0 0; commit 0 1; ",
     {1}},
    /* The second to execute commits first. In commit order the state would be 4. */
    {{{COLOCK_UNDO, ONE_WAY}}, 20,
     "0 begin > 0; 0 begin > 1; 0 call 0 0 'q' > op 1; 0 call 1 0 'p' > op 0; 0 commit 1 > ok; 0 commit 0 > ok; "
     "0 kept 0 > 3; ",
     "begin 0 0; begin 0 1; op 0 0 0 1; op 0 1 0 0; commit 0 1; commit 0 0; ",
     {3}},
    /* What the second sees is carried on by the first's commit. In commit order the state would be 3. */
    {{{COLOCK_INTENTIONS, TWIN}}, 20,
     "0 begin > 0; 0 begin > 1; 0 call 0 0 'p' > op 0; 0 call 1 0 'q' > op 1; 0 commit 0 > ok; 0 commit 1 > ok; "
     "0 begin > 2; 0 call 2 0 'r' > op 2; 0 commit 2 > ok; 0 kept 0 > 4; ",
     "begin 0 0; begin 0 1; op 0 0 0 0; op 0 1 0 1; commit 0 0; commit 0 1; begin 0 2; op 0 2 0 2; commit 0 2; ",
     {4}},
    /* Who holds an operation keeps others from one that conflicts with it until it is struck. */
    {{{COLOCK_UNDO, CTR2}}, 20,
     "0 begin > 0; 1 begin > 1; 1 call 1 0 'dec:1' > none; 0 call 0 0 'inc:1' > op 0; 0 call 0 0 'inc:1' > op 0; "
     "1 call 1 0 'dec:1' > busy 0; 1 call 1 0 'inc:1' > none; 0 rollback 0 1 > ok; 1 call 1 0 'dec:1' > busy 0; "
     "0 commit 0 > ok; 1 call 1 0 'dec:1' > op 1; 1 abort 1 > ok; 0 kept 0 > 1; ",
     "begin 0 0; begin 1 1; none 1 1 0 1; op 0 0 0 0; op 0 0 0 0; busy 1 1 0 1 0; none 1 1 0 0; rollback 0 0 1; "
     "busy 1 1 0 1 0; commit 0 0; op 1 1 0 1; abort 1 1; ",
     {1}},
    /* A new store, and none of its objects beyond the last. */
    {{{COLOCK_UNDO, CTR2}, {COLOCK_INTENTIONS, CTR2}}, 20,
     "0 count > 0; 0 kept 1 > 0; 0 kept 2 > NoObject; ",
     "",
     {0, 0}},
    /* Two transactions at a counter from 0 to 2 in place, which both count up: the first is kept from a third up by the end
     * of the range, the second from a down by the first one's up. */
    {{{COLOCK_UNDO, CTR2}}, 20,
     "9 begin > 0; 8 begin > 1; 9 call 0 0 'inc:1' > op 0; 8 call 1 0 'inc:1' > op 0; 9 call 0 0 'inc:1' > none; "
     "8 call 1 0 'dec:1' > busy 0; 9 rollback 0 1 > ok; 8 call 1 0 'dec:1' > op 1; 8 commit 1 > ok; "
     "9 abort 0 > ok; 0 kept 0 > 0; ",
     "begin 9 0; begin 8 1; op 9 0 0 0; op 8 1 0 0; none 9 0 0 0; busy 8 1 0 1 0; rollback 9 0 1; op 8 1 0 1; "
     "commit 8 1; abort 9 0; ",
     {0}},
    /* The last two operations, at two objects, are struck. */
    {{{COLOCK_UNDO, CTR2}, {COLOCK_INTENTIONS, CTR2}}, 20,
     "4 begin > 0; 4 call 0 0 'inc:1' > op 0; 4 call 0 1 'inc:1' > op 0; 4 call 0 0 'inc:1' > op 0; 0 kept 0 > 2; "
     "5 rollback 0 2 > ok; 0 kept 0 > 1; 4 commit 0 > ok; 0 kept 0 > 1; 0 kept 1 > 0; ",
     "begin 4 0; op 4 0 0 0; op 4 0 1 0; op 4 0 0 0; rollback 5 0 2; commit 4 0; ",
     {1, 0}},
    /* A call of two operations, by its name and by its number. */
    {{{COLOCK_UNDO, SEMIQUEUE}}, 20,
     "0 name 0 'deq' > op 2; 0 name 0 'enq:b' > op 1; 0 name 0 'enq' > NoCall; 0 name 1 'deq' > NoObject; "
     "0 begin > 0; 0 begin > 1; 0 number 0 0 2 > none; 0 call 0 0 'enq:b' > op 1; 0 number 1 0 2 > busy 0; "
     "0 number 1 0 0 > op 0; 0 call 0 0 'deq' > op 3; 0 kept 0 > 3; ",
     "begin 0 0; begin 0 1; none 0 0 0 2; op 0 0 0 1; busy 0 1 0 2 0; op 0 1 0 0; op 0 0 0 3; abort 0 0; "
     "abort 0 1; ",
     {0}},
    /* The next epoch begins with both counters up, and one transaction goes on into it. */
    {{{COLOCK_UNDO, CTR2}, {COLOCK_INTENTIONS, CTR2}}, 9,
     "1 begin > 0; 1 call 0 0 'inc:1' > op 0; 1 call 0 1 'inc:1' > op 0; 1 commit 0 > ok; 1 begin > 1; 1 begin > 2; "
     "1 call 2 1 'inc:1' > op 0; 1 abort 1 > ok; 0 forget 2 > ok; 0 count > 8; 0 renew > ok; 0 count > 2; "
     "2 kept 0 > 1; 2 kept 1 > 1; 2 begin > 1; ",
     "begin 1 0; op 1 0 1 0; begin 2 1; abort 1 0; abort 2 1; ",
     {1, 1}},
    /* At 3: who takes two and who gives one don't keep one another, and a second take waits for the first. */
    {{{COLOCK_ESCROW, FIVE}}, 1000,
     "0 begin > 0; 0 begin > 1; 0 begin > 2; 0 call 0 0 'take:2' > op 1; 0 call 1 0 'give:1' > op 0; "
     "0 call 2 0 'take:2' > busy 0; 0 abort 0 > ok; 0 call 2 0 'take:2' > op 1; 0 commit 1 > ok; 0 kept 0 > 4; "
     "0 commit 2 > ok; 0 kept 0 > 2; 0 begin > 3; 0 commit 3 > ok; 0 kept 0 > 2; ",
     "begin 0 0; begin 0 1; begin 0 2; op 0 0 0 1; op 0 1 0 0; busy 0 2 0 1 0; abort 0 0; op 0 2 0 1; commit 0 1; "
     "commit 0 2; begin 0 3; commit 0 3; ",
     {2}},
    /* That there aren't two is held against a give that would make it untrue, and no other. */
    {{{COLOCK_ESCROW, FIVE}}, 1000,
     "0 begin > 0; 0 call 0 0 'take:2' > op 1; 0 commit 0 > ok; 0 kept 0 > 1; 0 begin > 1; "
     "0 call 1 0 'take:2' > op 2; 0 begin > 2; 0 call 2 0 'give:1' > busy 1; 0 call 1 0 'give:1' > op 0; "
     "0 rollback 1 2 > ok; 0 call 2 0 'give:1' > op 0; 0 call 1 0 'take:2' > busy 2; 0 commit 2 > ok; "
     "0 kept 0 > 2; 0 call 1 0 'take:2' > op 1; 0 commit 1 > ok; 0 kept 0 > 0; ",
     "begin 0 0; op 0 0 0 1; commit 0 0; begin 0 1; op 0 1 0 2; begin 0 2; busy 0 2 0 0 1; op 0 1 0 0; "
     "rollback 0 1 2; op 0 2 0 0; busy 0 1 0 1 2; commit 0 2; op 0 1 0 1; commit 0 1; ",
     {0}},
    /* One that gives and takes: what it took it may give back, and how far it fell counts until its end. */
    {{{COLOCK_ESCROW, FIVE}}, 1000,
     "0 begin > 0; 0 call 0 0 'take:2' > op 1; 0 call 0 0 'give:1' > op 0; 0 call 0 0 'give:1' > op 0; "
     "0 begin > 1; 0 call 1 0 'take:2' > busy 0; 0 rollback 0 3 > ok; 0 call 1 0 'take:2' > op 1; "
     "0 commit 0 > ok; 0 kept 0 > 3; 0 abort 1 > ok; 0 begin > 2; ",
     "begin 0 0; op 0 0 0 1; op 0 0 0 0; op 0 0 0 0; begin 0 1; busy 0 1 0 1 0; rollback 0 0 3; op 0 1 0 1; "
     "commit 0 0; abort 0 1; begin 0 2; abort 0 2; ",
     {3}},
    /* The value is read where nobody else may move it, and while it is held nobody else does. That there are too few is
     * told where an open gift doesn't change it. */
    {{{COLOCK_UNDO, CTR2}, {COLOCK_ESCROW, SMALL_PURSE}}, 100,
     "0 begin > 0; 1 begin > 1; 0 call 0 1 'give:9' > op 4 9; 0 call 0 0 'inc:1' > op 0; "
     "1 call 1 1 'value' > busy 0; 0 call 0 1 'value' > op 8 29; 1 call 1 1 'take:17' > busy 0; "
     "0 rollback 0 1 > ok; 1 call 1 1 'take:17' > op 0 17; 1 call 1 1 'take:4' > busy 0; "
     "1 call 1 1 'take:13' > op 1 13; 1 commit 1 > ok; 0 kept 1 > 3; 0 commit 0 > ok; 0 kept 1 > 12; ",
     "begin 0 0; begin 1 1; op 0 0 1 4 9; op 0 0 0 0; busy 1 1 1 8 0; op 0 0 1 8 29; busy 1 1 1 0 0; "
     "rollback 0 0 1; op 1 1 1 0 17; busy 1 1 1 0 0; op 1 1 1 1 13; commit 1 1; commit 0 0; ",
     {1, 12}},
    /* Calls by their numbers: that of `value` has the amount 0, whatever is answered. An amount that a line lists is no
     * other line's. */
    {{{COLOCK_UNDO, CTR2}, {COLOCK_ESCROW, SMALL_PURSE}}, 100,
     "0 name 1 'take:17' > op 0 17; 0 name 1 'give:7' > op 2; 0 name 1 'value' > op 8 0; "
     "0 name 1 'take:101' > NoCall; 0 name 0 'take:17' > NoCall; 0 begin > 0; 0 number 0 1 8 0 > op 8 20; "
     "0 begin > 1; 0 number 1 1 2 > busy 0; 0 number 0 1 4 80 > op 4 80; 0 number 0 1 2 > op 3; "
     "0 number 0 1 4 1 > op 5 1; 0 number 0 1 0 100 > op 0 100; 0 number 0 1 6 > op 7; 0 commit 0 > ok; "
     "0 kept 1 > 0; ",
     "begin 0 0; op 0 0 1 8 20; begin 0 1; busy 0 1 1 2 0; op 0 0 1 4 80; op 0 0 1 3; op 0 0 1 5 1; "
     "op 0 0 1 0 100; op 0 0 1 7; commit 0 0; abort 0 1; ",
     {0, 0}},
    /* An amount is 1 to the greatest number, in digits of which the first isn't 0. A number of a call is that of its
     * first operation. */
    {{{COLOCK_UNDO, CTR2}, {COLOCK_ESCROW, SMALL_PURSE}}, 100,
     "0 begin > 0; 0 call 0 1 'take:0' > NoCall; 0 call 0 1 'take:007' > NoCall; 0 call 0 1 'take:101' > NoCall; "
     "0 call 0 1 'take:4294967297' > NoCall; 0 call 0 1 'take:any' > NoCall; 0 call 0 1 'take:' > NoCall; "
     "0 call 0 1 'atleast:4' > NoCall; 0 call 0 1 'value:20' > NoCall; 0 call 0 0 'inc:2' > NoCall; "
     "0 number 0 1 0 > NoCall; 0 number 0 1 3 > NoCall; 0 number 0 1 8 > NoCall; 0 number 0 1 0 0 > NoCall; "
     "0 number 0 1 0 101 > NoCall; 0 number 0 1 1 5 > NoCall; 0 number 0 1 2 7 > NoCall; "
     "0 number 0 1 4 7 > NoCall; 0 number 0 1 8 20 > NoCall; 0 number 0 0 0 1 > NoCall; "
     "0 call 0 1 'take:100' > op 1 100; 0 kept 1 > 20; ",
     "begin 0 0; op 0 0 1 1 100; abort 0 0; ",
     {0, 20}},
    /* With room in the history. */
    {{{COLOCK_UNDO, CTR2}, {COLOCK_INTENTIONS, SEMIQUEUE}}, 100,
     "0 commit 0 > NotOpen; 0 abort 0 > NotOpen; 0 rollback 0 0 > NotOpen; 0 call 0 9 'no' > NotOpen; "
     "0 number 0 9 99 > NotOpen; 0 begin > 0; 0 call 0 9 'no' > NoObject; 0 call 0 2 'inc:1' > NoObject; "
     "0 call 0 256 'inc:1' > NoObject; 0 number 0 257 0 > NoObject; 0 call 0 0 'deq' > NoCall; "
     "0 call 0 0 'inc:1 ' > NoCall; 0 call 0 0 '' > NoCall; 0 number 0 0 2 > NoCall; 0 number 0 1 3 > NoCall; "
     "0 number 0 1 255 > NoCall; 0 rollback 0 0 > BadRollback; 0 rollback 0 1 > BadRollback; "
     "0 call 0 0 'inc:1' > op 0; 0 call 0 1 'enq:a' > op 0; 0 rollback 0 3 > BadRollback; "
     "0 rollback 0 4294967295 > BadRollback; 0 rollback 1 1 > NotOpen; 0 rollback 0 2 > ok; "
     "0 rollback 0 1 > BadRollback; 0 commit 0 > ok; 0 commit 0 > NotOpen; 0 abort 0 > NotOpen; "
     "0 call 0 0 'inc:1' > NotOpen; ",
     "begin 0 0; op 0 0 0 0; op 0 0 1 0; rollback 0 0 2; commit 0 0; ",
     {0, 0}},
    /* Where the history has no room, each other reason comes before. */
    {{{COLOCK_UNDO, CTR2}}, 3,
     "0 begin > 0; 0 call 0 0 'inc:1' > op 0; 0 call 1 0 'inc:1' > NotOpen; 0 call 0 1 'inc:1' > NoObject; "
     "0 call 0 0 'no' > NoCall; 0 call 0 0 'inc:1' > HistoryFull; 0 number 0 0 2 > NoCall; "
     "0 number 0 0 0 > HistoryFull; 0 rollback 1 1 > NotOpen; 0 rollback 0 2 > BadRollback; "
     "0 rollback 0 1 > HistoryFull; 0 begin > HistoryFull; 0 commit 0 > ok; ",
     "begin 0 0; op 0 0 0 0; commit 0 0; ",
     {1}},
    /* At each bound: room for the least history, and for one more event. */
    {{{COLOCK_UNDO, CTR2}}, 2,
     "0 begin > 0; 0 call 0 0 'inc:1' > HistoryFull; 0 begin > HistoryFull; 0 abort 0 > ok; "
     "0 begin > HistoryFull; ",
     "begin 0 0; abort 0 0; ",
     {0}},
    /* Three transactions of three workers, of which the second is ended by a fourth. The open ones are aborted by the workers
     * that began them. */
    {{{COLOCK_UNDO, CTR2}, {COLOCK_UNDO, ONE_WAY}}, 100,
     "9 begin > 0; 8 begin > 1; 7 begin > 2; 3 call 2 0 'inc:1' > op 0; 3 call 0 1 'q' > op 1; 3 call 1 0 'inc:1' > op 0; "
     "3 commit 1 > ok; ",
     "begin 9 0; begin 8 1; begin 7 2; op 3 2 0 0; op 3 0 1 1; op 3 1 0 0; commit 3 1; abort 9 0; abort 7 2; ",
     {1, 0}},
    /* A second begin takes the last places that aren't kept for ends. */
    {{{COLOCK_UNDO, CTR2}}, 5,
     "0 begin > 0; 0 call 0 0 'inc:1' > op 0; 0 begin > 1; 0 call 1 0 'inc:1' > HistoryFull; "
     "0 rollback 0 1 > HistoryFull; 0 abort 1 > ok; 0 rollback 0 1 > HistoryFull; 0 commit 0 > ok; "
     "0 begin > HistoryFull; ",
     "begin 0 0; op 0 0 0 0; begin 0 1; abort 0 1; commit 0 0; ",
     {1}},
};

/* ---- a call, as it is written */

static void put_operation(char *told, const char *word, uint64_t k) {
    if (COLOCK_HAS_AMOUNT(k)) sprintf(told, "%s %" PRIu64 " %" PRIu64, word, COLOCK_PLACE(k), COLOCK_AMOUNT(k));
    else sprintf(told, "%s %" PRIu64, word, COLOCK_PLACE(k));
}

static void put_answer(char *told, const colock_answer *answer) {
    if (answer->kind == COLOCK_REPLY) put_operation(told, "op", answer->number);
    else if (answer->kind == COLOCK_BUSY) sprintf(told, "busy %" PRIu64, answer->number);
    else strcpy(told, "none");
}

/* The name between the quotes of a call. */
static size_t name_of(const char *call, const char **name) {
    const char *first = strchr(call, '\'');
    WANT(first != NULL);
    const char *last = strchr(first + 1, '\'');
    WANT(last != NULL);
    *name = first + 1;
    return (size_t)(last - first - 1);
}

/* Makes a call of a transaction at an object, by its name or its number. */
static uint32_t call_object(colock_store *store, uint8_t w, const char *call, char *told) {
    colock_answer answer = {UNTOUCHED, UNTOUCHED};
    const char *name;
    uint64_t t, place, amount;
    uint32_t x, code;
    int count = sscanf(call, "number %" SCNu64 " %" SCNu32 " %" SCNu64 " %" SCNu64, &t, &x, &place, &amount);
    if (count >= 3) code = colock_call_op(store, w, t, x, count == 4 ? COLOCK_OPERATION(place, amount) : place, &answer);
    else {
        WANT(sscanf(call, "call %" SCNu64 " %" SCNu32, &t, &x) == 2);
        size_t length = name_of(call, &name);
        code = colock_call(store, w, t, x, name, length, &answer);
    }
    if (!code) put_answer(told, &answer);
    return code;
}

/* Does a call, and tells what comes of it where its code is that of success. */
static uint32_t do_call(colock_store *store, uint8_t w, const char *call, char *told) {
    const char *name;
    uint64_t t, n = UNTOUCHED;
    uint32_t x, code;
    strcpy(told, "ok");
    if (!strcmp(call, "begin")) code = colock_begin(store, w, &n), sprintf(told, "%" PRIu64, n);
    else if (sscanf(call, "commit %" SCNu64, &t) == 1) code = colock_commit(store, w, t);
    else if (sscanf(call, "abort %" SCNu64, &t) == 1) code = colock_abort(store, w, t);
    else if (sscanf(call, "rollback %" SCNu64 " %" SCNu64, &t, &n) == 2) code = colock_rollback(store, w, t, n);
    else if (!strcmp(call, "renew")) code = colock_renew(store);
    else if (sscanf(call, "forget %" SCNu64, &n) == 1) code = colock_forget(store, n);
    else if (!strcmp(call, "count")) code = colock_event_count(store, &n, &t), sprintf(told, "%" PRIu64, n);
    else if (sscanf(call, "kept %" SCNu32, &x) == 1) code = colock_kept(store, x, &n), sprintf(told, "%" PRIu64, n);
    else if (sscanf(call, "name %" SCNu32, &x) == 1) {
        size_t length = name_of(call, &name);
        code = colock_call_number(store, x, name, length, &n);
        put_operation(told, "op", n);
    } else code = call_object(store, w, call, told);
    return code;
}

/* ---- what is seen of a store */

/* How many events there are, and what the first objects keep, if there is a second one. */
typedef struct glance {
    uint64_t events, forgotten, first, second;
} glance;

static glance look(colock_store *store) {
    glance seen = {UNTOUCHED, UNTOUCHED, UNTOUCHED, UNTOUCHED};
    WANT(colock_event_count(store, &seen.events, &seen.forgotten) == COLOCK_OK);
    WANT(colock_kept(store, 0, &seen.first) == COLOCK_OK);
    (void)colock_kept(store, 1, &seen.second);
    return seen;
}

static size_t put_event(char *told, const colock_event *e) {
    static const char *const words[] = {"begin", "op", "busy", "none", "commit", "abort", "rollback"};
    char operation[80] = "", other[40] = "", word[40];
    WANT(e->kind < 7);
    sprintf(word, " %" PRIu32, e->object);
    if (e->kind == COLOCK_EVENT_OP || e->kind == COLOCK_EVENT_BUSY || e->kind == COLOCK_EVENT_NONE) put_operation(operation, word, e->op);
    if (e->kind == COLOCK_EVENT_BUSY || e->kind == COLOCK_EVENT_ROLLBACK) sprintf(other, " %" PRIu64, e->other);
    return (size_t)sprintf(told, "%s %" PRIu32 " %" PRIu64 "%s%s; ", words[e->kind], e->worker, e->transaction, operation, other);
}

/* That the history of a store is this one, and its objects are in these states. */
static void is_left(const scene *s, colock_store *store, int objects) {
    colock_event room[MOST_EVENTS];
    char told[MOST_EVENTS * 80] = "";
    size_t at = 0;
    uint64_t count, state;
    WANT(colock_events(store, 0, room, MOST_EVENTS, &count) == COLOCK_OK && count < MOST_EVENTS);
    for (uint64_t i = 0; i < count; i++) at += put_event(told + at, &room[i]);
    if (strcmp(told, s->history)) fprintf(stderr, "the history is\n%s\nand not\n%s\n", told, s->history), exit(1);
    for (int x = 0; x < objects; x++) WANT(colock_kept(store, (uint32_t)x, &state) == COLOCK_OK && state == s->states[x]);
}

/* ---- a scene */

static long refusals = 0;

/* Does a call where one allocation may be refused. */
#define DO(e) \
    do { \
        uint32_t code_ = (e); \
        if (code_ == COLOCK_NO_MEMORY) refusals++, code_ = (e); \
        WANT(code_ == COLOCK_OK); \
    } while (0)

static int open_store(const scene *s, colock_store *store) {
    int objects = 0;
    DO(colock_store_new(store));
    for (; objects < MOST_OBJECTS && s->sorts[objects].text; objects++) {
        colock_type type = COLOCK_EMPTY;
        colock_fault fault;
        DO(colock_type_read(&type, s->sorts[objects].kind, TEXT(s->sorts[objects].text), &fault));
        DO(colock_store_add(store, &type));
        WANT(colock_type_close(&type) == COLOCK_OK);
    }
    DO(colock_store_open(store, s->max_events));
    return objects;
}

/* Does a row, "WORKER CALL > WHAT COMES OF IT". */
static void do_row(colock_store *store, char *row) {
    static const char *const refused[] = {"", "NotOpen", "NoObject", "NoCall", "TooManyOpen", "HistoryFull", "NoMemory", "BadRollback",
        [COLOCK_STILL_OPEN] = "StillOpen"};
    char told[80], *call = strchr(row, ' '), *wanted = strstr(row, " > ");
    WANT(call != NULL && wanted != NULL);
    *wanted = 0, wanted += 3;
    uint8_t w = (uint8_t)atoi(row);
    glance before = look(store), after;
    uint32_t code = do_call(store, w, call + 1, told);
    if (code == COLOCK_NO_MEMORY) {
        after = look(store);
        WANT(!memcmp(&before, &after, sizeof after));
        refusals++;
        code = do_call(store, w, call + 1, told);
    }
    WANT(code <= COLOCK_STILL_OPEN && refused[code]);
    if (code) strcpy(told, refused[code]);
    if (strcmp(told, wanted)) fprintf(stderr, "%s: %s, and not %s\n", row, told, wanted), exit(1);
}

/* Makes the events of the one store, which hasn't begun anew, again at another, in as many steps as memory allows. */
static void follow(colock_store *store, colock_store *other) {
    colock_event room[MOST_EVENTS];
    uint64_t count, made, done = 0;
    WANT(colock_events(store, 0, room, MOST_EVENTS, &count) == COLOCK_OK);
    while (done < count) {
        uint32_t code = colock_follow(other, room + done, count - done, &made);
        WANT(code == COLOCK_OK || code == COLOCK_NO_MEMORY);
        refusals += code == COLOCK_NO_MEMORY;
        done += made;
    }
}

static void play(const scene *s) {
    static char calls[4000];
    colock_store store = COLOCK_EMPTY, other = COLOCK_EMPTY;
    int objects = open_store(s, &store);
    WANT(strlen(s->calls) < sizeof calls);
    strcpy(calls, s->calls);
    for (char *row = calls, *end; (end = strstr(row, "; ")) != NULL; row = end + 2) {
        *end = 0;
        do_row(&store, row);
    }
    WANT(colock_abort_all(&store) == COLOCK_OK);
    is_left(s, &store, objects);
    open_store(s, &other);
    if (!strstr(s->calls, "renew > ok")) {
        follow(&store, &other);
        is_left(s, &other, objects);
    }
    WANT(colock_store_close(&store) == COLOCK_OK && colock_store_close(&other) == COLOCK_OK && live == 0);
}

int main(void) {
    size_t count = sizeof SCENES / sizeof *SCENES;
    long all = 0;
    for (const scene *s = SCENES; s < SCENES + count; s++) {
        left = -1, refusals = 0;
        play(s);
        WANT(refusals == 0);
        for (long n = 0;; n++) {
            left = n, refusals = 0;
            play(s);
            if (left >= 0) break; /* fewer allocations than that */
            WANT(refusals <= 1);
            all++;
        }
    }
    printf("%zu scenes as they have to be, also with each of %ld allocations refused in turn\n", count, all);
    return 0;
}
