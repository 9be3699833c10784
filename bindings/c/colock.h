/* colock.h: a transactional store of shared, typed objects, in memory.
 *
 * Only operations that don't commute keep each other waiting: two transactions may count one counter up side
 * by side. In escrow one may count it up and another down, as long as it stays inside its bounds whatever
 * becomes of them. A type is read from a text or made of a family, and checked for a kind of recovery. A store
 * is made of objects of such types. Transactions call operations of the objects, and commit or abort.
 *
 *     colock_type type = COLOCK_EMPTY;
 *     colock_store store = COLOCK_EMPTY;
 *     colock_type_counter(&type, COLOCK_UNDO, 5, amounts, 1, &fault);
 *     colock_store_new(&store);
 *     colock_store_add(&store, &type);
 *     colock_store_open(&store, 1000000);
 *     colock_begin(&store, 0, &transaction);
 *     colock_call(&store, 0, transaction, 0, "inc:1", 5, &answer);
 *     colock_commit(&store, 0, transaction);
 *     colock_store_close(&store);
 *     colock_type_close(&type);
 *
 * What each call does is proved, under what its caller owes:
 *
 * - Each pointer is there, is aligned, and points at as many values as its count says, which may be written where the
 *   pointer isn't const. With a count of 0 it may be anything, NULL too, if the compiler is gcc or clang (see the end).
 * - What the pointers of one call point at is apart: no two of them share a byte.
 * - A handle, which is a colock_type or a colock_store, is COLOCK_EMPTY (zeros) before its first call. It is never
 *   copied or written by others. Before its memory goes it is closed, or what it holds is lost.
 * - A handle is in one call at a time; for more threads there is a lock of the caller round each call. Any
 *   thread may make the next call. Reading a type or a store is a call like any other.
 *
 * A call returns one of the codes below. COLOCK_OK is 0. Where it returns another, it has changed nothing, and
 * written nothing, but for what is said at colock_follow, and for the fault of a type that isn't made. A
 * handle that is closed, or holds another sort of thing than is meant, gives COLOCK_NOT_HELD and no more.
 * No call waits, prints, ends the process, or starts a thread. Memory comes from malloc, realloc and free.
 */
#ifndef COLOCK_H
#define COLOCK_H

#include <stdbool.h>
#include <stddef.h>
#include <stdint.h>

#ifdef __cplusplus
extern "C" {
#endif

/* The version of this header's calls, and that of the library's: they have to be the same. */
#define COLOCK_VERSION 3
uint32_t colock_version(void);

/* The release that this header is of, which `colock --version` and the packages of other languages have too. */
#define COLOCK_RELEASE "0.2.0"

/* A handle that holds a type, or nothing. */
typedef struct colock_type {
    bool live_;
    void *at_;
} colock_type;

/* A handle that holds the objects of a store that is being made, or a store, or nothing. */
typedef struct colock_store {
    bool live_;
    void *at_;
} colock_store;

struct colock_held; /* either of them, see colock_close */

/* Either handle before its first call. */
#define COLOCK_EMPTY {false, NULL}
/* Its name up to 0.2, which goes with the next version. */
#define COLOCK_HANDLE COLOCK_EMPTY

typedef enum colock_code {
    COLOCK_OK = 0,                /* it was done */
    COLOCK_NOT_OPEN = 1,          /* the transaction isn't open */
    COLOCK_NO_OBJECT = 2,         /* the store has no object of this number */
    COLOCK_NO_CALL = 3,           /* no operation of the object's type has this call */
    COLOCK_TOO_MANY_OPEN = 4,     /* as many transactions are open as the store may have */
    COLOCK_HISTORY_FULL = 5,      /* the history has no room for the event and the end of each open transaction */
    COLOCK_NO_MEMORY = 6,         /* memory was refused */
    COLOCK_BAD_ROLLBACK = 7,      /* a rollback of no operation, or of more than the transaction has */
    COLOCK_NOT_HELD = 8,          /* the handle holds nothing, or another sort of thing than is meant */
    COLOCK_IN_USE = 9,            /* the handle holds something already */
    COLOCK_BAD_TEXT = 10,         /* the text has a fault */
    COLOCK_REFUSED = 11,          /* the checker refuses the type for this kind */
    COLOCK_BAD_KIND = 12,         /* no kind of recovery has this number */
    COLOCK_NO_OBJECTS = 13,       /* a store of no object */
    COLOCK_TOO_MANY_OBJECTS = 14, /* a store of more objects than it may have */
    COLOCK_NOT_FRESH = 15,        /* an object isn't as it was made (no caller of these calls sees it) */
    COLOCK_BAD_MAX = 16,          /* a limit of the store is out of its range */
    COLOCK_STILL_OPEN = 17,       /* a transaction is open */
    COLOCK_NOT_MADE = 18,         /* no command makes this event now */
    COLOCK_FORGOTTEN = 19,        /* these events were forgotten, or some of them */
    COLOCK_BAD_PARAMETER = 20,    /* a parameter of a family is out of its range or in a wrong order */
    COLOCK_TOO_LARGE = 21,        /* the family's table would have more than 64 operations or 1,024 states */
    COLOCK_NO_STATE = 22,         /* the type has no state of this number */
    COLOCK_NO_OPERATION = 23,     /* the type has no operation of this number */
    COLOCK_NOT_LEGAL = 24,        /* the operation isn't legal in the state */
    COLOCK_NO_ROOM = 25,          /* the room is too small */
    COLOCK_NEEDS_ESCROW = 26,     /* the type is a number, which is for COLOCK_ESCROW alone */
    COLOCK_CHANGES = 27           /* an operation of the call may change something, so it isn't a read */
} colock_code;

/* The words of a code, which no one frees or writes. */
static inline const char *colock_strerror(uint32_t code) {
    /* another number is no colock_code, nor may C++ make it one */
    if (code > COLOCK_CHANGES) return "the code is unknown";
    switch ((colock_code)code) {
    case COLOCK_OK: return "it was done";
    case COLOCK_NOT_OPEN: return "the transaction isn't open";
    case COLOCK_NO_OBJECT: return "the store has no object of this number";
    case COLOCK_NO_CALL: return "no operation of the object's type has this call";
    case COLOCK_TOO_MANY_OPEN: return "too many transactions are open";
    case COLOCK_HISTORY_FULL: return "the history is full";
    case COLOCK_NO_MEMORY: return "memory was refused";
    case COLOCK_BAD_ROLLBACK: return "a rollback of no operation, or of more than there are";
    case COLOCK_NOT_HELD: return "the handle holds nothing, or another sort of thing than is meant";
    case COLOCK_IN_USE: return "the handle holds something already";
    case COLOCK_BAD_TEXT: return "the text has a fault";
    case COLOCK_REFUSED: return "the checker refuses the type";
    case COLOCK_BAD_KIND: return "no kind of recovery has this number";
    case COLOCK_NO_OBJECTS: return "a store of no object";
    case COLOCK_TOO_MANY_OBJECTS: return "a store of too many objects";
    case COLOCK_NOT_FRESH: return "an object isn't as it was made";
    case COLOCK_BAD_MAX: return "a limit of the store is out of its range";
    case COLOCK_STILL_OPEN: return "a transaction is open";
    case COLOCK_NOT_MADE: return "no command makes this event now";
    case COLOCK_FORGOTTEN: return "these events were forgotten";
    case COLOCK_BAD_PARAMETER: return "a parameter is out of its range or in a wrong order";
    case COLOCK_TOO_LARGE: return "the type would have too many operations or states";
    case COLOCK_NO_STATE: return "the type has no state of this number";
    case COLOCK_NO_OPERATION: return "the type has no such operation";
    case COLOCK_NOT_LEGAL: return "the operation isn't legal in the state";
    case COLOCK_NO_ROOM: return "the room is too small";
    case COLOCK_NEEDS_ESCROW: return "the type is a number, which needs escrow";
    case COLOCK_CHANGES: return "an operation of the call may change something";
    }
    return "the code is unknown";
}

/* How an object recovers from aborts. */
typedef enum colock_kind {
    COLOCK_UNDO = 0,       /* it is updated in place, and operations are taken back */
    COLOCK_INTENTIONS = 1, /* each transaction keeps its operations by itself until it commits */
    COLOCK_ESCROW = 2      /* the same of a number: how far others may move it says what has to wait */
} colock_kind;

typedef enum colock_answer_kind {
    COLOCK_REPLY = 0, /* an operation was executed */
    COLOCK_BUSY = 1,  /* what another transaction, the blocker, did is in its way */
    COLOCK_NONE = 2   /* no operation with this call is legal now */
} colock_answer_kind;

/* An operation, and a call, which has the number of its first operation, cross as one number: its place, which is below
 * 256, and with an amount, of 32 bits, 256 * (amount + 1) more. Those of a table, and the amounts that a number lists, are
 * at their places, from 0 in the order of their lines, without an amount. A number that takes any amount has at one place
 * an operation for each amount, and where its value is asked one for each value. */
#define COLOCK_PLACES 256
#define COLOCK_OPERATION(place, amount) ((uint64_t)(place) + COLOCK_PLACES * ((uint64_t)(amount) + 1))
#define COLOCK_PLACE(operation) ((uint64_t)(operation) % COLOCK_PLACES)
#define COLOCK_HAS_AMOUNT(operation) ((uint64_t)(operation) >= COLOCK_PLACES)
/* where it has one */
#define COLOCK_AMOUNT(operation) ((uint64_t)(operation) / COLOCK_PLACES - 1)

/* What a call is answered: `number` is the operation, or the blocker, or 0. */
typedef struct colock_answer {
    uint64_t kind;
    uint64_t number;
} colock_answer;

/* Why a type wasn't made. COLOCK_BAD_TEXT: `line`, from 1, is the first refused line and `kind` a
 * colock_fault_kind. COLOCK_REFUSED: `line` is 0 and `kind` a colock_refusal, which says what the others are. */
typedef struct colock_fault {
    uint64_t line;
    uint64_t kind;
    uint64_t first;
    uint64_t second;
    uint64_t third;
} colock_fault;

typedef enum colock_fault_kind {
    COLOCK_NOT_ASCII = 1,     /* a byte outside 32 to 126 */
    COLOCK_LINE_TOO_LONG = 2, /* more than 200 bytes */
    COLOCK_UNTERMINATED = 3,  /* no line feed ends the line */
    COLOCK_UNKNOWN_WORD = 4,  /* an unknown keyword, a wrong number of words, or a word that is no name or kind */
    COLOCK_BAD_NUMBER = 5,    /* a word that isn't a number */
    COLOCK_OUT_OF_RANGE = 6,  /* a number out of its range, or too many lines of a section */
    COLOCK_OUT_OF_ORDER = 7,  /* a section or an entry after its place */
    COLOCK_MISSING = 8,       /* a section that must be there isn't, or the text has no `end` */
    COLOCK_AFTER_END = 9,     /* a line after `end` */
    COLOCK_TWICE_OP = 10      /* an operation that came before */
} colock_fault_kind;

/* For COLOCK_ESCROW there is the last one alone: in that state the operation isn't legal, though it is in a lower
 * and in a higher one; or it is legal there, and moves it otherwise than the least state in which it is. */
typedef enum colock_refusal {
    COLOCK_INITIAL_OUTSIDE = 1, /* the initial state isn't in the set of states */
    COLOCK_NOT_CLOSED = 2,      /* from state `first` operation `second` leads out of the set */
    COLOCK_NOT_SIMULATION = 3,  /* `first` looks like `second` by the text, and operation `third` distinguishes them */
    COLOCK_NOT_COMMUTING = 4,   /* requested `first` and held `second` have no conflict and fail in state `third` */
    COLOCK_NOT_NUMERIC = 5      /* state `second` shows that operation `first` isn't one of numbers */
} colock_refusal;

/* A type: its states are 0 to states - 1, the places of its operations 0 to ops - 1, and `kind` a colock_kind. A table
 * has at most 1,024 states, a number 4,294,967,296. */
typedef struct colock_shape {
    uint64_t states;
    uint64_t initial;
    uint64_t ops;
    uint64_t kind;
} colock_shape;

/* How the transaction of colock_attempt or colock_attempt_op ended. */
typedef enum colock_outcome_kind {
    COLOCK_OUTCOME_DONE = 0,   /* it committed */
    COLOCK_OUTCOME_BUSY = 1,   /* a call was answered COLOCK_BUSY: `number` is the blocker */
    COLOCK_OUTCOME_NONE = 2,   /* a call was answered COLOCK_NONE */
    COLOCK_OUTCOME_REFUSED = 3 /* a call was refused: `number` is COLOCK_NO_OBJECT, COLOCK_NO_CALL or COLOCK_NO_MEMORY */
} colock_outcome_kind;

/* What came of colock_attempt: `kind` is a colock_outcome_kind, and where it isn't 0 `at` is the place of that call, from 0,
 * at which it aborted. What a kind doesn't have is 0. */
typedef struct colock_outcome {
    uint64_t kind;
    uint64_t at;
    uint64_t number;
} colock_outcome;

typedef enum colock_event_kind {
    COLOCK_EVENT_BEGIN = 0,
    COLOCK_EVENT_OP = 1,      /* `op` is the operation that was executed at `object` */
    COLOCK_EVENT_BUSY = 2,    /* `op` is the place of the call, without its amount, and `other` the blocker */
    COLOCK_EVENT_NONE = 3,    /* `op` is the place of the call */
    COLOCK_EVENT_COMMIT = 4,
    COLOCK_EVENT_ABORT = 5,
    COLOCK_EVENT_ROLLBACK = 6 /* `other` is the number of operations that were taken back */
} colock_event_kind;

/* An event of a store. What its kind doesn't have is 0, and isn't read by colock_follow, nor is `reserved`. */
typedef struct colock_event {
    uint64_t transaction;
    uint64_t other;
    uint64_t op;
    uint32_t object;
    uint32_t kind;
    uint32_t worker;
    uint32_t reserved;
} colock_event;

/* ---- Types
 *
 * Each puts a type behind a handle that holds nothing. Each may return COLOCK_IN_USE, COLOCK_BAD_KIND,
 * COLOCK_REFUSED or COLOCK_NO_MEMORY too. `fault` is written at COLOCK_BAD_TEXT and COLOCK_REFUSED alone.
 *
 * For COLOCK_ESCROW a type has to be numeric: its states are numbers, and each operation is legal from a lowest
 * to a highest one and moves all of these as far. A counter, a stock and an account are, a set isn't, a semiqueue
 * and a queue are where they have one element, or a capacity of 1, and seats are where there is one. */

/* The type of a text, with its own tables, which for COLOCK_ESCROW aren't looked at. Where the text's first word is
 * `number` and not `type`, it is a number up to 4,294,967,295 (docs/formats.md), which has no table and is for
 * COLOCK_ESCROW alone. It lists amounts, and with `take any` or `give any` a call may have each one from 1 to the
 * greatest number, as take:17; with `value` it answers what it is. COLOCK_BAD_TEXT, COLOCK_NEEDS_ESCROW. */
uint32_t colock_type_read(colock_type *type, uint32_t kind, const char *text, size_t text_count,
                          colock_fault *fault);
/* The type of a text with made tables in place of its own: which operations conflict is found out. It isn't a number's.
 * COLOCK_BAD_TEXT. */
uint32_t colock_type_tables(colock_type *type, uint32_t kind, const char *text, size_t text_count,
                            colock_fault *fault);
/* An account of 0 to `cap`: calls deposit:A and withdraw:A for each amount A, and balance. Amounts are 1 to
 * cap, ascending. COLOCK_BAD_PARAMETER, COLOCK_TOO_LARGE. */
uint32_t colock_type_account(colock_type *type, uint32_t kind, uint64_t cap, const uint64_t *amounts,
                             size_t amounts_count, colock_fault *fault);
/* A counter of 0 to `cap`: calls inc:A and dec:A for each amount A. As an account. */
uint32_t colock_type_counter(colock_type *type, uint32_t kind, uint64_t cap, const uint64_t *amounts,
                             size_t amounts_count, colock_fault *fault);
/* A stock of 0 to `cap`: calls give:A and take:A for each amount A, whose refusals, full and short, are replies. As
 * an account. */
uint32_t colock_type_stock(colock_type *type, uint32_t kind, uint64_t cap, const uint64_t *amounts,
                           size_t amounts_count, colock_fault *fault);
/* A set of the words of a text of `elements_count` bytes, with spaces between them: calls insert:E, delete:E and
 * member:E for each element E. COLOCK_BAD_PARAMETER, COLOCK_TOO_LARGE. */
uint32_t colock_type_set(colock_type *type, uint32_t kind, const char *elements, size_t elements_count,
                         colock_fault *fault);
/* A semiqueue of at most `capacity` items: calls enq:E for each element E, and deq, whose reply is any item.
 * As a set. */
uint32_t colock_type_semiqueue(colock_type *type, uint32_t kind, const char *elements,
                               size_t elements_count, uint64_t capacity, colock_fault *fault);
/* A queue of at most `capacity` items: calls enq:E for each element E, and deq, whose reply is the item that is
 * longest there. As a set. */
uint32_t colock_type_queue(colock_type *type, uint32_t kind, const char *elements, size_t elements_count,
                           uint64_t capacity, colock_fault *fault);
/* `count` seats, 1 to 6, each free, held or booked: calls hold:I, release:I, book:I and cancel:I for each I from 1
 * to `count`, and free, whose reply is how many are free. COLOCK_BAD_PARAMETER, COLOCK_TOO_LARGE. */
uint32_t colock_type_seats(colock_type *type, uint32_t kind, uint64_t count, colock_fault *fault);
/* A number of 0 to `max`, which has no table and is for COLOCK_ESCROW alone: calls take:A and give:A for each amount A,
 * whose refusals, short and full, are replies. Amounts are 1 to max, ascending, at most 16. COLOCK_BAD_PARAMETER,
 * COLOCK_TOO_LARGE, COLOCK_NEEDS_ESCROW. */
uint32_t colock_type_number(colock_type *type, uint32_t kind, uint32_t max, const uint32_t *amounts,
                            size_t amounts_count, colock_fault *fault);

/* What is read of a type. COLOCK_NOT_HELD where the handle holds no type. */
uint32_t colock_type_shape(colock_type *type, colock_shape *shape);
/* Its name, without an ending zero: the first bytes of the room, and their number, which is at most
 * COLOCK_LONGEST_NAME. COLOCK_NO_ROOM. */
#define COLOCK_LONGEST_NAME 32
uint32_t colock_type_name(colock_type *type, char *room, size_t room_count, uint64_t *count);
/* The call of operation k, and its reply, as the name; at a place alone those of its line, as take:any and ok.
 * COLOCK_NO_OPERATION, COLOCK_NO_ROOM. */
uint32_t colock_type_call(colock_type *type, uint64_t k, char *room, size_t room_count, uint64_t *count);
uint32_t colock_type_reply(colock_type *type, uint64_t k, char *room, size_t room_count, uint64_t *count);
/* The state to which operation k leads from state s. COLOCK_NO_STATE, COLOCK_NO_OPERATION, COLOCK_NOT_LEGAL. */
uint32_t colock_type_step(colock_type *type, uint64_t s, uint64_t k, uint64_t *to);
/* Whether operation `requested` conflicts with `other`, which another transaction holds: 1 or 0. Of
 * COLOCK_ESCROW it is 0: there is no conflict table, and the numbers say what has to wait. Both are places.
 * COLOCK_NO_OPERATION. */
uint32_t colock_type_conflict(colock_type *type, uint64_t requested, uint64_t other, uint32_t *told);

/* ---- The making of a store */

/* Begins a store behind a handle that holds nothing: no object yet. COLOCK_IN_USE, COLOCK_NO_MEMORY. */
uint32_t colock_store_new(colock_store *store);
/* Adds an object of a type, in its initial state. Objects are numbered from 0; several may have one type. The
 * type may be closed before the store. COLOCK_NOT_HELD, COLOCK_NO_MEMORY. */
uint32_t colock_store_add(colock_store *store, colock_type *type);
/* Makes the store of its objects, of which there may be 256. At most 1,024 transactions are open at once, and its
 * history has at most `max_events` events, 2 to 4,294,967,295, those that were forgotten among them. It returns the
 * first that holds of COLOCK_NOT_HELD, COLOCK_NO_OBJECTS, COLOCK_TOO_MANY_OBJECTS, COLOCK_BAD_MAX and
 * COLOCK_NO_MEMORY: the objects stay. */
uint32_t colock_store_open(colock_store *store, uint64_t max_events);
/* The same with limits of the store's own: 2 to 4,294,967,295 events, 1 to 65,536 open transactions, and 1 to 65,536
 * objects. COLOCK_BAD_MAX where one of them is out of its range. */
uint32_t colock_store_open_with(colock_store *store, uint64_t events, uint32_t open, uint32_t objects);

/* ---- Transactions
 *
 * Each of these, and of those below, returns COLOCK_NOT_HELD where the handle holds no store. A worker is any
 * number that the events are to have. */

/* Begins a transaction, and gives its number: they count from 0. COLOCK_TOO_MANY_OPEN, COLOCK_HISTORY_FULL,
 * COLOCK_NO_MEMORY. */
uint32_t colock_begin(colock_store *store, uint8_t worker, uint64_t *transaction);
/* Calls, for a transaction, the call of this name at an object. COLOCK_OK whether the answer is COLOCK_REPLY,
 * COLOCK_BUSY or COLOCK_NONE: each is an event. COLOCK_NOT_OPEN, COLOCK_NO_OBJECT, COLOCK_NO_CALL,
 * COLOCK_HISTORY_FULL, COLOCK_NO_MEMORY. */
uint32_t colock_call(colock_store *store, uint8_t worker, uint64_t transaction, uint32_t object,
                     const char *name, size_t name_count, colock_answer *answer);
/* The same by the number of the call, for which colock_call_number is asked once; of take:17 it is
 * COLOCK_OPERATION(p, 17), p being the place of take:any. */
uint32_t colock_call_op(colock_store *store, uint8_t worker, uint64_t transaction, uint32_t object,
                        uint64_t call, colock_answer *answer);
/* The number of the call of this name at an object: that of the first operation that has it, of `value` that of the
 * value 0. COLOCK_NO_OBJECT, COLOCK_NO_CALL. */
uint32_t colock_call_number(colock_store *store, uint32_t object, const char *name, size_t name_count,
                            uint64_t *call);
/* What colock_call or colock_call_op would be answered now. It is no event, and needs no memory. The codes are
 * theirs, COLOCK_HISTORY_FULL too. */
uint32_t colock_would(colock_store *store, uint64_t transaction, uint32_t object, const char *name,
                      size_t name_count, colock_answer *answer);
uint32_t colock_would_op(colock_store *store, uint64_t transaction, uint32_t object, uint64_t call,
                         colock_answer *answer);
/* A whole transaction of a worker: it begins, calls at each of these objects, in their order, the call whose name is the
 * word at its place in `names` (words with spaces between them), and commits. At the first call that isn't replied to it
 * aborts in the place of what follows. COLOCK_OK whether it committed or aborted: `outcome` says which. Where it committed
 * the operations of its calls are in the first places of the room. COLOCK_BAD_PARAMETER where there are more names or fewer
 * than objects, COLOCK_NO_ROOM where the room has fewer places than there are objects. Room for all its events is made
 * first: at COLOCK_TOO_MANY_OPEN, COLOCK_HISTORY_FULL and COLOCK_NO_MEMORY it wasn't begun. */
uint32_t colock_attempt(colock_store *store, uint8_t worker, const uint32_t *objects, size_t objects_count,
                        const char *names, size_t names_count, uint64_t *operations, size_t operations_count,
                        colock_outcome *outcome);
/* The same by the numbers of the calls, each at the place of its object: with no memory but what its events and operations
 * take. Where it aborts, the first places of the room may have operations of calls before the one that ended it; what isn't a
 * call's number is refused at its place as COLOCK_NO_CALL. COLOCK_BAD_PARAMETER where there are more calls or fewer than objects. */
uint32_t colock_attempt_op(colock_store *store, uint8_t worker, const uint32_t *objects, size_t objects_count,
                           const uint64_t *calls, size_t calls_count, uint64_t *operations, size_t operations_count,
                           colock_outcome *outcome);
/* Ends a transaction, which needs no memory and no more room in the history. COLOCK_NOT_OPEN. */
uint32_t colock_commit(colock_store *store, uint8_t worker, uint64_t transaction);
uint32_t colock_abort(colock_store *store, uint8_t worker, uint64_t transaction);
/* Takes back the last operations of a transaction, which stays open. COLOCK_NOT_OPEN, COLOCK_BAD_ROLLBACK,
 * COLOCK_HISTORY_FULL, COLOCK_NO_MEMORY. */
uint32_t colock_rollback(colock_store *store, uint8_t worker, uint64_t transaction, uint64_t operations);
/* The state that is kept of an object: of COLOCK_UNDO with what open transactions did, and of the other kinds
 * without it. COLOCK_NO_OBJECT. */
uint32_t colock_kept(colock_store *store, uint32_t object, uint64_t *state);
/* How many transactions are open. */
uint32_t colock_open_count(colock_store *store, uint64_t *count);
/* Aborts each open transaction, in ascending order, as the worker that began it. */
uint32_t colock_abort_all(colock_store *store);

/* ---- Reads of what is committed
 *
 * The committed state of an object is what is left of it where all open transactions are left out, of each kind. Only a
 * commit changes it. These read it: they are no events, hold nothing and wait for nobody, and nobody waits for them.
 * `commits` gets how many transactions had committed then, as colock_commit_count gives it. */

/* What the call of this name at an object is answered to a transaction that only reads committed states: COLOCK_REPLY and
 * its first operation that is legal there, or COLOCK_NONE. COLOCK_CHANGES where an operation of the call may change
 * something; COLOCK_NO_OBJECT, COLOCK_NO_CALL. */
uint32_t colock_peek(colock_store *store, uint32_t object, const char *name, size_t name_count,
                     colock_answer *answer, uint64_t *commits);
/* The committed state of an object. COLOCK_NO_OBJECT. */
uint32_t colock_committed(colock_store *store, uint32_t object, uint64_t *state, uint64_t *commits);
/* The committed states of all objects, in their order: the first places of the room get them. COLOCK_NO_ROOM where it has
 * fewer places than there are objects. */
uint32_t colock_snapshot(colock_store *store, uint64_t *states, size_t states_count, uint64_t *commits);
/* How many transactions have committed since the store was made or began anew. */
uint32_t colock_commit_count(colock_store *store, uint64_t *commits);

/* ---- Events
 *
 * A store's history is what happened, oldest first: events count from 0. */

/* Copies the events from `from` on into the room, as many as there are and it has room for; gives how many.
 * COLOCK_FORGOTTEN where `from` is below the number of those that were forgotten. */
uint32_t colock_events(colock_store *store, uint64_t from, colock_event *room, size_t room_count,
                       uint64_t *count);
/* How many events there were, and how many of the first of them were forgotten. */
uint32_t colock_event_count(colock_store *store, uint64_t *count, uint64_t *forgotten);
/* Forgets the first `events` of those that are in memory, or all. */
uint32_t colock_forget(colock_store *store, uint64_t events);
/* Makes events again, one after another, each as its worker: a store becomes what another was. `made` gets
 * how many were made, at COLOCK_NOT_MADE and COLOCK_NO_MEMORY too: those before that place are made. */
uint32_t colock_follow(colock_store *store, const colock_event *events, size_t events_count, uint64_t *made);

/* ---- Ends */

/* Begins anew, with the same limits, so that a store has no end. Where no transaction is open: at the states that are kept,
 * with no event, and transactions count from 0 again. Where some are, and each yes of the checker is strong (that of
 * COLOCK_INTENTIONS or COLOCK_ESCROW always is; of COLOCK_UNDO `colock check` says it): all of them go on, and no later
 * answer can tell it. They get the numbers 0, 1, 2, .. in the order of their old ones, so that a new number is how many of the
 * open ones had a lower one; who begins later counts on from there. An answer COLOCK_BUSY says the new numbers. The first
 * events are the begins of those that went on and what they did, but for what they took back, each by the worker that began
 * its transaction. colock_follow needn't make these again: a store that follows begins anew where the other one does.
 * COLOCK_STILL_OPEN where one is open and some yes is one-way; COLOCK_NO_MEMORY. */
uint32_t colock_renew(colock_store *store);
/* The same with more objects, which come after those that there are, each in its initial state: those of `added`, which
 * was begun and isn't opened. They are taken, whatever it returns but COLOCK_NOT_HELD: `added` is begun without an object
 * then, and may be used again. It returns the first that holds of COLOCK_NOT_HELD, COLOCK_STILL_OPEN,
 * COLOCK_TOO_MANY_OBJECTS and COLOCK_NO_MEMORY: the store stays. */
uint32_t colock_store_extend(colock_store *store, colock_store *added);
/* Ends what the handle holds; a store aborts what is open. The handle may be used again. COLOCK_NOT_HELD where it
 * holds nothing. In C it is called by one of the two below. */
uint32_t colock_close(struct colock_held *handle);
static inline uint32_t colock_type_close(colock_type *type) {
    return colock_close((struct colock_held *)type);
}
static inline uint32_t colock_store_close(colock_store *store) {
    return colock_close((struct colock_held *)store);
}

/* ---- Pointers where a count is 0
 *
 * The library's own functions promise nothing at a NULL, not even where its count is 0. So before each that has a count
 * comes an inline function of the same name, which gives it another pointer then. The C library puts its own checks
 * before its functions in this way. Who calls by an address calls the library's function, and owes it a pointer. */
#ifdef __GNUC__
#define COLOCK_BEFORE_(call, parameters, arguments) \
    uint32_t call##_itself_ parameters __asm__(#call) __attribute__((nonnull)); \
    extern inline __attribute__((gnu_inline, always_inline)) uint32_t call parameters { \
        uint64_t none_ = 0; \
        return call##_itself_ arguments; \
    }
#define COLOCK_THERE_(kind, pointer) pointer##_count ? pointer : (kind *)&none_

COLOCK_BEFORE_(colock_type_read,
               (colock_type *type, uint32_t kind, const char *text, size_t text_count, colock_fault *fault),
               (type, kind, COLOCK_THERE_(const char, text), text_count, fault))
COLOCK_BEFORE_(colock_type_tables,
               (colock_type *type, uint32_t kind, const char *text, size_t text_count, colock_fault *fault),
               (type, kind, COLOCK_THERE_(const char, text), text_count, fault))
COLOCK_BEFORE_(colock_type_account,
               (colock_type *type, uint32_t kind, uint64_t cap, const uint64_t *amounts, size_t amounts_count,
                colock_fault *fault),
               (type, kind, cap, COLOCK_THERE_(const uint64_t, amounts), amounts_count, fault))
COLOCK_BEFORE_(colock_type_counter,
               (colock_type *type, uint32_t kind, uint64_t cap, const uint64_t *amounts, size_t amounts_count,
                colock_fault *fault),
               (type, kind, cap, COLOCK_THERE_(const uint64_t, amounts), amounts_count, fault))
COLOCK_BEFORE_(colock_type_stock,
               (colock_type *type, uint32_t kind, uint64_t cap, const uint64_t *amounts, size_t amounts_count,
                colock_fault *fault),
               (type, kind, cap, COLOCK_THERE_(const uint64_t, amounts), amounts_count, fault))
COLOCK_BEFORE_(colock_type_set,
               (colock_type *type, uint32_t kind, const char *elements, size_t elements_count, colock_fault *fault),
               (type, kind, COLOCK_THERE_(const char, elements), elements_count, fault))
COLOCK_BEFORE_(colock_type_semiqueue,
               (colock_type *type, uint32_t kind, const char *elements, size_t elements_count, uint64_t capacity,
                colock_fault *fault),
               (type, kind, COLOCK_THERE_(const char, elements), elements_count, capacity, fault))
COLOCK_BEFORE_(colock_type_queue,
               (colock_type *type, uint32_t kind, const char *elements, size_t elements_count, uint64_t capacity,
                colock_fault *fault),
               (type, kind, COLOCK_THERE_(const char, elements), elements_count, capacity, fault))
COLOCK_BEFORE_(colock_type_number,
               (colock_type *type, uint32_t kind, uint32_t max, const uint32_t *amounts, size_t amounts_count,
                colock_fault *fault),
               (type, kind, max, COLOCK_THERE_(const uint32_t, amounts), amounts_count, fault))
COLOCK_BEFORE_(colock_type_name,
               (colock_type *type, char *room, size_t room_count, uint64_t *count),
               (type, COLOCK_THERE_(char, room), room_count, count))
COLOCK_BEFORE_(colock_type_call,
               (colock_type *type, uint64_t k, char *room, size_t room_count, uint64_t *count),
               (type, k, COLOCK_THERE_(char, room), room_count, count))
COLOCK_BEFORE_(colock_type_reply,
               (colock_type *type, uint64_t k, char *room, size_t room_count, uint64_t *count),
               (type, k, COLOCK_THERE_(char, room), room_count, count))
COLOCK_BEFORE_(colock_call,
               (colock_store *store, uint8_t worker, uint64_t transaction, uint32_t object, const char *name,
                size_t name_count, colock_answer *answer),
               (store, worker, transaction, object, COLOCK_THERE_(const char, name), name_count, answer))
COLOCK_BEFORE_(colock_call_number,
               (colock_store *store, uint32_t object, const char *name, size_t name_count, uint64_t *call),
               (store, object, COLOCK_THERE_(const char, name), name_count, call))
COLOCK_BEFORE_(colock_would,
               (colock_store *store, uint64_t transaction, uint32_t object, const char *name, size_t name_count,
                colock_answer *answer),
               (store, transaction, object, COLOCK_THERE_(const char, name), name_count, answer))
COLOCK_BEFORE_(colock_attempt,
               (colock_store *store, uint8_t worker, const uint32_t *objects, size_t objects_count, const char *names,
                size_t names_count, uint64_t *operations, size_t operations_count, colock_outcome *outcome),
               (store, worker, COLOCK_THERE_(const uint32_t, objects), objects_count, COLOCK_THERE_(const char, names),
                names_count, COLOCK_THERE_(uint64_t, operations), operations_count, outcome))
COLOCK_BEFORE_(colock_attempt_op,
               (colock_store *store, uint8_t worker, const uint32_t *objects, size_t objects_count, const uint64_t *calls,
                size_t calls_count, uint64_t *operations, size_t operations_count, colock_outcome *outcome),
               (store, worker, COLOCK_THERE_(const uint32_t, objects), objects_count, COLOCK_THERE_(const uint64_t, calls),
                calls_count, COLOCK_THERE_(uint64_t, operations), operations_count, outcome))
COLOCK_BEFORE_(colock_peek,
               (colock_store *store, uint32_t object, const char *name, size_t name_count, colock_answer *answer,
                uint64_t *commits),
               (store, object, COLOCK_THERE_(const char, name), name_count, answer, commits))
COLOCK_BEFORE_(colock_snapshot,
               (colock_store *store, uint64_t *states, size_t states_count, uint64_t *commits),
               (store, COLOCK_THERE_(uint64_t, states), states_count, commits))
COLOCK_BEFORE_(colock_events,
               (colock_store *store, uint64_t from, colock_event *room, size_t room_count, uint64_t *count),
               (store, from, COLOCK_THERE_(colock_event, room), room_count, count))
COLOCK_BEFORE_(colock_follow,
               (colock_store *store, const colock_event *events, size_t events_count, uint64_t *made),
               (store, COLOCK_THERE_(const colock_event, events), events_count, made))

#undef COLOCK_THERE_
#undef COLOCK_BEFORE_
#endif

#ifdef __cplusplus
}
#endif

#endif
