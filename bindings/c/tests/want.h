/* What the tests have in common. */
#ifndef WANT_H
#define WANT_H

#include "colock.h"

#include <inttypes.h>
#include <stdio.h>
#include <stdlib.h>
#include <string.h>

/* Ends the test where what is asked for isn't so. */
#define WANT(e) \
    do { \
        if (!(e)) { \
            fprintf(stderr, "%s:%d: %s\n", __FILE__, __LINE__, #e); \
            exit(1); \
        } \
    } while (0)

/* A text and its count. */
#define TEXT(s) (s), strlen(s)

/* What no call writes. */
#define UNTOUCHED 77

static const char CTR2[] =
    "type counter\nstates 3\ninitial 0\nop inc:1 ok\nop dec:1 ok\n"
    "step 0 0 1\nstep 1 0 2\nstep 1 1 0\nstep 2 1 1\n"
    "conflict undo 0 1\nconflict undo 1 0\nconflict intentions 0 0\nconflict intentions 1 1\nend\n";

/* A number from 0 to 5, at 3: one is given or two are taken, and there may not be two. The text's set lacks the
 * initial state, so it is refused for any kind that looks at the set. */
static const char FIVE[] =
    "type five\nstates 6\ninitial 3\nop give:1 ok\nop take:2 ok\nop take:2 short\n"
    "step 0 0 1\nstep 0 2 0\nstep 1 0 2\nstep 1 2 1\nstep 2 0 3\nstep 2 1 0\nstep 3 0 4\nstep 3 1 1\nstep 4 0 5\n"
    "step 4 1 2\nstep 5 1 3\nreach 0\nequi 0 1\nconflict undo 0 0\nend\n";

/* A balance in cents, which has no table. */
static const char CENTS[] = "number cents\nmax 100000\ninitial 0\ntake 250\ngive 250\nend\n";

/* A purse, of which any amount is taken and given, 100 by a line of its own, and what is in it is told. The places of its
 * calls: */
static const char PURSE[] = "number purse\nmax 10000\ninitial 500\ntake 100\ntake any\ngive any\nvalue\nend\n";
enum { TAKE_100 = 0, TAKE_ANY = 2, TAKE_SHORT = 3, GIVE_ANY = 4, GIVE_FULL = 5, VALUE = 6 };

/* A number of any amounts, of which one is listed too, and whose value is read. */
static const char SMALL_PURSE[] = "number purse\nmax 100\ninitial 20\ntake any\ngive 7\ngive any\natleast 5\nvalue\nend\n";

/* Objects of the type of CTR2, updated in place, of which a store is to be made. */
static inline void add_counters(colock_store *store, int objects) {
    colock_type type = COLOCK_EMPTY;
    colock_fault fault;
    WANT(colock_type_read(&type, COLOCK_UNDO, TEXT(CTR2), &fault) == COLOCK_OK);
    WANT(colock_store_new(store) == COLOCK_OK);
    for (int x = 0; x < objects; x++) WANT(colock_store_add(store, &type) == COLOCK_OK);
    WANT(colock_type_close(&type) == COLOCK_OK);
}

/* A store of this many such objects. */
static inline void open_counters(colock_store *store, int objects, uint64_t max_events) {
    add_counters(store, objects);
    WANT(colock_store_open(store, max_events) == COLOCK_OK);
}

static inline uint64_t begin(colock_store *store, uint8_t worker) {
    uint64_t t = UNTOUCHED;
    WANT(colock_begin(store, worker, &t) == COLOCK_OK);
    return t;
}

#endif
