/* Runs of the machine over one object, by brute force: is there one whose committed transactions are illegal
   in an order that keeps what precedes?

   usage: breaking_runs KIND FILE LENGTH

   FILE is a canonical type file (no comments), KIND is undo or intentions. Every run of at most LENGTH events
   is gone through; an event is an operation, a commit, an abort or a rollback of one transaction, which begins
   with its first operation. At each commit each order of the committed transactions that keeps what precedes
   (t precedes u where an operation of u that survives came after t's commit) is run from the initial state.

   It writes the number of runs, or the first run that breaks with the order that is illegal, and then its
   status is 1. Nothing here is shared with the program. */
#include <stdio.h>
#include <stdlib.h>
#include <string.h>

enum { MOST_STATES = 1024, MOST_OPS = 64, MOST_LENGTH = 12, ILLEGAL = -1 };
enum Sort { OP, COMMIT, ABORT, ROLLBACK };
enum Status { OPEN, COMMITTED, ABORTED };

static int states, initial, ops, length, is_undo;
static int step[MOST_STATES][MOST_OPS];
static char conflicts[MOST_OPS][MOST_OPS];

struct Event { enum Sort sort; int t, n; };
struct Transaction { enum Status status; int count, op[MOST_LENGTH], before[MOST_LENGTH]; };
/* what the events so far made; `executed` are the transactions of the operations in order, struck ones too */
struct Run {
    struct Event event[MOST_LENGTH];
    int events, begun, commits, commit[MOST_LENGTH];
    struct Transaction of[MOST_LENGTH];
    int executed, by[MOST_LENGTH], what[MOST_LENGTH], struck[MOST_LENGTH];
};

static unsigned long long runs;

static int after(int state, int k) { return state == ILLEGAL ? ILLEGAL : step[state][k]; }

static int after_all(int state, const struct Transaction *t) {
    for (int i = 0; i < t->count; i++) state = after(state, t->op[i]);
    return state;
}

/* the state after the view of t */
static int view(const struct Run *run, const struct Transaction *t) {
    int state = initial;
    if (is_undo) {
        for (int i = 0; i < run->executed; i++)
            if (!run->struck[i]) state = after(state, run->what[i]);
        return state;
    }
    for (int i = 0; i < run->commits; i++) state = after_all(state, &run->of[run->commit[i]]);
    return after_all(state, t);
}

static int is_blocked(const struct Run *run, int t, int k) {
    for (int u = 0; u < run->begun; u++) {
        if (u == t || run->of[u].status != OPEN) continue;
        for (int i = 0; i < run->of[u].count; i++)
            if (conflicts[k][run->of[u].op[i]]) return 1;
    }
    return 0;
}

static void strike(struct Run *run, int t, int n) {
    run->of[t].count -= n;
    for (int i = run->executed - 1; n > 0; i--)
        if (run->by[i] == t && !run->struck[i]) { run->struck[i] = 1; n--; }
}

static void show(const struct Run *run, const int *order) {
    static const char *const word[] = { "op", "commit", "abort", "rollback" };
    for (int i = 0; i < run->events; i++) {
        printf("%s %d", word[run->event[i].sort], run->event[i].t);
        if (run->event[i].sort == OP || run->event[i].sort == ROLLBACK) printf(" %d", run->event[i].n);
        putchar('\n');
    }
    printf("fails");
    for (int i = 0; i < run->commits; i++) printf(" %d", order[i]);
    putchar('\n');
}

/* each order of what is committed that keeps what precedes, by its members so far; false where one is illegal */
static int orders_are_legal(const struct Run *run, int *order, int count, int members, int state) {
    if (state == ILLEGAL) {
        /* the rest in any order that keeps what precedes: commit order does */
        for (int i = 0; i < run->commits; i++)
            if (!(members >> run->commit[i] & 1)) order[count++] = run->commit[i];
        show(run, order);
        return 0;
    }
    for (int i = 0; i < run->commits; i++) {
        int t = run->commit[i], before = 0;
        if (members >> t & 1) continue;
        for (int j = 0; j < run->of[t].count; j++) before |= run->of[t].before[j];
        if (before & ~members) continue;
        order[count] = t;
        if (!orders_are_legal(run, order, count + 1, members | 1 << t, after_all(state, &run->of[t]))) return 0;
    }
    return 1;
}

static int committed_set(const struct Run *run) {
    int set = 0;
    for (int i = 0; i < run->commits; i++) set |= 1 << run->commit[i];
    return set;
}

static int go_on(const struct Run *run);

static int with_event(struct Run *next, enum Sort sort, int t, int n) {
    next->event[next->events++] = (struct Event){ sort, t, n };
    runs++;
    return go_on(next);
}

static int with_op(const struct Run *run, int t, int k) {
    struct Run next = *run;
    struct Transaction *of = &next.of[t];
    if (t == next.begun) { next.begun++; of->status = OPEN; of->count = 0; }
    of->before[of->count] = committed_set(run);
    of->op[of->count++] = k;
    next.by[next.executed] = t;
    next.struck[next.executed] = 0;
    next.what[next.executed++] = k;
    return with_event(&next, OP, t, k);
}

static int with_commit(const struct Run *run, int t) {
    struct Run next = *run;
    int order[MOST_LENGTH];
    next.of[t].status = COMMITTED;
    next.commit[next.commits++] = t;
    next.event[next.events] = (struct Event){ COMMIT, t, 0 };
    next.events++;
    int legal = orders_are_legal(&next, order, 0, 0, initial);
    next.events--;
    return legal && with_event(&next, COMMIT, t, 0);
}

static int with_strike(const struct Run *run, enum Sort sort, int t, int n) {
    struct Run next = *run;
    strike(&next, t, n);
    if (sort == ABORT) next.of[t].status = ABORTED;
    return with_event(&next, sort, t, n);
}

static int ops_of(const struct Run *run, int t) {
    static const struct Transaction none = { OPEN, 0, { 0 }, { 0 } };
    int state = view(run, t == run->begun ? &none : &run->of[t]);
    for (int k = 0; k < ops; k++)
        if (after(state, k) != ILLEGAL && !is_blocked(run, t, k) && !with_op(run, t, k)) return 0;
    return 1;
}

static int go_on(const struct Run *run) {
    int left = length - run->events;
    if (left == 0) return 1;
    for (int t = 0; t < run->begun; t++)
        if (run->of[t].status == OPEN && !with_commit(run, t)) return 0;
    /* only a commit can break, so nothing else comes last; and after a strike an operation and a commit come */
    for (int t = 0; left > 1 && t <= run->begun; t++)
        if ((t == run->begun || run->of[t].status == OPEN) && !ops_of(run, t)) return 0;
    for (int t = 0; left > 2 && t < run->begun; t++) {
        if (run->of[t].status != OPEN || run->of[t].count == 0) continue;
        if (!with_strike(run, ABORT, t, run->of[t].count)) return 0;
        for (int n = 1; n <= run->of[t].count; n++)
            if (!with_strike(run, ROLLBACK, t, n)) return 0;
    }
    return 1;
}

static void read_type(const char *path, const char *kind) {
    char line[256], word[32];
    int s, k, t;
    FILE *file = fopen(path, "r");
    if (!file) { perror(path); exit(2); }
    for (s = 0; s < MOST_STATES; s++)
        for (k = 0; k < MOST_OPS; k++) step[s][k] = ILLEGAL;
    while (fgets(line, sizeof line, file)) {
        if (sscanf(line, "states %d", &states) == 1 || sscanf(line, "initial %d", &initial) == 1) continue;
        if (strncmp(line, "op ", 3) == 0) ops++;
        else if (sscanf(line, "step %d %d %d", &s, &k, &t) == 3) step[s][k] = t;
        else if (sscanf(line, "conflict %31s %d %d", word, &s, &t) == 3 && strcmp(word, kind) == 0) conflicts[s][t] = 1;
    }
    fclose(file);
}

int main(int argc, char **argv) {
    if (argc != 4 || (length = atoi(argv[3])) < 1 || length > MOST_LENGTH) {
        fprintf(stderr, "usage: breaking_runs undo|intentions FILE LENGTH\n");
        return 2;
    }
    is_undo = strcmp(argv[1], "undo") == 0;
    read_type(argv[2], argv[1]);
    struct Run empty = { 0 };
    if (!go_on(&empty)) return 1;
    printf("%llu runs\n", runs);
    return 0;
}
