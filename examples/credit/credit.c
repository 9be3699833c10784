/* Two accounts and transfers between them, each one transaction. Built after `make library` in bindings/c:
 *
 *     cc credit.c -I../../bindings/c ../../bindings/c/build/libcolock.a -o credit && ./credit
 *
 * What the bank refuses is a reply of an operation: `withdraw:5 short` where there is too little, `deposit:5
 * full` where there is no room. Such a reply is as good as any other: it holds in the serial order too. */
#include "colock.h"

#include <inttypes.h>
#include <stdio.h>
#include <stdlib.h>
#include <string.h>

enum { ALICE, BOB, ACCOUNTS };
static const char *const names[] = {"Alice", "Bob"};

typedef struct bank {
    colock_type type;
    colock_store store;
} bank;

/* Ends the program where a call has a code that it can't have here but where memory was refused. */
static void must(uint32_t code) {
    if (code == COLOCK_OK) return;
    fprintf(stderr, "credit: code %" PRIu32 "\n", code);
    exit(3);
}

static void open_bank(bank *b) {
    static const uint64_t amounts[] = {1, 5, 10};
    colock_fault fault;
    must(colock_type_account(&b->type, COLOCK_UNDO, 20, amounts, 3, &fault));
    must(colock_store_new(&b->store));
    for (int i = 0; i < ACCOUNTS; i++) must(colock_store_add(&b->store, &b->type));
    must(colock_store_open(&b->store, 1000000));
}

static uint64_t begin(bank *b) {
    uint64_t t;
    must(colock_begin(&b->store, 0, &t));
    return t;
}

/* A call at an account. Whether an operation was executed; its reply is in `reply`, and else the reason. */
static int call(bank *b, uint64_t t, uint32_t account, const char *name, char reply[64]) {
    colock_answer answer;
    uint64_t count = 0;
    must(colock_call(&b->store, 0, t, account, name, strlen(name), &answer));
    if (answer.kind == COLOCK_REPLY) {
        must(colock_type_reply(&b->type, answer.number, reply, 63, &count));
        reply[count] = 0;
        return 1;
    }
    if (answer.kind == COLOCK_BUSY)
        snprintf(reply, 64, "transaction %" PRIu64 " is in the way", answer.number);
    else
        snprintf(reply, 64, "not legal now");
    return 0;
}

/* One leg of a transfer. Whether it was executed and not refused. */
static int leg(bank *b, uint64_t t, uint32_t account, const char *verb, int amount) {
    char name[32], reply[64];
    snprintf(name, sizeof name, "%s:%d", verb, amount);
    int done = call(b, t, account, name, reply);
    printf("  %s at %s: %s\n", name, names[account], reply);
    return done && !strcmp(reply, "ok");
}

/* Commits what was done, or leaves everything as it was. */
static void end(bank *b, uint64_t t, int done) {
    must(done ? colock_commit(&b->store, 0, t) : colock_abort(&b->store, 0, t));
    printf("  %s\n", done ? "committed" : "aborted");
}

static void transfer(bank *b, uint32_t from, uint32_t to, int amount) {
    uint64_t t = begin(b);
    printf("%d from %s to %s:\n", amount, names[from], names[to]);
    end(b, t, leg(b, t, from, "withdraw", amount) && leg(b, t, to, "deposit", amount));
}

static void pay_in(bank *b, uint32_t account, int amount) {
    uint64_t t = begin(b);
    printf("%d for %s:\n", amount, names[account]);
    end(b, t, leg(b, t, account, "deposit", amount));
}

static void tell_balance(bank *b, uint64_t t, uint32_t account) {
    char reply[64];
    call(b, t, account, "balance", reply);
    printf("  balance at %s: %s\n", names[account], reply);
}

/* Two transfers between the same accounts at the same time: neither waits for the other, a reader for both. */
static void side_by_side(bank *b) {
    uint64_t first = begin(b), second = begin(b), reader = begin(b);
    printf("1 and 5 from Bob to Alice, side by side:\n");
    leg(b, first, BOB, "withdraw", 1);
    int five = leg(b, second, BOB, "withdraw", 5);
    leg(b, first, ALICE, "deposit", 1);
    five = leg(b, second, ALICE, "deposit", 5) && five;
    tell_balance(b, reader, BOB);
    end(b, first, 0); /* it goes out of the middle */
    end(b, second, five);
    tell_balance(b, reader, BOB);
    end(b, reader, 1);
}

int main(void) {
    bank b = {COLOCK_EMPTY, COLOCK_EMPTY};
    open_bank(&b);
    pay_in(&b, ALICE, 10);
    transfer(&b, ALICE, BOB, 5);
    transfer(&b, ALICE, BOB, 10); /* short */
    pay_in(&b, BOB, 10);
    pay_in(&b, ALICE, 5);
    transfer(&b, ALICE, BOB, 10); /* full: the withdrawal is taken back */
    side_by_side(&b);
    for (uint32_t i = 0; i < ACCOUNTS; i++) {
        uint64_t balance;
        must(colock_kept(&b.store, i, &balance));
        printf("%s has %" PRIu64 "\n", names[i], balance);
    }
    must(colock_store_close(&b.store));
    must(colock_type_close(&b.type));
    return 0;
}
