/* Two transactions count one counter up side by side.
 *
 *     cc example.c -I. build/libcolock.a -o example      (or, where it is installed: cc example.c -lcolock) */
#include "colock.h"

#include <inttypes.h>
#include <stdio.h>
#include <string.h>

static uint32_t counter_store(colock_store *store, colock_type *type) {
    static const uint64_t amounts[] = {1};
    colock_fault fault;
    uint32_t code = colock_type_counter(type, COLOCK_UNDO, 5, amounts, 1, &fault);
    if (!code) code = colock_store_new(store);
    if (!code) code = colock_store_add(store, type);
    return code ? code : colock_store_open(store, 1000000);
}

static void call(colock_store *store, uint64_t transaction, const char *name) {
    colock_answer answer;
    uint32_t code = colock_call(store, 0, transaction, 0, name, strlen(name), &answer);
    printf("%" PRIu64 " %s: ", transaction, name);
    if (code)
        printf("refused: %s\n", colock_strerror(code));
    else if (answer.kind == COLOCK_REPLY)
        printf("done\n");
    else if (answer.kind == COLOCK_BUSY)
        printf("has to wait for %" PRIu64 "\n", answer.number);
    else
        printf("not legal now\n");
}

int main(void) {
    colock_type type = COLOCK_EMPTY;
    colock_store store = COLOCK_EMPTY;
    if (colock_version() != COLOCK_VERSION || counter_store(&store, &type) != COLOCK_OK) return 1;
    uint64_t first, second, kept;
    if (colock_begin(&store, 0, &first) || colock_begin(&store, 0, &second)) return 1;
    call(&store, first, "inc:1");
    call(&store, second, "inc:1"); /* beside the first */
    call(&store, second, "dec:1"); /* the first one's up is in the way */
    if (colock_abort(&store, 0, first)) return 1;
    if (colock_commit(&store, 0, second) || colock_kept(&store, 0, &kept)) return 1;
    printf("kept: %" PRIu64 "\n", kept);
    return colock_store_close(&store) || colock_type_close(&type);
}
