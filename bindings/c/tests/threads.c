/* Sixteen threads on one store, with a lock round each call; and on a store each, without a lock. */
#include "want.h"

#include <pthread.h>

enum { THREADS = 16, ROUNDS = 500, OBJECTS = 4 };

static pthread_mutex_t lock = PTHREAD_MUTEX_INITIALIZER;
static colock_store store = COLOCK_EMPTY;

#define LOCKED(e) (pthread_mutex_lock(&lock), code = (e), pthread_mutex_unlock(&lock), code)

/* Two calls in a transaction, at two objects. Whether both were executed and it committed. */
static bool try_once(uint8_t worker, unsigned *seed, int *net) {
    uint32_t code;
    uint64_t t;
    int sum = 0;
    WANT(LOCKED(colock_begin(&store, worker, &t)) == COLOCK_OK);
    for (int i = 0; i < 2; i++) {
        colock_answer answer;
        bool up = rand_r(seed) % 2;
        const char *call = up ? "inc:1" : "dec:1";
        WANT(LOCKED(colock_call(&store, worker, t, (uint32_t)rand_r(seed) % OBJECTS, TEXT(call), &answer)) == COLOCK_OK);
        if (answer.kind != COLOCK_REPLY) {
            WANT(LOCKED(colock_abort(&store, worker, t)) == COLOCK_OK);
            return false;
        }
        sum += up ? 1 : -1;
    }
    WANT(LOCKED(colock_commit(&store, worker, t)) == COLOCK_OK);
    *net += sum;
    return true;
}

static void *work(void *arg) {
    int worker = *(int *)arg, net = 0;
    unsigned seed = (unsigned)worker + 1;
    for (int done = 0; done < ROUNDS;) done += try_once((uint8_t)worker, &seed, &net);
    *(int *)arg = net;
    return NULL;
}

static void on_one_store(uint32_t kind) {
    static const uint64_t amounts[] = {1};
    colock_type type = COLOCK_EMPTY;
    colock_fault fault;
    pthread_t threads[THREADS];
    int told[THREADS];
    uint64_t count, forgotten, kept, sum = 0;
    WANT(colock_type_counter(&type, kind, 1000, amounts, 1, &fault) == COLOCK_OK);
    WANT(colock_store_new(&store) == COLOCK_OK);
    for (int x = 0; x < OBJECTS; x++) WANT(colock_store_add(&store, &type) == COLOCK_OK);
    WANT(colock_store_open(&store, UINT32_MAX) == COLOCK_OK);
    for (int i = 0; i < THREADS; i++) told[i] = i;
    for (int i = 0; i < THREADS; i++) WANT(!pthread_create(&threads[i], NULL, work, &told[i]));
    for (int i = 0; i < THREADS; i++) WANT(!pthread_join(threads[i], NULL));
    for (uint32_t x = 0; x < OBJECTS; x++) {
        WANT(colock_kept(&store, x, &kept) == COLOCK_OK);
        sum += kept;
    }
    int64_t net = 0;
    for (int i = 0; i < THREADS; i++) net += told[i];
    WANT(net == (int64_t)sum);
    WANT(colock_open_count(&store, &count) == COLOCK_OK && count == 0);
    WANT(colock_event_count(&store, &count, &forgotten) == COLOCK_OK);
    WANT(colock_store_close(&store) == COLOCK_OK && colock_type_close(&type) == COLOCK_OK);
    printf("16 threads, kind %" PRIu32 ": %d transactions committed, %" PRIu64 " events, what is kept is their sum\n", kind, THREADS * ROUNDS, count);
}

/* Uses a store and closes it. It has its type with the stores of other threads. */
static void *use(void *arg) {
    colock_store *own = arg;
    colock_answer answer;
    uint64_t kept;
    for (uint64_t t = 0; t < ROUNDS; t++) {
        WANT(begin(own, 0) == t);
        WANT(colock_call_op(own, 0, t, (uint32_t)t % 2, t / 2 % 2, &answer) == COLOCK_OK);
        WANT(answer.kind == COLOCK_REPLY && colock_commit(own, 0, t) == COLOCK_OK);
    }
    WANT(colock_kept(own, 0, &kept) == COLOCK_OK && kept == 0);
    WANT(colock_renew(own) == COLOCK_OK && begin(own, 0) == 0 && colock_store_close(own) == COLOCK_OK);
    return NULL;
}

static void on_a_store_each(void) {
    colock_type type = COLOCK_EMPTY;
    colock_store own[THREADS];
    colock_fault fault;
    pthread_t threads[THREADS];
    WANT(colock_type_read(&type, COLOCK_INTENTIONS, TEXT(CTR2), &fault) == COLOCK_OK);
    for (int i = 0; i < THREADS; i++) {
        memset(&own[i], 0, sizeof own[i]);
        WANT(colock_store_new(&own[i]) == COLOCK_OK);
        for (int x = 0; x < 2; x++) WANT(colock_store_add(&own[i], &type) == COLOCK_OK);
        WANT(colock_store_open(&own[i], 10000) == COLOCK_OK);
    }
    for (int i = 0; i < THREADS; i++) WANT(!pthread_create(&threads[i], NULL, use, &own[i]));
    WANT(colock_type_close(&type) == COLOCK_OK); /* beside them */
    for (int i = 0; i < THREADS; i++) WANT(!pthread_join(threads[i], NULL));
}

int main(void) {
    on_a_store_each();
    on_one_store(COLOCK_ESCROW);
    on_one_store(COLOCK_UNDO);
    return 0;
}
