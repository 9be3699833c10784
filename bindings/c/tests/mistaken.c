/* One sort of handle where the other is meant. With MISTAKE 0 the compiler takes it, with any other it doesn't. */
#include "colock.h"

uint32_t mistaken(colock_type *type, colock_store *store, colock_shape *shape, uint64_t *number);

uint32_t mistaken(colock_type *type, colock_store *store, colock_shape *shape, uint64_t *number) {
#if MISTAKE == 0
    uint32_t code = colock_store_add(store, type) | colock_type_shape(type, shape) | colock_begin(store, 0, number);
    return code | colock_type_close(type) | colock_store_close(store);
#elif MISTAKE == 1
    return colock_type_shape(store, shape);
#elif MISTAKE == 2
    return colock_begin(type, 0, number);
#elif MISTAKE == 3
    return colock_store_add(type, store);
#elif MISTAKE == 4
    return colock_type_close(store);
#elif MISTAKE == 5
    return colock_store_close(type);
#elif MISTAKE == 6
    return colock_close(type);
#elif MISTAKE == 7
    return colock_close(store);
#elif MISTAKE == 8
    return colock_store_extend(store, type);
#endif
}
