// The header from C++.
#include "colock.h"

#include <vector>

int main() {
    colock_type type = COLOCK_EMPTY;
    colock_fault fault = {};
    const uint64_t amounts[] = {1, 2};
    if (colock_version() != COLOCK_VERSION) return 1;
    if (colock_type_account(&type, COLOCK_UNDO, 5, amounts, 2, &fault) != COLOCK_OK) return 2;
    std::vector<colock_event> nothing; // its data() may be a null pointer
    colock_store store = COLOCK_EMPTY;
    uint64_t made;
    if (colock_follow(&store, nothing.data(), nothing.size(), &made) != COLOCK_NOT_HELD) return 4;
    return colock_type_close(&type) == COLOCK_OK ? 0 : 3;
}
