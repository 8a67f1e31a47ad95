// Holds engine/helpers.c against the compiler's own arithmetic. Ends with 0, or at the first that differs.
#include <assert.h>

#define __multi3 our_product
#define __ashlti3 our_left_shift
#define __lshrti3 our_right_shift
#define __ashrti3 our_signed_right_shift
#include "../../engine/helpers.c"

static u64 state = 88172645463325252ull;
static u64 random_word(void) {
    state ^= state << 13, state ^= state >> 7, state ^= state << 17;
    return state;
}

// Words at the edges as often as others.
static u64 word(void) {
    static const u64 edges[] = {0, 1, 2, 0x7fffffff, 0x80000000, 0xffffffff, 0x100000000, 0x7fffffffffffffff, 0x8000000000000000, 0xffffffffffffffff};
    u64 one = random_word();
    return one % 2 ? edges[one / 2 % 10] : one;
}

static u128 pair(void) { return (u128)word() << 64 | word(); }

int main(void) {
    for (int k = 0; k < 1000000; k++) {
        u128 x = pair(), y = pair();
        assert(our_product(x, y) == x * y);
        int by = (int)(random_word() % 128);
        assert(our_left_shift(x, by) == x << by && our_right_shift(x, by) == x >> by);
        assert(our_signed_right_shift((__int128)x, by) == (__int128)x >> by);
    }
    return 0;
}
