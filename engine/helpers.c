// Arithmetic on 128 bits, which compiled code calls by these names where no library of the compiler is. It is done on halves, since of the whole the
// compiler would make a call of the function itself.

typedef unsigned long long u64;
typedef unsigned __int128 u128;
typedef union { u128 whole; struct { u64 low, high; } half; } Halves;

static u128 joined(u64 low, u64 high) { return (Halves){.half = {low, high}}.whole; }

// The product of two words.
static Halves product(u64 x, u64 y) {
    u64 x0 = x & 0xffffffff, x1 = x >> 32, y0 = y & 0xffffffff, y1 = y >> 32;
    u64 low = x0 * y0, one = x1 * y0 + (low >> 32), other = x0 * y1 + (one & 0xffffffff);
    return (Halves){.half = {other << 32 | (low & 0xffffffff), x1 * y1 + (one >> 32) + (other >> 32)}};
}

u128 __multi3(u128 x, u128 y) {
    Halves a = {x}, b = {y}, lows = product(a.half.low, b.half.low);
    return joined(lows.half.low, lows.half.high + a.half.low * b.half.high + a.half.high * b.half.low);
}

// The shifts are by 0 to 127.
u128 __ashlti3(u128 x, int by) {
    Halves a = {x};
    if (by == 0) return x;
    if (by >= 64) return joined(0, a.half.low << (by - 64));
    return joined(a.half.low << by, a.half.high << by | a.half.low >> (64 - by));
}

u128 __lshrti3(u128 x, int by) {
    Halves a = {x};
    if (by == 0) return x;
    if (by >= 64) return joined(a.half.high >> (by - 64), 0);
    return joined(a.half.low >> by | a.half.high << (64 - by), a.half.high >> by);
}

__int128 __ashrti3(__int128 x, int by) {
    Halves a = {(u128)x};
    long long high = (long long)a.half.high;
    if (by == 0) return x;
    if (by >= 64) return (__int128)joined((u64)(high >> (by - 64)), (u64)(high >> 63));
    return (__int128)joined(a.half.low >> by | a.half.high << (64 - by), (u64)(high >> by));
}
