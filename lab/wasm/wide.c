/* Products and shifts of 128 bits, which LLVM calls by these names. None may use the operation that it is. */
typedef unsigned long long u64;
typedef long long i64;
typedef unsigned __int128 u128;
typedef __int128 i128;

typedef union {
    u128 whole;
    struct {
        u64 low, high;
    };
} halves;

u128 __multi3(u128 x, u128 y) {
    halves a = {x}, b = {y}, out;
    const u64 mask = 0xFFFFFFFF;
    u64 a0 = a.low & mask, a1 = a.low >> 32, b0 = b.low & mask, b1 = b.low >> 32;
    u64 low = a0 * b0, middle = a1 * b0 + (low >> 32), rest = a0 * b1 + (middle & mask);
    out.low = rest << 32 | (low & mask);
    out.high = a1 * b1 + (middle >> 32) + (rest >> 32) + a.low * b.high + a.high * b.low;
    return out.whole;
}

u128 __ashlti3(u128 x, int by) {
    halves a = {x}, out = a;
    if (by >= 64) {
        out.low = 0;
        out.high = a.low << (by - 64);
    } else if (by) {
        out.low = a.low << by;
        out.high = a.high << by | a.low >> (64 - by);
    }
    return out.whole;
}

/* A shift to the right, which fills with this. */
static u128 right(halves a, int by, u64 fill) {
    halves out = a;
    if (by > 64) {
        out.low = a.high >> (by - 64) | fill << (128 - by);
        out.high = fill;
    } else if (by == 64) {
        out.low = a.high;
        out.high = fill;
    } else if (by) {
        out.low = a.low >> by | a.high << (64 - by);
        out.high = a.high >> by | fill << (64 - by);
    }
    return out.whole;
}

u128 __lshrti3(u128 x, int by) { return right((halves){x}, by, 0); }

i128 __ashrti3(i128 x, int by) {
    halves a = {(u128)x};
    return (i128)right(a, by, (i64)a.high < 0 ? ~(u64)0 : 0);
}
