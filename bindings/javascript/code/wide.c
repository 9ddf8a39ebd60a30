/* The arithmetic of 128 bits that clang leaves to a library, of which WebAssembly has none here.
 * scripts/build/wasm.py compiles it, for the page and the package for Node; their tests run the rows of tests/program/tables. */
typedef unsigned long u64;
typedef unsigned __int128 u128;
typedef __int128 i128;

typedef union {
    u128 whole;
    struct {
        u64 low, high;
    } half;
} wide;

static u128 of_halves(u64 low, u64 high) {
    wide answer = {.half = {low, high}};
    return answer.whole;
}

u128 __ashlti3(u128 number, int count) {
    wide given = {.whole = number};
    if (count == 0)
        return number;
    if (count >= 64)
        return of_halves(0, given.half.low << (count - 64));
    return of_halves(given.half.low << count, given.half.high << count | given.half.low >> (64 - count));
}

u128 __lshrti3(u128 number, int count) {
    wide given = {.whole = number};
    if (count == 0)
        return number;
    if (count >= 64)
        return of_halves(given.half.high >> (count - 64), 0);
    return of_halves(given.half.low >> count | given.half.high << (64 - count), given.half.high >> count);
}

/* The product of two numbers of 64 bits, by halves of 32. */
static u128 product(u64 first, u64 second) {
    u64 a0 = (unsigned)first, a1 = first >> 32, b0 = (unsigned)second, b1 = second >> 32;
    u64 low = a0 * b0;
    u64 middle = a0 * b1 + (low >> 32);
    u64 other = a1 * b0 + (unsigned)middle;
    return of_halves(other << 32 | (unsigned)low, a1 * b1 + (middle >> 32) + (other >> 32));
}

i128 __multi3(i128 first, i128 second) {
    wide a = {.whole = first}, b = {.whole = second}, answer = {.whole = product(a.half.low, b.half.low)};
    answer.half.high += a.half.low * b.half.high + a.half.high * b.half.low;
    return answer.whole;
}

u128 __udivti3(u128 number, u128 by) {
    u128 quotient = 0, rest = 0;
    if (!(number >> 64) && !(by >> 64))
        return (u64)number / (u64)by;
    for (int at = 127; at >= 0; at--) {
        rest = rest << 1 | (number >> at & 1);
        if (rest >= by) {
            rest -= by;
            quotient |= (u128)1 << at;
        }
    }
    return quotient;
}

i128 __divti3(i128 number, i128 by) {
    u128 quotient = __udivti3(number < 0 ? -(u128)number : (u128)number, by < 0 ? -(u128)by : (u128)by);
    return (number < 0) != (by < 0) ? -quotient : quotient;
}
