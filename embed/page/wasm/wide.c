/* Arithmetic on 128 bits, by the names by which clang calls it where a processor has none. */
#include "wide.h"

typedef union {
    wide all;
    struct {
        uint64_t low, high;
    } half;
} halves;

wide __ashlti3(wide a, int n) {
    halves it = { a };
    if (n >= 64) {
        it.half.high = it.half.low << (n - 64);
        it.half.low = 0;
    } else if (n > 0) {
        it.half.high = it.half.high << n | it.half.low >> (64 - n);
        it.half.low <<= n;
    }
    return it.all;
}

wide __lshrti3(wide a, int n) {
    halves it = { a };
    if (n >= 64) {
        it.half.low = it.half.high >> (n - 64);
        it.half.high = 0;
    } else if (n > 0) {
        it.half.low = it.half.low >> n | it.half.high << (64 - n);
        it.half.high >>= n;
    }
    return it.all;
}

/* The product of two numbers of 64 bits, by four of 32 bits. */
static halves product(uint64_t a, uint64_t b) {
    uint64_t a0 = (uint32_t)a, a1 = a >> 32, b0 = (uint32_t)b, b1 = b >> 32;
    uint64_t low = a0 * b0, left = a0 * b1, right = a1 * b0;
    uint64_t middle = (low >> 32) + (uint32_t)left + (uint32_t)right;
    halves it;
    it.half.low = middle << 32 | (uint32_t)low;
    it.half.high = a1 * b1 + (left >> 32) + (right >> 32) + (middle >> 32);
    return it;
}

wide __multi3(wide a, wide b) {
    halves x = { a }, y = { b }, it = product(x.half.low, y.half.low);
    it.half.high += x.half.low * y.half.high + x.half.high * y.half.low;
    return it.all;
}

/* A digit of 32 bits of (rest:next) / by, where by has its highest bit and rest < by: guessed by the upper half of by, and corrected. */
static uint64_t digit(uint64_t *rest, uint64_t next, uint64_t by) {
    uint64_t upper = by >> 32, lower = (uint32_t)by, guess = *rest / upper, left = *rest % upper;
    while (guess >> 32 != 0 || guess * lower > (left << 32 | next)) {
        guess--;
        left += upper;
        if (left >> 32 != 0) {
            break;
        }
    }
    *rest = (*rest << 32 | next) - guess * by;
    return guess;
}

/* high:low / by, where high < by. */
static uint64_t quotient(uint64_t high, uint64_t low, uint64_t by, uint64_t *rest) {
    int shift = __builtin_clzll(by);
    by <<= shift;
    *rest = shift == 0 ? high : high << shift | low >> (64 - shift);
    low <<= shift;
    uint64_t upper = digit(rest, low >> 32, by), lower = digit(rest, (uint32_t)low, by);
    *rest >>= shift;
    return upper << 32 | lower;
}

/* a / b where b has more than 64 bits, so that the quotient has no more: bit by bit. */
static wide divide_by_wide(halves a, wide b, wide *rest) {
    wide left = a.half.high;
    uint64_t found = 0;
    for (int bit = 63; bit >= 0; bit--) {
        int is_out = (int)(left >> 127);
        left = left << 1 | (a.half.low >> bit & 1);
        found <<= 1;
        if (is_out || left >= b) {
            left -= b;
            found |= 1;
        }
    }
    *rest = left;
    return found;
}

static wide divide(wide a, wide b, wide *rest) {
    halves x = { a }, y = { b }, it = { 0 };
    uint64_t left = 0;
    if (y.half.high != 0) {
        return divide_by_wide(x, b, rest);
    }
    it.half.high = x.half.high / y.half.low;
    it.half.low = quotient(x.half.high % y.half.low, x.half.low, y.half.low, &left);
    *rest = left;
    return it.all;
}

wide __udivti3(wide a, wide b) {
    wide rest;
    return divide(a, b, &rest);
}

wide __umodti3(wide a, wide b) {
    wide rest;
    divide(a, b, &rest);
    return rest;
}

static wide size_of(signed_wide a) { return a < 0 ? -(wide)a : (wide)a; }

signed_wide __divti3(signed_wide a, signed_wide b) {
    wide it = __udivti3(size_of(a), size_of(b));
    return (a < 0) != (b < 0) ? -(signed_wide)it : (signed_wide)it;
}
