/* Compares the page's arithmetic on 128 bits with the processor's, on random numbers of all lengths. */
#include "../wasm/wide.h"

#include <stdio.h>

static uint64_t state = 1;

static uint64_t bits(void) {
    state += UINT64_C(0x9e3779b97f4a7c15);
    uint64_t it = (state ^ (state >> 30)) * UINT64_C(0xbf58476d1ce4e5b9);
    it = (it ^ (it >> 27)) * UINT64_C(0x94d049bb133111eb);
    return it ^ (it >> 31);
}

/* A number of a random length, at times with all bits set. */
static wide number(void) {
    wide it = bits() % 8 == 0 ? ~(wide)0 : (wide)bits() << 64 | bits();
    return it >> bits() % 128;
}

int main(void) {
    for (int round = 0; round < 400000; round++) {
        wide a = number(), b = number();
        int shift = (int)(bits() % 128);
        signed_wide c = bits() % 2 == 0 ? (signed_wide)(a >> 1) : -(signed_wide)(a >> 1),
                    d = bits() % 2 == 0 ? (signed_wide)(b >> 1) : -(signed_wide)(b >> 1);
        int is_right = __ashlti3(a, shift) == a << shift && __lshrti3(a, shift) == a >> shift && __multi3(a, b) == a * b;
        is_right = is_right && (b == 0 || (__udivti3(a, b) == a / b && __umodti3(a, b) == a % b)) && (d == 0 || __divti3(c, d) == c / d);
        if (!is_right) {
            printf("round %d differs\n", round);
            return 1;
        }
    }
    return 0;
}
