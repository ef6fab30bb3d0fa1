/* Arithmetic on 128 bits. */
#ifndef WIDE_H
#define WIDE_H

#include <stdint.h>

__extension__ typedef unsigned __int128 wide;
__extension__ typedef __int128 signed_wide;

/* A test on a processor that has this arithmetic gives them other names. */
#ifdef WIDE_TEST
#define __ashlti3 own_shift_left
#define __lshrti3 own_shift_right
#define __multi3 own_product
#define __udivti3 own_quotient
#define __umodti3 own_rest
#define __divti3 own_signed_quotient
#endif

wide __ashlti3(wide a, int n);
wide __lshrti3(wide a, int n);
wide __multi3(wide a, wide b);
wide __udivti3(wide a, wide b);
wide __umodti3(wide a, wide b);
signed_wide __divti3(signed_wide a, signed_wide b);

#endif
