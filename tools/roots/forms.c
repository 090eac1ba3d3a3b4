/* The root of n * 2^52 to the nearest whole number, 2^52 <= n < 2^54, digit by digit, in the forms that were tried for crates/roots/src/sqrt.rt. In all of them q is the root so
   far and e what its last digit is worth; s is 2q; a is 2(n * 2^52 - q * q) / e. Compiled by the kit's compiler, as the archive is; timed by times.c. */
typedef unsigned long u64;

#define FULL _Pragma("clang loop unroll(full)")
#define ROLLED _Pragma("clang loop unroll(disable)")
#define FIRST u64 a = (n - (1UL << 52)) << 1, s = 1UL << 53, e = 1UL << 52;
#define LAST return (s >> 1) + (a > s);

/* a digit a turn: with a branch; chosen, then doubled; chosen beside the doubling, which is the form taken */
#define BRANCH { e >>= 1; u64 t = s + e; if (a >= t) { a -= t; s = t + e; __asm__ volatile("" : "+r"(a)); } a += a; }
#define CHOSEN { e >>= 1; u64 t = s + e; int below = a < t; a = (below ? a : a - t) << 1; s = below ? s : t + e; }
#define BESIDE { e >>= 1; u64 t = s + e; int below = a < t; u64 off = below ? 0 : t + t; s = below ? s : t + e; a = a + a - off; }
u64 one_branch(u64 n) { FIRST ROLLED while (e > 1) BRANCH LAST }
u64 one_chosen(u64 n) { FIRST ROLLED while (e > 1) CHOSEN LAST }
u64 one_chosen_unrolled(u64 n) { FIRST FULL while (e > 1) CHOSEN LAST }
u64 one_beside_rolled(u64 n) { FIRST ROLLED while (e > 1) BESIDE LAST }
u64 one_beside(u64 n) { FIRST while (e > 1) BESIDE LAST }
u64 one_beside_unrolled(u64 n) { FIRST FULL while (e > 1) BESIDE LAST }

/* two digits a turn, of worth 2h and h: what 1, 2 and 3 take off is compared side by side */
#define TWO { e >>= 2; u64 h = e, c1 = s + h, c2 = (s + 2 * h) * 2, c3 = (s + 3 * h) * 3, b = a + a; \
    u64 low = b < c1 ? 0 : c1, high = b < c3 ? c2 : c3, few = b < c1 ? s : s + 2 * h, many = b < c3 ? s + 4 * h : s + 6 * h; \
    s = b < c2 ? few : many; a = (b - (b < c2 ? low : high)) << 1; }
#define TWO_BRANCHES { e >>= 2; u64 h = e, c1 = s + h, c2 = (s + 2 * h) * 2, c3 = (s + 3 * h) * 3, b = a + a; \
    if (b >= c2) { if (b >= c3) { b -= c3; s += 6 * h; } else { b -= c2; s += 4 * h; } } else if (b >= c1) { b -= c1; s += 2 * h; } \
    __asm__ volatile("" : "+r"(b)); a = b + b; }
u64 two_branches(u64 n) { FIRST ROLLED while (e > 1) TWO_BRANCHES LAST }
u64 two(u64 n) { FIRST ROLLED while (e > 1) TWO LAST }
u64 two_unrolled(u64 n) { FIRST FULL while (e > 1) TWO LAST }

/* a digit a turn, and a difference below zero is not taken back but made good by the next: w is 4(a - t) of the turn before, x what is added to its double */
#define KEPT_FIRST u64 w = (n - (1UL << 52)) << 2, x = -(10UL << 52), p = 11UL << 52, m = -(13UL << 52), e = 1UL << 52, e3 = 3 * e, e5 = 5 * e, e8 = 8 * e;
#define KEPT { e >>= 1; e3 >>= 1; e5 >>= 1; e8 >>= 1; w = (w << 1) + x; int one = w < x; x = one ? m : p; u64 d = one ? e8 : 0; p = p - e3 + d; m = m + e5 - d; }
#define KEPT_LAST w = (w << 1) + x; return (p >> 3) + (w < x);
u64 kept(u64 n) { KEPT_FIRST while (e > 1) KEPT KEPT_LAST }
u64 kept_unrolled(u64 n) { KEPT_FIRST FULL while (e > 1) KEPT KEPT_LAST }

/* two roots: one after the other, and in one loop */
u64 in_a_row(u64 n) { return one_beside(n) + one_beside(n ^ 12345); }
u64 side_by_side(u64 n) {
    FIRST
    u64 b = ((n ^ 12345) - (1UL << 52)) << 1, r = 1UL << 53;
    while (e > 1) { BESIDE u64 t = r + e; int below = b < t; u64 off = below ? 0 : t + t; r = below ? r : t + e; b = b + b - off; }
    return (s >> 1) + (a > s) + (r >> 1) + (b > r);
}
