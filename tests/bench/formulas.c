/* The closed formulas for a sum in plain C, over the residues modulo 8191, for comparison with the program pace: the same
   sequence of sums, with the same tests of validity and of the two conditions. Prints the last divisor and the sums per second.

       cc -O3 -o formulas tests/bench/formulas.c && ./formulas 8000 */
#include <stdint.h>
#include <stdio.h>
#include <stdlib.h>
#include <time.h>

typedef struct { uint32_t a, b, c, e; } quadratic;

static uint32_t m;
static uint16_t inverses[8191];
static uint32_t f4, f3, f2, f1, f0;

static uint32_t add(uint32_t x, uint32_t y) { return (x + y) % m; }
static uint32_t sub(uint32_t x, uint32_t y) { return (x + m - y) % m; }
static uint32_t mul(uint32_t x, uint32_t y) { return x * y % m; }

/* u divides f - v^2 */
static int valid(quadratic d) {
    uint32_t k = sub(add(f4, mul(d.a, d.a)), d.b);
    uint32_t h = add(sub(f3, mul(k, d.a)), mul(d.a, d.b));
    uint32_t j = sub(sub(sub(f2, mul(d.c, d.c)), mul(h, d.a)), mul(k, d.b));
    uint32_t r1 = sub(sub(sub(f1, mul(2, mul(d.c, d.e))), mul(j, d.a)), mul(h, d.b));
    uint32_t r0 = sub(sub(f0, mul(d.e, d.e)), mul(j, d.b));
    return r1 == 0 && r0 == 0;
}

static int sum(quadratic d, quadratic g, quadratic *s) {
    uint32_t z0 = sub(d.b, g.b), z1 = sub(d.a, g.a), z2 = sub(mul(d.a, z1), z0);
    uint32_t r = sub(mul(d.b, mul(z1, z1)), mul(z0, z2));
    uint32_t de = sub(d.e, g.e), dc = sub(d.c, g.c);
    uint32_t p = sub(mul(de, z1), mul(dc, z0));
    uint32_t o = sub(mul(de, z2), mul(mul(dc, z1), d.b));
    if (!valid(d) || !valid(g) || r == 0 || mul(p, p) == mul(r, r)) return 0;
    uint32_t i = inverses[r], s1 = mul(p, i), s0 = mul(o, i);
    uint32_t M = inverses[sub(1, mul(s1, s1))];
    uint32_t L2 = add(s0, mul(s1, g.a)), L1 = add(mul(s0, g.a), mul(s1, g.b));
    uint32_t a = sub(mul(sub(sub(0, g.a), mul(s1, add(s0, L2))), M), d.a);
    uint32_t n = sub(sub(add(sub(f4, g.b), mul(g.a, g.a)), mul(s1, add(L1, mul(2, g.c)))), mul(s0, L2));
    uint32_t b = sub(sub(mul(n, M), d.b), mul(d.a, a));
    uint32_t t = sub(mul(s1, a), L2);
    s->a = a;
    s->b = b;
    s->c = sub(add(sub(sub(0, g.c), L1), mul(s1, b)), mul(t, a));
    s->e = sub(sub(sub(0, g.e), mul(s0, g.b)), mul(t, b));
    return 1;
}

int main(int argc, char **argv) {
    long count = argc > 1 ? atol(argv[1]) : 8000;
    m = argc > 2 ? (uint32_t)atol(argv[2]) : 8191;
    inverses[1] = 1;
    for (uint32_t x = 2; x < m; x++) inverses[x] = (uint16_t)((m - m / x * inverses[m % x] % m) % m);
    f4 = 423, f3 = 6114, f2 = 4985, f1 = 5802, f0 = 2724;
    quadratic before = {4805, 3862, 8090, 5285}, last = {5074, 5504, 945, 1758}, next;
    struct timespec start, end;
    clock_gettime(CLOCK_MONOTONIC, &start);
    for (long k = 0; k < count; k++) {
        if (!sum(before, last, &next)) {
            printf("the formulas do not apply at %ld\n", k);
            return 1;
        }
        before = last;
        last = next;
    }
    clock_gettime(CLOCK_MONOTONIC, &end);
    double seconds = (double)(end.tv_sec - start.tv_sec) + 1e-9 * (double)(end.tv_nsec - start.tv_nsec);
    printf("%u %u %u %u\n%.0f sums per second\n", last.a, last.b, last.c, last.e, (double)count / seconds);
    return 0;
}
