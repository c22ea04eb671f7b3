// The usual way in C: transforms modulo primes of 59 bits, three for a product and for a tensor, two for a key switch,
// and the Chinese remainder theorem. Butterflies after Harvey (2014), in the order of Longa and Naehrig (2016).
#include "bench.h"

typedef unsigned __int128 u128;
typedef __int128 i128;

enum { PRIMES = 3, DIGITS = 29 };

struct root { uint64_t value, ratio; };

static struct field {
    uint64_t p;
    struct root forward[N], backward[N], share, one, word; // share: 1/n; word: 2^64 modulo p
} fields[PRIMES];

static uint64_t multiply(uint64_t x, uint64_t y, uint64_t p) { return (u128)x * y % p; }

static uint64_t power(uint64_t x, uint64_t e, uint64_t p) {
    uint64_t y = 1;
    for (; e; e >>= 1, x = multiply(x, x, p))
        if (e & 1) y = multiply(y, x, p);
    return y;
}

static struct root root(uint64_t value, uint64_t p) { return (struct root){value, ((u128)value << 64) / p}; }

// x times r modulo p, below 2p.
static inline uint64_t times(uint64_t x, struct root r, uint64_t p) {
    return x * r.value - (uint64_t)((u128)x * r.ratio >> 64) * p;
}

static int is_prime(uint64_t p) { // Miller and Rabin, which these bases decide
    static const uint64_t bases[] = {2, 3, 5, 7, 11, 13, 17, 19, 23, 29, 31, 37};
    for (int b = 0; b < 12; b++) {
        uint64_t d = p - 1;
        int s = __builtin_ctzll(d);
        uint64_t x = power(bases[b], d >> s, p);
        if (x == 1 || x == p - 1) continue;
        int k = 1;
        for (; k < s && (x = multiply(x, x, p)) != p - 1; k++) {}
        if (k == s) return 0;
    }
    return 1;
}

static int reversed(int i) {
    int r = 0;
    for (int m = 1; m < N; m <<= 1, i >>= 1) r = 2 * r + (i & 1);
    return r;
}

static void open_field(struct field *f, uint64_t p) {
    f->p = p;
    uint64_t g = 2, psi;
    while (power(psi = power(g, (p - 1) / (2 * N), p), N, p) != p - 1) g++;
    uint64_t back = power(psi, p - 2, p);
    for (int i = 0; i < N; i++) {
        f->forward[i] = root(power(psi, reversed(i), p), p);
        f->backward[i] = root(power(back, reversed(i), p), p);
    }
    f->share = root(power(N, p - 2, p), p);
    f->one = root(1, p);
    f->word = root((uint64_t)(((u128)1 << 64) % p), p);
}

// Values below 4p come out reduced below p.
static void forward(const struct field *f, uint64_t *a) {
    uint64_t p = f->p;
    for (int m = 1, t = N / 2; m < N; m <<= 1, t >>= 1)
        for (int i = 0; i < m; i++) {
            struct root r = f->forward[m + i];
            uint64_t *x = a + 2 * i * t, *y = x + t;
            for (int j = 0; j < t; j++) {
                uint64_t u = x[j] >= 2 * p ? x[j] - 2 * p : x[j], v = times(y[j], r, p);
                x[j] = u + v;
                y[j] = u - v + 2 * p;
            }
        }
    for (int i = 0; i < N; i++) {
        uint64_t x = a[i] >= 2 * p ? a[i] - 2 * p : a[i];
        a[i] = x >= p ? x - p : x;
    }
}

// Values below 2p come out reduced below p.
static void backward(const struct field *f, uint64_t *a) {
    uint64_t p = f->p;
    for (int m = N / 2, t = 1; m >= 1; m >>= 1, t <<= 1)
        for (int i = 0; i < m; i++) {
            struct root r = f->backward[m + i];
            uint64_t *x = a + 2 * i * t, *y = x + t;
            for (int j = 0; j < t; j++) {
                uint64_t s = x[j] + y[j], d = x[j] - y[j] + 2 * p;
                x[j] = s >= 2 * p ? s - 2 * p : s;
                y[j] = times(d, r, p);
            }
        }
    for (int i = 0; i < N; i++) {
        uint64_t x = times(a[i], f->share, p);
        a[i] = x >= p ? x - p : x;
    }
}

// x modulo p, below 2p, for x of 128 bits.
static inline uint64_t reduce(const struct field *f, u128 x) {
    uint64_t p = f->p, s = times((uint64_t)(x >> 64), f->word, p) + times((uint64_t)x, f->one, p);
    return s >= 2 * p ? s - 2 * p : s;
}

// The whole number modulo 2^128 of which these are the remainders, nearest to 0.
static struct root garner01, garner02, garner12;

static void open_garner(void) {
    uint64_t p0 = fields[0].p, p1 = fields[1].p, p2 = fields[2].p;
    garner01 = root(power(p0 % p1, p1 - 2, p1), p1);
    garner02 = root(power(p0 % p2, p2 - 2, p2), p2);
    garner12 = root(power(p1 % p2, p2 - 2, p2), p2);
}

static inline uint64_t quotient(uint64_t x, uint64_t v, struct root inverse, uint64_t p) {
    uint64_t d = x + 2 * p - (v >= p ? v - p : v), q = times(d, inverse, p);
    return q >= p ? q - p : q;
}

static inline i128 two(uint64_t x0, uint64_t x1) {
    uint64_t p0 = fields[0].p, p1 = fields[1].p;
    uint64_t v1 = quotient(x1, x0, garner01, p1);
    u128 x = x0 + (u128)p0 * v1;
    return (i128)(v1 >= p1 / 2 ? x - (u128)p0 * p1 : x);
}

static inline i128 three(uint64_t x0, uint64_t x1, uint64_t x2) {
    uint64_t p0 = fields[0].p, p1 = fields[1].p, p2 = fields[2].p;
    uint64_t v1 = quotient(x1, x0, garner01, p1);
    uint64_t v2 = quotient(quotient(x2, x0, garner02, p2), v1, garner12, p2);
    u128 pp = (u128)p0 * p1, x = x0 + (u128)p0 * v1 + pp * v2;
    return (i128)(v2 >= p2 / 2 ? x - pp * p2 : x);
}

// ---- a product modulo 2^58
static uint64_t a[N], b[N], c[N], d[N], out0[N], out1[N], out2[N];
static uint64_t image[4][PRIMES][N], result[3][PRIMES][N];

static void remainders(const uint64_t *x, int primes, uint64_t (*image)[N]) {
    for (int k = 0; k < primes; k++) {
        memcpy(image[k], x, N * 8);
        forward(&fields[k], image[k]);
    }
}

static void product(void) {
    remainders(a, PRIMES, image[0]);
    remainders(b, PRIMES, image[1]);
    for (int k = 0; k < PRIMES; k++) {
        for (int i = 0; i < N; i++) result[0][k][i] = reduce(&fields[k], (u128)image[0][k][i] * image[1][k][i]);
        backward(&fields[k], result[0][k]);
    }
    for (int i = 0; i < N; i++) out0[i] = (uint64_t)three(result[0][0][i], result[0][1][i], result[0][2][i]) & ((1ull << 58) - 1);
}

// ---- a key switch: the digits in base 4 of b times the rows of both parts of a key
static uint64_t key[2][DIGITS][N], key_image[2][DIGITS][2][N], digit[N];
static u128 sums[2][2][N];

static void image_key(void) {
    for (int side = 0; side < 2; side++)
        for (int i = 0; i < DIGITS; i++) remainders(key[side][i], 2, key_image[side][i]);
}

static void key_switch(void) {
    memset(sums, 0, sizeof sums);
    for (int i = 0; i < DIGITS; i++)
        for (int k = 0; k < 2; k++) {
            for (int j = 0; j < N; j++) digit[j] = b[j] >> (2 * i) & 3;
            forward(&fields[k], digit);
            for (int side = 0; side < 2; side++)
                for (int j = 0; j < N; j++) sums[side][k][j] += (u128)digit[j] * key_image[side][i][k][j];
        }
    for (int side = 0; side < 2; side++) {
        for (int k = 0; k < 2; k++) {
            for (int j = 0; j < N; j++) result[side][k][j] = reduce(&fields[k], sums[side][k][j]);
            backward(&fields[k], result[side][k]);
        }
        uint64_t *out = side ? out1 : out0;
        for (int j = 0; j < N; j++) out[j] = (out[j] + (uint64_t)two(result[side][0][j], result[side][1][j])) & ((1ull << 58) - 1);
    }
}

// ---- a tensor: products over the integers of centred coefficients, times t / q and rounded
static void centred(const uint64_t *x, uint64_t (*image)[N]) {
    for (int k = 0; k < PRIMES; k++) {
        uint64_t p = fields[k].p;
        for (int i = 0; i < N; i++) image[k][i] = x[i] < 1ull << 57 ? x[i] : x[i] + p - (1ull << 58);
        forward(&fields[k], image[k]);
    }
}

static void rounded(uint64_t (*x)[N], uint64_t *out) {
    const i128 t = 65537;
    for (int k = 0; k < PRIMES; k++) backward(&fields[k], x[k]);
    for (int i = 0; i < N; i++) {
        i128 z = three(x[0][i], x[1][i], x[2][i]), high = z >> 58, low = z & ((1ull << 58) - 1);
        out[i] = (uint64_t)(t * high + ((t * low + ((i128)1 << 57)) >> 58)) & ((1ull << 58) - 1);
    }
}

static void tensor(void) {
    centred(a, image[0]);
    centred(b, image[1]);
    centred(c, image[2]);
    centred(d, image[3]);
    for (int k = 0; k < PRIMES; k++)
        for (int i = 0; i < N; i++) {
            u128 x = image[0][k][i], y = image[1][k][i], z = image[2][k][i], w = image[3][k][i];
            result[0][k][i] = reduce(&fields[k], x * z);
            result[1][k][i] = reduce(&fields[k], x * w + y * z);
            result[2][k][i] = reduce(&fields[k], y * w);
        }
    rounded(result[0], out0);
    rounded(result[1], out1);
    rounded(result[2], out2);
}

// ---- the plain product, by rows of words that wrap
static void plain(void) {
    memset(out0, 0, sizeof out0);
    for (int i = 0; i < N; i++) {
        uint64_t x = a[i];
        for (int j = 0; j < N - i; j++) out0[i + j] += x * b[j];
        for (int j = N - i; j < N; j++) out0[i + j - N] -= x * b[j];
    }
    for (int i = 0; i < N; i++) out0[i] &= (1ull << 58) - 1;
}

// What the kernels gave, as one number: the other programs print the same.
static uint64_t sum(const uint64_t *x) {
    uint64_t s = 0;
    for (int i = 0; i < N; i++) s = s * 1099511628211u + x[i];
    return s;
}

static int check(void) {
    memset(out0, 0, sizeof out0), memset(out1, 0, sizeof out1);
    key_switch();
    uint64_t k0 = sum(out0), k1 = sum(out1);
    plain();
    uint64_t p = sum(out0);
    product();
    printf("product %llx\nproduct_plain %llx\nkey_switch %llx %llx\n", (unsigned long long)sum(out0), (unsigned long long)p, (unsigned long long)k0, (unsigned long long)k1);
    tensor();
    printf("tensor %llx %llx %llx\n", (unsigned long long)sum(out0), (unsigned long long)sum(out1), (unsigned long long)sum(out2));
    return 0;
}

int main(int count, char **words) {
    static const struct kernel kernels[] = {
        {"product", product}, {"product_plain", plain}, {"key_switch", key_switch}, {"key_image", image_key}, {"tensor", tensor}};
    uint64_t p = (1ull << 59) + 1;
    for (int k = 0; k < PRIMES; k++) {
        do p -= 2 * N;
        while (!is_prime(p));
        open_field(&fields[k], p);
    }
    open_garner();
    fill(a, 1), fill(b, 2), fill(c, 3), fill(d, 4);
    for (int side = 0; side < 2; side++)
        for (int i = 0; i < DIGITS; i++) fill(key[side][i], 10 + 29 * side + i);
    image_key();
    if (count == 2 && strcmp(words[1], "check") == 0) return check();
    return bench(count, words, kernels, sizeof kernels / sizeof *kernels);
}
