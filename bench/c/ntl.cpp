// NTL's product of polynomials over a word modulus, and the fold by x^n + 1.
#include "bench.h"
#include <NTL/lzz_pX.h>

static NTL::zz_pX *a, *b, *c;
static uint64_t out[N];

static void product() {
    NTL::mul(*c, *a, *b);
    for (int i = 0; i < N; i++) out[i] = (uint64_t)(NTL::rep(coeff(*c, i)) - NTL::rep(coeff(*c, i + N))) & ((1ull << 58) - 1);
}

int main(int count, char **words) {
    static const struct kernel kernels[] = {{"product", product}};
    uint64_t x[N], y[N];
    fill(x, 1), fill(y, 2);
    NTL::zz_p::init(1l << 58);
    NTL::zz_pX p, q, r;
    a = &p, b = &q, c = &r;
    for (int i = 0; i < N; i++) SetCoeff(p, i, (long)x[i]), SetCoeff(q, i, (long)y[i]);
    if (count == 2 && strcmp(words[1], "check") == 0) {
        uint64_t s = 0;
        product();
        for (int i = 0; i < N; i++) s = s * 1099511628211u + out[i];
        return printf("product %llx\n", (unsigned long long)s) < 0;
    }
    return bench(count, words, kernels, 1);
}
