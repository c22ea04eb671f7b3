// FLINT's product of polynomials over a word modulus, and the fold by x^n + 1.
#include "bench.h"
#include <flint/nmod_poly.h>

static nmod_poly_t a, b, c;
static uint64_t out[N];

static void product(void) {
    nmod_poly_mul(c, a, b);
    for (int i = 0; i < N; i++) {
        uint64_t high = i + N < 2 * N - 1 ? nmod_poly_get_coeff_ui(c, i + N) : 0;
        out[i] = (nmod_poly_get_coeff_ui(c, i) - high) & ((1ull << 58) - 1);
    }
}

int main(int count, char **words) {
    static const struct kernel kernels[] = {{"product", product}};
    uint64_t x[N], y[N];
    fill(x, 1), fill(y, 2);
    nmod_poly_init(a, 1ull << 58), nmod_poly_init(b, 1ull << 58), nmod_poly_init(c, 1ull << 58);
    for (int i = 0; i < N; i++) nmod_poly_set_coeff_ui(a, i, x[i]), nmod_poly_set_coeff_ui(b, i, y[i]);
    if (count == 2 && strcmp(words[1], "check") == 0) {
        uint64_t s = 0;
        product();
        for (int i = 0; i < N; i++) s = s * 1099511628211u + out[i];
        return printf("product %llx\n", (unsigned long long)s) < 0;
    }
    return bench(count, words, kernels, 1);
}
