/* The second program for the published square-root vectors: reads lines "operand root step", as bits and a word, and
   writes them with the C library's root and the step by the papers' words. */
#include <inttypes.h>
#include <math.h>
#include <stdio.h>
#include <string.h>

/* Special are zeros, infinities, NaNs and all below 0; exact are the others whose root is a float; the rest are
   rounded. A product of two floats is exact as a double. */
static const char *step(float x, float root) {
    if (isnan(x) || isinf(x) || x <= 0) return "special";
    return (double)root * (double)root == (double)x ? "exact" : "rounded";
}

int main(void) {
    uint32_t operand, given;
    char word[16];
    while (scanf("%" SCNx32 " %" SCNx32 " %15s", &operand, &given, word) == 3) {
        float x;
        memcpy(&x, &operand, sizeof x);
        volatile float root = sqrtf(x);
        float stored = root;
        uint32_t bits;
        memcpy(&bits, &stored, sizeof bits);
        if (isnan(stored)) bits = 0x7fc00000; /* one NaN */
        printf("%08" PRIx32 " %08" PRIx32 " %s\n", operand, bits, step(x, stored));
    }
    return 0;
}
