/* Whether an answer of entry 20 or 21 that says either has two pairs that are what they are called: numbers inside the
   request's ranges, the first pair touching, the second apart. Words are four bytes, highest first. */
#include <stddef.h>
#include <stdint.h>
#include <stdlib.h>

static long number_at(const uint8_t *words, size_t i) {
    const uint8_t *at = words + 4 * i;
    return (int32_t)((uint32_t)at[0] << 24 | (uint32_t)at[1] << 16 | (uint32_t)at[2] << 8 | at[3]);
}

/* `ranges`: a lowest and a highest word for each of the pair's `count` numbers */
static int inside(const uint8_t *ranges, const uint8_t *pair, size_t count) {
    for (size_t i = 0; i < count; i++) {
        long n = number_at(pair, i);
        if (n < number_at(ranges, 2 * i) || n > number_at(ranges, 2 * i + 1)) return 0;
    }
    return 1;
}

/* circles have three numbers each, boxes four */
static int touching(const uint8_t *pair, size_t count) {
    const size_t b = count / 2;
    long x = labs(number_at(pair, b) - number_at(pair, 0)), y = labs(number_at(pair, b + 1) - number_at(pair, 1));
    long reach = number_at(pair, 2) + number_at(pair, b + 2);
    if (b == 3) return reach * reach >= x * x + y * y;
    return reach >= x && number_at(pair, 3) + number_at(pair, b + 3) >= y;
}

/* the request has `asked` words; the answer two before the pairs. What is wrong, or NULL */
static const char *wrong_pairs(const uint8_t *request, size_t asked, const uint8_t *answer) {
    const size_t count = (asked - 1) / 2;
    const uint8_t *first = answer + 4 * 2, *second = first + 4 * count;
    if (!inside(request + 4, first, count) || !inside(request + 4, second, count)) return "a pair outside its ranges";
    if (!touching(first, count)) return "a touching pair that is apart";
    if (touching(second, count)) return "a pair apart that touches";
    return NULL;
}
