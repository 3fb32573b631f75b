// The second program for the papers' outline cases: reads the lines of the program `cases`, "count points : ..", as
// bits, and writes them with what Box2D 2.4.1 answers: the refusal, and for an accepted outline its corners' count,
// the corners and the centroid.
#include <cinttypes>
#include <cmath>
#include <cstdint>
#include <cstdio>
#include <cstring>
#include <string>

extern "C" size_t box2d_answer(const uint32_t *request, uint32_t *out);

// The papers' refusal 2, which Box2D does not have: a coordinate that is no number or beyond 2^20.
static bool out_of_range(uint32_t bits) {
    float value;
    std::memcpy(&value, &bits, sizeof value);
    return !(std::fabs(value) <= 1048576.0f);
}

int main() {
    static char line[4096];
    while (std::fgets(line, sizeof line, stdin)) {
        uint32_t request[64] = {1}, out[64];
        uint32_t *n = request + 37, *point = request + 38;
        char *at = line;
        int used = 0;
        if (std::sscanf(at, "%" SCNx32 "%n", n, &used) != 1) continue;
        std::printf("%02" PRIx32, *n);
        for (at += used; std::sscanf(at, " %8" SCNx32 "%n", point, &used) == 1; at += used, point++)
            std::printf(" %08" PRIx32, *point);
        bool wide = false;
        for (uint32_t *word = request + 38; word < point; word++) wide = wide || out_of_range(*word);
        if (wide) out[0] = 2; else box2d_answer(request, out);
        std::printf(" : %02" PRIx32, out[0]);
        if (out[0] == 0) {
            std::printf(" %02" PRIx32, out[4]);
            for (uint32_t i = 0; i < 2 * out[4]; i++) std::printf(" %08" PRIx32, out[5 + i]);
            std::printf(" %08" PRIx32 " %08" PRIx32, out[2], out[3]);
        }
        std::printf("\n");
    }
}
