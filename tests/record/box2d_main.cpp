// The second `touches` over Box2D 2.4.1 as a program: standard input to standard output.
#include <cstdint>
#include <cstdio>
#include <vector>

extern "C" void box2d_touches(const uint8_t *input, size_t length, void (*put)(void *, const uint8_t *, size_t),
                              void *out);

int main() {
    std::vector<uint8_t> input(1 << 16);
    size_t length = 0;
    while (size_t n = std::fread(input.data() + length, 1, input.size() - length, stdin)) {
        length += n;
        if (length == input.size()) input.resize(2 * length);
    }
    auto put = [](void *, const uint8_t *text, size_t count) { std::fwrite(text, 1, count, stdout); };
    box2d_touches(input.data(), length, put, nullptr);
    return std::fflush(stdout) == 0 && !std::ferror(stdout) ? 0 : 1;
}
