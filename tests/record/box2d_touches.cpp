// A second `touches` over Box2D 2.4.1, written from document 01's "The touch record" and document 02's frames 06 and
// 07, its count of touches, its steps, its ages of points and its normals at corners: box2d_touches on a whole input,
// and box2d_export. A kind of frame is a row of KINDS and a member of Program.
#include "box2d_frames.hpp"

namespace {

// A kind of frame: its length by its third byte (256 where it has none), 0 for a third byte that is none of its; how
// many ids follow the kind; what it does.
struct FrameKind {
    uint8_t kind;
    size_t (*length)(uint32_t third);
    int ids;
    size_t (Program::*run)(const uint8_t *frame);
};

const FrameKind KINDS[] = {
    {1, [](uint32_t) -> size_t { return 14; }, 1, &Program::circle},
    {2, [](uint32_t count) -> size_t { return count <= POINTS ? 3 + 8 * count : 0; }, 1, &Program::outline},
    {3, [](uint32_t flag) -> size_t { return flag == 0 ? 19 : flag == 1 ? 35 : 0; }, 1, &Program::wall},
    {4, [](uint32_t) -> size_t { return 18; }, 1, &Program::place},
    {5, [](uint32_t) -> size_t { return 3; }, 2, &Program::test},
    {6, [](uint32_t) -> size_t { return 12; }, 1, &Program::head},
    {7, [](uint32_t count) -> size_t { return count <= POINTS ? 3 + 8 * (count + 2) : 0; }, 1, &Program::chain},
};

// One frame of so many bytes: 10, 11, then its kind's own refusals.
size_t Program::frame(const uint8_t *bytes, size_t count) {
    for (const FrameKind &row : KINDS) {
        if (count == 0 || bytes[0] != row.kind) continue;
        if (count != row.length(count > 2 ? bytes[2] : 256)) return refused(10);
        for (int i = 1; i <= row.ids; i++)
            if (bytes[i] >= IDS) return refused(11);
        return (this->*row.run)(bytes);
    }
    return refused(10);
}

// An empty line: the next step number, as long as there is one.
size_t Program::next_step() {
    if (step < UINT32_MAX) step++;
    Line to{answer[0]};
    to.byte(0x0a), to.word(step);
    length[0] = (size_t)(to.at - answer[0]);
    return 1;
}

} // namespace

// What is printed for the whole of an input, handed to `put` an answer at a time.
extern "C" void box2d_touches(const uint8_t *input, size_t length, void (*put)(void *, const uint8_t *, size_t),
                              void *out) {
    refusals_begin();
    Program program;
    uint8_t text[PIECES * (2 * LONGEST_TEST + 1)];
    const uint8_t *end = input + length;
    while (input < end) {
        const uint8_t *feed = (const uint8_t *)std::memchr(input, '\n', (size_t)(end - input));
        const uint8_t *stop = feed ? feed : end;
        uint8_t *to = text;
        size_t lines = stop == input ? program.next_step() : program.line(input, (size_t)(stop - input));
        for (size_t line = 0; line < lines; line++) {
            for (size_t i = 0; i < program.length[line]; i++) {
                *to++ = (uint8_t)"0123456789abcdef"[program.answer[line][i] >> 4];
                *to++ = (uint8_t)"0123456789abcdef"[program.answer[line][i] & 15];
            }
            *to++ = '\n';
        }
        put(out, text, (size_t)(to - text));
        input = feed ? feed + 1 : end;
    }
    refusals_end();
}

extern "C" uint32_t box2d_export(const uint8_t *frames, size_t length, uint8_t *out, size_t room) {
    if (room < LONGEST_TEST) return 256 + 9;
    const uint8_t *starts[4];
    size_t lengths[4];
    for (uint32_t i = 0; i < 4; i++) {
        const bool outline = i % 2 == 0;
        if (length < 3 || frames[0] != (outline ? 2 : 4) || frames[1] != i / 2) return 256 + 10;
        size_t fits = outline ? 3 + 8 * (size_t)frames[2] : 18;
        if (fits > LONGEST_FRAME || fits > length) return 256 + 10;
        starts[i] = frames;
        lengths[i] = fits;
        frames += fits;
        length -= fits;
    }
    if (length > 0) return 256 + 10;
    refusals_begin();
    static Program program; // each call draws both bodies, which forgets the calls before
    const uint8_t test[3] = {5, 0, 1};
    const uint8_t *line = program.answer[0];
    for (int i = 0; i < 5; i++) {
        i < 4 ? program.frame(starts[i], lengths[i]) : program.frame(test, sizeof test);
        if (line[0] == 0xff) break;
    }
    refusals_end();
    if (line[0] == 0xff) return 256u + line[1];
    std::memcpy(out, line, program.length[0]);
    return (uint32_t)program.length[0];
}
