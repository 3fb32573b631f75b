/* Replays answers: replay FILE COUNT. A line of the file is a request and its answer, words of eight
   hexadecimal digits with ' : ' between the two; lines that begin with '#' are comments, and a line of another form
   is an error. The file must hold COUNT answers. Every answer is asked for with an output of just its length, a
   longer one and one a byte short; what is not written must keep its bytes. An empty answer is that of a malformed
   request: asked with full room. Entries 20 and 21 are asked of measured_calls, all others of calls, and each has to
   turn down the other's. An answer that ends with '..' is one of entry 20 or 21 that says either: its pairs are free, and
   held to what they are called (measured_pairs.h). */
#include "measured_pairs.h"
#include <ctype.h>
#include <stdio.h>
#include <stdlib.h>
#include <string.h>

enum { WORDS = 160, SPARE = 8 };

static int digit(char c) { return isdigit((unsigned char)c) ? c - '0' : c >= 'a' && c <= 'f' ? c - 'a' + 10 : -1; }

/* reads words with a blank before each but the first; the number of them, and where they end */
static size_t words_of(const char **text, int blank_first, uint8_t *bytes) {
    const char *at = *text;
    size_t n = 0;
    for (; n < WORDS; n++) {
        const char *word = at + (blank_first || n > 0);
        if (word > at && *at != ' ') break;
        int i = 0;
        for (; i < 8 && digit(word[i]) >= 0; i++) {
            if (i % 2) bytes[4 * n + i / 2] = (uint8_t)(digit(word[i - 1]) << 4 | digit(word[i]));
        }
        if (i < 8) break;
        at = word + 8;
    }
    *text = at;
    return n;
}

typedef uint32_t door(const uint8_t *, size_t, uint8_t *, size_t);

static int of_measured_bodies(const uint8_t *input) { return number_at(input, 0) == 20 || number_at(input, 0) == 21; }

/* one request with room for `room` bytes: the words said to be written, or -1 where a byte past them changed */
static long ask_of(door *asked, const uint8_t *input, size_t length, uint8_t *out, size_t room) {
    memset(out, 0xa5, 4 * WORDS + SPARE);
    uint32_t words = asked(input, length, out, room);
    for (size_t i = 4 * (size_t)words; i < 4 * WORDS + SPARE; i++)
        if (out[i] != 0xa5) return -1;
    return (long)words;
}

static long ask(const uint8_t *input, size_t length, uint8_t *out, size_t room) {
    return ask_of(of_measured_bodies(input) ? measured_calls : calls, input, length, out, room);
}

/* what is wrong with the answer, or NULL; `given` words of it are stored, and the rest are pairs */
static const char *wrong(const uint8_t *input, size_t asked, const uint8_t *wanted, size_t given, size_t answered) {
    static uint8_t out[4 * WORDS + SPARE];
    door *other = of_measured_bodies(input) ? calls : measured_calls;
    if (ask_of(other, input, 4 * asked, out, 4 * WORDS) != 0) return "answered by the other door";
    const size_t rooms[] = {4 * answered, 4 * answered + SPARE, 4 * WORDS};
    for (int i = answered == 0 ? 2 : 0; i < 3; i++) {
        if (ask(input, 4 * asked, out, rooms[i]) != (long)answered) return "another number of words";
        if (memcmp(out, wanted, 4 * given) != 0) return "another answer";
        const char *why = given < answered ? wrong_pairs(input, asked, out) : NULL;
        if (why) return why;
    }
    if (answered > 0 && ask(input, 4 * asked, out, 4 * answered - 1) != 0) return "too little room, and answered";
    return NULL;
}

int main(int argc, char **argv) {
    FILE *file = argc == 3 ? fopen(argv[1], "r") : NULL;
    if (!file) return fprintf(stderr, "usage: replay FILE COUNT\n"), 2;
    static char line[16384];
    static uint8_t input[4 * WORDS], wanted[4 * WORDS];
    unsigned long number = 0, answers = 0, differences = 0;
    while (fgets(line, sizeof line, file)) {
        number++;
        if (line[0] == '#') continue;
        const char *at = line, *why = "no request and answer of this form";
        size_t asked = words_of(&at, 0, input);
        if (asked > 0 && strncmp(at, " :", 2) == 0) {
            at += 2;
            size_t answered = words_of(&at, 1, wanted);
            const size_t given = answered;
            if (answered == 0 && *at == ' ') at++;
            if (given == 2 && of_measured_bodies(input) && strncmp(at, " ..", 3) == 0)
                at += 3, answered += asked - 1;
            if (strcmp(at, "\n") == 0) answers++, why = wrong(input, asked, wanted, given, answered);
        }
        if (why && ++differences <= 5) printf("  %s:%lu: %s\n", argv[1], number, why);
    }
    fclose(file);
    unsigned long pinned = strtoul(argv[2], NULL, 10);
    if (answers != pinned) printf("  %s: %lu answers, not %s\n", argv[1], answers, argv[2]);
    printf("%lu answers, %lu differences\n", answers, differences);
    return answers == 0 || answers != pinned || differences > 0;
}
