// Sine and cosine of a turn number, of the second program over Box2D 2.4.1: a table of its own, by a series.
#pragma once
#include <box2d/box2d.h>
#include <cstdint>

namespace {

// a turn has so many parts, a quarter of it so many
enum { TURN = 4096, QUARTER = 1024 };

// The f32 nearest to the sine of k parts of a turn, k from 0 to a quarter: x - x^3/3! + x^5/5! - .., rounded once.
float nearest_sine(uint32_t k) {
    const long double pi = 3.14159265358979323846264338327950288L;
    const long double x = pi * (long double)k / (TURN / 2);
    long double term = x, sum = x;
    for (int i = 2; i < 40; i += 2) {
        term = -term * x * x / (i * (i + 1));
        sum += term;
    }
    return (float)sum;
}

struct QuarterWave {
    float at[QUARTER + 1];
    QuarterWave() {
        for (uint32_t k = 0; k <= QUARTER; k++) at[k] = nearest_sine(k);
    }
};

// By quarters: the sine is T(k), T(1024 - k), -T(k), -T(1024 - k), the cosine T(1024 - k), -T(k), -T(1024 - k), T(k). A
// zero is +0, as 0 - 0 is.
b2Rot heading(uint32_t number) {
    static const QuarterWave wave;
    const uint32_t k = number % QUARTER, quarter = number / QUARTER;
    const float t = wave.at[k], mirror = wave.at[QUARTER - k];
    const float around[5] = {t, mirror, 0.0f - t, 0.0f - mirror, t};
    b2Rot q;
    q.s = around[quarter];
    q.c = around[quarter + 1];
    return q;
}

} // namespace
