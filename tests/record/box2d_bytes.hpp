// Numbers from the bytes of a frame, highest first, and back to the bytes of an answer.
#pragma once
#include <box2d/box2d.h>
#include <cstdint>
#include <cstring>

struct Bytes {
    const uint8_t *at;
    float number() {
        uint32_t w = (uint32_t)at[0] << 24 | (uint32_t)at[1] << 16 | (uint32_t)at[2] << 8 | at[3];
        at += 4;
        float x;
        std::memcpy(&x, &w, 4);
        return x;
    }
    b2Vec2 vec() {
        float x = number();
        return b2Vec2(x, number());
    }
    uint32_t half() {
        uint32_t w = (uint32_t)at[0] << 8 | at[1];
        at += 2;
        return w;
    }
};

struct Line {
    uint8_t *at;
    void byte(uint32_t b) { *at++ = (uint8_t)b; }
    void word(uint32_t w) {
        for (int shift = 24; shift >= 0; shift -= 8) byte(w >> shift);
    }
    void number(float x) {
        uint32_t w;
        std::memcpy(&w, &x, 4);
        word(w);
    }
    void vec(b2Vec2 v) {
        number(v.x);
        number(v.y);
    }
};
