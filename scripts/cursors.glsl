#version 300 es
#extension GL_OES_standard_derivatives : enable
#pragma optimize(on)
// Two time cursors and the level between them, with the readings' units made by macros.
precision highp float;

#define CELL 0.125
#define SCALED(value, unit) ((value) * (unit))
#define MILLIVOLTS(value) SCALED(value, 1e-3)
#define BETWEEN(x, low, high) (step(low, x) * step(x, high))
#define EITHER(a, b) max(a, b)
#define LINE_AT(x, at) BETWEEN(x, (at) - CELL, (at) + CELL)

uniform float cursor[2];
uniform int mark;
in vec2 place;
out vec4 colour;

// A function-like name with no parenthesis after it is an ordinary name.
float SCALED;

float level() {
    return MILLIVOLTS(SCALED(250u, 2.) + \
                      4.0f);
}

// From here on lines are counted from 1000, so that a mark tells this part from the first.
#line 1000
bool marked() {
    return mark == __LINE__;
}

#define HERE __LINE__
bool passed() {
    return mark >= HERE;
}
#undef HERE

void main() {
    float lit = EITHER(
        LINE_AT(place.x, cursor[0]),
        EITHER(LINE_AT(place.x, cursor[0x1]), LINE_AT(place.y, level()))
    );
#if defined(HERE) || !defined CELL
    lit = 0.0;
#elif (1 << 4 | 3) % 8 == 3 && -7 / 2 == -3
    lit *= 0.75;
#endif
    colour = vec4(lit, lit, marked() || passed() ? 1 : 0, 1);
}
