#version 300 es
// Supply rails of the board under test: one curve for each rail, under the rail's own label.
precision mediump float;

#define CHANNELS 8

#define SUPPLY_A1 0
#define SUPPLY_A2 1
#define SUPPLY_A3 2
#define SUPPLY_A4 3
#if CHANNELS == 8
#define SUPPLY_B1 4
#define SUPPLY_B2 5
#define SUPPLY_B3 6
#define SUPPLY_B4 7
#define ROWS 4
#elif CHANNELS == 4
#define ROWS 2
#else
#error
#endif

uniform float trace[CHANNELS];
uniform float divisions;
in vec2 place;
out vec4 colour;

float curve(int rail, float row) {
    return abs(place.y - row - trace[rail] / divisions);
}

void main() {
    float near = 1e9;
    near = min(near, curve(SUPPLY_A1, 0.5));
    near = min(near, curve(SUPPLY_A2, 1.5));
#if ROWS > 2
    near = min(near, curve(SUPPLY_A3, 2.5));
    near = min(near, curve(SUPPLY_A4, 3.5));
#else
    near = min(near, curve(SUPPLY_A3, 0.5));
    near = min(near, curve(SUPPLY_A4, 1.5));
#endif
#ifdef SUPPLY_B1
    near = min(near, curve(SUPPLY_B1, 0.5));
    near = min(near, curve(SUPPLY_B2, 1.5));
    #ifndef SUPPLY_B3
    near = min(near, 0.0);      // a board without the third rail of group B
    #else
    near = min(near, curve(SUPPLY_B3, 2.5));
    near = min(near, curve(SUPPLY_B4, 3.5));
    #endif
#endif
    colour = vec4(vec3(smoothstep(0.02, 0.0, near)), 1.0);
}
