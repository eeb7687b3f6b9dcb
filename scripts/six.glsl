#version 300 es
// Ripple of the supply rails, written for a probe head of six channels.
// The script knows four and eight channels only, so the run stops at #error.
precision mediump float;

#define CHANNELS 6
#define SUPPLY_A1 0
#define SUPPLY_A2 1

uniform float ripple[CHANNELS];
in vec2 place;
out vec4 colour;

#if CHANNELS == 4
    #define LAST SUPPLY_A2
#elif CHANNELS == 8
    #define SUPPLY_B1 4
    #define SUPPLY_B2 5
    #define LAST SUPPLY_B2
#else
    #if CHANNELS < 4
        #define LAST SUPPLY_A1
    #else
        #error four or eight channels
    #endif
#endif

void main() {
    float height = max(ripple[SUPPLY_A1], ripple[LAST]);
    colour = vec4(step(place.y, height));
}
