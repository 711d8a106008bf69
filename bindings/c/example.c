/* A ramp from 10 to 20 in 4 s, there and back twice, sampled each second; then a track of four frames,
 * sampled at many times at once; then a steep curve, and whether its search settled. */
#include <stdio.h>

#include "laxombiit.h"

static uint32_t run_ramp(void)
{
    lax_tween ramp;
    int second;

    lax_tween_new(&ramp, 10.0f, 20.0f);
    ramp.duration = 4.0f;
    ramp.easing.kind = LAX_EASE_IN_OUT_CUBIC;
    ramp.looping.mode = LAX_PING_PONG_TIMES;
    ramp.looping.passes = 4;
    for (second = 1; second <= 16; second++) {
        lax_updated made;
        lax_found found;
        uint32_t refused = lax_tween_update(&ramp, 1.0f, &made);
        if (refused == LAX_OK) {
            refused = lax_tween_value(&ramp, &found);
        }
        if (refused != LAX_OK) {
            return refused;
        }
        printf("%2d s  %7.4f  folds %u\n", second, (double)found.value, (unsigned)made.folds);
    }
    return LAX_OK;
}

static uint32_t sample_track(void)
{
    const float frame[4][2] = {{0.0f, 0.0f}, {1.0f, 8.0f}, {3.0f, 8.0f}, {4.0f, 2.0f}};
    const float times[5] = {0.5f, 1.0f, 2.0f, 3.75f, 9.0f};
    float values[5];
    lax_track track;
    lax_filled made;
    uint32_t refused;
    size_t k;

    lax_track_new(&track);
    for (k = 0; k < 4; k++) {
        refused = lax_track_push(&track, frame[k][0], frame[k][1]);
        if (refused != LAX_OK) {
            return refused;
        }
    }
    refused = lax_track_values_at(&track, times, 5, values, 5, &made);
    for (k = 0; refused == LAX_OK && k < made.filled; k++) {
        printf("at %.2f s  %.4f\n", (double)times[k], (double)values[k]);
    }
    return refused;
}

static uint32_t ease_steeply(void)
{
    const float t[3] = {0.25f, 0.45f, 0.5f};
    const lax_easing steep = {LAX_CUBIC_BEZIER, 1.0f, 0.0f, 0.0f, 1.0f, 0};
    int k;

    for (k = 0; k < 3; k++) {
        lax_found f;
        uint32_t refused = lax_easing_apply(&steep, t[k], &f);
        if (refused != LAX_OK) {
            return refused;
        }
        printf("eased at %.2f  %.4f  %s, %u x, %u derivatives\n", (double)t[k], (double)f.value,
               f.settled ? "settled" : "not settled", (unsigned)f.xs, (unsigned)f.derivatives);
    }
    return LAX_OK;
}

int main(void)
{
    uint32_t refused = run_ramp();
    if (refused == LAX_OK) {
        refused = sample_track();
    }
    if (refused == LAX_OK) {
        refused = ease_steeply();
    }
    if (refused != LAX_OK) {
        printf("refused %u: %s\n", (unsigned)LAX_NUMBER(refused), lax_refusal_text(refused));
    }
    return refused != LAX_OK;
}
