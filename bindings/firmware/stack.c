/* How deep the calls go on a Cortex-M4F: the bytes of the stack below the caller's that were written, of a
 * stretch that was painted. */
#include <stdio.h>

#include "laxombiit.h"

enum { ROOM = 16384, PAINT = 0xa5, STEPS = 100 };

static lax_tween tween;
static lax_track track;
static lax_found found;
static lax_updated made;
static uint32_t word;

static uint32_t nothing(void) { return 0; }
static uint32_t apply(void) { return lax_easing_apply(&tween.easing, 0.25f, &found); }
static uint32_t update(void) { return lax_tween_update(&tween, 0.25f, &made); }
static uint32_t folds(void) { return lax_tween_update(&tween, 100.25f, &made); }
static uint32_t value(void) { return lax_tween_value(&tween, &found); }
static uint32_t value_at(void) { return lax_track_value_at(&track, 3.25f, &found); }
static uint32_t track_update(void) { return lax_track_update(&track, 0.25f, &word); }
static uint32_t seek_to(void) { return lax_track_seek_to(&track, 0.5f); }
static uint32_t push(void) { return lax_track_push(&track, 3.25f, 1.0f); }

static uint32_t values_at(void)
{
    static float times[STEPS], values[STEPS];
    static lax_filled filled;
    return lax_track_values_at(&track, times, STEPS, values, STEPS, &filled);
}

static uint32_t run(void)
{
    static float steps[STEPS], values[STEPS];
    static uint32_t list[STEPS];
    static lax_run run;
    return lax_tween_run(&tween, steps, STEPS, values, STEPS, list, STEPS, &run);
}

static uint32_t replay(void)
{
    static const unsigned char log[] = {'P', 'E', 'L', 1, 0, 1, 0, 0, 0, 0, 0, 0, 0x3f};
    static uint16_t gaps[4];
    static lax_replay reached = LAX_REPLAY_NEW;
    return lax_log_replay(&tween, log, sizeof log, gaps, 4, &reached);
}

static void reset(uint32_t kind)
{
    uint32_t k;
    lax_tween_new(&tween, 0.0f, 1.0f);
    tween.easing.kind = kind;
    tween.looping.mode = LAX_FOREVER;
    tween.elapsed = 0.5f;
    lax_track_new(&track);
    for (k = 0; k < 63; k++) {
        lax_track_push_eased(&track, (float)k, (float)(k % 7), &tween.easing);
    }
}

static size_t depth(uint32_t (*call)(void))
{
    volatile unsigned char *top, *at;
    __asm volatile("mov %0, sp" : "=r"(top));
    for (at = top - ROOM; at < top; at++) {
        *at = PAINT;
    }
    word = call();
    for (at = top - ROOM; at < top && *at == PAINT; at++) {
    }
    return (size_t)(top - at);
}

static void print(const char *name, uint32_t (*call)(void), uint32_t kind)
{
    reset(kind);
    printf("| %s | %u |\n", name, (unsigned)(depth(call) - depth(nothing)));
}

int main(void)
{
    printf("| call | stack, bytes |\n|---|--:|\n");
    print("easing apply, Linear", apply, LAX_LINEAR);
    print("easing apply, CubicBezier", apply, LAX_CUBIC_BEZIER);
    print("tween update, no fold", update, LAX_LINEAR);
    print("tween update, 100 folds", folds, LAX_LINEAR);
    print("tween value, Linear", value, LAX_LINEAR);
    print("tween value, CubicBezier", value, LAX_CUBIC_BEZIER);
    print("run of 100 steps", run, LAX_LINEAR);
    print("log replay", replay, LAX_LINEAR);
    print("value_at, 63 frames, Linear", value_at, LAX_LINEAR);
    print("value_at, 63 frames, CubicBezier", value_at, LAX_CUBIC_BEZIER);
    print("track update, 63 frames", track_update, LAX_LINEAR);
    print("push into 63 frames", push, LAX_LINEAR);
    print("track seek_to", seek_to, LAX_LINEAR);
    print("batch of 100, 63 frames", values_at, LAX_LINEAR);
    return 0;
}
