/* Every NaN counts as any other, quiet or signalling, of either sign: processors tell them apart. */
#include "test.h"

static float pattern(uint32_t bits)
{
    float x;
    memcpy(&x, &bits, sizeof x);
    return x;
}

/* As a step or a time it is 0. */
static void is_none(float nan)
{
    lax_tween ramp = tween_new(10.0f, 20.0f), idle = ramp;
    lax_track track = track_push(track_push(track_new(), 0.0f, 3.0f).track, 2.0f, 8.0f).track;
    const float steps[2] = {nan, 0.25f};
    float values[2] = {0.0f, 0.0f};
    uint32_t folds[2] = {7, 7};
    updated_answer made = tween_update(ramp, nan);
    run_answer run = tween_run(ramp, steps, 2, values, 2, folds, 2);
    CHECK(made.number == LAX_OK && made.folds == 0 && made.running == 1 && made.tween.elapsed == 0.0f);
    CHECK(run.number == LAX_OK && values[0] == 10.0f && values[1] == 12.5f && folds[0] == 0 && folds[1] == 0);
    idle.delay = 1.0f;
    idle.state = LAX_IDLE;
    made = tween_update(idle, nan);
    CHECK(made.number == LAX_OK && made.tween.state == LAX_IDLE && made.tween.delay_elapsed == 0.0f);
    CHECK(track_update(track, nan).number == LAX_OK && track_update(track, nan).track.elapsed == 0.0f);
    CHECK(plain_is(track_value_at(track, nan), 3.0f));
    CHECK(track_values_at(track, steps, 1, values, 1).number == LAX_OK && values[0] == 3.0f);
}

/* Elsewhere it is refused. */
static void is_refused(float nan)
{
    const lax_track track = track_push(track_new(), 1.0f, 3.0f).track;
    lax_event step = {LAX_LOG_STEP, nan};
    uint8_t log[16] = {0};
    CHECK(not_found(easing_apply(kind(LAX_EASE_IN_OUT_CIRC), nan), LAX_PROGRESS_IS_NAN));
    CHECK(not_found(easing_apply(bezier(0.5f, nan, 0.5f, 1.0f), 0.5f), LAX_EASING_PARAMETER));
    CHECK(tween_seek(tween_new(0.0f, 1.0f), nan).number == LAX_PROGRESS_IS_NAN);
    CHECK(track_seek_to(track, nan).number == LAX_PROGRESS_IS_NAN);
    CHECK(track_push(track, nan, 1.0f).number == LAX_TRACK_LIMIT);
    CHECK(track_push(track, 2.0f, nan).number == LAX_TRACK_LIMIT);
    CHECK(log_record(log, sizeof log, log_head(log, sizeof log).written, step).number == LAX_STEP_BELOW_ZERO);
}

/* A new tween has the one that every NaN is written as, and breaks a limit. */
static void is_written(float nan)
{
    const lax_tween t = tween_new(nan, nan);
    const uint32_t quiet = 0x7fc00000;
    CHECK(memcmp(&t.start, &quiet, sizeof quiet) == 0 && memcmp(&t.end, &quiet, sizeof quiet) == 0);
    CHECK(tween_reset(t).number == LAX_RECORD_BREAKS_LIMIT);
}

/* A float of a record, and so the record. */
static void breaks(uint32_t nan)
{
    static const size_t tween_words[] = {0, 1, 2, 9, 10, 13, 14};
    static const size_t track_words[] = {0, 1, 513};
    const lax_tween ramp = tween_new(10.0f, 20.0f);
    const lax_track track = track_push(track_new(), 1.0f, 3.0f).track;
    size_t k;
    for (k = 0; k < sizeof tween_words / sizeof *tween_words; k++) {
        lax_tween t = ramp;
        memcpy((char *)&t + 4 * tween_words[k], &nan, sizeof nan);
        CHECK(tween_update(t, 0.25f).number == LAX_RECORD_BREAKS_LIMIT);
        CHECK(not_found(tween_value(t), LAX_RECORD_BREAKS_LIMIT));
    }
    for (k = 0; k < sizeof track_words / sizeof *track_words; k++) {
        lax_track t = track;
        memcpy((char *)&t + 4 * track_words[k], &nan, sizeof nan);
        CHECK(track_update(t, 0.25f).number == LAX_RECORD_BREAKS_LIMIT);
        CHECK(not_found(track_value(t), LAX_RECORD_BREAKS_LIMIT));
    }
}

void test_nans(void)
{
    static const uint32_t nans[] = {0x7fc00000, 0xffc00000, 0x7fffffff, 0x7f800001, 0xff800001, 0x7fbfffff, 0xffbfffff};
    size_t k;
    for (k = 0; k < sizeof nans / sizeof *nans; k++) {
        is_none(pattern(nans[k]));
        is_refused(pattern(nans[k]));
        is_written(pattern(nans[k]));
        breaks(nans[k]);
    }
}
