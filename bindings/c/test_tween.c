/* Tweens. */
#include "test.h"

static lax_tween ramp(float duration, uint32_t mode, uint32_t passes)
{
    lax_tween t = tween_new(10.0f, 20.0f);
    t.duration = duration;
    t.looping.mode = mode;
    t.looping.passes = passes;
    return t;
}

static int same(lax_tween x, lax_tween y) { return memcmp(&x, &y, sizeof x) == 0; }

static void reads(void)
{
    lax_tween t = ramp(4.0f, LAX_TIMES, 3);
    snapshot_answer now;
    t.easing = kind(LAX_EASE_IN_QUAD);
    t.elapsed = 2.0f;
    CHECK(plain_is(tween_value(t), 12.5f));
    CHECK(value_is(tween_progress(t), 0.5f));
    CHECK(plain_is(tween_eased_progress(t), 0.25f));
    CHECK(value_is(tween_playback_duration(t), 12.0f));
    now = tween_snapshot(t);
    CHECK(now.number == LAX_OK && now.elapsed == 2.0f && now.state == LAX_RUNNING);
    t.looping.mode = LAX_FOREVER;
    CHECK(tween_playback_duration(t).value == INFINITY);
    t.time_scale = -1.0f;
    CHECK(not_found(tween_value(t), LAX_RECORD_BREAKS_LIMIT));
    CHECK(refused(tween_progress(t), LAX_RECORD_BREAKS_LIMIT));
    CHECK(not_found(tween_eased_progress(t), LAX_RECORD_BREAKS_LIMIT));
    CHECK(refused(tween_playback_duration(t), LAX_RECORD_BREAKS_LIMIT));
    CHECK(tween_snapshot(t).number == LAX_RECORD_BREAKS_LIMIT && tween_snapshot(t).elapsed == 0.0f);
    t.state = 4;
    CHECK(not_found(tween_value(t), LAX_UNKNOWN_WORD));
    CHECK(refused(tween_progress(t), LAX_UNKNOWN_WORD));
    CHECK(not_found(tween_eased_progress(t), LAX_UNKNOWN_WORD));
    CHECK(refused(tween_playback_duration(t), LAX_UNKNOWN_WORD));
    CHECK(tween_snapshot(t).number == LAX_UNKNOWN_WORD);
}

/* What the easing's search says is handed on. */
static void searches(void)
{
    lax_tween t = ramp(1.0f, LAX_FOREVER, 0);
    const float step[3] = {0.45f, 0.55f, 0.45f};
    float value[3];
    uint32_t folds[3];
    run_answer r;
    t.easing = bezier(1, 0, 0, 1);
    CHECK(plain_is(tween_value(t), 10.0f) && plain_is(tween_eased_progress(t), 0.0f));
    t.elapsed = 0.45f;
    CHECK(found_is(tween_value(t), 11.765354f, 0, 16, 6));
    CHECK(found_is(tween_eased_progress(t), 0.17653541f, 0, 16, 6));
    r = tween_run(t, step + 1, 1, value, 3, folds, 3);
    CHECK(r.number == LAX_OK && r.done == 1 && r.unsettled == 0);
    t.elapsed = 0.0f;
    r = tween_run(t, step, 3, value, 3, folds, 3);
    CHECK(r.number == LAX_OK && r.done == 3 && r.unsettled == 2);
    r = tween_run(t, step, 3, value, 3, folds, 2);
    CHECK(r.number == LAX_OUTPUT_TOO_SHORT && r.done == 0 && r.unsettled == 0);
    t.duration = 0.0f;
    CHECK(plain_is(tween_value(t), 20.0f) && plain_is(tween_eased_progress(t), 1.0f));
}

typedef changed_answer (*change)(lax_tween);

static void changes(void)
{
    change all[4] = {tween_reset, tween_reverse, tween_pause, tween_resume};
    lax_tween t = ramp(4.0f, LAX_TIMES, 3), broken = t, unknown = t, idle;
    int k;
    t.delay = 1.0f;
    CHECK(tween_reset(t).tween.state == LAX_IDLE);
    CHECK(tween_pause(t).tween.state == LAX_PAUSED);
    CHECK(tween_resume(tween_pause(t).tween).tween.state == LAX_RUNNING);
    CHECK(tween_reverse(t).tween.start == 20.0f && tween_reverse(t).tween.elapsed == 4.0f);
    CHECK(tween_seek(t, 0.25f).tween.elapsed == 1.0f);
    CHECK(tween_seek(t, NAN).number == LAX_PROGRESS_IS_NAN && same(tween_seek(t, NAN).tween, t));
    t.easing.c = NAN; /* words without a use stay as they came, and a flag is written as 0 or 1 */
    t.looping.mode = LAX_ONCE;
    t.looping.passes = 70000;
    t.ping_pong_reverse = 7;
    idle = t;
    idle.state = LAX_IDLE;
    idle.ping_pong_reverse = 0;
    CHECK(same(tween_reset(t).tween, idle));
    /* from a refusal all come back as they came, a flag of 7 too */
    broken.duration = NAN;
    broken.ping_pong_reverse = 7;
    broken.easing.c = 5.0f;
    unknown.looping.mode = 5;
    for (k = 0; k < 4; k++) {
        CHECK(all[k](broken).number == LAX_RECORD_BREAKS_LIMIT && same(all[k](broken).tween, broken));
        CHECK(all[k](unknown).number == LAX_UNKNOWN_WORD && same(all[k](unknown).tween, unknown));
    }
    CHECK(tween_seek(broken, NAN).number == LAX_RECORD_BREAKS_LIMIT);
    CHECK(tween_seek(unknown, NAN).number == LAX_UNKNOWN_WORD);
}

static void updates(void)
{
    lax_tween t = ramp(3.0f, LAX_TIMES, 4);
    updated_answer u;
    t.delay = 2.0f;
    u = tween_update(tween_reset(t).tween, 3.0f);
    CHECK(u.number == LAX_OK && u.folds == 0 && u.running == 1 && u.tween.elapsed == 1.0f);
    u = tween_update(u.tween, 5.0f);
    CHECK(u.folds == 2 && u.tween.elapsed == 0.0f);
    u = tween_update(u.tween, 100.0f);
    CHECK(u.folds == 2 && u.running == 0 && u.tween.elapsed == 3.0f && u.tween.state == LAX_COMPLETED);
    t = ramp(1.0f, LAX_FOREVER, 0);
    CHECK(tween_update(t, NAN).number == LAX_OK);
    CHECK(tween_update(t, INFINITY).number == LAX_STEP_TOO_LONG);
    CHECK(tween_update(t, 4097.0f).number == LAX_TOO_MANY_FOLDS);
    CHECK(tween_update(t, 4096.0f).folds == 4096);
    t.duration = 16777216.0f;
    t.elapsed = 8388608.0f;
    u = tween_update(t, 0.25f);
    CHECK(u.number == LAX_STEP_LOST && same(u.tween, t));
    t.easing.kind = 38;
    u = tween_update(t, 0.25f);
    CHECK(u.number == LAX_UNKNOWN_WORD && same(u.tween, t));
}

/* What a step makes of a Running tween's elapsed, or -1 where it is refused with 6. */
static float run_by(float duration, float scale, float elapsed, float step)
{
    lax_tween t = ramp(duration, LAX_ONCE, 0);
    updated_answer u;
    t.time_scale = scale;
    t.elapsed = elapsed;
    u = tween_update(t, step);
    return u.number == LAX_STEP_LOST && same(u.tween, t) ? -1.0f : u.tween.elapsed;
}

/* The same of an Idle tween's delay_elapsed. */
static float wait_by(float scale, float delay_elapsed, float step)
{
    lax_tween t = ramp(4.0f, LAX_ONCE, 0);
    updated_answer u;
    t.time_scale = scale;
    t.delay = 262145.0f;
    t.delay_elapsed = delay_elapsed;
    t.state = LAX_IDLE;
    u = tween_update(t, step);
    return u.number == LAX_STEP_LOST && same(u.tween, t) ? -1.0f : u.tween.delay_elapsed;
}

/* Off by more than an eighth of what a step adds. */
static void updates_off(void)
{
    const uint32_t one = 1;
    float least;
    memcpy(&least, &one, sizeof least);
    CHECK(run_by(16777216.0f, 1.0f, 131072.0f, 0.02f) == -1.0f);
    CHECK(run_by(16777216.0f, 1.0f, 262144.0f, 0.02f) == -1.0f); /* too fast: 0.03125 */
    CHECK(run_by(16777216.0f, 2.0f, 262144.0f, 0.02f) == -1.0f);
    CHECK(run_by(16777216.0f, 6.25f, 262144.0f, 0.02f) == 262144.125f);
    CHECK(run_by(1.0f, 0.5f, 0.0f, least) == -1.0f); /* the product vanishes */
    CHECK(run_by(1.0f, 1.0f, 0.0f, least) == least);
    CHECK(run_by(16777216.0f, 1.0f, 262144.0f, 0.0f) == 262144.0f);
    CHECK(run_by(16777216.0f, 0.0f, 262144.0f, 0.02f) == 262144.0f);
    CHECK(run_by(262144.0f, 1.0f, 262144.0f, 0.02f) == 262144.0f); /* at its end */
    CHECK(run_by(16777216.0f, 1.0f, 16777215.0f, 1.0f) == 16777216.0f);
    CHECK(wait_by(6.25f, 131072.0f, 0.02f) == -1.0f && wait_by(0.0f, 262144.0f, 0.02f) == -1.0f);
    CHECK(wait_by(1.0f, 262144.0f, 0.0f) == 262144.0f && wait_by(1.0f, 262144.0f, 0.125f) == 262144.125f);
    CHECK(wait_by(0.5f, 262144.0f, 2.0f) == 262146.0f);
}

static void runs(void)
{
    lax_tween t = ramp(4.0f, LAX_FOREVER, 0);
    float step[3] = {1.0f, 2.0f, 9.0f}, value[4] = {-1, -1, -1, -1};
    uint32_t folds[4] = {9, 9, 9, 9};
    run_answer r = tween_run(t, step, 3, value, 4, folds, 4);
    CHECK(r.number == LAX_OK && r.done == 3 && r.tween.elapsed == 0.0f);
    CHECK(value[0] == 12.5f && value[1] == 17.5f && value[2] == 10.0f && value[3] == -1.0f);
    CHECK(folds[0] == 0 && folds[1] == 0 && folds[2] == 3 && folds[3] == 9);
    step[1] = INFINITY;
    value[1] = -2.0f;
    r = tween_run(t, step, 3, value, 4, folds, 4);
    CHECK(r.number == LAX_STEP_TOO_LONG && r.done == 1 && r.tween.elapsed == 1.0f && value[1] == -2.0f);
    CHECK(r.unsettled == 0);
    r = tween_run(t, step, 3, value, 2, folds, 4);
    CHECK(r.number == LAX_OUTPUT_TOO_SHORT && r.done == 0 && same(r.tween, t));
    r = tween_run(t, step, 3, value, 4, folds, 2);
    CHECK(r.number == LAX_OUTPUT_TOO_SHORT);
    t.state = 9;
    r = tween_run(t, step, 3, value, 0, folds, 0);
    CHECK(r.number == LAX_UNKNOWN_WORD && same(r.tween, t) && value[1] == -2.0f);
    t.state = LAX_RUNNING;
    t.elapsed = 5.0f;
    CHECK(tween_run(t, step, 3, value, 0, folds, 0).number == LAX_RECORD_BREAKS_LIMIT);
}

void test_tweens(void)
{
    reads();
    searches();
    changes();
    updates();
    updates_off();
    runs();
}
