/* Tracks. */
#include "test.h"

#define LIMIT 16777216.0f
#define BEYOND 16777218.0f /* the next f32 */

/* (0, 0) and (2, 8), linear. */
static lax_track pair(uint32_t mode, uint32_t passes)
{
    lax_track t = track_push(track_new(), 0.0f, 0.0f).track;
    t = track_push(t, 2.0f, 8.0f).track;
    t.looping.mode = mode;
    t.looping.passes = passes;
    return t;
}

/* A frame each second from 0 on, each 10 above the one before, linear. */
static lax_track ladder(uint32_t count)
{
    lax_track t = track_new();
    uint32_t k;
    for (k = 0; k < count; k++) {
        t.frames[k].time = (float)k;
        t.frames[k].value = 10.0f * (float)k;
    }
    t.count = count;
    return t;
}

static int same(lax_track x, lax_track y) { return memcmp(&x, &y, sizeof x) == 0; }

static int kept(track_changed_answer c, uint32_t number, lax_track t)
{
    return c.number == number && same(c.track, t);
}

/* What moves. */
static int stands(lax_track t, float elapsed, uint32_t loop_count, uint32_t complete)
{
    return t.elapsed == elapsed && t.loop_count == loop_count && t.complete == complete;
}

static void pushes(void)
{
    lax_track t = track_new(), blank;
    memset(&blank, 0, sizeof blank);
    CHECK(same(t, blank));
    t = track_push(t, 2.0f, 8.0f).track;
    CHECK(t.count == 1 && t.frames[0].time == 2.0f && t.frames[0].value == 8.0f);
    t = track_push(t, -0.0f, 0.0f).track;
    CHECK(t.count == 2 && t.frames[0].time == 0.0f && !signbit(t.frames[0].time) && t.frames[1].time == 2.0f);
    CHECK(same(t, pair(LAX_ONCE, 0)));
    /* push and a change of mode clear complete alone */
    t.elapsed = 1.5f;
    t.loop_count = 7;
    t.complete = 1;
    CHECK(stands(track_push(t, 1.0f, 1.0f).track, 1.5f, 7, 0));
    t.looping.mode = LAX_FOREVER;
    CHECK(stands(track_looping(t, pair(LAX_TIMES, 3).looping).track, 1.5f, 7, 0));
    CHECK(track_looping(t, pair(LAX_TIMES, 3).looping).track.looping.passes == 3);
}

/* The worked example K1, and what is beside it. */
static void samples(void)
{
    lax_track t = pair(LAX_ONCE, 0);
    CHECK(plain_is(track_value_at(t, 1.0f), 4.0f));
    t = track_push(t, 2.0f, 6.0f).track;
    CHECK(t.count == 2);
    CHECK(plain_is(track_value_at(t, 1.0f), 3.0f));
    CHECK(plain_is(track_value_at(t, NAN), 0.0f));
    CHECK(plain_is(track_value_at(t, INFINITY), 6.0f));
    CHECK(plain_is(track_value_at(t, -0.0f), 0.0f));
    CHECK(plain_is(track_value_at(t, -INFINITY), 0.0f));
    t = track_push_eased(t, 0.0f, 0.0f, kind(LAX_EASE_IN_QUAD)).track;
    CHECK(plain_is(track_value_at(t, 1.0f), 1.5f));
    t = track_push_eased(t, 0.0f, 0.0f, steps(4)).track;
    CHECK(plain_is(track_value_at(t, 0.25f), 1.5f));
    t.elapsed = 1.0f;
    CHECK(plain_is(track_value(t), 3.0f));
    t = track_push(track_new(), 5.0f, 3.0f).track;
    CHECK(plain_is(track_value_at(t, 0.0f), 3.0f) && plain_is(track_value_at(t, 9.0f), 3.0f));
    CHECK(plain_is(track_value(t), 3.0f));
    /* a frame's own time is the start of its interval: 1e7 + (0.1 - 1e7) would be 0 */
    t = track_push(pair(LAX_ONCE, 0), 0.0f, 1e7f).track;
    t = track_push(t, 1.0f, 0.1f).track;
    CHECK(plain_is(track_value_at(t, 1.0f), 0.1f));
}

/* Frames are pushed in no order, until none goes in. */
static void fills(void)
{
    lax_track t = track_new();
    track_changed_answer c;
    uint32_t k;
    for (k = 0; k < 63; k++) {
        t = track_push(t, (float)(37 * k % 64), 10.0f * (float)(37 * k % 64)).track;
    }
    CHECK(t.count == 63);
    CHECK(plain_is(track_value_at(t, 26.5f), 265.0f)); /* the frame at 27 is missing */
    t = track_push(t, 27.0f, 270.0f).track;
    CHECK(same(t, ladder(64)));
    for (k = 0; k < 63; k++) {
        CHECK(plain_is(track_value_at(t, (float)k), 10.0f * (float)k));
        CHECK(plain_is(track_value_at(t, (float)k + 0.5f), 10.0f * (float)k + 5.0f));
    }
    CHECK(plain_is(track_value_at(t, 63.0f), 630.0f));
    CHECK(kept(track_push(t, 31.5f, 0.0f), LAX_TRACK_FULL, t));
    CHECK(kept(track_push(t, 64.0f, 0.0f), LAX_TRACK_FULL, t));
    CHECK(kept(track_push_eased(t, 64.0f, 0.0f, steps(4)), LAX_TRACK_FULL, t));
    c = track_push_eased(t, 63.0f, -1.0f, steps(4));
    CHECK(c.number == LAX_OK && c.track.count == 64 && c.track.frames[63].value == -1.0f);
    CHECK(c.track.frames[63].easing.kind == LAX_STEPS && c.track.frames[63].easing.count == 4);
}

static void pushes_refuse(void)
{
    const float time[5] = {NAN, INFINITY, -INFINITY, -1.0f, BEYOND};
    const float value[5] = {NAN, INFINITY, -INFINITY, BEYOND, -BEYOND};
    lax_track t = pair(LAX_ONCE, 0);
    int k;
    t.frames[0].easing.c = 5.0f; /* Linear has no use for it: a refusal keeps it */
    t.complete = 7;
    for (k = 0; k < 5; k++) {
        CHECK(kept(track_push(t, time[k], 1.0f), LAX_TRACK_LIMIT, t));
        CHECK(kept(track_push(t, 1.0f, value[k]), LAX_TRACK_LIMIT, t));
        CHECK(kept(track_push_eased(t, time[k], 1.0f, steps(4)), LAX_TRACK_LIMIT, t));
        CHECK(kept(track_push_eased(t, 1.0f, value[k], steps(4)), LAX_TRACK_LIMIT, t));
    }
    CHECK(track_push(t, LIMIT, LIMIT).number == LAX_OK);
    CHECK(track_push(t, LIMIT, -LIMIT).number == LAX_OK);
    CHECK(kept(track_push_eased(t, NAN, 1.0f, kind(LAX_WIGGLE)), LAX_EASING_NOT_SUPPLIED, t));
    CHECK(kept(track_push_eased(t, NAN, 1.0f, steps(65537)), LAX_EASING_PARAMETER, t));
    CHECK(kept(track_push_eased(t, NAN, 1.0f, kind(38)), LAX_UNKNOWN_WORD, t));
}

/* Whether a frame's push gives this number, and what the push of its parts gives. */
static int alike(lax_track t, float time, float value, lax_easing e, uint32_t number)
{
    track_changed_answer parts = track_push_eased(t, time, value, e), whole;
    lax_keyframe frame;
    frame.time = time;
    frame.value = value;
    frame.easing = e;
    whole = track_push_frame(t, frame);
    return whole.number == number && memcmp(&whole, &parts, sizeof whole) == 0;
}

static void pushes_of_frames(void)
{
    lax_track t = pair(LAX_ONCE, 0), wrong = t;
    lax_keyframe frame = ladder(2).frames[1];
    t.frames[0].easing.c = 5.0f; /* Linear has no use for it: a refusal keeps it */
    t.frames[5].value = NAN;     /* behind the count */
    t.complete = 7;
    wrong.elapsed = -1.0f;
    CHECK(alike(t, 1.0f, 5.0f, steps(4), LAX_OK));
    CHECK(alike(t, 2.0f, 5.0f, bezier(0.25f, 0.1f, 0.25f, 1.0f), LAX_OK)); /* replaces */
    CHECK(alike(t, -0.0f, 5.0f, kind(LAX_EASE_IN_QUAD), LAX_OK));
    CHECK(alike(ladder(64), 63.0f, 5.0f, steps(4), LAX_OK));
    CHECK(alike(wrong, NAN, 5.0f, kind(LAX_WIGGLE), LAX_RECORD_BREAKS_LIMIT));
    CHECK(alike(t, NAN, 5.0f, kind(LAX_WIGGLE), LAX_EASING_NOT_SUPPLIED));
    CHECK(alike(t, NAN, 5.0f, steps(65537), LAX_EASING_PARAMETER));
    CHECK(alike(t, NAN, 5.0f, steps(4), LAX_TRACK_LIMIT));
    CHECK(alike(t, 1.0f, BEYOND, steps(4), LAX_TRACK_LIMIT));
    CHECK(alike(pair(LAX_TIMES, 65535), 257.0f, 5.0f, steps(4), LAX_TRACK_LIMIT));
    CHECK(alike(ladder(64), 31.5f, 5.0f, steps(4), LAX_TRACK_FULL));
    CHECK(alike(wrong, NAN, 5.0f, kind(38), LAX_UNKNOWN_WORD));
    CHECK(track_push_frame(t, frame).track.frames[1].value == 10.0f);
    frame.time = -0.0f;
    CHECK(!signbit(track_push_frame(t, frame).track.frames[0].time));
    frame.value = NAN;
    CHECK(kept(track_push_frame(t, frame), LAX_TRACK_LIMIT, t));
    frame.easing.kind = 38;
    CHECK(kept(track_push_frame(t, frame), LAX_UNKNOWN_WORD, t));
}

/* In the modes with an end the last time, times the passes, has a limit. */
static void totals(void)
{
    lax_track t = pair(LAX_PING_PONG_TIMES, 65535), full = ladder(64);
    lax_loop mode = {LAX_TIMES, 65535};
    CHECK(track_push(t, 256.0f, 0.0f).number == LAX_OK); /* 16,776,960 */
    CHECK(kept(track_push(t, 257.0f, 0.0f), LAX_TRACK_LIMIT, t));
    t = track_push(pair(LAX_FOREVER, 0), 257.0f, 0.0f).track;
    CHECK(kept(track_looping(t, mode), LAX_TRACK_LIMIT, t));
    mode.passes = 65281; /* 16,777,217, which rounds to the limit */
    CHECK(track_looping(t, mode).number == LAX_OK);
    mode.passes = 65282;
    CHECK(kept(track_looping(t, mode), LAX_TRACK_LIMIT, t));
    mode.passes = 65536;
    CHECK(kept(track_looping(track_new(), mode), LAX_TRACK_LIMIT, track_new()));
    mode.mode = LAX_PING_PONG; /* has no use for the passes */
    CHECK(track_looping(t, mode).number == LAX_OK && track_looping(t, mode).track.looping.passes == 65536);
    mode.mode = 5;
    CHECK(kept(track_looping(t, mode), LAX_UNKNOWN_WORD, t));
    full.looping.mode = LAX_TIMES;
    full.looping.passes = 1000;
    CHECK(kept(track_push(full, 20000.0f, 0.0f), LAX_TRACK_LIMIT, full));
    CHECK(kept(track_push(full, 100.0f, 0.0f), LAX_TRACK_FULL, full));
}

static void reads(void)
{
    lax_track t = pair(LAX_TIMES, 3);
    t.elapsed = 5.0f;
    CHECK(value_is(track_duration(t), 2.0f));
    CHECK(value_is(track_playback_duration(t), 6.0f));
    CHECK(value_is(track_active_time(t), 1.0f));
    CHECK(value_is(track_progress(t), 5.0f / 6.0f));
    CHECK(plain_is(track_value(t), 4.0f));
    CHECK(track_is_complete(t).number == LAX_OK && track_is_complete(t).flag == 0);
    t.complete = 7;
    CHECK(track_is_complete(t).flag == 1);
    CHECK(value_is(track_active_time(t), 2.0f));
    t.looping.mode = LAX_PING_PONG;
    t.elapsed = 3.5f;
    CHECK(value_is(track_active_time(t), 0.5f));
    CHECK(value_is(track_progress(t), 0.25f));
    CHECK(value_is(track_playback_duration(t), INFINITY));
    t.looping.mode = LAX_PING_PONG_TIMES;
    CHECK(value_is(track_active_time(t), 0.5f));
    t.looping.mode = LAX_FOREVER;
    CHECK(value_is(track_active_time(t), 1.5f));
    t.looping.mode = LAX_ONCE; /* elapsed may be beyond the total */
    CHECK(value_is(track_active_time(t), 2.0f) && value_is(track_progress(t), 1.0f));
}

/* Tracks with no frame and with one. */
static void reads_of_few(void)
{
    lax_track none = track_new(), one = track_push(none, 4.0f, 1.0f).track;
    track_changed_answer c;
    one.elapsed = 3.0f;
    CHECK(not_found(track_value_at(none, 0.0f), LAX_NO_FRAMES));
    CHECK(not_found(track_value(none), LAX_NO_FRAMES));
    CHECK(value_is(track_duration(none), 0.0f) && value_is(track_duration(one), 4.0f));
    CHECK(value_is(track_playback_duration(none), 0.0f) && value_is(track_playback_duration(one), 4.0f));
    CHECK(value_is(track_active_time(none), 0.0f) && value_is(track_active_time(one), 3.0f));
    CHECK(value_is(track_progress(none), 1.0f) && value_is(track_progress(one), 0.75f));
    CHECK(track_is_complete(none).flag == 1 && track_is_complete(one).flag == 1);
    CHECK(track_update(none, 1.0f).running == 0 && same(track_update(none, 1.0f).track, none));
    CHECK(track_update(one, 1.0f).running == 0 && same(track_update(one, 1.0f).track, one));
    CHECK(track_update(none, INFINITY).number == LAX_STEP_TOO_LONG);
    c = track_seek_to(none, 0.5f);
    CHECK(c.number == LAX_OK && stands(c.track, 0.0f, 0, 1));
    c = track_seek_to(one, 0.5f);
    CHECK(c.number == LAX_OK && stands(c.track, 2.0f, 0, 0));
    none.looping.mode = LAX_FOREVER;
    CHECK(value_is(track_playback_duration(none), 0.0f) && value_is(track_progress(none), 1.0f));
}

static void seeks(void)
{
    lax_track t = pair(LAX_TIMES, 3);
    t.elapsed = 5.0f;
    t.loop_count = 2;
    t.complete = 1;
    CHECK(stands(track_reset(t).track, 0.0f, 0, 0));
    CHECK(stands(track_seek_to(t, 0.5f).track, 3.0f, 1, 0));
    CHECK(stands(track_seek_to(t, 1.0f).track, 6.0f, 3, 1));
    CHECK(stands(track_seek_to(t, INFINITY).track, 6.0f, 3, 1));
    CHECK(stands(track_seek_to(t, -1.0f).track, 0.0f, 0, 0));
    CHECK(kept(track_seek_to(t, NAN), LAX_PROGRESS_IS_NAN, t));
    CHECK(signbit(track_seek_to(t, -0.0f).track.elapsed));
    CHECK(track_reset(track_seek_to(t, -0.0f).track).number == LAX_OK);
    t.looping.mode = LAX_PING_PONG;
    CHECK(stands(track_seek_to(t, 1.0f).track, 2.0f, 1, 0));
}

static int stopped(track_updated_answer u, uint32_t number, lax_track t)
{
    return u.number == number && u.running == 0 && same(u.track, t);
}

static void updates(void)
{
    lax_track t = track_push(track_push(track_new(), 0.0f, 0.0f).track, 1.0f, 1.0f).track;
    track_updated_answer u = track_update(t, 3.5f); /* the worked example K2 */
    CHECK(u.number == LAX_OK && u.running == 0 && stands(u.track, 1.0f, 3, 1));
    u.track.complete = 7;
    CHECK(track_update(u.track, 1.0f).running == 0 && stands(track_update(u.track, 1.0f).track, 1.0f, 3, 1));
    t = pair(LAX_TIMES, 3);
    u = track_update(t, 5.0f);
    CHECK(u.number == LAX_OK && u.running == 1 && stands(u.track, 5.0f, 2, 0));
    u = track_update(u.track, LIMIT);
    CHECK(u.number == LAX_OK && u.running == 0 && stands(u.track, 6.0f, 3, 1));
    u = track_update(pair(LAX_PING_PONG_TIMES, 0), 2.0f);
    CHECK(u.running == 0 && stands(u.track, 2.0f, 1, 1) && plain_is(track_value(u.track), 8.0f));
    u = track_update(pair(LAX_PING_PONG_TIMES, 2), 4.0f);
    CHECK(u.running == 0 && stands(u.track, 4.0f, 2, 1) && plain_is(track_value(u.track), 0.0f));
    u = track_update(t, NAN);
    CHECK(u.number == LAX_OK && u.running == 1 && stands(u.track, 0.0f, 0, 0));
    u = track_update(t, -1.0f);
    CHECK(u.number == LAX_OK && u.running == 1 && stands(u.track, 0.0f, 0, 0));
}

static void updates_refuse(void)
{
    lax_track t = pair(LAX_FOREVER, 0);
    t.elapsed = 524288.0f;
    CHECK(stopped(track_update(t, 0.02f), LAX_STEP_LOST, t)); /* the worked example K3 */
    CHECK(stopped(track_update(t, BEYOND), LAX_STEP_TOO_LONG, t));
    CHECK(stopped(track_update(t, INFINITY), LAX_STEP_TOO_LONG, t));
    t.elapsed = LIMIT;
    CHECK(stopped(track_update(t, 1.0f), LAX_STEP_LOST, t));
    CHECK(stopped(track_update(t, 2.0f), LAX_ELAPSED_TOO_LONG, t));
    CHECK(track_update(t, 0.0f).number == LAX_OK && track_update(t, 0.0f).running == 1);
    t.looping.mode = LAX_PING_PONG;
    CHECK(stopped(track_update(t, 2.0f), LAX_ELAPSED_TOO_LONG, t));
    t.looping.mode = LAX_ONCE;
    CHECK(track_update(t, 2.0f).number == LAX_OK && track_update(t, 2.0f).track.elapsed == 2.0f);
    t.complete = 1;
    CHECK(stopped(track_update(t, INFINITY), LAX_STEP_TOO_LONG, t));
}

/* Whether a step is refused with 6 at this elapsed, in this mode. */
static int lost(uint32_t mode, float elapsed, float step)
{
    lax_track t = pair(mode, 3);
    t.elapsed = elapsed;
    return stopped(track_update(t, step), LAX_STEP_LOST, t);
}

/* What a step adds to an elapsed of an endless track. */
static float grown(float elapsed, float step)
{
    lax_track t = pair(LAX_FOREVER, 0);
    track_updated_answer u;
    t.elapsed = elapsed;
    u = track_update(t, step);
    return u.number == LAX_OK && u.running == 1 ? u.track.elapsed - elapsed : -1.0f;
}

static float of_bits(uint32_t bits)
{
    float x;
    memcpy(&x, &bits, sizeof x);
    return x;
}

/* Off by more than an eighth, and by an eighth. */
static void updates_off(void)
{
    uint32_t mode;
    for (mode = LAX_ONCE; mode <= LAX_PING_PONG_TIMES; mode++) {
        CHECK(lost(mode, 65536.0f, 0.02f) && lost(mode, 131072.0f, 0.02f));
        CHECK(lost(mode, 262144.0f, 0.02f)); /* too fast: 0.03125 */
    }
    CHECK(lost(LAX_FOREVER, 16777215.0f, 4.0f)); /* 6 comes before 8 */
    CHECK(lost(LAX_ONCE, 2.0f, 1e-9f));          /* at the total */
    CHECK(grown(65536.0f - 1.0f / 256.0f, 8.0f / 256.0f) == 9.0f / 256.0f);
    CHECK(grown(8388608.0f, 4.5f) == 4.0f && grown(8388609.0f, 4.5f) == 5.0f);
    CHECK(lost(LAX_FOREVER, 8388608.0f, 3.5f) && lost(LAX_FOREVER, 8388609.0f, 3.5f));
    CHECK(grown(of_bits(0x01000001), of_bits(5)) == of_bits(6)); /* the eighth is rounded too */
    CHECK(grown(16777215.0f, 1.0f) == 1.0f && grown(4194303.0f, 1.0f) == 1.0f);
    CHECK(grown(8388609.0f, 8388607.0f) == 8388607.0f && grown(LIMIT, 0.0f) == 0.0f);
}

/* With no search that did not settle. */
static int filled(filled_answer f, uint32_t number, size_t n)
{
    return f.number == number && f.filled == n && f.unsettled == 0;
}

/* What the easing's search says is handed on, and counted. */
static void searches(void)
{
    const float times[5] = {0.9f, 0.0f, 1.5f, 0.9f, 2.0f};
    float out[5];
    lax_track t = track_push_eased(pair(LAX_ONCE, 0), 0.0f, 0.0f, bezier(1, 0, 0, 1)).track;
    filled_answer f;
    CHECK(found_is(track_value_at(t, 0.9f), 1.4122833f, 0, 16, 6));
    CHECK(plain_is(track_value_at(t, 0.0f), 0.0f) && plain_is(track_value_at(t, 2.0f), 8.0f));
    f = track_values_at(t, times, 5, out, 5);
    CHECK(f.number == LAX_OK && f.filled == 5 && f.unsettled == 2);
    CHECK(filled(track_values_at(t, times + 1, 2, out, 5), LAX_OK, 2));
    CHECK(filled(track_values_at(t, times, 5, out, 4), LAX_OUTPUT_TOO_SHORT, 0));
    t.elapsed = 0.9f;
    CHECK(found_is(track_value(t), 1.4122833f, 0, 16, 6));
}

static void batches(void)
{
    const float times[4] = {1.0f, NAN, INFINITY, -0.0f};
    float out[6] = {-1, -2, -3, -4, -5, -6}, before[6];
    lax_track t = pair(LAX_ONCE, 0);
    memcpy(before, out, sizeof out);
    CHECK(filled(track_values_at(t, times, 4, out, 3), LAX_OUTPUT_TOO_SHORT, 0));
    CHECK(filled(track_values_at(track_new(), times, 4, out, 3), LAX_NO_FRAMES, 0));
    CHECK(filled(track_values_at(track_new(), times, 0, out, 0), LAX_NO_FRAMES, 0));
    CHECK(filled(track_values_at(t, times, 0, out, 6), LAX_OK, 0));
    t.elapsed = -1.0f;
    CHECK(filled(track_values_at(t, times, 4, out, 3), LAX_RECORD_BREAKS_LIMIT, 0));
    t.looping.mode = 5;
    CHECK(filled(track_values_at(t, times, 4, out, 3), LAX_UNKNOWN_WORD, 0));
    CHECK(memcmp(before, out, sizeof out) == 0);
    CHECK(filled(track_values_at(pair(LAX_ONCE, 0), times, 4, out, 6), LAX_OK, 4));
    CHECK(out[0] == 4.0f && out[1] == 0.0f && out[2] == 8.0f && out[3] == 0.0f && out[4] == -5.0f && out[5] == -6.0f);
    CHECK(filled(track_values_at(ladder(64), times, 4, out, 4), LAX_OK, 4));
    CHECK(out[0] == 10.0f && out[2] == 630.0f && out[4] == -5.0f);
}

/* A track that breaks one limit; 15 of them. */
static lax_track broken(int which)
{
    lax_track t = pair(LAX_TIMES, 3);
    switch (which) {
    case 0: t.count = 65; break;
    case 1: t.frames[1].time = 0.0f; break;
    case 2: t.frames[0].time = 3.0f; break;
    case 3: t.frames[0].time = -0.0f; break;
    case 4: t.frames[1].time = NAN; break;
    case 5: t.frames[1].time = LIMIT; break; /* the total */
    case 6: t.frames[1].time = BEYOND; t.looping.mode = LAX_FOREVER; break;
    case 7: t.frames[0].value = NAN; break;
    case 8: t.frames[1].value = -BEYOND; break;
    case 9: t.frames[0].easing.kind = LAX_EASE_IN_SINE; break;
    case 10: t.frames[1].easing = steps(65537); break;
    case 11: t.elapsed = NAN; break;
    case 12: t.elapsed = -1.0f; break;
    case 13: t.elapsed = BEYOND; break;
    default: t.looping.passes = 65536; break;
    }
    t.frames[63].value = NAN; /* behind the count */
    t.complete = 7;
    return t;
}

/* Whatever else is wrong, every call gives this number, the words that came, and writes nothing. */
static void all_refuse(lax_track t, uint32_t number)
{
    const lax_loop mode = {LAX_TIMES, 65536};
    const float times[2] = {0.0f, 1.0f};
    float out[1] = {-1.0f};
    CHECK(kept(track_push(t, NAN, NAN), number, t));
    CHECK(kept(track_push_eased(t, NAN, NAN, kind(LAX_WIGGLE)), number, t));
    CHECK(kept(track_push_frame(t, t.frames[0]), number, t));
    CHECK(kept(track_looping(t, mode), number, t));
    CHECK(not_found(track_value_at(t, 1.0f), number));
    CHECK(not_found(track_value(t), number));
    CHECK(filled(track_values_at(t, times, 2, out, 1), number, 0) && out[0] == -1.0f);
    CHECK(refused(track_active_time(t), number));
    CHECK(refused(track_duration(t), number));
    CHECK(refused(track_playback_duration(t), number));
    CHECK(refused(track_progress(t), number));
    CHECK(track_is_complete(t).number == number && track_is_complete(t).flag == 0);
    CHECK(kept(track_reset(t), number, t));
    CHECK(kept(track_seek_to(t, NAN), number, t));
    CHECK(stopped(track_update(t, INFINITY), number, t));
}

static void limits(void)
{
    lax_track t = broken(0);
    int k;
    for (k = 0; k < 15; k++) {
        all_refuse(broken(k), LAX_RECORD_BREAKS_LIMIT);
    }
    t.frames[63].easing.kind = 38; /* looked at, since the count is 65 */
    all_refuse(t, LAX_UNKNOWN_WORD);
    t = broken(4);
    t.frames[1].easing.kind = 0xffffffffu;
    all_refuse(t, LAX_UNKNOWN_WORD);
    t = broken(11);
    t.looping.mode = 5;
    all_refuse(t, LAX_UNKNOWN_WORD);
    CHECK(kept(track_push_eased(broken(4), NAN, NAN, kind(38)), LAX_UNKNOWN_WORD, broken(4)));
}

/* Words without a use stay as they came, also in frames that move, and so do places behind the count. */
static void unused_words(void)
{
    lax_track t = pair(LAX_ONCE, 0), moved, pushed;
    lax_easing e = kind(LAX_LINEAR);
    t.frames[0].easing.c = t.frames[1].easing.d = e.a = 5.0f;
    t.frames[1].easing.b = NAN;
    t.frames[2].time = NAN;
    t.frames[2].easing.kind = 38;
    t.frames[63].value = INFINITY;
    t.looping.passes = 70000;
    moved = pushed = t;
    moved.elapsed = 1.0f;
    CHECK(plain_is(track_value_at(t, 1.0f), 4.0f));
    CHECK(same(track_reset(moved).track, t));
    CHECK(same(track_update(t, 1.0f).track, moved));
    CHECK(same(track_seek_to(t, 0.5f).track, moved));
    CHECK(same(track_looping(t, t.looping).track, t));
    CHECK(kept(track_push(t, NAN, 1.0f), LAX_TRACK_LIMIT, t));
    CHECK(stopped(track_update(t, INFINITY), LAX_STEP_TOO_LONG, t));
    pushed.frames[0].easing = e;
    CHECK(same(track_push_eased(t, 0.0f, 0.0f, e).track, pushed));
    pushed.frames[2] = pushed.frames[1];
    pushed.frames[1] = ladder(2).frames[1];
    pushed.count = 3;
    CHECK(same(track_push(track_push_eased(t, -0.0f, 0.0f, e).track, 1.0f, 10.0f).track, pushed));
}

void test_tracks(void)
{
    pushes();
    samples();
    fills();
    pushes_refuse();
    pushes_of_frames();
    totals();
    reads();
    reads_of_few();
    seeks();
    updates();
    updates_refuse();
    updates_off();
    searches();
    batches();
    limits();
    unused_words();
}
