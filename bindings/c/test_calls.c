/* The calls as one answer each. */
#include "test.h"

/* A place is painted before a call. */
static void paint(void *place, size_t size) { memset(place, 0xa5, size); }

/* Whether a call leaves something in its place; where it is refused, all of it is still paint. */
static int writes(uint32_t number, const void *place, size_t size)
{
    const unsigned char *byte = (const unsigned char *)place;
    size_t painted = 0;
    if (number == LAX_OK) {
        return 1;
    }
    while (painted < size && byte[painted] == 0xa5) {
        painted++;
    }
    CHECK(painted == size);
    return 0;
}

static value_answer value_of(uint32_t number, float place)
{
    value_answer a = {number, 0.0f};
    if (writes(number, &place, sizeof place)) {
        a.value = place;
    }
    return a;
}

static flag_answer flag_of(uint32_t number, uint32_t place)
{
    flag_answer a = {number, 0};
    if (writes(number, &place, sizeof place)) {
        a.flag = place;
    }
    return a;
}

static found_answer found_of(uint32_t number, lax_found place)
{
    found_answer a = {number, 0.0f, 0, 0, 0};
    if (writes(number, &place, sizeof place)) {
        a.value = place.value;
        a.settled = place.settled;
        a.xs = place.xs;
        a.derivatives = place.derivatives;
    }
    return a;
}

/* A call that reads: its place is painted, and what was written is the answer. */
#define READ(answer_of, type, call)  \
    type place;                      \
    uint32_t number;                 \
    paint(&place, sizeof place);     \
    number = call;                   \
    return answer_of(number, place)

/* A call that changes the record t, which is a part of the answer. */
#define CHANGE(answer, record, call) \
    answer a;                        \
    a.record = t;                    \
    a.number = call;                 \
    return a

found_answer easing_apply(lax_easing e, float t) { READ(found_of, lax_found, lax_easing_apply(&e, t, &place)); }
flag_answer easing_eq(lax_easing x, lax_easing y) { READ(flag_of, uint32_t, lax_easing_eq(&x, &y, &place)); }
flag_answer easing_is_supplied(lax_easing e) { READ(flag_of, uint32_t, lax_easing_is_supplied(&e, &place)); }

easing_answer easing_named(uint32_t place)
{
    easing_answer a;
    paint(&a.easing, sizeof a.easing);
    a.number = lax_easing_named(place, &a.easing);
    if (!writes(a.number, &a.easing, sizeof a.easing)) {
        memset(&a.easing, 0, sizeof a.easing);
    }
    return a;
}

lax_tween tween_new(float start, float end)
{
    lax_tween t;
    paint(&t, sizeof t);
    CHECK(lax_tween_new(&t, start, end) == LAX_OK);
    return t;
}

found_answer tween_value(lax_tween t) { READ(found_of, lax_found, lax_tween_value(&t, &place)); }
value_answer tween_progress(lax_tween t) { READ(value_of, float, lax_tween_progress(&t, &place)); }
found_answer tween_eased_progress(lax_tween t) { READ(found_of, lax_found, lax_tween_eased_progress(&t, &place)); }
value_answer tween_playback_duration(lax_tween t) { READ(value_of, float, lax_tween_playback_duration(&t, &place)); }

snapshot_answer tween_snapshot(lax_tween t)
{
    lax_snapshot place;
    snapshot_answer a = {0, 0.0f, 0.0f, 0, 0, 0};
    paint(&place, sizeof place);
    a.number = lax_tween_snapshot(&t, &place);
    if (writes(a.number, &place, sizeof place)) {
        a.elapsed = place.elapsed;
        a.delay_elapsed = place.delay_elapsed;
        a.state = place.state;
        a.loop_count = place.loop_count;
        a.ping_pong_reverse = place.ping_pong_reverse;
    }
    return a;
}

changed_answer tween_reset(lax_tween t) { CHANGE(changed_answer, tween, lax_tween_reset(&a.tween)); }

changed_answer tween_seek(lax_tween t, float progress)
{
    CHANGE(changed_answer, tween, lax_tween_seek(&a.tween, progress));
}

changed_answer tween_reverse(lax_tween t) { CHANGE(changed_answer, tween, lax_tween_reverse(&a.tween)); }
changed_answer tween_pause(lax_tween t) { CHANGE(changed_answer, tween, lax_tween_pause(&a.tween)); }
changed_answer tween_resume(lax_tween t) { CHANGE(changed_answer, tween, lax_tween_resume(&a.tween)); }

updated_answer tween_update(lax_tween t, float step)
{
    lax_updated place;
    updated_answer a;
    a.folds = a.running = 0;
    a.tween = t;
    paint(&place, sizeof place);
    a.number = lax_tween_update(&a.tween, step, &place);
    if (writes(a.number, &place, sizeof place)) {
        a.folds = place.folds;
        a.running = place.running;
    }
    return a;
}

/* A run that is refused with no step taken writes nothing; one that stops later says where. */
run_answer tween_run(lax_tween t, const float *steps, uint64_t steps_len, float *values, uint64_t values_len,
                     uint32_t *folds, uint64_t folds_len)
{
    lax_run place = {0, 77};
    run_answer a;
    a.tween = t;
    a.number = lax_tween_run(&a.tween, steps, steps_len, values, values_len, folds, folds_len, &place);
    a.done = place.done;
    a.unsettled = place.unsettled;
    if (a.number != LAX_OK && a.done == 0) {
        CHECK(a.unsettled == 77);
        a.unsettled = 0;
    }
    return a;
}

lax_track track_new(void)
{
    lax_track t;
    paint(&t, sizeof t);
    CHECK(lax_track_new(&t) == LAX_OK);
    return t;
}

track_changed_answer track_push(lax_track t, float time, float value)
{
    CHANGE(track_changed_answer, track, lax_track_push(&a.track, time, value));
}

track_changed_answer track_push_eased(lax_track t, float time, float value, lax_easing e)
{
    CHANGE(track_changed_answer, track, lax_track_push_eased(&a.track, time, value, &e));
}

track_changed_answer track_push_frame(lax_track t, lax_keyframe frame)
{
    CHANGE(track_changed_answer, track, lax_track_push_frame(&a.track, &frame));
}

track_changed_answer track_looping(lax_track t, lax_loop mode)
{
    CHANGE(track_changed_answer, track, lax_track_looping(&a.track, &mode));
}

track_changed_answer track_reset(lax_track t) { CHANGE(track_changed_answer, track, lax_track_reset(&a.track)); }

track_changed_answer track_seek_to(lax_track t, float progress)
{
    CHANGE(track_changed_answer, track, lax_track_seek_to(&a.track, progress));
}

track_updated_answer track_update(lax_track t, float step)
{
    uint32_t place;
    track_updated_answer a;
    a.track = t;
    paint(&place, sizeof place);
    a.number = lax_track_update(&a.track, step, &place);
    a.running = writes(a.number, &place, sizeof place) ? place : 0;
    return a;
}

found_answer track_value_at(lax_track t, float secs)
{
    READ(found_of, lax_found, lax_track_value_at(&t, secs, &place));
}

found_answer track_value(lax_track t) { READ(found_of, lax_found, lax_track_value(&t, &place)); }
value_answer track_active_time(lax_track t) { READ(value_of, float, lax_track_active_time(&t, &place)); }
value_answer track_duration(lax_track t) { READ(value_of, float, lax_track_duration(&t, &place)); }
value_answer track_playback_duration(lax_track t) { READ(value_of, float, lax_track_playback_duration(&t, &place)); }
value_answer track_progress(lax_track t) { READ(value_of, float, lax_track_progress(&t, &place)); }
flag_answer track_is_complete(lax_track t) { READ(flag_of, uint32_t, lax_track_is_complete(&t, &place)); }

filled_answer track_values_at(lax_track t, const float *times, uint64_t times_len, float *out, uint64_t out_len)
{
    lax_filled place;
    filled_answer a = {0, 0, 0};
    paint(&place, sizeof place);
    a.number = lax_track_values_at(&t, times, times_len, out, out_len, &place);
    if (writes(a.number, &place, sizeof place)) {
        a.filled = place.filled;
        a.unsettled = place.unsettled;
    }
    return a;
}

logged_answer log_head(uint8_t *buffer, uint64_t buffer_len)
{
    uint64_t place;
    logged_answer a;
    paint(&place, sizeof place);
    a.number = lax_log_head(buffer, buffer_len, &place);
    a.written = writes(a.number, &place, sizeof place) ? place : 0;
    return a;
}

logged_answer log_record(uint8_t *buffer, uint64_t buffer_len, uint64_t written, lax_event event)
{
    logged_answer a;
    a.written = written;
    a.number = lax_log_record(buffer, buffer_len, &a.written, &event);
    return a;
}

/* A replay that is refused with no record read writes nothing. */
static replayed_answer replayed(lax_replay place, lax_replay before, uint32_t number, lax_tween t)
{
    replayed_answer a;
    if (number != LAX_OK && place.done == before.done) {
        CHECK(memcmp(&place, &before, sizeof place) == 0);
        place.done = 0;
    }
    a.number = number;
    a.done = place.done;
    a.reached.missing = place.missing;
    a.reached.folds = place.folds;
    a.reached.last = place.last;
    a.reached.tween = t;
    return a;
}

replayed_answer log_replay(lax_tween t, const uint8_t *log, uint64_t log_len, uint16_t *gaps, uint64_t gaps_len)
{
    const lax_replay before = LAX_REPLAY_NEW;
    lax_replay place = before;
    uint32_t number = lax_log_replay(&t, log, log_len, gaps, gaps_len, &place);
    return replayed(place, before, number, t);
}

replayed_answer log_replay_on(replay_answer reached, const uint8_t *records, uint64_t records_len, uint16_t *gaps,
                              uint64_t gaps_len)
{
    lax_replay before, place;
    uint32_t number;
    before.missing = reached.missing;
    before.folds = reached.folds;
    before.last = reached.last;
    before.done = 77;
    place = before;
    number = lax_log_replay_on(&reached.tween, records, records_len, gaps, gaps_len, &place);
    return replayed(place, before, number, reached.tween);
}
