/* The calls as one answer each: the number, what went into the lent place, the record afterwards. Where a
 * call is refused, its place is checked to be as it was before, and its part of the answer is 0. */
#ifndef CALLS_H
#define CALLS_H

#include "laxombiit.h"

typedef struct value_answer {
    uint32_t number;
    float value;
} value_answer;

typedef struct found_answer {
    uint32_t number;
    float value;
    uint32_t settled, xs, derivatives;
} found_answer;

typedef struct flag_answer {
    uint32_t number, flag;
} flag_answer;

typedef struct easing_answer {
    uint32_t number;
    lax_easing easing;
} easing_answer;

typedef struct snapshot_answer {
    uint32_t number;
    float elapsed, delay_elapsed;
    uint32_t state, loop_count, ping_pong_reverse;
} snapshot_answer;

typedef struct changed_answer {
    uint32_t number;
    lax_tween tween;
} changed_answer;

typedef struct updated_answer {
    uint32_t number, folds, running;
    lax_tween tween;
} updated_answer;

typedef struct run_answer {
    uint64_t done, unsettled;
    uint32_t number;
    lax_tween tween;
} run_answer;

typedef struct track_changed_answer {
    uint32_t number;
    lax_track track;
} track_changed_answer;

typedef struct track_updated_answer {
    uint32_t number, running;
    lax_track track;
} track_updated_answer;

typedef struct filled_answer {
    uint64_t filled, unsettled;
    uint32_t number;
} filled_answer;

typedef struct logged_answer {
    uint64_t written;
    uint32_t number;
} logged_answer;

typedef struct replay_answer {
    uint64_t missing, folds, last;
    lax_tween tween;
} replay_answer;

typedef struct replayed_answer {
    uint64_t done;
    uint32_t number;
    replay_answer reached;
} replayed_answer;

found_answer easing_apply(lax_easing e, float t);
flag_answer easing_eq(lax_easing x, lax_easing y);
flag_answer easing_is_supplied(lax_easing e);
easing_answer easing_named(uint32_t place);

lax_tween tween_new(float start, float end);
found_answer tween_value(lax_tween t);
value_answer tween_progress(lax_tween t);
found_answer tween_eased_progress(lax_tween t);
snapshot_answer tween_snapshot(lax_tween t);
value_answer tween_playback_duration(lax_tween t);
changed_answer tween_reset(lax_tween t);
changed_answer tween_seek(lax_tween t, float progress);
changed_answer tween_reverse(lax_tween t);
changed_answer tween_pause(lax_tween t);
changed_answer tween_resume(lax_tween t);
updated_answer tween_update(lax_tween t, float step);
run_answer tween_run(lax_tween t, const float *steps, uint64_t steps_len, float *values, uint64_t values_len,
                     uint32_t *folds, uint64_t folds_len);

lax_track track_new(void);
track_changed_answer track_push(lax_track t, float time, float value);
track_changed_answer track_push_eased(lax_track t, float time, float value, lax_easing e);
track_changed_answer track_push_frame(lax_track t, lax_keyframe frame);
track_changed_answer track_looping(lax_track t, lax_loop mode);
found_answer track_value_at(lax_track t, float secs);
found_answer track_value(lax_track t);
filled_answer track_values_at(lax_track t, const float *times, uint64_t times_len, float *out, uint64_t out_len);
value_answer track_active_time(lax_track t);
value_answer track_duration(lax_track t);
value_answer track_playback_duration(lax_track t);
value_answer track_progress(lax_track t);
flag_answer track_is_complete(lax_track t);
track_changed_answer track_reset(lax_track t);
track_changed_answer track_seek_to(lax_track t, float progress);
track_updated_answer track_update(lax_track t, float step);

logged_answer log_head(uint8_t *buffer, uint64_t buffer_len);
logged_answer log_record(uint8_t *buffer, uint64_t buffer_len, uint64_t written, lax_event event);
replayed_answer log_replay(lax_tween t, const uint8_t *log, uint64_t log_len, uint16_t *gaps, uint64_t gaps_len);
replayed_answer log_replay_on(replay_answer reached, const uint8_t *records, uint64_t records_len, uint16_t *gaps,
                              uint64_t gaps_len);

#endif
