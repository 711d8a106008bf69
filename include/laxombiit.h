/* laxombiit.h: the C interface of Laxombiit: proved easings, tweens, keyframe tracks and event logs.
 *
 * Records are lent by a pointer and changed in place; nothing is kept between calls, and no call
 * allocates. A call returns one word: 0 where it was accepted, the refusal where it was refused,
 * LAX_UNKNOWN_WORD where a word is no kind, no mode or no state. What else it answers goes into places
 * that are lent behind its arguments. A refused call changes no word of a record and writes no place and
 * no list; lax_run and lax_replay say where a run of steps and a replay differ. Every pattern of bits is
 * legal in a record. Words that a kind or a mode has no use for are not looked at, and stay as they came.
 *
 * No pointer may be NULL. What a call writes overlaps nothing else that it is lent, and no other thread
 * uses it during the call. Lengths count elements.
 *
 * A call refuses by the first rule that applies, in this order:
 * 4, 1, 2, 3, 5, 11, 10, 12, 9, 6, 7, 8; the calls of a log have orders of their own. LAX_UNKNOWN_WORD
 * comes before them all.
 *
 * A call takes less than 1 KB of stack, lax_log_replay 1.4 KB and lax_track_values_at 4 KB, as measured.
 * Link with liblaxombiit.a or liblaxombiit.so; nothing else is needed.
 * The calls want the processor in its default mode: rounding to nearest, subnormals kept.
 */
#ifndef LAXOMBIIT_H
#define LAXOMBIIT_H

#include <stddef.h>
#include <stdint.h>

/* `make lib TARGET=..` makes an archive for: x86_64-linux-gnu, aarch64-linux-gnu, arm-linux-gnueabihf (ARMv7,
 * hard float), riscv64-linux-gnu (lp64d), thumbv7em-none-eabihf (Cortex-M4F), wasm32. */
#if defined(__linux__) && defined(__x86_64__) && !defined(__ILP32__)
#elif defined(__linux__) && defined(__aarch64__) && !defined(__ILP32__) && !defined(__AARCH64EB__)
#elif defined(__linux__) && defined(__arm__) && defined(__ARM_PCS_VFP) && __ARM_ARCH >= 7 && !defined(__ARMEB__)
#elif defined(__linux__) && defined(__riscv_float_abi_double) && __riscv_xlen == 64
#elif defined(__ARM_ARCH_7EM__) && defined(__ARM_PCS_VFP) && !defined(__ARMEB__)
#elif defined(__wasm32__)
#else
#error "Laxombiit has no archive for this processor or system; include/laxombiit.h says for which it has one"
#endif

#ifdef __cplusplus
extern "C" {
#endif

/* The header's version, the programs' and the Rust crate's. */
#define LAX_VERSION "0.6.0"

/* The two parts of what a call returns: the refusal's number, and a frame of a track, counted from 0. No
 * call of this version tells a frame, and the second part is 0. */
#define LAX_NUMBER(answer) ((uint32_t)(answer) & 0xffu)
#define LAX_FRAME(answer) ((uint32_t)(answer) >> 8)

/* The numbers of the refusals. */
enum {
    LAX_OK = 0,                  /* the call was accepted */
    LAX_PROGRESS_IS_NAN = 1,     /* the progress is NaN */
    LAX_EASING_NOT_SUPPLIED = 2, /* the easing is one of the twelve without a curve */
    LAX_EASING_PARAMETER = 3,    /* a parameter of the easing is not finite or beyond its limit */
    LAX_RECORD_BREAKS_LIMIT = 4, /* the tween or the track breaks a limit */
    LAX_STEP_TOO_LONG = 5,       /* the step is above 16,777,216 s */
    LAX_STEP_LOST = 6,           /* lost time: the f32 sum would be off by more than an eighth of what the step adds */
    LAX_TOO_MANY_FOLDS = 7,      /* the step needs more than 4,096 folds */
    LAX_ELAPSED_TOO_LONG = 8,    /* the elapsed of a track without an end would pass 16,777,216 s */
    LAX_TRACK_FULL = 9,          /* the track has 64 frames, and none of them at this time */
    LAX_NO_FRAMES = 10,          /* the track has no frames */
    LAX_TRACK_LIMIT = 11,        /* a time, a value, the passes or the total would be beyond its limit */
    LAX_OUTPUT_TOO_SHORT = 12,   /* a lent output is shorter than what is to fill it */
    LAX_NO_ROOM = 13,            /* the buffer has no room for a log's head, 5 bytes, or for a record, 8 bytes */
    LAX_STEP_BELOW_ZERO = 14,    /* the step to be logged is NaN or below 0 */
    LAX_WRONG_MARK = 15,         /* the log does not begin with PEL */
    LAX_UNKNOWN_VERSION = 16,    /* the log's version is not 1, or is cut short */
    LAX_WRONG_LENGTH = 17,       /* the log ends within a record, or is longer than its buffer */
    LAX_WRONG_RECORD = 18,       /* the record's kind, zero byte or step is wrong */
    LAX_UNKNOWN_WORD = 100       /* a word is no kind, mode, state or event, or no number of a record */
};

/* What a call's answer means, as above. */
static inline const char *lax_refusal_text(uint32_t answer)
{
    switch (LAX_NUMBER(answer)) {
    case LAX_OK: return "the call was accepted";
    case LAX_PROGRESS_IS_NAN: return "the progress is NaN";
    case LAX_EASING_NOT_SUPPLIED: return "the easing is one of the twelve without a curve";
    case LAX_EASING_PARAMETER: return "a parameter of the easing is not finite or beyond its limit";
    case LAX_RECORD_BREAKS_LIMIT: return "the tween or the track breaks a limit";
    case LAX_STEP_TOO_LONG: return "the step is above 16,777,216 s";
    case LAX_STEP_LOST: return "lost time: the f32 sum would be off by more than an eighth of what the step adds";
    case LAX_TOO_MANY_FOLDS: return "the step needs more than 4,096 folds";
    case LAX_ELAPSED_TOO_LONG: return "the elapsed of a track without an end would pass 16,777,216 s";
    case LAX_TRACK_FULL: return "the track has 64 frames, and none of them at this time";
    case LAX_NO_FRAMES: return "the track has no frames";
    case LAX_TRACK_LIMIT: return "a time, a value, the passes or the total would be beyond its limit";
    case LAX_OUTPUT_TOO_SHORT: return "a lent output is shorter than what is to fill it";
    case LAX_NO_ROOM: return "the buffer has no room for a log's head, 5 bytes, or for a record, 8 bytes";
    case LAX_STEP_BELOW_ZERO: return "the step to be logged is NaN or below 0";
    case LAX_WRONG_MARK: return "the log does not begin with PEL";
    case LAX_UNKNOWN_VERSION: return "the log's version is not 1, or is cut short";
    case LAX_WRONG_LENGTH: return "the log ends within a record, or is longer than its buffer";
    case LAX_WRONG_RECORD: return "the record's kind, zero byte or step is wrong";
    case LAX_UNKNOWN_WORD: return "a word is no kind, mode, state or event, or no number of a record";
    default: return "no refusal has this number";
    }
}

/* The kinds of easing. Sine, Expo and Elastic in three forms each, RoughEase, Wiggle and ExpoScale
 * have a name and no curve: they are refused with 2, or with 4 inside a record. */
enum {
    LAX_LINEAR = 0,
    LAX_EASE_IN_QUAD = 1,
    LAX_EASE_OUT_QUAD = 2,
    LAX_EASE_IN_OUT_QUAD = 3,
    LAX_EASE_IN_CUBIC = 4,
    LAX_EASE_OUT_CUBIC = 5,
    LAX_EASE_IN_OUT_CUBIC = 6,
    LAX_EASE_IN_QUART = 7,
    LAX_EASE_OUT_QUART = 8,
    LAX_EASE_IN_OUT_QUART = 9,
    LAX_EASE_IN_QUINT = 10,
    LAX_EASE_OUT_QUINT = 11,
    LAX_EASE_IN_OUT_QUINT = 12,
    LAX_EASE_IN_SINE = 13,
    LAX_EASE_OUT_SINE = 14,
    LAX_EASE_IN_OUT_SINE = 15,
    LAX_EASE_IN_EXPO = 16,
    LAX_EASE_OUT_EXPO = 17,
    LAX_EASE_IN_OUT_EXPO = 18,
    LAX_EASE_IN_CIRC = 19,
    LAX_EASE_OUT_CIRC = 20,
    LAX_EASE_IN_OUT_CIRC = 21,
    LAX_EASE_IN_BACK = 22,
    LAX_EASE_OUT_BACK = 23,
    LAX_EASE_IN_OUT_BACK = 24,
    LAX_EASE_IN_ELASTIC = 25,
    LAX_EASE_OUT_ELASTIC = 26,
    LAX_EASE_IN_OUT_ELASTIC = 27,
    LAX_EASE_IN_BOUNCE = 28,
    LAX_EASE_OUT_BOUNCE = 29,
    LAX_EASE_IN_OUT_BOUNCE = 30,
    LAX_CUBIC_BEZIER = 31,
    LAX_STEPS = 32,
    LAX_ROUGH_EASE = 33,
    LAX_SLOW_MO = 34,
    LAX_WIGGLE = 35,
    LAX_CUSTOM_BOUNCE = 36,
    LAX_EXPO_SCALE = 37
};

/* A kind and its parameters. CubicBezier: x1, y1, x2, y2 in a to d. Steps and Wiggle: count.
 * RoughEase: strength in a, points in count. SlowMo: linear_ratio in a, power in b. CustomBounce:
 * strength in a. ExpoScale: start in a, end in b. */
typedef struct lax_easing {
    uint32_t kind;
    float a, b, c, d;
    uint32_t count;
} lax_easing;

/* Loop modes. */
enum { LAX_ONCE = 0, LAX_TIMES = 1, LAX_FOREVER = 2, LAX_PING_PONG = 3, LAX_PING_PONG_TIMES = 4 };

/* passes is looked at in LAX_TIMES and LAX_PING_PONG_TIMES: at most 65,535, and 0 counts as 1. */
typedef struct lax_loop {
    uint32_t mode;
    uint32_t passes;
} lax_loop;

/* States of a tween. */
enum { LAX_IDLE = 0, LAX_RUNNING = 1, LAX_PAUSED = 2, LAX_COMPLETED = 3 };

/* A ramp from start to end. Times are in seconds. ping_pong_reverse is a flag: a word that is not 0
 * is true, and a call that changes the tween writes it as 0 or 1. */
typedef struct lax_tween {
    float start, end;         /* at most 16,777,216 in size */
    float duration;           /* 0 to 16,777,216, of one pass */
    lax_easing easing;
    float delay;              /* 0 to 16,777,216 */
    float time_scale;         /* 0 to 1,024; the delay is not scaled */
    lax_loop looping;
    float elapsed;            /* 0 to duration */
    float delay_elapsed;      /* 0 to 33,554,432; while idle, below the delay */
    uint32_t state;
    uint32_t loop_count;      /* up to 16,777,216 */
    uint32_t ping_pong_reverse;
} lax_tween;

/* A value, and the search behind it. LAX_CUBIC_BEZIER alone searches: for the place on its curve whose x
 * is t. settled is 1 where the last x that it evaluated met the tolerance, 1e-6, and 0 where it ended
 * without. Where nothing is searched settled is 1 and both counts are 0: every other kind, t of 0 or 1,
 * a first or a last frame's value, a duration of 0. A settled x is no bound on the error of the value:
 * where the curve is steep, the value may be off by far more than 1e-6. */
typedef struct lax_found {
    float value;
    uint32_t settled;     /* 0 or 1 */
    uint32_t xs;          /* evaluations of x, at most 16 */
    uint32_t derivatives; /* evaluations of its derivative, at most 6 */
} lax_found;

/* What moves in a tween. */
typedef struct lax_snapshot {
    float elapsed, delay_elapsed;
    uint32_t state, loop_count, ping_pong_reverse;
} lax_snapshot;

/* folds: how many passes the update folded, the completing one too. running: 0 once completed. */
typedef struct lax_updated {
    uint32_t folds;
    uint32_t running;
} lax_updated;

/* done: how many steps were taken, and so, where the run was refused at a step, the place of that step.
 * unsettled: how many of the values written are not settled. A run that was refused with no step taken
 * writes neither: set them to 0 before the call. */
typedef struct lax_run {
    uint64_t done;
    uint64_t unsettled;
} lax_run;

/* A frame of a track. easing goes from this frame to the next. */
typedef struct lax_keyframe {
    float time;  /* in seconds; +0 to 16,777,216, and -0 is beyond */
    float value; /* at most 16,777,216 in size */
    lax_easing easing;
} lax_keyframe;

/* The most frames that a track holds. */
enum { LAX_FRAMES = 64 };

/* A value along frames. The track's frames are the first count places, at strictly ascending times;
 * the places behind them are not looked at, and stay as they came. One pass takes the last frame's
 * time; in the modes with an end that time, times the passes, is at most 16,777,216. complete is a
 * flag: a word that is not 0 is true, and a call that moves the track writes it as 0 or 1. */
typedef struct lax_track {
    lax_keyframe frames[LAX_FRAMES];
    uint32_t count;      /* up to 64 */
    float elapsed;       /* in seconds, over all passes; 0 to 16,777,216 */
    lax_loop looping;
    uint32_t loop_count; /* whole passes, counted before elapsed is cut at the end */
    uint32_t complete;
} lax_track;

/* filled: how many places at the front of the output were written. unsettled: how many of those values
 * are not settled. */
typedef struct lax_filled {
    uint64_t filled;
    uint64_t unsettled;
} lax_filled;

/* What is done to a tween, as a record of an event log has it. */
enum { LAX_LOG_STEP = 1, LAX_LOG_PAUSE = 2, LAX_LOG_RESUME = 3, LAX_LOG_RESET = 4 };

/* step is in seconds, and is looked at in LAX_LOG_STEP. */
typedef struct lax_event {
    uint32_t kind;
    float step;
} lax_event;

/* A number that no record has: nothing is read yet. */
enum { LAX_NO_RECORD = 65536 };

/* How far a replay has come; the tween stands in a record of its own. Both sums stay at
 * 18,446,744,073,709,551,615 where they would pass it. done: how many records the last call read, and so,
 * where it was refused at a record, the place of that record. A replay that was refused with no record read
 * writes nothing: set all four before the call, as LAX_REPLAY_NEW does. */
typedef struct lax_replay {
    uint64_t missing; /* records known to be missing, repeats apart */
    uint64_t folds;   /* of all updates that were replayed */
    uint64_t last;    /* the number of the last record, or LAX_NO_RECORD */
    uint64_t done;
} lax_replay;

/* Nothing read yet: lax_replay reached = LAX_REPLAY_NEW; */
#define LAX_REPLAY_NEW {0, 0, LAX_NO_RECORD, 0}

/* The layout that the archive was built for: sizes, and where each field stands, in bytes. */
#define LAX_SIZE(type, size) typedef char type##_size[sizeof(type) == (size) ? 1 : -1]
#define LAX_AT(type, field, at) typedef char type##_##field##_at[offsetof(type, field) == (at) ? 1 : -1]
LAX_SIZE(lax_easing, 24);
LAX_AT(lax_easing, kind, 0);
LAX_AT(lax_easing, a, 4);
LAX_AT(lax_easing, b, 8);
LAX_AT(lax_easing, c, 12);
LAX_AT(lax_easing, d, 16);
LAX_AT(lax_easing, count, 20);
LAX_SIZE(lax_loop, 8);
LAX_AT(lax_loop, mode, 0);
LAX_AT(lax_loop, passes, 4);
LAX_SIZE(lax_tween, 72);
LAX_AT(lax_tween, start, 0);
LAX_AT(lax_tween, end, 4);
LAX_AT(lax_tween, duration, 8);
LAX_AT(lax_tween, easing, 12);
LAX_AT(lax_tween, delay, 36);
LAX_AT(lax_tween, time_scale, 40);
LAX_AT(lax_tween, looping, 44);
LAX_AT(lax_tween, elapsed, 52);
LAX_AT(lax_tween, delay_elapsed, 56);
LAX_AT(lax_tween, state, 60);
LAX_AT(lax_tween, loop_count, 64);
LAX_AT(lax_tween, ping_pong_reverse, 68);
LAX_SIZE(lax_found, 16);
LAX_AT(lax_found, value, 0);
LAX_AT(lax_found, settled, 4);
LAX_AT(lax_found, xs, 8);
LAX_AT(lax_found, derivatives, 12);
LAX_SIZE(lax_snapshot, 20);
LAX_AT(lax_snapshot, elapsed, 0);
LAX_AT(lax_snapshot, delay_elapsed, 4);
LAX_AT(lax_snapshot, state, 8);
LAX_AT(lax_snapshot, loop_count, 12);
LAX_AT(lax_snapshot, ping_pong_reverse, 16);
LAX_SIZE(lax_updated, 8);
LAX_AT(lax_updated, folds, 0);
LAX_AT(lax_updated, running, 4);
LAX_SIZE(lax_run, 16);
LAX_AT(lax_run, done, 0);
LAX_AT(lax_run, unsettled, 8);
LAX_SIZE(lax_keyframe, 32);
LAX_AT(lax_keyframe, time, 0);
LAX_AT(lax_keyframe, value, 4);
LAX_AT(lax_keyframe, easing, 8);
LAX_SIZE(lax_track, 2072);
LAX_AT(lax_track, frames, 0);
LAX_AT(lax_track, count, 2048);
LAX_AT(lax_track, elapsed, 2052);
LAX_AT(lax_track, looping, 2056);
LAX_AT(lax_track, loop_count, 2064);
LAX_AT(lax_track, complete, 2068);
LAX_SIZE(lax_filled, 16);
LAX_AT(lax_filled, filled, 0);
LAX_AT(lax_filled, unsettled, 8);
LAX_SIZE(lax_event, 8);
LAX_AT(lax_event, kind, 0);
LAX_AT(lax_event, step, 4);
LAX_SIZE(lax_replay, 32);
LAX_AT(lax_replay, missing, 0);
LAX_AT(lax_replay, folds, 8);
LAX_AT(lax_replay, last, 16);
LAX_AT(lax_replay, done, 24);
#undef LAX_AT
#undef LAX_SIZE

/* Easings. */

/* The eased progress at t, which is clamped to 0..1. Refuses 1, 2, 3. */
uint32_t lax_easing_apply(const lax_easing *e, float t, lax_found *out);

/* 1 for the same kind with equal parameters, else 0; -0 equals 0. Refuses 2, 3, for either side. */
uint32_t lax_easing_eq(const lax_easing *x, const lax_easing *y, uint32_t *out);

/* Whether the kind has a curve: 1 or 0. */
uint32_t lax_easing_is_supplied(const lax_easing *e, uint32_t *out);

/* The kind at a place from 0 to 37, with its usual parameters; LAX_UNKNOWN_WORD beyond. */
uint32_t lax_easing_named(uint32_t place, lax_easing *out);

/* Tweens. Each call but the first refuses 4 where the tween breaks a limit. */

/* One second, linear, no delay, scale 1, once; running from its start. Nothing is checked: it returns 0. A
 * start or an end that is NaN is written as the NaN 0x7fc00000. */
uint32_t lax_tween_new(lax_tween *t, float start, float end);

uint32_t lax_tween_value(const lax_tween *t, lax_found *out);
uint32_t lax_tween_progress(const lax_tween *t, float *out); /* of the pass under way, before the easing */
uint32_t lax_tween_eased_progress(const lax_tween *t, lax_found *out);
uint32_t lax_tween_snapshot(const lax_tween *t, lax_snapshot *out);
uint32_t lax_tween_playback_duration(const lax_tween *t, float *out); /* infinity in the modes without an end */

uint32_t lax_tween_reset(lax_tween *t);
uint32_t lax_tween_seek(lax_tween *t, float progress); /* in the pass under way; refuses 1 */
uint32_t lax_tween_reverse(lax_tween *t);
uint32_t lax_tween_pause(lax_tween *t);  /* acts on a running tween alone */
uint32_t lax_tween_resume(lax_tween *t); /* acts on a paused tween alone */

/* A step of so many seconds; NaN and what is below 0 count as 0. Refuses 5, 6, 7. */
uint32_t lax_tween_update(lax_tween *t, float step, lax_updated *out);

/* A run of steps: the value after each goes into values, its folds into folds. Refuses 12 where
 * either is shorter than steps, and stops at the first step that update or value refuses: it returns
 * that refusal, the tween is as it stood before that step, and the lists are unwritten from there on. */
uint32_t lax_tween_run(lax_tween *t, const float *steps, uint64_t steps_len, float *values, uint64_t values_len,
                       uint32_t *folds, uint64_t folds_len, lax_run *out);

/* Tracks. Each call but the first refuses 4 where the track breaks a limit; a count above 64 is
 * one, and then all 64 places are looked at for an unknown word. */

/* No frames, once: every word is 0. It returns 0. */
uint32_t lax_track_new(lax_track *t);

/* A linear frame, put in its place by time; a frame at an equal time is replaced. -0 is stored as
 * +0. Clears complete, keeps elapsed and loop_count. Frames that move keep their words. Refuses 11 where
 * the time, the value or the total is beyond its limit, 9 where the track is full and no frame has this
 * time. */
uint32_t lax_track_push(lax_track *t, float time, float value);

/* The same with an easing, whose words are stored as they are. Refuses 2 and 3 for it, and as
 * lax_track_push. */
uint32_t lax_track_push_eased(lax_track *t, float time, float value, const lax_easing *e);

/* The same with a frame, whose time may be -0. Refuses as lax_track_push_eased. */
uint32_t lax_track_push_frame(lax_track *t, const lax_keyframe *frame);

/* Another mode, whose words are stored as they are. Clears complete, keeps elapsed and loop_count.
 * Refuses 11 where the passes or the total is beyond its limit. */
uint32_t lax_track_looping(lax_track *t, const lax_loop *mode);

/* The value at so many seconds; NaN and what is below 0 count as 0, and from the last frame on it
 * is the last value. Refuses 10. */
uint32_t lax_track_value_at(const lax_track *t, float secs, lax_found *out);

/* The value at the active time. Refuses 10. */
uint32_t lax_track_value(const lax_track *t, lax_found *out);

/* The values at many times, into the front of out; what lies behind it keeps its numbers. Refuses
 * 10, and 12 where out is shorter than times. */
uint32_t lax_track_values_at(const lax_track *t, const float *times, uint64_t times_len, float *out,
                             uint64_t out_len, lax_filled *filled);

uint32_t lax_track_active_time(const lax_track *t, float *out);       /* where in a pass, in seconds */
uint32_t lax_track_duration(const lax_track *t, float *out);          /* of one pass: the last frame's time */
uint32_t lax_track_playback_duration(const lax_track *t, float *out); /* of all passes; infinity without an end */
uint32_t lax_track_progress(const lax_track *t, float *out);          /* of all passes; of this one without an end */
uint32_t lax_track_is_complete(const lax_track *t, uint32_t *out);    /* 1 with fewer than two frames, too */

uint32_t lax_track_reset(lax_track *t);
uint32_t lax_track_seek_to(lax_track *t, float progress); /* measured as progress is; refuses 1 */

/* A step of so many seconds; NaN and what is below 0 count as 0. Changes nothing once complete or
 * with fewer than two frames, and then running is 0; else it is 1 until complete. Refuses 5, 6, and 8 in
 * the modes without an end. */
uint32_t lax_track_update(lax_track *t, float step, uint32_t *running);

/* Event logs. A log is the bytes P, E, L, a 16-bit version, 1, and records of 8 bytes: a 16-bit number,
 * the event's kind, a zero byte, and the step's bits in 4 bytes, 0 where the kind is no step. Numbers
 * have their low byte first. Records count from 0, and 65,535 is followed by 0. */

/* The head, 5 bytes at the buffer's start; other bytes stay. written becomes the log's length, 5.
 * Refuses 13. */
uint32_t lax_log_head(uint8_t *buffer, uint64_t buffer_len, uint64_t *written);

/* One record, behind the first `*written` bytes; other bytes stay, and written becomes the log's new
 * length. -0 is written as +0. Refuses 5 and 14 for the step, 17 where the length is beyond the buffer, 15,
 * 16, 17 where it is not 5 plus a multiple of 8, and 13, in this order. */
uint32_t lax_log_record(uint8_t *buffer, uint64_t buffer_len, uint64_t *written, const lax_event *event);

/* A log from its head on, replayed into a tween. What reached says before the call is not looked at. For
 * each record that is read, how many are missing before it goes into gaps: 0 for the first; 65,535 marks
 * the number of the record before again, a repeat, which is not replayed. Refuses 4, 15, 16, 17 where the
 * last record is not whole, and 12 where gaps is shorter than the records are many, in this order, before
 * any record is replayed. It stops at the first record that the tween refuses, or that is wrong, 18: it
 * returns that refusal, the tween and reached are as they stood before that record, and gaps is unwritten
 * from there on. A loss of 65,535 records or more between two can't be told rightly. */
uint32_t lax_log_replay(lax_tween *t, const uint8_t *log, uint64_t log_len, uint16_t *gaps, uint64_t gaps_len,
                        lax_replay *reached);

/* Goes on with the whole records that follow: a log read part by part gives what it gives in one call.
 * Refuses 17 and 12, and stops, as lax_log_replay; LAX_UNKNOWN_WORD for a `last` above LAX_NO_RECORD
 * too. done counts the records of this part. */
uint32_t lax_log_replay_on(lax_tween *t, const uint8_t *records, uint64_t records_len, uint16_t *gaps,
                           uint64_t gaps_len, lax_replay *reached);

#ifdef __cplusplus
}
#endif

#endif
