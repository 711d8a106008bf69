/* The list's calls of a tween. */
#include "answers.h"

static void put_left(row *answer, uint32_t number, const lax_tween *left, const lax_tween *came)
{
    if (number == LAX_OK) {
        put_tween(answer, left);
    } else if (number != LAX_UNKNOWN_WORD) {
        put_kept(answer, left, came, sizeof *left);
    }
}

static uint32_t change(uint32_t call, lax_tween *t, float x)
{
    switch (call) {
    case 23: return lax_tween_reset(t);
    case 24: return lax_tween_seek(t, x);
    case 25: return lax_tween_reverse(t);
    case 26: return lax_tween_pause(t);
    default: return lax_tween_resume(t);
    }
}

static void update(const lax_tween *given, float step, row *answer)
{
    lax_tween t = *given;
    lax_updated made = {0, 0};
    const uint32_t number = lax_tween_update(&t, step, &made);
    put(answer, number);
    if (number == LAX_OK) {
        put(answer, made.folds);
        put(answer, made.running);
    }
    put_left(answer, number, &t, given);
}

/* The steps stand behind the lengths of the three lists. A run with no step taken leaves the tween. */
static void run(const lax_tween *given, const uint32_t *words, row *answer)
{
    const size_t length = length_at(words, 0), values_length = length_at(words, 1), folds_length = length_at(words, 2);
    lax_tween t = *given;
    lax_run made = {0, 0};
    float steps[PLACES], values[PLACES];
    uint32_t folds[PLACES];
    uint32_t number;
    size_t k;
    floats_at(words, 3, steps);
    mark(values);
    mark(folds);
    number = lax_tween_run(&t, steps, length, values, values_length, folds, folds_length, &made);
    put(answer, number);
    if (number == LAX_UNKNOWN_WORD) {
        return;
    }
    put(answer, (uint32_t)made.done);
    if (made.done == 0) {
        put_kept(answer, &t, given, sizeof t);
    } else {
        put_tween(answer, &t);
    }
    for (k = 0; k < values_length; k++) {
        put_float(answer, values[k]);
    }
    for (k = 0; k < folds_length; k++) {
        put(answer, folds[k]);
    }
}

static void read_from(uint32_t call, const lax_tween *t, row *answer)
{
    lax_found found = {0.0f, 0, 0, 0};
    float x = 0.0f;
    uint32_t number;
    switch (call) {
    case 18: number = lax_tween_value(t, &found); break;
    case 19: number = lax_tween_progress(t, &x); break;
    case 20: number = lax_tween_eased_progress(t, &found); break;
    default: number = lax_tween_playback_duration(t, &x);
    }
    put_value(answer, number, call == 18 || call == 20 ? found.value : x);
}

static void snapshot(const lax_tween *t, row *answer)
{
    lax_snapshot now;
    const uint32_t number = lax_tween_snapshot(t, &now);
    put(answer, number);
    if (number == LAX_OK) {
        put_float(answer, now.elapsed);
        put_float(answer, now.delay_elapsed);
        put(answer, now.state);
        put(answer, now.loop_count);
        put(answer, now.ping_pong_reverse);
    }
}

void answer_tween(uint32_t call, const lax_tween *given, const uint32_t *words, row *answer)
{
    lax_tween t = *given;
    uint32_t number;
    switch (call) {
    case 17:
        lax_tween_new(&t, float_at(words, 0), float_at(words, 1));
        put_tween(answer, &t);
        break;
    case 18:
    case 19:
    case 20:
    case 22: read_from(call, given, answer); break;
    case 21: snapshot(given, answer); break;
    case 28: update(given, float_at(words, 0), answer); break;
    case 29: run(given, words, answer); break;
    default:
        number = change(call, &t, float_at(words, 0));
        put(answer, number);
        put_left(answer, number, &t, given);
    }
}
