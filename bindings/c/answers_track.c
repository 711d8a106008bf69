/* The list's calls of a track. */
#include "answers.h"

static void put_left(row *answer, uint32_t number, const lax_track *left, const lax_track *came)
{
    if (number == LAX_OK) {
        put_track(answer, left);
    } else if (number != LAX_UNKNOWN_WORD) {
        put_kept(answer, left, came, sizeof *left);
    }
}

static uint32_t change(uint32_t call, lax_track *t, const uint32_t *words)
{
    const float x = float_at(words, 0), y = float_at(words, 1);
    const lax_easing e = easing_at(words, 2);
    lax_loop mode;
    mode.mode = words[0];
    mode.passes = words[1];
    switch (call) {
    case 34: return lax_track_push(t, x, y);
    case 35: return lax_track_push_eased(t, x, y, &e);
    case 36: return lax_track_looping(t, &mode);
    case 46: return lax_track_reset(t);
    default: return lax_track_seek_to(t, x);
    }
}

static void update(const lax_track *given, float step, row *answer)
{
    lax_track t = *given;
    uint32_t running = 0;
    const uint32_t number = lax_track_update(&t, step, &running);
    put_flag(answer, number, running);
    put_left(answer, number, &t, given);
}

/* The times stand behind the lengths of the two lists. */
static void values_at(const lax_track *t, const uint32_t *words, row *answer)
{
    const size_t length = length_at(words, 0), room = length_at(words, 1);
    float times[PLACES], values[PLACES];
    lax_filled made = {0, 0};
    uint32_t number;
    size_t k;
    floats_at(words, 2, times);
    mark(values);
    number = lax_track_values_at(t, times, length, values, room, &made);
    put(answer, number);
    if (number == LAX_UNKNOWN_WORD) {
        return;
    }
    put(answer, (uint32_t)made.filled);
    for (k = 0; k < room; k++) {
        put_float(answer, values[k]);
    }
}

static void read_from(uint32_t call, const lax_track *t, row *answer)
{
    float x = 0.0f;
    uint32_t number;
    switch (call) {
    case 41: number = lax_track_active_time(t, &x); break;
    case 42: number = lax_track_duration(t, &x); break;
    case 43: number = lax_track_playback_duration(t, &x); break;
    default: number = lax_track_progress(t, &x);
    }
    put_value(answer, number, x);
}

static void sample(uint32_t call, const lax_track *t, float secs, row *answer)
{
    lax_found found = {0.0f, 0, 0, 0};
    const uint32_t number = call == 37 ? lax_track_value_at(t, secs, &found) : lax_track_value(t, &found);
    put_value(answer, number, found.value);
}

void answer_track(uint32_t call, const lax_track *given, const uint32_t *words, row *answer)
{
    lax_track t = *given;
    uint32_t number, flag = 0;
    switch (call) {
    case 33:
        lax_track_new(&t);
        put_track(answer, &t);
        break;
    case 37:
    case 38: sample(call, given, float_at(words, 0), answer); break;
    case 39: values_at(given, words, answer); break;
    case 40: update(given, float_at(words, 0), answer); break;
    case 41:
    case 42:
    case 43:
    case 44: read_from(call, given, answer); break;
    case 45:
        number = lax_track_is_complete(given, &flag);
        put_flag(answer, number, flag);
        break;
    default:
        number = change(call, &t, words);
        put(answer, number);
        put_left(answer, number, &t, given);
    }
}
