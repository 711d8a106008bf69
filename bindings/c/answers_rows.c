/* Words of the list: floats and records out of them, and answers into them. */
#include <string.h>

#include "answers.h"

void put(row *r, uint32_t word)
{
    if (r->count < WORDS) {
        r->words[r->count++] = word;
    }
}

/* A zero of either sign is written as +0. */
void put_float(row *r, float x)
{
    uint32_t word = 0;
    if (x != 0.0f) {
        memcpy(&word, &x, sizeof word);
    }
    put(r, word);
}

void put_value(row *r, uint32_t number, float x)
{
    put(r, number);
    if (number == LAX_OK) {
        put_float(r, x);
    }
}

void put_flag(row *r, uint32_t number, uint32_t flag)
{
    put(r, number);
    if (number == LAX_OK) {
        put(r, flag);
    }
}

/* How many of a kind's parameters, from a on, are looked at; the list has 0 for the others. */
static int floats_of(uint32_t kind)
{
    switch (kind) {
    case LAX_CUBIC_BEZIER: return 4;
    case LAX_SLOW_MO:
    case LAX_EXPO_SCALE: return 2;
    case LAX_ROUGH_EASE:
    case LAX_CUSTOM_BOUNCE: return 1;
    default: return 0;
    }
}

void put_easing(row *r, const lax_easing *e)
{
    const int floats = floats_of(e->kind);
    const int counts = e->kind == LAX_STEPS || e->kind == LAX_WIGGLE || e->kind == LAX_ROUGH_EASE;
    put(r, e->kind);
    put_float(r, floats > 0 ? e->a : 0.0f);
    put_float(r, floats > 1 ? e->b : 0.0f);
    put_float(r, floats > 2 ? e->c : 0.0f);
    put_float(r, floats > 3 ? e->d : 0.0f);
    put(r, counts ? e->count : 0);
}

static void put_loop(row *r, const lax_loop *m)
{
    put(r, m->mode);
    put(r, m->mode == LAX_TIMES || m->mode == LAX_PING_PONG_TIMES ? m->passes : 0);
}

void put_tween(row *r, const lax_tween *t)
{
    put_float(r, t->start);
    put_float(r, t->end);
    put_float(r, t->duration);
    put_easing(r, &t->easing);
    put_float(r, t->delay);
    put_float(r, t->time_scale);
    put_loop(r, &t->looping);
    put_float(r, t->elapsed);
    put_float(r, t->delay_elapsed);
    put(r, t->state);
    put(r, t->loop_count);
    put(r, t->ping_pong_reverse);
}

/* Its head, then the frames that it has. */
void put_track(row *r, const lax_track *t)
{
    uint32_t k;
    put(r, t->count);
    put_float(r, t->elapsed);
    put_loop(r, &t->looping);
    put(r, t->loop_count);
    put(r, t->complete);
    for (k = 0; k < t->count && k < LAX_FRAMES; k++) {
        put_float(r, t->frames[k].time);
        put_float(r, t->frames[k].value);
        put_easing(r, &t->frames[k].easing);
    }
}

void put_kept(row *r, const void *left, const void *came, size_t size) { put(r, memcmp(left, came, size) == 0); }

float float_at(const uint32_t *words, size_t at)
{
    float x;
    memcpy(&x, words + at, sizeof x);
    return x;
}

lax_easing easing_at(const uint32_t *words, size_t at)
{
    lax_easing e;
    memcpy(&e, words + at, sizeof e);
    return e;
}

lax_tween tween_in(const uint32_t *words)
{
    lax_tween t;
    memcpy(&t, words, sizeof t);
    return t;
}

lax_track track_in(const uint32_t *words)
{
    const size_t head = 6;
    const size_t frames = words[0] < LAX_FRAMES ? words[0] : (uint32_t)LAX_FRAMES;
    lax_track t;
    memset(&t, 0, sizeof t);
    memcpy(&t.count, words, head * sizeof *words);
    memcpy(t.frames, words + head, frames * sizeof *t.frames);
    return t;
}

size_t length_at(const uint32_t *words, size_t at) { return words[at] < PLACES ? words[at] : (uint32_t)PLACES; }

void floats_at(const uint32_t *words, size_t at, float *list) { memcpy(list, words + at, PLACES * sizeof *list); }

void mark(void *list)
{
    const float unwritten = 1e30f;
    size_t k;
    for (k = 0; k < PLACES; k++) {
        memcpy((char *)list + k * sizeof unwritten, &unwritten, sizeof unwritten);
    }
}
