#include "laxombiit.h"

/* Moves on by a step and what is carried. What elapsed did not grow by is carried to the next call. */
static uint32_t advance(lax_track *track, float step, float *carry, uint32_t *running)
{
    const float due = step + *carry, before = track->elapsed;
    const uint32_t answer = lax_track_update(track, due, running);
    if (LAX_NUMBER(answer) == LAX_STEP_LOST) {
        *running = 1;
    } else if (answer != LAX_OK) {
        return answer;
    }
    *carry = due - (track->elapsed - before);
    return LAX_OK;
}
