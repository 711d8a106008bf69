/* The manual's lines for a carry, from where on each step alone is refused or counts as too much. */
#include "test.h"

#include "carry.h"

/* One pass a second, without an end. */
static lax_track endless(float elapsed)
{
    lax_track t = track_push(track_push(track_new(), 0.0f, 0.0f).track, 1.0f, 8.0f).track;
    t.looping.mode = LAX_FOREVER;
    t.elapsed = elapsed;
    return t;
}

/* Whether 100,000 steps of 0.02 s come to their sum, within a millisecond, some of them refused. */
static int keeps_time(float start)
{
    lax_track t = endless(start);
    float carry = 0.0f;
    uint32_t running = 0, still = 0, k;
    double off;
    for (k = 0; k < 100000; k++) {
        const float before = t.elapsed;
        if (advance(&t, 0.02f, &carry, &running) != LAX_OK || running != 1) {
            return 0;
        }
        still += t.elapsed == before;
    }
    off = (double)t.elapsed + carry - start - 100000.0 * 0.02f;
    return still > 0 && still < k && -0.001 < off && off < 0.001;
}

static void other_refusals(void)
{
    lax_track t = endless(16777216.0f), once = endless(262144.0f);
    float carry = 0.5f;
    uint32_t running = 7;
    CHECK(advance(&t, 3.5f, &carry, &running) == LAX_ELAPSED_TOO_LONG && carry == 0.5f && running == 7);
    CHECK(advance(&t, INFINITY, &carry, &running) == LAX_STEP_TOO_LONG && carry == 0.5f && running == 7);
    CHECK(advance(&t, 0.25f, &carry, &running) == LAX_OK && carry == 0.75f && running == 1);
    CHECK(t.elapsed == 16777216.0f);
    once.looping.mode = LAX_ONCE;
    carry = 0.0f;
    CHECK(advance(&once, 0.02f, &carry, &running) == LAX_OK && carry == 0.02f && running == 1);
    CHECK(advance(&once, 0.125f, &carry, &running) == LAX_OK && running == 0 && once.elapsed == 1.0f);
}

/* A step that counts as too much leaves less than 0, which the next one has to make up for. */
static void too_much(void)
{
    lax_track t = endless(8388608.0f);
    float carry = 0.0f;
    uint32_t running = 0;
    CHECK(advance(&t, 7.5f, &carry, &running) == LAX_OK && carry == -0.5f && t.elapsed == 8388616.0f);
    CHECK(advance(&t, 0.25f, &carry, &running) == LAX_OK && carry == -0.25f && t.elapsed == 8388616.0f);
    CHECK(advance(&t, 1.25f, &carry, &running) == LAX_OK && carry == 0.0f && t.elapsed == 8388617.0f);
}

void test_carry(void)
{
    CHECK(keeps_time(65536.0f));
    CHECK(keeps_time(262144.0f));
    CHECK(keeps_time(8388608.0f));
    other_refusals();
    too_much();
}
