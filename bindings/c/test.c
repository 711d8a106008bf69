/* Every exported function, with ordinary, edge and refused input. Prints what fails, and how many hold. */
#include <stdio.h>

#include "test.h"

static int held, failed;

void check(int holds, const char *file, int line, const char *what)
{
    if (holds) {
        held++;
    } else {
        failed++;
        printf("%s, line %d does not hold: %s\n", file, line, what);
    }
}

lax_easing kind(uint32_t k)
{
    lax_easing e;
    memset(&e, 0, sizeof e);
    e.kind = k;
    return e;
}

lax_easing steps(uint32_t n)
{
    lax_easing e = kind(LAX_STEPS);
    e.count = n;
    return e;
}

lax_easing bezier(float x1, float y1, float x2, float y2)
{
    lax_easing e = kind(LAX_CUBIC_BEZIER);
    e.a = x1;
    e.b = y1;
    e.c = x2;
    e.d = y2;
    return e;
}

int value_is(value_answer v, float x) { return v.number == LAX_OK && v.value == x; }
int refused(value_answer v, uint32_t number) { return v.number == number && v.value == 0.0f; }

int found_is(found_answer f, float x, uint32_t settled, uint32_t xs, uint32_t derivatives)
{
    return f.number == LAX_OK && f.value == x && f.settled == settled && f.xs == xs && f.derivatives == derivatives;
}

int plain_is(found_answer f, float x) { return found_is(f, x, 1, 0, 0); }

int not_found(found_answer f, uint32_t number)
{
    const found_answer rest = {number, 0.0f, 0, 0, 0};
    return memcmp(&f, &rest, sizeof f) == 0;
}

int main(void)
{
    test_easings();
    test_tweens();
    test_tracks();
    test_carry();
    test_logs();
    test_replays();
    test_refusals();
    test_nans();
    printf("C interface: %d hold, %d fail\n", held, failed);
    return failed != 0;
}
