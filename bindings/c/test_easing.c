/* Easings. */
#include "test.h"

/* What the search of a Bezier evaluated, and whether it settled. */
static void searches(void)
{
    const lax_easing ease = bezier(0.25f, 0.1f, 0.25f, 1), line = bezier(0, 0, 1, 1), steep = bezier(1, 0, 0, 1);
    CHECK(found_is(easing_apply(ease, 0.5f), 0.8024034f, 1, 5, 4));
    CHECK(found_is(easing_apply(steep, 0.45f), 0.17653541f, 0, 16, 6));
    CHECK(found_is(easing_apply(line, 0.5f), 0.5f, 1, 1, 0));
    CHECK(plain_is(easing_apply(steep, 0.0f), 0.0f) && plain_is(easing_apply(steep, -0.0f), 0.0f));
    CHECK(plain_is(easing_apply(steep, 1.0f), 1.0f) && plain_is(easing_apply(steep, 7.0f), 1.0f));
    CHECK(easing_apply(steep, 0.5000134f).settled == 1);
    CHECK(not_found(easing_apply(steep, NAN), LAX_PROGRESS_IS_NAN));
}

void test_easings(void)
{
    lax_easing slow = kind(LAX_SLOW_MO);
    CHECK(plain_is(easing_apply(kind(LAX_EASE_IN_QUAD), 0.5f), 0.25f));
    CHECK(plain_is(easing_apply(steps(4), 0.1f), 0.25f));
    searches();
    slow.a = 0.5f;
    slow.b = 2.0f;
    CHECK(plain_is(easing_apply(slow, 0.125f), 0.1875f));
    CHECK(plain_is(easing_apply(kind(LAX_LINEAR), INFINITY), 1.0f));
    CHECK(not_found(easing_apply(kind(LAX_LINEAR), NAN), LAX_PROGRESS_IS_NAN));
    CHECK(not_found(easing_apply(kind(LAX_EASE_IN_SINE), 0.5f), LAX_EASING_NOT_SUPPLIED));
    CHECK(not_found(easing_apply(steps(65537), 0.5f), LAX_EASING_PARAMETER));
    CHECK(not_found(easing_apply(kind(38), NAN), LAX_UNKNOWN_WORD));
    CHECK(easing_eq(steps(4), steps(4)).flag == 1);
    CHECK(easing_eq(steps(0), steps(1)).flag == 0);
    CHECK(easing_eq(bezier(-0.0f, 0, 1, 1), bezier(0, 0, 1, 1)).flag == 1);
    CHECK(easing_eq(steps(70000), kind(LAX_WIGGLE)).number == LAX_EASING_NOT_SUPPLIED);
    CHECK(easing_eq(steps(70000), kind(LAX_LINEAR)).number == LAX_EASING_PARAMETER);
    CHECK(easing_eq(kind(LAX_LINEAR), kind(99)).number == LAX_UNKNOWN_WORD);
    CHECK(easing_is_supplied(kind(LAX_EASE_IN_CIRC)).flag == 1);
    CHECK(easing_is_supplied(kind(LAX_EXPO_SCALE)).flag == 0);
    CHECK(easing_is_supplied(kind(38)).number == LAX_UNKNOWN_WORD);
    CHECK(easing_named(31).easing.b == 0.1f);
    CHECK(easing_named(37).easing.kind == LAX_EXPO_SCALE);
    CHECK(easing_named(38).number == LAX_UNKNOWN_WORD);
}
