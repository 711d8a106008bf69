/* What a number means. That each sentence is the one of docs/refusals.txt is held by scripts/check-refusals. */
#include "test.h"

static int says(uint32_t number, const char *text) { return strcmp(lax_refusal_text(number), text) == 0; }

void test_refusals(void)
{
    uint32_t n;

    CHECK(says(LAX_OK, "the call was accepted"));
    CHECK(says(LAX_STEP_LOST, "lost time: the f32 sum would be off by more than an eighth of what the step adds"));
    CHECK(says(LAX_WRONG_RECORD, "the record's kind, zero byte or step is wrong"));
    CHECK(says(easing_named(38).number, "a word is no kind, mode, state or event, or no number of a record"));
    for (n = 0; n < 200; n++) {
        int known = n <= LAX_WRONG_RECORD || n == LAX_UNKNOWN_WORD;
        CHECK(known != says(n, "no refusal has this number"));
    }
    CHECK(says(LAX_NO_FRAMES + 256 * 63, "the track has no frames")); /* with a frame beside it */
    CHECK(LAX_NUMBER(LAX_NO_FRAMES + 256 * 63) == LAX_NO_FRAMES && LAX_FRAME(LAX_NO_FRAMES + 256 * 63) == 63);
    CHECK(says(UINT32_MAX, "no refusal has this number"));
}
