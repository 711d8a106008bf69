/* The list's calls of an easing. */
#include "answers.h"

void answer_easing(uint32_t call, const uint32_t *words, row *answer)
{
    const lax_easing e = easing_at(words, 0);
    const lax_easing other = easing_at(words, 6);
    lax_easing named;
    lax_found found = {0.0f, 0, 0, 0};
    uint32_t flag = 0;
    uint32_t number;
    switch (call) {
    case 1:
        number = lax_easing_apply(&e, float_at(words, 6), &found);
        put_value(answer, number, found.value);
        break;
    case 2:
        number = lax_easing_eq(&e, &other, &flag);
        put_flag(answer, number, flag);
        break;
    case 3:
        number = lax_easing_is_supplied(&e, &flag);
        put_flag(answer, number, flag);
        break;
    default:
        number = lax_easing_named(words[0], &named);
        put(answer, number);
        if (number == LAX_OK) {
            put_easing(answer, &named);
        }
    }
}
