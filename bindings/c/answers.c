/* answers LIST: the fixed list of the Rust's answers, asked of the C interface: how many were compared, and
 * how many differ. */
#include <stdio.h>
#include <string.h>

#include "answers.h"

/* A word has its low byte first. */
static int read_word(FILE *list, uint32_t *word)
{
    unsigned char b[4];
    if (fread(b, 1, sizeof b, list) != sizeof b) {
        return 0;
    }
    *word = b[0] | (uint32_t)b[1] << 8 | (uint32_t)b[2] << 16 | (uint32_t)b[3] << 24;
    return 1;
}

/* An entry: a word with its number and, times 256, how many words follow; then these. Behind them is 0. */
static int read_entry(FILE *list, uint32_t *entry, row *r)
{
    uint32_t head;
    memset(r, 0, sizeof *r);
    if (!read_word(list, &head) || head / 256 >= WORDS) {
        return 0;
    }
    *entry = head % 256;
    while (r->count < head / 256) {
        if (!read_word(list, &r->words[r->count])) {
            return 0;
        }
        r->count++;
    }
    return 1;
}

/* How many words the arguments of a call have; -1 for a number that is no call. */
static long arguments(uint32_t call, const uint32_t *words)
{
    static const signed char fixed[48] = {
        -1, 7, 12, 6, 1, -1, -1, -1, -1, -1, -1, -1, -1, -1, -1, -1, /* easings from 1 */
        -1, 2, 0,  0, 0, 0,  0,  0,  1,  0,  0,  0,  1,  -1, -1, -1, /* tweens from 17 */
        -1, 0, 2,  8, 2, 1,  0,  -1, 1,  0,  0,  0,  0,  0,  0,  1,  /* tracks from 33 */
    };
    switch (call) {
    case 29: return 3 + (long)length_at(words, 0);
    case 39: return 2 + (long)length_at(words, 0);
    default: return call < 48 ? fixed[call] : -1;
    }
}

static void ask(uint32_t call, const lax_tween *tween, const lax_track *track, const uint32_t *words, row *answer)
{
    answer->count = 0;
    if (call < 16) {
        answer_easing(call, words, answer);
    } else if (call < 32) {
        answer_tween(call, tween, words, answer);
    } else {
        answer_track(call, track, words, answer);
    }
}

static int agrees(const row *entry, size_t from, const row *answer)
{
    return entry->count == from + answer->count &&
           memcmp(entry->words + from, answer->words, answer->count * sizeof *answer->words) == 0;
}

/* Whether the list is whole: its last entry says how many cases there are. */
static int compare(FILE *list, unsigned long *cases, unsigned long *differences)
{
    static row entry, answer;
    static lax_tween tween;
    static lax_track track;
    uint32_t call;
    while (read_entry(list, &call, &entry)) {
        const long from = arguments(call, entry.words);
        if (call == 0) {
            return entry.words[0] == *cases;
        } else if (call == 16) {
            tween = tween_in(entry.words);
        } else if (call == 32) {
            track = track_in(entry.words);
        } else if (from < 0) {
            return 0;
        } else {
            ++*cases;
            ask(call, &tween, &track, entry.words, &answer);
            if (!agrees(&entry, (size_t)from, &answer)) {
                ++*differences;
                printf("case %lu, call %u differs\n", *cases, (unsigned)call);
            }
        }
    }
    return 0;
}

int main(int count, char **words)
{
    unsigned long cases = 0, differences = 0;
    FILE *list = count == 2 ? fopen(words[1], "rb") : NULL;
    if (!list || !compare(list, &cases, &differences)) {
        printf("the list can't be read\n");
        return 1;
    }
    fclose(list);
    printf("the fixed list: %lu answers, %lu differences\n", cases, differences);
    return differences != 0;
}
