/* Event logs that are read back. */
#include "test.h"

enum { RECORDS = 12 };

/* What is in a list before it is lent. */
static const uint16_t FILL = 7;

typedef struct row {
    uint16_t number;
    uint8_t kind;
    float step;
} row;

/* The log of the rows, with steps that the writer refuses too; answers its length. */
static size_t log_of(uint8_t *log, const row *rows, size_t count)
{
    size_t k;
    int b;
    log_head(log, 5);
    for (k = 0; k < count; k++) {
        uint8_t *record = log + 5 + 8 * k;
        uint32_t bits;
        memcpy(&bits, &rows[k].step, sizeof bits);
        record[0] = (uint8_t)(rows[k].number % 256);
        record[1] = (uint8_t)(rows[k].number / 256);
        record[2] = rows[k].kind;
        record[3] = 0;
        for (b = 0; b < 4; b++) {
            record[4 + b] = (uint8_t)(bits >> 8 * b);
        }
    }
    return 5 + 8 * count;
}

/* One pass a second. */
static lax_tween pump(void)
{
    lax_tween t = tween_new(0.0f, 8.0f);
    t.looping.mode = LAX_TIMES;
    t.looping.passes = 60000;
    return t;
}

static replay_answer begun(lax_tween t)
{
    replay_answer r;
    memset(&r, 0, sizeof r);
    r.last = LAX_NO_RECORD;
    r.tween = t;
    return r;
}

static replay_answer came_to(lax_tween t, uint32_t last, uint64_t missing, uint64_t folds)
{
    replay_answer r = begun(t);
    r.last = last;
    r.missing = missing;
    r.folds = folds;
    return r;
}

static int same(replay_answer x, replay_answer y)
{
    return x.missing == y.missing && x.folds == y.folds && x.last == y.last &&
           memcmp(&x.tween, &y.tween, sizeof x.tween) == 0;
}

static int ended(replayed_answer r, uint32_t number, size_t done, replay_answer reached)
{
    return r.number == number && r.done == done && same(r.reached, reached);
}

static void fill(uint16_t *gaps)
{
    int k;
    for (k = 0; k < RECORDS; k++) {
        gaps[k] = FILL;
    }
}

/* These, and behind them what was there. */
static int gaps_are(const uint16_t *gaps, const uint16_t *expected, size_t count)
{
    size_t k;
    for (k = 0; k < RECORDS; k++) {
        if (gaps[k] != (k < count ? expected[k] : FILL)) {
            return 0;
        }
    }
    return 1;
}

static int untouched(const uint16_t *gaps) { return gaps_are(gaps, gaps, 0); }

/* Gaps, among them one of 512, repeats, and a number that is followed by 0. */
static const row spotted[11] = {
    {700, LAX_LOG_STEP, 1.0f},
    {701, LAX_LOG_PAUSE, 0.0f},
    {701, LAX_LOG_STEP, 1.0f},
    {701, LAX_LOG_RESUME, 0.0f},
    {703, LAX_LOG_RESUME, 0.0f},
    {65535, LAX_LOG_STEP, 512.0f},
    {0, LAX_LOG_STEP, 0.02f},
    {0, LAX_LOG_RESET, 0.0f},
    {513, LAX_LOG_STEP, 0.25f},
    {514, LAX_LOG_RESET, 0.0f},
    {515, LAX_LOG_STEP, 1.0f}};
static const uint16_t spots[11] = {0, 0, 65535, 65535, 1, 64831, 0, 65535, 512, 0, 0};

static void replays(void)
{
    const row small[5] = {{0, LAX_LOG_STEP, 0.02f},
                          {1, LAX_LOG_PAUSE, 0.0f},
                          {2, LAX_LOG_RESUME, 0.0f},
                          {3, LAX_LOG_STEP, 0.0f},
                          {4, LAX_LOG_RESET, 0.0f}};
    const uint16_t none[5] = {0, 0, 0, 0, 0};
    uint8_t log[5 + 8 * RECORDS];
    uint16_t gaps[RECORDS];
    lax_tween t = pump();

    fill(gaps);
    CHECK(ended(log_replay(t, log, log_of(log, small, 5), gaps, RECORDS), LAX_OK, 5, came_to(t, 4, 0, 0)));
    CHECK(gaps_are(gaps, none, 5));
    CHECK(log_replay(t, log, 13, gaps, 1).reached.tween.elapsed == 0.02f);
    CHECK(log_replay(t, log, 21, gaps, 2).reached.tween.state == LAX_PAUSED);
    CHECK(log_replay(t, log, 29, gaps, 3).reached.tween.state == LAX_RUNNING);
    fill(gaps);
    t.loop_count = 1;
    CHECK(ended(log_replay(pump(), log, log_of(log, spotted, 11), gaps, RECORDS), LAX_OK, 11,
                came_to(t, 515, 65344, 514)));
    CHECK(gaps_are(gaps, spots, 11));
    /* a flag of 7 comes back as it is where no record is read */
    fill(gaps);
    t.ping_pong_reverse = 7;
    CHECK(ended(log_replay(t, log, 5, gaps, 0), LAX_OK, 0, begun(t)) && untouched(gaps));
    CHECK(log_replay(t, log, 13, gaps, 1).reached.tween.ping_pong_reverse == 1);
}

/* What is missing between two numbers; the last two are a repeat. */
static void losses(void)
{
    const uint16_t number[6][3] = {{8, 9, 0}, {8, 521, 512}, {65535, 0, 0},
                                   {65535, 1, 1}, {9, 8, 65534}, {8, 8, 65535}};
    row rows[2] = {{0, LAX_LOG_STEP, 1.0f}, {0, LAX_LOG_STEP, 1.0f}};
    uint8_t log[21];
    uint16_t gaps[RECORDS], expected[2] = {0, 0};
    lax_tween t = pump();
    int k, repeat;

    for (k = 0; k < 6; k++) {
        rows[0].number = number[k][0];
        rows[1].number = number[k][1];
        expected[1] = number[k][2];
        repeat = k == 5;
        t.loop_count = repeat ? 1 : 2;
        fill(gaps);
        CHECK(ended(log_replay(pump(), log, log_of(log, rows, 2), gaps, 2), LAX_OK, 2,
                    came_to(t, number[k][1], repeat ? 0 : number[k][2], t.loop_count)));
        CHECK(gaps_are(gaps, expected, 2));
    }
}

/* The first of several refusals, before any record is replayed. */
static void refuses(void)
{
    uint8_t log[5 + 8 * RECORDS];
    uint16_t gaps[RECORDS];
    const size_t length = log_of(log, spotted, 11);
    lax_tween t = pump(), odd = t;

    fill(gaps);
    CHECK(ended(log_replay(t, log, length, gaps, 10), LAX_OUTPUT_TOO_SHORT, 0, begun(t)));
    CHECK(ended(log_replay(t, log, 6, gaps, 0), LAX_WRONG_LENGTH, 0, begun(t)));
    CHECK(ended(log_replay(t, log, length - 1, gaps, 0), LAX_WRONG_LENGTH, 0, begun(t)));
    CHECK(ended(log_replay(t, log, 4, gaps, 0), LAX_UNKNOWN_VERSION, 0, begun(t)));
    CHECK(ended(log_replay(t, log, 3, gaps, 0), LAX_UNKNOWN_VERSION, 0, begun(t)));
    log[4] = 1;
    CHECK(ended(log_replay(t, log, length - 1, gaps, 0), LAX_UNKNOWN_VERSION, 0, begun(t)));
    CHECK(ended(log_replay(t, log, 2, gaps, 0), LAX_WRONG_MARK, 0, begun(t)));
    CHECK(ended(log_replay(t, log, 0, gaps, 0), LAX_WRONG_MARK, 0, begun(t)));
    log[2] = 'l';
    CHECK(ended(log_replay(t, log, length - 1, gaps, 0), LAX_WRONG_MARK, 0, begun(t)));
    /* words that come back as they are: a flag of 7, and a parameter that Linear has no use for */
    odd.ping_pong_reverse = 7;
    odd.easing.c = 5.0f;
    odd.elapsed = 2.0f;
    CHECK(ended(log_replay(odd, log, length - 1, gaps, 0), LAX_RECORD_BREAKS_LIMIT, 0, begun(odd)));
    odd.state = 4;
    CHECK(ended(log_replay(odd, log, length - 1, gaps, 0), LAX_UNKNOWN_WORD, 0, begun(odd)));
    CHECK(untouched(gaps));
}

/* Records that follow: refused before any of them is replayed, or by the call on the tween. */
static void refuses_on(void)
{
    uint8_t log[5 + 8 * RECORDS];
    uint16_t gaps[RECORDS];
    replay_answer r = came_to(pump(), 701, 3, 4);
    log_of(log, spotted, 11);
    r.tween.ping_pong_reverse = 7;
    r.tween.elapsed = 2.0f;
    fill(gaps);
    CHECK(ended(log_replay_on(r, log + 5, 87, gaps, 0), LAX_WRONG_LENGTH, 0, r));
    CHECK(ended(log_replay_on(r, log + 5, 1, gaps, 0), LAX_WRONG_LENGTH, 0, r));
    CHECK(ended(log_replay_on(r, log + 5, 88, gaps, 10), LAX_OUTPUT_TOO_SHORT, 0, r));
    CHECK(ended(log_replay_on(r, log + 5, 0, gaps, 0), LAX_OK, 0, r));
    CHECK(ended(log_replay_on(r, log + 5, 8, gaps, 1), LAX_RECORD_BREAKS_LIMIT, 0, r));
    CHECK(untouched(gaps));
    /* two repeats are read, and no record changes a tween that breaks a limit */
    CHECK(ended(log_replay_on(r, log + 21, 24, gaps, 3), LAX_RECORD_BREAKS_LIMIT, 2, r));
    CHECK(gaps_are(gaps, spots + 2, 2));
    fill(gaps);
    r.last = LAX_NO_RECORD + 1;
    CHECK(ended(log_replay_on(r, log + 5, 87, gaps, 0), LAX_UNKNOWN_WORD, 0, r));
    r.last = 0xffffffffu;
    CHECK(ended(log_replay_on(r, log + 5, 88, gaps, 11), LAX_UNKNOWN_WORD, 0, r));
    r.last = 0;
    r.tween.looping.mode = 5;
    CHECK(ended(log_replay_on(r, log + 5, 87, gaps, 0), LAX_UNKNOWN_WORD, 0, r));
    CHECK(untouched(gaps));
}

/* 18, as the next record, behind a gap, and as a repeat. */
static void wrong_records(void)
{
    static const uint8_t wrong[14][6] = {
        /* kinds, zero bytes, and steps where there is none */
        {0, 0, 0, 0, 0, 0}, {5, 0, 0, 0, 0, 0}, {255, 0, 0, 0, 0x80, 0x3f}, {1, 1, 0, 0, 0x80, 0x3f},
        {2, 0x80, 0, 0, 0, 0}, {2, 0, 1, 0, 0, 0}, {3, 0, 0, 1, 0, 0}, {4, 0, 0, 0, 0, 0x80},
        /* NaN, both infinities, -1 and -0 */
        {1, 0, 0, 0, 0xc0, 0x7f}, {1, 0, 1, 0, 0x80, 0xff}, {1, 0, 0, 0, 0x80, 0x7f},
        {1, 0, 0, 0, 0x80, 0xff}, {1, 0, 0, 0, 0x80, 0xbf}, {1, 0, 0, 0, 0, 0x80}};
    const row rows[3] = {{0, LAX_LOG_STEP, 1.0f}, {0, LAX_LOG_STEP, 1.0f}, {1, LAX_LOG_STEP, 1.0f}};
    const uint16_t read[1] = {0};
    uint8_t log[29];
    uint16_t gaps[RECORDS];
    lax_tween t = pump();
    int k, number;

    t.loop_count = 1;
    fill(gaps);
    for (k = 0; k < 14; k++) {
        for (number = 0; number < 3; number++) {
            log_of(log, rows, 3);
            log[13] = (uint8_t)number;
            memcpy(log + 15, wrong[k], 6);
            CHECK(ended(log_replay(pump(), log, 29, gaps, 3), LAX_WRONG_RECORD, 1, came_to(t, 0, 0, 1)));
            CHECK(gaps_are(gaps, read, 1));
        }
    }
    fill(gaps);
    CHECK(ended(log_replay_on(begun(t), log + 13, 8, gaps, 1), LAX_WRONG_RECORD, 0, begun(t)) && untouched(gaps));
}

/* A call that the tween refuses, behind a gap, which does not count then. */
static void stops(void)
{
    static const float step[4][2] = {{1.0f, 16777218.0f}, {8388608.0f, 0.25f}, {1.0f, 4097.0f}, {1.0f, 0.0f}};
    const uint32_t number[4] = {LAX_STEP_TOO_LONG, LAX_STEP_LOST, LAX_TOO_MANY_FOLDS, LAX_RECORD_BREAKS_LIMIT};
    row rows[3] = {{9, LAX_LOG_STEP, 0.0f}, {522, LAX_LOG_STEP, 0.0f}, {523, LAX_LOG_PAUSE, 0.0f}};
    const uint16_t read[1] = {0};
    uint8_t log[29];
    uint16_t gaps[RECORDS];
    int k;

    for (k = 0; k < 4; k++) {
        lax_tween t = pump();
        updated_answer u;
        rows[0].step = step[k][0];
        rows[1].step = step[k][1];
        if (number[k] == LAX_STEP_LOST) {
            t.duration = 16777216.0f;
        } else if (number[k] == LAX_RECORD_BREAKS_LIMIT) {
            t.loop_count = 16777216;
        }
        u = tween_update(t, step[k][0]);
        CHECK(u.number == LAX_OK);
        fill(gaps);
        CHECK(ended(log_replay(t, log, log_of(log, rows, 3), gaps, 3), number[k], 1,
                    came_to(u.tween, 9, 0, u.folds)));
        CHECK(gaps_are(gaps, read, 1));
    }
}

/* Both sums stay at the most that 64 bits hold. */
static void caps(void)
{
    const row rows[2] = {{513, LAX_LOG_STEP, 512.0f}, {1026, LAX_LOG_STEP, 512.0f}};
    const uint64_t most = UINT64_MAX;
    uint8_t log[21];
    uint16_t gaps[2];
    lax_tween t = pump();

    log_of(log, rows, 2);
    t.loop_count = 1024;
    CHECK(ended(log_replay_on(came_to(pump(), 0, most - 1025, most - 1024), log + 5, 16, gaps, 2), LAX_OK, 2,
                came_to(t, 1026, most - 1, most)));
    CHECK(ended(log_replay_on(came_to(pump(), 0, most - 1023, most - 1025), log + 5, 16, gaps, 2), LAX_OK, 2,
                came_to(t, 1026, most, most - 1)));
    CHECK(ended(log_replay_on(came_to(pump(), 0, most, most - 1), log + 5, 16, gaps, 2), LAX_OK, 2,
                came_to(t, 1026, most, most)));
}

/* A log read in two parts, at every cut, comes to what it comes to in one call. */
static void cuts(const uint8_t *log, size_t length)
{
    const size_t count = (length - 5) / 8;
    uint16_t whole[RECORDS], gaps[RECORDS];
    replayed_answer all, part;
    size_t cut, place;

    fill(whole);
    all = log_replay(pump(), log, length, whole, count);
    for (cut = 0; cut <= count; cut++) {
        fill(gaps);
        part = log_replay(pump(), log, 5 + 8 * cut, gaps, cut);
        place = part.done;
        if (part.number == LAX_OK) {
            part = log_replay_on(part.reached, log + 5 + 8 * cut, 8 * (count - cut), gaps + cut, count - cut);
            place = cut + part.done;
        }
        CHECK(part.number == all.number && place == all.done && same(part.reached, all.reached));
        CHECK(memcmp(gaps, whole, sizeof gaps) == 0);
    }
}

static void parts(void)
{
    uint8_t log[5 + 8 * RECORDS];
    size_t length = log_of(log, spotted, 11);
    cuts(log, length);
    log[5 + 8 * 6 + 3] = 1;
    cuts(log, length);
}

void test_replays(void)
{
    replays();
    losses();
    refuses();
    refuses_on();
    wrong_records();
    stops();
    caps();
    parts();
}
