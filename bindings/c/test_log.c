/* Event logs. */
#include "test.h"

static lax_event event(uint32_t k, float step)
{
    lax_event e;
    e.kind = k;
    e.step = step;
    return e;
}

static int refused_at(logged_answer l, size_t written, uint32_t number)
{
    return l.written == written && l.number == number;
}

/* A small log, and the bytes behind it, which stay. */
static void writes(void)
{
    static const uint8_t log[45] = {
        0x50, 0x45, 0x4c, 0x01, 0x00,
        0x00, 0x00, 0x01, 0x00, 0x0a, 0xd7, 0xa3, 0x3c,
        0x01, 0x00, 0x02, 0x00, 0x00, 0x00, 0x00, 0x00,
        0x02, 0x00, 0x03, 0x00, 0x00, 0x00, 0x00, 0x00,
        0x03, 0x00, 0x01, 0x00, 0x00, 0x00, 0x00, 0x00,
        0x04, 0x00, 0x04, 0x00, 0x00, 0x00, 0x00, 0x00};
    uint8_t buffer[48];
    lax_event events[5];
    logged_answer l;
    size_t k;

    events[0] = event(LAX_LOG_STEP, 0.02f);
    events[1] = event(LAX_LOG_PAUSE, 7.0f);
    events[2] = event(LAX_LOG_RESUME, NAN);
    events[3] = event(LAX_LOG_STEP, -0.0f);
    events[4] = event(LAX_LOG_RESET, -1.0f);
    memset(buffer, 0xee, sizeof buffer);
    l = log_head(buffer, sizeof buffer);
    for (k = 0; k < 5; k++) {
        CHECK(l.written == 5 + 8 * k && l.number == LAX_OK);
        CHECK(memcmp(buffer, log, l.written) == 0 && buffer[l.written] == 0xee);
        l = log_record(buffer, sizeof buffer, l.written, events[k]);
    }
    CHECK(l.written == 45 && l.number == LAX_OK && memcmp(buffer, log, 45) == 0);
    CHECK(buffer[45] == 0xee && buffer[46] == 0xee && buffer[47] == 0xee);
    CHECK(refused_at(log_record(buffer, sizeof buffer, 45, events[1]), 45, LAX_NO_ROOM));
    buffer[37] = buffer[38] = 0xff;
    CHECK(log_record(buffer, sizeof buffer, 37, events[1]).written == 45 && buffer[37] == 4);
    buffer[29] = buffer[30] = 0xff;
    CHECK(log_record(buffer, sizeof buffer, 37, events[1]).written == 45 && buffer[37] == 0 && buffer[38] == 0);
}

/* Each refusal, and the first of several. */
static void refuses(void)
{
    const lax_event pause = event(LAX_LOG_PAUSE, 0.0f);
    uint8_t buffer[16], before[16];

    memset(buffer, 0, sizeof buffer);
    CHECK(refused_at(log_head(buffer, 4), 0, LAX_NO_ROOM) && buffer[0] == 0);
    CHECK(log_head(buffer, 5).written == 5);
    memcpy(before, buffer, sizeof buffer);
    CHECK(refused_at(log_record(buffer, 16, 99, event(0, NAN)), 99, LAX_UNKNOWN_WORD));
    CHECK(refused_at(log_record(buffer, 16, 99, event(5, NAN)), 99, LAX_UNKNOWN_WORD));
    CHECK(refused_at(log_record(buffer, 16, 99, event(LAX_LOG_STEP, INFINITY)), 99, LAX_STEP_TOO_LONG));
    CHECK(refused_at(log_record(buffer, 16, 99, event(LAX_LOG_STEP, 16777218.0f)), 99, LAX_STEP_TOO_LONG));
    CHECK(refused_at(log_record(buffer, 16, 99, event(LAX_LOG_STEP, NAN)), 99, LAX_STEP_BELOW_ZERO));
    CHECK(refused_at(log_record(buffer, 16, 99, event(LAX_LOG_STEP, -INFINITY)), 99, LAX_STEP_BELOW_ZERO));
    CHECK(refused_at(log_record(buffer, 16, 99, event(LAX_LOG_STEP, -1e-45f)), 99, LAX_STEP_BELOW_ZERO));
    CHECK(refused_at(log_record(buffer, 16, 17, pause), 17, LAX_WRONG_LENGTH));
    CHECK(refused_at(log_record(buffer, 16, 0, pause), 0, LAX_WRONG_MARK));
    CHECK(refused_at(log_record(buffer, 16, 2, pause), 2, LAX_WRONG_MARK));
    CHECK(refused_at(log_record(buffer, 16, 3, pause), 3, LAX_UNKNOWN_VERSION));
    CHECK(refused_at(log_record(buffer, 16, 4, pause), 4, LAX_UNKNOWN_VERSION));
    CHECK(refused_at(log_record(buffer, 16, 6, pause), 6, LAX_WRONG_LENGTH));
    CHECK(refused_at(log_record(buffer, 16, 13, pause), 13, LAX_NO_ROOM));
    CHECK(refused_at(log_record(buffer, 12, 5, pause), 5, LAX_NO_ROOM));
    CHECK(memcmp(before, buffer, sizeof buffer) == 0);
    CHECK(log_record(buffer, 13, 5, event(LAX_LOG_STEP, 16777216.0f)).written == 13);
    buffer[4] = 1;
    CHECK(refused_at(log_record(buffer, 16, 6, pause), 6, LAX_UNKNOWN_VERSION));
    buffer[2] = 'l';
    CHECK(refused_at(log_record(buffer, 16, 6, pause), 6, LAX_WRONG_MARK));
}

void test_logs(void)
{
    writes();
    refuses();
}
