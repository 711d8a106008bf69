/* A pump's ramp with no C library: from 0 to 2,000 steps a second in half a second, a tick each 20 ms. It prints
 * the setpoint of each tick by the debugger's channel (semihosting). */
#include <stddef.h>

#include "laxombiit.h"

/* All that the archive asks for beside the compiler's own run-time. */
void *memcpy(void *to, const void *from, size_t size)
{
    unsigned char *a = to;
    const unsigned char *b = from;
    while (size--) {
        *a++ = *b++;
    }
    return to;
}

void *memset(void *to, int byte, size_t size)
{
    unsigned char *a = to;
    while (size--) {
        *a++ = (unsigned char)byte;
    }
    return to;
}

static int debugger(int operation, const void *block)
{
    register int r0 __asm("r0") = operation;
    register const void *r1 __asm("r1") = block;
    __asm volatile("bkpt 0xab" : "+r"(r0) : "r"(r1) : "memory");
    return r0;
}

static void print(uint32_t number)
{
    char text[12];
    char *at = text + sizeof text;
    *--at = 0;
    *--at = '\n';
    do {
        *--at = (char)('0' + number % 10);
        number /= 10;
    } while (number != 0);
    debugger(0x04, at);
}

static uint32_t run(void)
{
    lax_tween ramp;
    lax_updated made = {0, 1};
    lax_found setpoint;
    uint32_t refused = lax_tween_new(&ramp, 0.0f, 2000.0f);
    ramp.duration = 0.5f;
    ramp.easing.kind = LAX_EASE_IN_OUT_CUBIC;
    while (refused == LAX_OK && made.running) {
        refused = lax_tween_update(&ramp, 0.02f, &made);
        if (refused == LAX_OK) {
            refused = lax_tween_value(&ramp, &setpoint);
        }
        if (refused == LAX_OK) {
            print((uint32_t)setpoint.value);
        }
    }
    return refused;
}

/* The program ends as the debugger's "application exit" where no call was refused. */
void _start(void)
{
    const uint32_t refused = run();
    debugger(0x18, (const void *)(refused == LAX_OK ? 0x20026u : 0x20023u));
    for (;;) {
    }
}
