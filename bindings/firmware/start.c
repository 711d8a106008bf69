/* The start of a program on a Cortex-M4F. */
#include <stdint.h>

extern uint32_t stack_top;
void _start(void);

/* The FPU is off after a reset. Its mode, FPSCR, is 0 then: to nearest, subnormals kept. */
static void reset(void)
{
    volatile uint32_t *const coprocessors = (volatile uint32_t *)0xe000ed88u;
    *coprocessors |= 0xfu << 20;
    __asm volatile("dsb\n isb");
    _start();
}

/* Where the stack begins, then the code of a reset. */
__attribute__((section(".vectors"), used)) static const struct {
    uint32_t *stack;
    void (*reset)(void);
} vectors = {&stack_top, reset};
