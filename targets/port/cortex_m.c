/*
 * The port to a Cortex-M in QEMU (mps2-an385, an386, an500 and an505): start-up, and text and the command line by semihosting.
 * The FPU is switched on where the compiler uses it. Without one the machine stands for a Cortex-M0+, which has no unaligned access:
 * it is then made to fault.
 */
#include "semihosting.h"

extern uint32_t data_start, data_end, data_image, bss_start, bss_end, stack_top;

static uint32_t host(uint32_t operation, const void *block) {
    register uint32_t r0 __asm__("r0") = operation;
    register const void *r1 __asm__("r1") = block;
    __asm__ volatile("bkpt 0xab" : "+r"(r0) : "r"(r1) : "memory");
    return r0;
}

#ifdef __ARM_FP

/* FPSCR: bit 24 is flush-to-zero, and bit 25 default NaN. */
const struct float_modes port_float_modes = {"FPSCR", 1u << 24, 1u << 25};

uint32_t port_float_control(void) {
    uint32_t control;
    __asm__ volatile("vmrs %0, fpscr" : "=r"(control));
    return control;
}

bool port_flush_to_zero(bool on) {
    const uint32_t control = port_float_control(), flush = port_float_modes.flush;
    __asm__ volatile("vmsr fpscr, %0" : : "r"(on ? control | flush : control & ~flush) : "memory");
    return true;
}

/* CPACR: coprocessors 10 and 11. */
static void set_up(void) {
    *(volatile uint32_t *)0xe000ed88 |= 0xfu << 20;
    __asm__ volatile("dsb\n isb" : : : "memory");
}

#else

const struct float_modes port_float_modes = {"no FPU", 0, 0};

uint32_t port_float_control(void) {
    return 0;
}

bool port_flush_to_zero(bool on) {
    return !on;
}

/* CCR: the trap on an unaligned access. */
static void set_up(void) {
    *(volatile uint32_t *)0xe000ed14 |= 1u << 3;
}

#endif

/*
 * Stepping: the machine's timer interrupts after each instruction. QEMU is told that an instruction takes longer than a tick of the timer
 * (STEPPED in targets/run). The timer is stopped while the look is taken, and its start is the last that the interrupt does.
 */
static volatile uint32_t *const timer = (volatile uint32_t *)0xe000e010;
static volatile bool stepping;
static void (*at_each)(void);
static uint32_t interrupts;

static void start_timer(void) {
    timer[2] = 0;
    timer[0] = 7;
}

static void interrupted(void) {
    timer[0] = 0;
    *(volatile uint32_t *)0xe000ed04 = 1u << 25;
    interrupts++;
    at_each();
    if (stepping) start_timer();
}

void port_step(void (*call)(void), void (*look)(void)) {
    at_each = look;
    stepping = true;
    timer[1] = 1;
    start_timer();
    call();
    stepping = false;
    timer[0] = 0;
}

static void eight_instructions(void) {
    __asm__ volatile("nop\n nop\n nop\n nop\n nop\n nop\n nop\n nop");
}

static void no_look(void) {
}

/* Every one of some instructions must have been interrupted. */
bool port_can_step(void) {
    interrupts = 0;
    port_step(eight_instructions, no_look);
    return interrupts >= 8 && interrupts < 40;
}

void reset(void);

void reset(void) {
    set_up();
    const uint32_t *from = &data_image;
    for (uint32_t *to = &data_start; to < &data_end; to++) *to = *from++;
    for (uint32_t *to = &bss_start; to < &bss_end; to++) *to = 0;
    uint32_t numbers[2] = {0, 0};
    read_numbers(numbers);
    stop((uint32_t)program(numbers[0], numbers[1]));
}

__attribute__((section(".vectors"), used)) static const void *const vectors[] = {
    &stack_top, (const void *)reset, (const void *)fault, (const void *)fault, (const void *)fault, (const void *)fault, (const void *)fault,
    0, 0, 0, 0, (const void *)fault, (const void *)fault, 0, (const void *)fault, (const void *)interrupted,
};
