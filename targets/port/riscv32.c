/*
 * The port to a 32-bit RISC-V without an FPU in QEMU (virt): start-up, and text and the command line by semihosting. Everything is loaded
 * into the machine's memory, so only what starts as zero has to be set. A trap of any kind ends the program.
 */
#include "semihosting.h"

extern uint32_t bss_start, bss_end;

__asm__(".section .start, \"ax\"\n"
        ".globl start\n"
        "start: la sp, stack_top\n"
        " la t0, trapped\n"
        " csrw mtvec, t0\n"
        " j reset\n"
        ".balign 4\n"
        "trapped: j failed\n"
        ".text\n");

/* The three instructions by which the emulator knows the call have four bytes each, and lie in one page. */
__attribute__((noinline)) static uint32_t host(uint32_t operation, const void *block) {
    register uint32_t a0 __asm__("a0") = operation;
    register const void *a1 __asm__("a1") = block;
    __asm__ volatile(".option push\n .option norvc\n .balign 16\n"
                     "slli x0, x0, 0x1f\n ebreak\n srai x0, x0, 7\n"
                     ".option pop" : "+r"(a0) : "r"(a1) : "memory");
    return a0;
}

const struct float_modes port_float_modes = {"no FPU", 0, 0};

uint32_t port_float_control(void) {
    return 0;
}

bool port_flush_to_zero(bool on) {
    return !on;
}

bool port_can_step(void) {
    return false;
}

void port_step(void (*call)(void), void (*look)(void)) {
    (void)look;
    call();
}

void failed(void);
void failed(void) {
    fault();
}

void reset(void);
void reset(void) {
    for (uint32_t *to = &bss_start; to < &bss_end; to++) *to = 0;
    uint32_t numbers[2] = {0, 0};
    read_numbers(numbers);
    stop((uint32_t)program(numbers[0], numbers[1]));
}
