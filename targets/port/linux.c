/* The port to Linux on x86-64 and AArch64, without a C library. The command line has up to two numbers. */
#include "port.h"

#if defined(__x86_64__)

static long system_call(long number, long a, long b, long c) {
    long result;
    __asm__ volatile("syscall" : "=a"(result) : "a"(number), "D"(a), "S"(b), "d"(c) : "rcx", "r11", "memory");
    return result;
}
enum { WRITE = 1, EXIT = 60 };
__asm__(".globl _start\n_start: mov %rsp, %rdi\n and $-16, %rsp\n call start\n");

/* MXCSR: flush-to-zero of results and of operands; there is no default-NaN mode. */
const struct float_modes port_float_modes = {"MXCSR", 0x8040, 0};

uint32_t port_float_control(void) {
    uint32_t control;
    __asm__ volatile("stmxcsr %0" : "=m"(control));
    return control;
}

static void set_float_control(uint32_t control) {
    __asm__ volatile("ldmxcsr %0" : : "m"(control) : "memory");
}

/*
 * The trap flag has the processor raise SIGTRAP after each instruction. The kernel clears the flag for the handler, and puts it back as the
 * handler returns. The handler's own stack keeps what it does apart from the call.
 */
struct action {
    void (*handler)(int);
    unsigned long flags;
    void (*restorer)(void);
    unsigned long mask;
};
enum { SIGACTION = 13, SIGALTSTACK = 131, TRAP = 5, ON_STACK = 0x08000000, HAS_RESTORER = 0x04000000 };

void restore(void);
__asm__("restore: mov $15, %eax\n syscall\n");

static void (*at_each)(void);

static void trapped(int signal) {
    (void)signal;
    at_each();
}

bool port_can_step(void) {
    return true;
}

void port_step(void (*call)(void), void (*look)(void)) {
    static char stack[65536];
    const struct {
        void *start;
        int flags;
        unsigned long size;
    } own = {stack, 0, sizeof stack};
    const struct action action = {trapped, ON_STACK | HAS_RESTORER, restore, 0};
    at_each = look;
    system_call(SIGALTSTACK, (long)&own, 0, 0);
    __asm__ volatile("mov $8, %%r10\n syscall"
                     : : "a"((long)SIGACTION), "D"((long)TRAP), "S"(&action), "d"(0L) : "rcx", "r10", "r11", "memory");
    __asm__ volatile("pushfq\n orq $0x100, (%%rsp)\n popfq" : : : "memory", "cc");
    call();
    __asm__ volatile("pushfq\n andq $~0x100, (%%rsp)\n popfq" : : : "memory", "cc");
}

#elif defined(__aarch64__)

bool port_can_step(void) {
    return false;
}

void port_step(void (*call)(void), void (*look)(void)) {
    (void)look;
    call();
}

static long system_call(long number, long a, long b, long c) {
    register long x8 __asm__("x8") = number;
    register long x0 __asm__("x0") = a;
    register long x1 __asm__("x1") = b;
    register long x2 __asm__("x2") = c;
    __asm__ volatile("svc 0" : "+r"(x0) : "r"(x8), "r"(x1), "r"(x2) : "memory");
    return x0;
}
enum { WRITE = 64, EXIT = 93 };
__asm__(".globl _start\n_start: mov x0, sp\n bl start\n");

/* FPCR: bit 24 is flush-to-zero, and bit 25 default NaN. */
const struct float_modes port_float_modes = {"FPCR", 1u << 24, 1u << 25};

uint32_t port_float_control(void) {
    uint64_t control;
    __asm__ volatile("mrs %0, fpcr" : "=r"(control));
    return (uint32_t)control;
}

static void set_float_control(uint32_t control) {
    __asm__ volatile("msr fpcr, %0" : : "r"((uint64_t)control) : "memory");
}

#else
#error "no port for this machine"
#endif

bool port_flush_to_zero(bool on) {
    const uint32_t flush = port_float_modes.flush, control = port_float_control();
    set_float_control(on ? control | flush : control & ~flush);
    return true;
}

void port_put(const char *text, uint32_t count) {
    while (count > 0) {
        const long written = system_call(WRITE, 1, (long)text, (long)count);
        if (written <= 0) system_call(EXIT, 3, 0, 0);
        text += written;
        count -= (uint32_t)written;
    }
}

static uint32_t number_of(const char *digits) {
    uint32_t number = 0;
    for (; *digits >= '0' && *digits <= '9'; digits++) number = 10 * number + (uint32_t)(*digits - '0');
    return number;
}

/* The stack has the count of words, and then the words. */
__attribute__((used)) void start(const long *stack) {
    const char *const *words = (const char *const *)(stack + 1);
    const long count = stack[0];
    system_call(EXIT, program(count > 1 ? number_of(words[1]) : 0, count > 2 ? number_of(words[2]) : 0), 0, 0);
}
