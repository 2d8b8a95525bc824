/* Start-up, two UARTs, SysTick, the watchdog and a stand-in for flash, for QEMU's mps2-an386 (a Cortex-M4F with Arm's CMSDK devices). */
#include "board.h"

#define REGISTER(address) (*(volatile uint32_t *)(address))
enum { CLOCK = 25000000, TICKS_A_SECOND = 1000 };

/* UART: data, state (1 sending is full, 2 a byte has come), control (1 send, 2 receive, 8 interrupt on receiving), clear, divider. */
enum { TABLET = 0x40004000, SERVICE = 0x40005000, DATA = 0, STATE = 4, CONTROL = 8, CLEAR = 12, DIVIDER = 16 };
enum { TIMER = 0x40000000, WATCHDOG = 0x40008000 };

extern uint32_t data_start, data_end, data_image, bss_start, bss_end, stack_bottom, stack_top;
extern uint32_t flash_start[FLASH_PAGES * FLASH_PAGE / 4];

/* Why the controller starts: a word that a start leaves alone. After a power loss it has any content. */
extern volatile uint32_t mark;
enum { WATCHDOG_MARK = 0x57a7c4d0, FAULT_MARK = 0x0fa01700, ASKED_MARK = 0x45ced000, PAINT = 0x5aa5c33c };
static enum start cause;

static void restart(uint32_t why) {
    mark = why;
    __asm__ volatile("dsb" : : : "memory");
    REGISTER(0xe000ed0c) = 0x05fa0004u;
    for (;;) {
    }
}

/* The line. The interrupt alone writes `head`, and the main loop alone `tail`. */
enum { RING = 2048 };
static volatile uint8_t ring[RING];
static volatile uint32_t head, tail, lost;

/* The interrupt is cleared before the bytes are taken: one that comes in between then calls it again. */
static void received(void) {
    REGISTER(TABLET + CLEAR) = 2;
    while ((REGISTER(TABLET + STATE) & 2u) != 0) {
        const uint8_t byte = (uint8_t)REGISTER(TABLET + DATA);
        if (head - tail < RING) {
            ring[head % RING] = byte;
            head++;
        } else {
            lost++;
        }
    }
}

bool line_get(uint8_t *byte) {
    if (head == tail) return false;
    *byte = ring[tail % RING];
    tail++;
    return true;
}

uint32_t line_lost(void) {
    return lost;
}

static void send(uint32_t uart, uint8_t byte) {
    while ((REGISTER(uart + STATE) & 1u) != 0) {
    }
    REGISTER(uart + DATA) = byte;
}

void line_put(const uint8_t *bytes, uint32_t count) {
    for (uint32_t i = 0; i < count; i++) send(TABLET, bytes[i]);
}

void log_text(const char *text) {
    for (; *text != '\0'; text++) send(SERVICE, (uint8_t)*text);
}

void log_number(uint32_t number) {
    char digits[11] = "";
    uint32_t at = sizeof digits - 1;
    do {
        digits[--at] = (char)('0' + number % 10);
        number /= 10;
    } while (number != 0);
    log_text(digits + at);
}

/* SysTick has priority 0 and the line's interrupt 1 of the processor's eight, so that a reading waits for nothing. */
void tick_start(void) {
    REGISTER(0xe000ed20) = 0;
    REGISTER(0xe000e014) = CLOCK / TICKS_A_SECOND - 1;
    REGISTER(0xe000e018) = 0;
    REGISTER(0xe000e010) = 7;
}

void idle(void) {
    __asm__ volatile("wfi" : : : "memory");
}

/* The first time-out is a non-maskable interrupt, and a second would be a reset. */
void watchdog_start(void) {
    REGISTER(WATCHDOG + 0xc00) = 0x1acce551;
    REGISTER(WATCHDOG + 0) = CLOCK / 4;
    REGISTER(WATCHDOG + 8) = 3;
}

void watchdog_feed(void) {
    REGISTER(WATCHDOG + 12) = 1;
}

static void overdue(void) {
    restart(WATCHDOG_MARK);
}

enum start start_cause(void) {
    return cause;
}

uint32_t stack_used(void) {
    const uint32_t *at = &stack_bottom;
    while (at < &stack_top && *at == PAINT) at++;
    return (uint32_t)((const uint8_t *)&stack_top - (const uint8_t *)at);
}

/* Flash, as memory that QEMU keeps in a file. */
const uint8_t *flash_page(uint32_t page) {
    return (const uint8_t *)flash_start + page * FLASH_PAGE;
}

void flash_erase(uint32_t page) {
    volatile uint32_t *const to = flash_start + page * (FLASH_PAGE / 4);
    for (uint32_t i = 0; i < FLASH_PAGE / 4; i++) to[i] = 0xffffffffu;
}

void flash_write(uint32_t page, const uint32_t *words, uint32_t count) {
    volatile uint32_t *const to = flash_start + page * (FLASH_PAGE / 4);
    for (uint32_t i = 0; i < count; i++) to[i] &= words[i];
}

#ifdef TRIAL
/* What the timer reloads is also what it counts down from now. */
void trial_reset_after(uint32_t ticks) {
    REGISTER(TIMER + 0) = 0;
    REGISTER(TIMER + 8) = ticks;
    REGISTER(TIMER + 0) = 9;
}
#endif

static void timed_out(void) {
    restart(ASKED_MARK);
}

static void fault(void) {
    restart(FAULT_MARK);
}

static enum start cause_of(uint32_t why) {
    switch (why) {
        case WATCHDOG_MARK: return START_WATCHDOG;
        case FAULT_MARK: return START_FAULT;
        case ASKED_MARK: return START_ASKED;
        default: return START_POWER;
    }
}

/* The stack is painted up to here, less what this function uses. */
__attribute__((noinline)) static void paint_stack(void) {
    uint32_t *here;
    __asm__ volatile("mov %0, sp" : "=r"(here));
    for (volatile uint32_t *at = &stack_bottom; at < here - 16; at++) *at = PAINT;
}

void reset(void);

/* The FPU is switched on before the first function that may use it (D5); floats are as after a reset (D4). */
void reset(void) {
    REGISTER(0xe000ed88) |= 0xfu << 20;
    __asm__ volatile("dsb\n isb" : : : "memory");
    paint_stack();
    const uint32_t *from = &data_image;
    for (volatile uint32_t *to = &data_start; to < &data_end; to++) *to = *from++;
    for (volatile uint32_t *to = &bss_start; to < &bss_end; to++) *to = 0;
    cause = cause_of(mark);
    mark = 0;
    REGISTER(TABLET + DIVIDER) = CLOCK / 115200;
    REGISTER(SERVICE + DIVIDER) = CLOCK / 115200;
    REGISTER(TABLET + CONTROL) = 1 + 2 + 8;
    REGISTER(SERVICE + CONTROL) = 1;
    REGISTER(0xe000e400) = 0x20u;
    REGISTER(0xe000e100) = 1u | 1u << 8;
    main();
    restart(FAULT_MARK);
}

/* Interrupt 0 is the line's, and 8 the timer's. */
typedef union vector {
    uint32_t *stack;
    void (*call)(void);
} vector;
__attribute__((section(".vectors"), used)) static const vector vectors[25] = {
    {.stack = &stack_top}, {.call = reset}, {.call = overdue}, {.call = fault}, {.call = fault}, {.call = fault}, {.call = fault},
    {.call = 0}, {.call = 0}, {.call = 0}, {.call = 0}, {.call = fault}, {.call = fault}, {.call = 0}, {.call = fault}, {.call = tick},
    {.call = received}, {.call = fault}, {.call = fault}, {.call = fault}, {.call = fault}, {.call = fault}, {.call = fault},
    {.call = fault}, {.call = timed_out},
};
