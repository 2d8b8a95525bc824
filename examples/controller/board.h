/* The board, as the controller sees it. board.c is for QEMU's mps2-an386; a device has its own. */
#ifndef BOARD_H
#define BOARD_H

#include <stdbool.h>
#include <stdint.h>

/* The line to the tablet. An interrupt puts bytes that come into a ring; one that finds it full is lost, and counted. */
bool line_get(uint8_t *byte);
void line_put(const uint8_t *bytes, uint32_t count);
uint32_t line_lost(void);

/* The service port, to which the log is written. */
void log_text(const char *text);
void log_number(uint32_t number);

/* Calls `tick` every millisecond, from an interrupt that no other interrupts. */
void tick_start(void);
void tick(void);

/* Waits until an interrupt has come. */
void idle(void);

/* Resets the controller unless it is fed within a quarter of a second. */
void watchdog_start(void);
void watchdog_feed(void);

/* Why the controller started. */
enum start { START_POWER, START_WATCHDOG, START_FAULT, START_ASKED };
enum start start_cause(void);

/* The most bytes of stack that were in use since the start. */
uint32_t stack_used(void);

/* Flash: pages that survive a reset and a power loss. An erased byte is FF; writing clears bits and sets none. */
enum { FLASH_PAGE = 1024, FLASH_PAGES = 32 };
const uint8_t *flash_page(uint32_t page);
void flash_erase(uint32_t page);
void flash_write(uint32_t page, const uint32_t *words, uint32_t count);

#ifdef TRIAL
/* For the test: a reset when so many ticks of a 25 MHz timer have passed, whatever is under way. */
void trial_reset_after(uint32_t ticks);
#endif

int main(void);

#endif
