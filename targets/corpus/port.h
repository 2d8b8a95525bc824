/* What a port provides to the programs, and what it calls. A port is the start-up code of one kind of machine. */
#ifndef PORT_H
#define PORT_H

#include <stdbool.h>
#include <stdint.h>

/* Writes text. */
void port_put(const char *text, uint32_t count);

/* How the machine's floats are set: its control register, or 0 where it has none. */
uint32_t port_float_control(void);

/* Sets flush-to-zero, or clears it again. False where the machine has no such mode. */
bool port_flush_to_zero(bool on);

/* Whether a call can be run instruction by instruction here; and runs it so, with a look before each of its instructions. */
bool port_can_step(void);
void port_step(void (*call)(void), void (*look)(void));

/* What stands before the words of the control register: its name, and the masks of its flush-to-zero and default-NaN bits. */
struct float_modes {
    const char *name;
    uint32_t flush, default_nan;
};
extern const struct float_modes port_float_modes;

/* The program. The numbers are those of its command line, 0 where there is none. Returns the exit status. */
int program(uint32_t first, uint32_t second);

#endif
