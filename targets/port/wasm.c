/* The port to WebAssembly: targets/port/node.mjs runs it. Floats have no modes there. */
#include "port.h"

const struct float_modes port_float_modes = {"no modes", 0, 0};

uint32_t port_float_control(void) {
    return 0;
}

bool port_flush_to_zero(bool on) {
    return !on;
}

bool port_can_step(void) {
    return false;
}

void port_step(void (*call)(void), void (*look)(void)) {
    (void)look;
    call();
}

int start(uint32_t first, uint32_t second) {
    return program(first, second);
}
