/*
 * Text, the command line and the end of a program by semihosting, for the ports to machines in QEMU. A port has `host`, which passes an
 * operation and its block to the emulator.
 */
#ifndef SEMIHOSTING_H
#define SEMIHOSTING_H

#include "port.h"

enum { SYS_WRITE0 = 0x04, SYS_GET_CMDLINE = 0x15, SYS_EXIT_EXTENDED = 0x20, APPLICATION_EXIT = 0x20026 };

static uint32_t host(uint32_t operation, const void *block);

static void stop(uint32_t status) {
    const uint32_t block[] = {APPLICATION_EXIT, status};
    host(SYS_EXIT_EXTENDED, block);
    for (;;) {
    }
}

void port_put(const char *text, uint32_t count) {
    char line[129];
    while (count > 0) {
        const uint32_t part = count < 128 ? count : 128;
        for (uint32_t i = 0; i < part; i++) line[i] = text[i];
        line[part] = '\0';
        host(SYS_WRITE0, line);
        text += part;
        count -= part;
    }
}

/* The numbers of the command line, after the program's name. */
static void read_numbers(uint32_t numbers[2]) {
    char line[64] = "";
    uint32_t block[] = {(uint32_t)(uintptr_t)line, sizeof line};
    if (host(SYS_GET_CMDLINE, block) != 0) return;
    const char *next = line;
    for (uint32_t i = 0; i < 2; i++) {
        while (*next != '\0' && *next != ' ') next++;
        while (*next == ' ') next++;
        for (; *next >= '0' && *next <= '9'; next++) numbers[i] = 10 * numbers[i] + (uint32_t)(*next - '0');
    }
}

static void fault(void) {
    port_put("fault\n", 6);
    stop(99);
}

#endif
