/*
 * The corpus, with an eye on IT blocks, into which QEMU's plugins do not see.
 *
 * with_svc.mjs has put an SVC in place of each IT instruction of the library. The low byte is the same in both: the condition and the mask.
 * So the handler of SVC knows which way the condition goes, notes it, and then does what the IT would have done: it puts the IT state
 * into the status register that its return restores. An IT that has gone both ways is put back. As an SVC takes long, an IT that has gone
 * only one way ENOUGH times is put back, too, until the next block of the corpus. So a way may be missed, and none is made up.
 * After the corpus there is a line for each IT that ran: its address; 1 if the condition held, 2 if it failed, 3 if both.
 */
#include "random.h"

/* A block of the corpus starts with its seed. */
static void watch_again(void);
#define seed(a, b, c) (watch_again(), (seed)(a, b, c))
#define program corpus
#include "corpus.c"
#undef program
#undef seed

enum { CODE_BYTES = 1 << 17, HELD = 1, FAILED = 2, ENOUGH = 4000 };
enum { SVC = 11, VECTORS = 16 };
enum { RETURN_ADDRESS = 6, STATUS = 7 }; /* words of what an exception pushes */
#define STATUS_IT 0x0600fc00u

static uint8_t sides[CODE_BYTES / 2];
static uint16_t runs[CODE_BYTES / 2];

/* Whether a condition holds, with the flags N, Z, C and V as the bits 3 to 0 (Armv7-M, A7.3). The lowest bit of a condition says "not". */
static bool holds(uint32_t condition, uint32_t flags) {
    const bool n = flags >> 3 & 1, z = flags >> 2 & 1, c = flags >> 1 & 1, v = flags & 1;
    const bool plain[] = {z, c, n, v, c && !z, n == v, !z && n == v, true};
    return plain[condition >> 1] != (condition & 1);
}

__attribute__((used)) static void met(uint32_t *frame) {
    uint16_t *const place = (uint16_t *)(uintptr_t)(frame[RETURN_ADDRESS] - 2);
    const uint32_t state = *place & 0xffu, index = (uint32_t)(uintptr_t)place / 2;
    sides[index] |= holds(state >> 4, frame[STATUS] >> 28) ? HELD : FAILED;
    if (sides[index] == (HELD | FAILED) || ++runs[index] == ENOUGH) *place = (uint16_t)(0xbf00u | state);
    frame[STATUS] = (frame[STATUS] & ~STATUS_IT) | (state & 3) << 25 | (state >> 2) << 10;
}

/* The frame is where the stack pointer is. */
__attribute__((naked)) static void on_svc(void) {
    __asm__ volatile("mov r0, sp\n b met");
}

static void watch_again(void) {
    for (uint32_t i = 0; i < CODE_BYTES / 2; i++) {
        uint16_t *const place = (uint16_t *)(uintptr_t)(2 * i);
        if (runs[i] >= ENOUGH && sides[i] != (HELD | FAILED)) *place = (uint16_t)(0xdf00u | (*place & 0xffu));
        runs[i] = 0;
    }
}

/* The vectors in memory, where one can be set. */
static void watch(void) {
    static __attribute__((aligned(128))) const void *vectors[VECTORS];
    const void *const *volatile *const table = (const void *const *volatile *)0xe000ed08; /* VTOR */
    for (uint32_t i = 0; i < VECTORS; i++) vectors[i] = (*table)[i < 7 ? i : 3];
    vectors[SVC] = (const void *)on_svc;
    *(const void **volatile *)0xe000ed08 = vectors;
    __asm__ volatile("dsb\n isb" : : : "memory");
}

int program(uint32_t first_seed, uint32_t only) {
    watch();
    const int status = corpus(first_seed, only);
    for (uint32_t i = 0; i < CODE_BYTES / 2; i++) {
        if (sides[i] == 0) continue;
        put("it ");
        put_hex(2 * i);
        put(" ");
        put_number(sides[i]);
        put("\n");
    }
    return status;
}
