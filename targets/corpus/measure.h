/*
 * Instructions and bytes of stack of a call on a controller in QEMU, run with `-icount shift=0`: an instruction then takes a nanosecond of
 * the machine's time, and a tick of its 25 MHz timer is 40 instructions (of the RISC-V's, with 10 MHz, 100). Many equal calls are timed
 * at once, so that the counts are exact. The stack is painted before a call and looked through after it.
 */
#ifndef MEASURE_H
#define MEASURE_H

#include <string.h>

#include "random.h"
#include "robequarry.h"
#include "shapes.h"
#include "text.h"

enum { PAINTED = 24 * 1024, PAINT = 0x5aa5c33c };

typedef void action(void);

#ifdef __riscv

/* The low half of the machine's time, which always counts. */
#define TIME (*(volatile uint32_t *)0x0200bff8)
#define STACK_POINTER "mv %0, sp"
enum { TICK = 100 };
static uint32_t started;

static void start_timer(void) {
    started = TIME;
}

static uint32_t ticks(void) {
    return TIME - started;
}

#else

#ifdef __ARM_ARCH_8M_MAIN__
#define TIMER ((volatile uint32_t *)0x50000000)
#else
#define TIMER ((volatile uint32_t *)0x40000000)
#endif
#define STACK_POINTER "mov %0, sp"
enum { CONTROL, VALUE, RELOAD, TICK = 40 };

static void start_timer(void) {
    TIMER[CONTROL] = 0;
    TIMER[VALUE] = 0xffffffffu;
    TIMER[RELOAD] = 0xffffffffu;
    TIMER[CONTROL] = 1;
}

static uint32_t ticks(void) {
    return 0xffffffffu - TIMER[VALUE];
}

#endif

static void nothing(void) {
    __asm__ volatile("" : : : "memory");
}

static uint32_t ticks_of(action *before, action *call, uint32_t times) {
    action *volatile first = before, *volatile second = call;
    start_timer();
    for (uint32_t i = 0; i < times; i++) {
        first();
        second();
    }
    return ticks();
}

/* Instructions of a call, without those of what comes before it each time, to the nearest whole one. */
static uint32_t instructions(action *before, action *call, uint32_t times) {
    const uint32_t with = ticks_of(before, call, times), without = ticks_of(before, nothing, times);
    return (uint32_t)(((uint64_t)(with - without) * TICK + times / 2) / times);
}

/* Bytes below the stack pointer that a call has altered, and those that a call of nothing alters. */
__attribute__((noinline)) static uint32_t touched(action *call) {
    volatile uint32_t *top;
    action *volatile called = call;
    __asm__ volatile(STACK_POINTER : "=r"(top));
    volatile uint32_t *const bottom = top - PAINTED / 4;
    for (volatile uint32_t *word = bottom; word < top; word++) *word = PAINT;
    called();
    volatile uint32_t *word = bottom;
    while (word < top && *word == PAINT) word++;
    return (uint32_t)(top - word) * 4;
}

static uint32_t stack(action *before, action *call) {
    before();
    return touched(call) - touched(nothing);
}

/* What the calls work on. */
static struct outline shape, dented;
static struct hull {
    uint16_t col, row, m;
    int16_t edges[RQ_LIST_NUMBERS];
} one, two;
static rq_holder holder, kept;
static rq_pile pile;
static rq_reply reply;
static int16_t edges[RQ_EDGE_NUMBERS];
static uint16_t cells[RQ_WITNESS_NUMBERS];
static uint8_t letters[RQ_LETTERS];
static uint16_t col, row, corner = 5;
static uint8_t party, place, letter = 1, layer = 3;
static float angle, load, point[2];
static uint8_t bytes[RQ_CALL_BYTES];
static uint8_t image[RQ_IMAGE_BYTES];

static void call_test(void) { rq_test(shape.col, shape.row, shape.letters, shape.n, edges, RQ_EDGE_NUMBERS, &reply); }
static void call_witness(void) { rq_witness(shape.col, shape.row, shape.letters, shape.n, cells, RQ_WITNESS_NUMBERS, &reply); }
static void call_complete(void) { rq_complete(shape.col, shape.row, shape.letters, shape.n, letters, RQ_LETTERS, &reply); }
static void call_border(void) { rq_border(one.col, one.row, one.edges, one.m, letters, RQ_LETTERS, &reply); }
static void call_loose(void) { rq_loose_query(one.col, one.row, one.edges, one.m, col, row, &reply); }
static void call_compare(void) {
    rq_compare(one.col, one.row, one.edges, one.m, two.col, two.row, two.edges, two.m, &reply);
}
static void call_fresh(void) { rq_fresh(&holder); }
static void call_begin(void) { rq_begin(&holder, party, corner, 5, &reply); }
static void call_add(void) { rq_add(&holder, party, letter, &reply); }
static void call_draft(void) { rq_draft(&holder, party, &reply); }
static void call_drop(void) { rq_drop(&holder, party, &reply); }
static void call_clear(void) { rq_clear(&holder, party, place, &reply); }
static void call_close(void) { rq_close(&holder, 0, 0, &reply); }
static void call_query(void) { rq_query(&holder, party, place, col, row, &reply); }
static void call_row(void) { rq_row(&holder, party, place, row, &reply); }
static void call_reading(void) { rq_reading(&holder, party, place, angle, load, &reply); }
static void call_piece(void) { rq_piece(&holder, party, place, col, point, &reply); }
static void call_check(void) { rq_check(&holder, 0, 0, &reply); }
static void call_save(void) { rq_save(&holder, 0, 0, image, RQ_IMAGE_BYTES, &reply); }
static void call_restore(void) { rq_restore(&holder, 0, 0, image, RQ_IMAGE_BYTES, &reply); }
/* The image of an outline, taken or not. */
static void image_of(const struct outline *o) {
    const uint32_t n = o->n < RQ_LETTERS ? o->n : RQ_LETTERS;
    memset(image, 0, sizeof image);
    image[0] = 0x4b;
    image[1] = 0x4f;
    image[2] = (uint8_t)o->col;
    image[3] = (uint8_t)o->row;
    image[4] = (uint8_t)n;
    image[5] = (uint8_t)(n >> 8);
    memcpy(image + 6, o->letters, n);
    const uint32_t sum = rq_checksum(image, RQ_IMAGE_BYTES - 4);
    for (uint32_t i = 0; i < 4; i++) image[RQ_IMAGE_BYTES - 4 + i] = (uint8_t)(sum >> 8 * i);
}
static void call_checksum(void) { rq_checksum(image, RQ_IMAGE_BYTES - 4); }
static void call_bytes(void) { rq_call(&holder, bytes, RQ_CALL_BYTES, &reply); }
static void call_pile_set(void) { rq_pile_set(&pile, 3, shape.col, shape.row, shape.letters, shape.n, &reply); }
static void call_pile_check(void) { rq_pile_check(&pile, &reply); }
static void call_pile_step(void) { rq_pile_check_step(&pile, 1, &reply); }
static void call_pile_save(void) { rq_pile_save(&pile, 3, image, RQ_IMAGE_BYTES, &reply); }
static void call_pile_restore(void) { rq_pile_restore(&pile, 3, image, RQ_IMAGE_BYTES, &reply); }
static void call_pile_query(void) { rq_pile_query(&pile, layer, col, row, &reply); }

/* A draft is one number of its party's head; letters that are already there may stay. */
static void restore_heads(void) { memcpy(holder.heads, kept.heads, sizeof holder.heads); }
static void restore(void) { memcpy(&holder, &kept, sizeof holder); }

static void take_edges(struct hull *h) {
    rq_test(shape.col, shape.row, shape.letters, shape.n, h->edges, RQ_EDGE_NUMBERS, &reply);
    h->col = reply.col;
    h->row = reply.row;
    h->m = (uint16_t)(reply.number == 0 ? 2 * reply.place : 0);
}

static void circle(int32_t half) {
    ellipse(&block, half, half);
    border_of(&block, &shape);
}

/* As many letters as a circle's, and eight edges: a square without its corners. */
static void octagon(int32_t side, int32_t corner) {
    block.bottom = 10;
    block.rows = side;
    for (int32_t r = 0; r < side; r++) {
        const int32_t low = corner - r, high = r - (side - 1 - corner), in = clamped(low > high ? low : high, 0, corner);
        block.first[r] = 10 + in;
        block.last[r] = 10 + side - 1 - in;
    }
    border_of(&block, &shape);
}

static void many_directions(struct hull *h, uint32_t most, uint16_t at_col, uint16_t at_row) {
    h->col = at_col;
    h->row = at_row;
    h->m = (uint16_t)(8 * most);
    put_directions(h->edges, most);
}

static void most_edges(void) {
    shape.col = 0;
    shape.row = 81;
    shape.n = 0;
    for (const char *digit = MANY_EDGES; *digit != '\0'; digit++) add_letter(&shape, (uint8_t)(*digit - '0'));
}

/* The shape as the knee's draft, and then at work at place 0; `kept` has the holder before the close or after it. */
static void draw_on_holder(void) {
    rq_fresh(&holder);
    rq_begin(&holder, 0, shape.col, shape.row, &reply);
    for (uint32_t i = 0; i < shape.n; i++) rq_add(&holder, 0, shape.letters[i], &reply);
    kept = holder;
}

static void put_at_work(void) {
    draw_on_holder();
    rq_close(&holder, 0, 0, &reply);
    rq_begin(&holder, 0, 5, 5, &reply);
    kept = holder;
}

static void set_all_layers(void) {
    rq_pile_fresh(&pile);
    for (uint8_t l = 0; l < RQ_LAYERS; l++) rq_pile_set(&pile, l, shape.col, shape.row, shape.letters, shape.n, &reply);
    rq_pile_check(&pile, &reply);
}

static void put_column(uint32_t number) {
    put("\t");
    put_number(number);
}

#endif
