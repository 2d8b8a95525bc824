/* Outlines: drawings of blocks that are convex or nearly so, and lists of letters that are none. */
#ifndef SHAPES_H
#define SHAPES_H

#include "random.h"
#include "robequarry.h"

enum { MOST_LETTERS = 2100, CHART = 255 };

struct outline {
    uint16_t col, row, n;
    uint8_t letters[MOST_LETTERS];
};

/* A block row by row, from row `bottom` up: its first and its last column. Each row has a column in common with the next. */
struct block {
    int32_t bottom, rows;
    int32_t first[CHART], last[CHART];
};

static void add_letter(struct outline *o, uint8_t letter) {
    if (o->n < MOST_LETTERS) o->letters[o->n++] = letter;
}

static void add_letters(struct outline *o, uint8_t letter, int32_t count) {
    for (int32_t i = 0; i < count; i++) add_letter(o, letter);
}

/* From one column to another, along a row's border. */
static void go(struct outline *o, int32_t from, int32_t to) {
    add_letters(o, to > from ? 0 : 2, to > from ? to - from : from - to);
}

/* The border, clockwise from the lower left corner of the lowest row. */
static void border_of(const struct block *b, struct outline *o) {
    const int32_t top = b->rows - 1;
    o->col = (uint16_t)b->first[0];
    o->row = (uint16_t)b->bottom;
    o->n = 0;
    for (int32_t r = 0; r <= top; r++) {
        add_letter(o, 1);
        go(o, b->first[r], r < top ? b->first[r + 1] : b->last[r] + 1);
    }
    for (int32_t r = top; r >= 0; r--) {
        add_letter(o, 3);
        go(o, b->last[r] + 1, r > 0 ? b->last[r - 1] + 1 : b->first[0]);
    }
}

static void step(uint16_t *col, uint16_t *row, uint8_t letter) {
    *col = (uint16_t)(*col + (letter == 0) - (letter == 2));
    *row = (uint16_t)(*row + (letter == 1) - (letter == 3));
}

static void reverse(uint8_t *letters, uint32_t count) {
    for (uint32_t i = 0; i + 1 < count - i; i++) {
        const uint8_t kept = letters[i];
        letters[i] = letters[count - 1 - i];
        letters[count - 1 - i] = kept;
    }
}

/* The same walk, begun so many letters later. */
static void rotate(struct outline *o, uint32_t by) {
    if (o->n == 0) return;
    by %= o->n;
    for (uint32_t i = 0; i < by; i++) step(&o->col, &o->row, o->letters[i]);
    reverse(o->letters, by);
    reverse(o->letters + by, o->n - by);
    reverse(o->letters, o->n);
}

/* The same walk the other way round. */
static void turn_round(struct outline *o) {
    reverse(o->letters, o->n);
    for (uint32_t i = 0; i < o->n; i++) o->letters[i] ^= 2;
}

/* The same block with columns and rows exchanged: anticlockwise, then. */
static void transpose(struct outline *o) {
    const uint16_t col = o->col;
    o->col = o->row;
    o->row = col;
    for (uint32_t i = 0; i < o->n; i++) o->letters[i] ^= 1;
}

/* The cells with (x / a)^2 + (y / b)^2 at most 1: convex, whatever a and b are. */
static void ellipse(struct block *b, int32_t half_width, int32_t half_height) {
    const int32_t w = half_width, h = half_height;
    const int32_t col = w + (int32_t)below((uint32_t)(CHART - 2 * w));
    b->bottom = (int32_t)below((uint32_t)(CHART - 2 * h));
    b->rows = 2 * h + 1;
    int32_t x = 0;
    for (int32_t r = 0; r < b->rows; r++) {
        const int64_t y = r - h, room = (int64_t)w * w * ((int64_t)h * h - y * y);
        while (x < w && (int64_t)(x + 1) * (x + 1) * h * h <= room) x++;
        while (x > 0 && (int64_t)x * x * h * h > room) x--;
        b->first[r] = col - x;
        b->last[r] = col + x;
    }
}

static int32_t clamped(int32_t x, int32_t low, int32_t high) {
    return x < low ? low : x > high ? high : x;
}

static int32_t wander(int32_t x, int32_t by) {
    return x - by + (int32_t)below((uint32_t)(2 * by + 1));
}

/* Rows whose ends wander, within so many columns. */
static void wandering(struct block *b, int32_t width, int32_t height, int32_t by) {
    const int32_t left = (int32_t)below((uint32_t)(CHART - width + 1)), right = left + width - 1;
    b->bottom = (int32_t)below((uint32_t)(CHART - height + 1));
    b->rows = height;
    int32_t first = left + (int32_t)below((uint32_t)width), last = first + (int32_t)below((uint32_t)(right - first + 1));
    for (int32_t r = 0; r < height; r++) {
        b->first[r] = first;
        b->last[r] = last;
        const int32_t next = clamped(wander(first, by), left, last);
        last = clamped(wander(last, by), first > next ? first : next, right);
        first = next;
    }
}

/* A number up to `high`, small ones as often as large ones. */
static int32_t any_size(int32_t high) {
    const uint32_t scale = below(4);
    return (int32_t)between(1, scale == 0 ? 4 : scale == 1 ? 16 : (uint32_t)high);
}

/* Any start, either way, columns and rows exchanged or not. */
static void any_way(struct outline *o) {
    if (once_in(2)) transpose(o);
    if (once_in(2)) turn_round(o);
    rotate(o, below(o->n > 0 ? o->n : 1u));
}

static struct block block;

/* A convex block of any size: an ellipse, or the completion of rows that wander. */
static void draw_convex(struct outline *o) {
    if (once_in(2)) {
        ellipse(&block, any_size(76), any_size(76));
        border_of(&block, o);
    } else {
        static uint8_t letters[RQ_LETTERS];
        rq_reply reply = {0, 0, 0, 0, 0, 0, 0};
        wandering(&block, any_size(200), any_size(100), any_size(12));
        border_of(&block, o);
        rq_complete(o->col, o->row, o->letters, o->n, letters, RQ_LETTERS, &reply);
        if (reply.number == 0) {
            o->col = reply.col;
            o->row = reply.row;
            o->n = reply.place;
            for (uint32_t i = 0; i < o->n; i++) o->letters[i] = letters[i];
        }
    }
    any_way(o);
}

/* One cell more or less at a corner: two letters that differ change places. */
static void flip_cell(struct outline *o) {
    if (o->n < 2) return;
    for (uint32_t tries = 0; tries < 40; tries++) {
        const uint32_t i = below(o->n - 1u);
        const uint8_t here = o->letters[i], next = o->letters[i + 1];
        if (((here ^ next) & 1) == 0) continue;
        o->letters[i] = next;
        o->letters[i + 1] = here;
        return;
    }
}

static void change_letter(struct outline *o) {
    if (o->n > 0) o->letters[below(o->n)] = (uint8_t)below(once_in(4) ? 256 : 4);
}

static void remove_letter(struct outline *o) {
    if (o->n == 0) return;
    o->n--;
    for (uint32_t i = below(o->n + 1u); i < o->n; i++) o->letters[i] = o->letters[i + 1];
}

/* A block that is convex but for what was flipped; rows that wander; or a drawing with a slip of the pen. */
static void draw_dented(struct outline *o) {
    switch (below(4)) {
        case 0:
            wandering(&block, any_size(40), any_size(60), any_size(6));
            border_of(&block, o);
            any_way(o);
            return;
        case 1:
            draw_convex(o);
            if (once_in(2)) change_letter(o);
            else remove_letter(o);
            return;
        default:
            draw_convex(o);
            for (uint32_t flips = once_in(3) ? between(2, 4) : 1; flips > 0; flips--) flip_cell(o);
    }
}

static uint16_t any_count(void) {
    switch (below(8)) {
        case 0: return (uint16_t)below(5);
        case 1: return (uint16_t)between(608, 616);
        case 2: return (uint16_t)below(MOST_LETTERS);
        default: return (uint16_t)below(200);
    }
}

/* Letters that never go straight back, so that the walk goes far. */
static void far_walk(struct outline *o) {
    uint8_t last = (uint8_t)below(4);
    for (uint32_t i = 0; i < o->n; i++) {
        uint8_t letter = once_in(3) ? (uint8_t)below(4) : last;
        if (letter == (last ^ 2)) letter = last;
        o->letters[i] = last = letter;
    }
}

/* As many letters one way as the other, in any order: a walk that closes. */
static void closed_walk(struct outline *o) {
    o->n &= (uint16_t)~1u;
    for (uint32_t i = 0; i + 1 < o->n; i += 2) {
        o->letters[i] = (uint8_t)below(4);
        o->letters[i + 1] = o->letters[i] ^ 2;
    }
    for (uint32_t i = o->n; i > 1; i--) {
        const uint32_t other = below(i);
        const uint8_t kept = o->letters[i - 1];
        o->letters[i - 1] = o->letters[other];
        o->letters[other] = kept;
    }
}

static void garbage(struct outline *o) {
    const uint32_t kind = below(4);
    o->col = (uint16_t)(once_in(16) ? bits() : below(257));
    o->row = (uint16_t)(once_in(16) ? bits() : below(257));
    o->n = any_count();
    for (uint32_t i = 0; i < o->n; i++) o->letters[i] = (uint8_t)(kind == 0 ? bits() : below(4));
    if (kind == 2) far_walk(o);
    if (kind == 3) closed_walk(o);
}

static int32_t common_divisor(int32_t a, int32_t b) {
    return b == 0 ? a : common_divisor(b, a % b);
}

/* Puts a direction in its order, clockwise from up, among `count` others of the quarter to the right of up. */
static void insert_direction(int16_t quarter[][2], uint32_t count, int32_t x, int32_t y) {
    uint32_t at = count;
    for (; at > 0 && x * quarter[at - 1][1] < quarter[at - 1][0] * y; at--) {
        quarter[at][0] = quarter[at - 1][0];
        quarter[at][1] = quarter[at - 1][1];
    }
    quarter[at][0] = (int16_t)x;
    quarter[at][1] = (int16_t)y;
}

/* A list of edges in as many directions as wanted, four times `most`: longer than any outline's. The shortest directions come first. */
static void put_directions(int16_t *edges, uint32_t most) {
    static int16_t quarter[RQ_LIST_NUMBERS / 8][2];
    uint32_t count = 0;
    for (int32_t length = 1; count < most; length++) {
        for (int32_t x = 0; x < length && count < most; x++) {
            if (common_divisor(x, length - x) == 1) insert_direction(quarter, count++, x, length - x);
        }
    }
    for (uint32_t i = 0; i < most; i++) {
        const int16_t x = quarter[i][0], y = quarter[i][1];
        const int16_t turned[] = {x, y, y, (int16_t)-x, (int16_t)-x, (int16_t)-y, (int16_t)-y, x};
        for (uint32_t turn = 0; turn < 8; turn++) edges[2 * (turn / 2 * most + i) + turn % 2] = turned[turn];
    }
}

#endif
