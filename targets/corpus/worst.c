/*
 * The worst inputs that a search finds for each call, by instructions (measure.h says how they are counted). The search draws an input,
 * changes it a little, and keeps what takes no fewer instructions. When nothing better is found for long, it starts anew. The numbers of
 * the command line: the seed, and by how much longer than usual the search is.
 */
#include "measure.h"

/* What a call is given: outlines, a cell, a reading. */
static struct input {
    struct outline outline, second;
    uint16_t col, row;
    uint32_t angle, load;
} now, best, most;

static void draw_any(struct outline *o) {
    switch (below(6)) {
        case 0:
            most_edges();
            *o = shape;
            break;
        case 1:
            circle((int32_t)between(60, 76));
            *o = shape;
            break;
        case 2: draw_dented(o); break;
        default: draw_convex(o);
    }
}

static void change_outline(struct outline *o) {
    switch (below(10)) {
        case 0: draw_any(o); break;
        case 1: rotate(o, below(o->n > 0 ? o->n : 1u)); break;
        case 2: turn_round(o); break;
        case 3: change_letter(o); break;
        default: flip_cell(o);
    }
}

/* Readings are 64ths. */
static void change_numbers(void) {
    switch (below(4)) {
        case 0: now.col = (uint16_t)(now.col + below(5) - 2); break;
        case 1: now.row = (uint16_t)(now.row + below(5) - 2); break;
        case 2: now.angle = once_in(2) ? below(254 * 64) : now.angle + below(65) - 32; break;
        default: now.load = once_in(2) ? below(254 * 64) : now.load + below(65) - 32;
    }
}

/* A cell and a reading in the middle of the outline, where it has one. */
static void aim(void) {
    shape = now.outline;
    take_edges(&one);
    uint32_t right = one.col, x = one.col, top = one.row, y = one.row;
    for (uint32_t i = 0; i + 1 < one.m; i += 2) {
        x += (uint32_t)one.edges[i];
        y += (uint32_t)one.edges[i + 1];
        if (x > right) right = x;
        if (y > top) top = y;
    }
    now.col = (uint16_t)((one.col + right) / 2);
    now.row = (uint16_t)((one.row + top) / 2);
    now.angle = 64u * now.col;
    now.load = 64u * now.row;
}

static void start_anew(void) {
    draw_any(&now.outline);
    now.second = now.outline;
    aim();
}

static void change(void) {
    switch (below(4)) {
        case 0: change_numbers(); break;
        case 1: change_outline(&now.second); break;
        default: change_outline(&now.outline);
    }
}

/* How an input becomes what the calls of measure.h take. */
static void give_outline(void) {
    shape = now.outline;
}

static void give_draft(void) {
    give_outline();
    draw_on_holder();
}

static void give_numbers(void) {
    col = now.col;
    row = now.row;
    angle = (float)now.angle / 64;
    load = (float)now.load / 64;
}

static void give_work(void) {
    give_outline();
    put_at_work();
    give_numbers();
}

static void give_image(void) {
    give_outline();
    image_of(&shape);
}

static void give_layer(void) {
    give_outline();
    call_pile_set();
}

static void give_position(void) {
    give_work();
    col = now.col % 128;
}

/* Lists of edges: those of the outlines, moved a little; or lists in more directions than an outline has. */
static void give_hulls(void) {
    shape = now.second;
    take_edges(&two);
    give_outline();
    take_edges(&one);
    give_numbers();
    if (now.col % 3 == 0) two.col = (uint16_t)(two.col + now.row % 5);
    if (now.angle % 3 == 0) many_directions(&one, now.load % 5 == 0 ? RQ_LIST_NUMBERS / 8 : 30 + now.load % 7, now.col % 64, now.row % 255);
    if (now.angle % 5 == 0) many_directions(&two, 30 + now.load / 8 % 7, (uint16_t)(now.col % 64 + now.load % 3), now.row % 255);
}

static uint32_t count(action *give, action *call, uint32_t times) {
    give();
    return ticks_of(nothing, call, times);
}

static void put_outline(const char *name, const struct outline *o) {
    put("\t");
    put(name);
    put(" ");
    put_number(o->col);
    put(" ");
    put_number(o->row);
    put(" ");
    for (uint32_t i = 0; i < o->n; i++) put_number(o->letters[i]);
}

static void put_line(const char *name, uint32_t size, uint32_t instructions_of, uint32_t bytes_of) {
    put(name);
    put_column(size);
    put_column(reply.number);
    put_column(reply.word);
    put_column(instructions_of);
    put_column(bytes_of);
}

/* A close and an add alter the holder, which is restored each time. */
static uint32_t exactly(action *call) {
    if (call == call_close) return instructions(restore, call, 40);
    return instructions(call == call_add ? restore_heads : nothing, call, 40);
}

static void report(const char *name, action *give, action *call) {
    now = most;
    give();
    const uint32_t exact = exactly(call);
    give();
    const uint32_t used = stack(nothing, call);
    put_line(name, now.outline.n, exact, used);
    put_outline("outline", &now.outline);
    if (call == call_compare) put_outline("and", &now.second);
    if (give == give_work || give == give_position || give == give_hulls) {
        put("\tnumbers ");
        put_number(now.col);
        put(" ");
        put_number(now.row);
        put(", 64ths ");
        put_number(now.angle);
        put(" ");
        put_number(now.load);
    }
    put("\n");
}

/* `times` calls are timed at once: one where a call alters what it works on, or is long. */
static void search(const char *name, action *give, action *call, uint32_t times, uint32_t steps) {
    uint32_t here = 0, top = 0, failures = 0;
    for (uint32_t i = 0; i < steps; i++) {
        if (i == 0 || failures > 400) start_anew(), here = failures = 0;
        else now = best, change();
        const uint32_t found = count(give, call, times);
        failures = found > here ? 0 : failures + 1;
        if (found >= here) here = found, best = now;
        if (found > top) top = found, most = now;
    }
    report(name, give, call);
}

/* A pile: one layer is changed at a time. */
static rq_pile best_pile;

static void change_pile(void) {
    pile = best_pile;
    draw_any(&now.outline);
    for (uint32_t flips = below(4); flips > 0; flips--) flip_cell(&now.outline);
    const uint8_t first = (uint8_t)below(RQ_LAYERS), last = (uint8_t)(once_in(4) ? first + below(RQ_LAYERS) : first);
    for (uint8_t layer = first; layer <= last && layer < RQ_LAYERS; layer++) {
        if (once_in(8)) rq_pile_empty(&pile, layer, &reply);
        else rq_pile_set(&pile, layer, now.outline.col, now.outline.row, now.outline.letters, now.outline.n, &reply);
    }
}

static void search_pile(uint32_t steps) {
    circle(76);
    set_all_layers();
    best_pile = pile;
    uint32_t top = ticks_of(nothing, call_pile_check, 1);
    for (uint32_t i = 0; i < steps; i++) {
        change_pile();
        const uint32_t found = ticks_of(nothing, call_pile_check, 1);
        if (found >= top) top = found, best_pile = pile;
    }
    pile = best_pile;
    const uint32_t exact = instructions(nothing, call_pile_check, 1);
    put_line("pile check", RQ_LAYERS, exact, stack(nothing, call_pile_check));
    put("\n");
}

int program(uint32_t from, uint32_t longer) {
    const uint32_t steps = 4000 * (longer + 1);
    seed(from, 3, 3);
    rq_pile_fresh(&pile);
    put("call\tof\tnumber\tword\tinstructions\tstack\tinput\n");
    search("test", give_outline, call_test, 1, steps);
    search("witness", give_outline, call_witness, 1, steps);
    search("completion", give_outline, call_complete, 1, steps);
    search("close", give_draft, call_close, 1, steps);
    search("border", give_hulls, call_border, 1, steps);
    search("loose query", give_hulls, call_loose, 4, steps);
    search("comparison", give_hulls, call_compare, 1, steps);
    search("add", give_draft, call_add, 1, steps);
    search("query", give_work, call_query, 40, steps);
    search("row", give_work, call_row, 40, steps);
    search("reading", give_work, call_reading, 4, steps);
    search("piece", give_position, call_piece, 4, steps);
    search("check", give_work, call_check, 1, steps);
    search("save", give_work, call_save, 1, steps);
    search("restore", give_image, call_restore, 1, steps);
    search("pile set", give_outline, call_pile_set, 1, steps);
    search("pile save", give_layer, call_pile_save, 1, steps);
    search("pile restore", give_image, call_pile_restore, 1, steps);
    search_pile(steps / 20);
    search("pile query", give_numbers, call_pile_query, 40, steps);
    return 0;
}
