/* The table: instructions and bytes of stack of each call, on drawings of three sizes (measure.h says how). */
#include "measure.h"

/* A line of the table: name, what it is of, the reply's number and word, instructions, bytes of stack. */
static void line(const char *name, uint32_t size, action *before, action *call, uint32_t times) {
    const uint32_t count = instructions(before, call, times), used = stack(before, call);
    put(name);
    put_column(size);
    put_column(reply.number);
    put_column(reply.word);
    put_column(count);
    put_column(used);
    put("\n");
}

/* One cell more or less, so that the outline is refused by 9. */
static void dent(void) {
    dented = shape;
    for (uint32_t tries = 0; tries < 1000; tries++) {
        shape = dented;
        flip_cell(&shape);
        call_test();
        if (reply.number == RQ_REFUSED_DENT) return;
    }
}

/* Outlines with few edges, the least of all, and the one with the most edges. */
static void sides(int32_t side, uint8_t first, uint8_t second) {
    for (int32_t i = 0; i < side; i++) {
        add_letter(&shape, first);
        add_letter(&shape, second);
    }
}

static void test_lines(void) {
    shape.col = shape.row = shape.n = 0;
    for (uint8_t i = 0; i < 4; i++) add_letters(&shape, (uint8_t)((5 - i) % 4), 1);
    line("test, one cell", shape.n, nothing, call_test, 40);
    shape.n = 0;
    for (uint8_t i = 0; i < 4; i++) add_letters(&shape, (uint8_t)((5 - i) % 4), 150);
    line("test, a square", shape.n, nothing, call_test, 40);
    shape.n = 0;
    shape.row = 75;
    for (uint8_t i = 0; i < 4; i++) sides(75, (uint8_t)((5 - i) % 4), (uint8_t)((4 - i) % 4));
    line("test, a diamond", shape.n, nothing, call_test, 40);
    most_edges();
    line("test, 100 edges", shape.n, nothing, call_test, 40);
}

static void set_call(uint8_t number, uint8_t x) {
    memset(bytes, 0, sizeof bytes);
    bytes[0] = number;
    bytes[3] = x;
}

/* The outline drawn and closed as a script, and what a replay of it takes. */
static uint8_t script[RQ_CALL_BYTES * (RQ_LETTERS + 2)];
static rq_reply replies[RQ_LETTERS + 2];
static uint32_t calls;

static void add_call(uint8_t number, uint16_t x, uint16_t y) {
    uint8_t *const call = script + RQ_CALL_BYTES * calls++;
    memset(call, 0, RQ_CALL_BYTES);
    call[0] = number;
    call[3] = (uint8_t)x;
    call[7] = (uint8_t)y;
}

static void call_replay(void) { rq_replay(script, RQ_CALL_BYTES * calls, replies, RQ_LETTERS + 2); }

static void replay_line(void) {
    calls = 0;
    add_call(RQ_CALL_BEGIN, shape.col, shape.row);
    for (uint32_t i = 0; i < shape.n; i++) add_call(RQ_CALL_ADD, shape.letters[i], 0);
    add_call(RQ_CALL_CLOSE, 0, 0);
    memset(replies, 0, sizeof replies);
    call_replay();
    reply = replies[calls - 1];
    line("replay of a drawing", calls, nothing, call_replay, 8);
}

/* What is at work checked, saved and restored; a layer saved and restored; and an image that is refused. */
static void image_lines(void) {
    put_at_work();
    call_pile_set();
    line("check", shape.n, nothing, call_check, 40);
    line("save", shape.n, nothing, call_save, 40);
    line("restore", shape.n, nothing, call_restore, 40);
    line("pile save", shape.n, nothing, call_pile_save, 40);
    line("pile restore", shape.n, nothing, call_pile_restore, 40);
    image[300] ^= 1;
    line("restore, refusal 26", shape.n, nothing, call_restore, 40);
    line("checksum", RQ_IMAGE_BYTES - 4, nothing, call_checksum, 40);
}

static void outline_lines(int32_t half) {
    circle(half);
    line("test, taken", shape.n, nothing, call_test, 40);
    line("pile set", shape.n, nothing, call_pile_set, 40);
    draw_on_holder();
    line("close, taken", shape.n, restore, call_close, 40);
    set_call(RQ_CALL_CLOSE, 0);
    line("close by rq_call", shape.n, restore, call_bytes, 40);
    replay_line();
    image_lines();
    take_edges(&one);
    line("border", shape.n, nothing, call_border, 40);
    line("completion of a taken outline", shape.n, nothing, call_complete, 40);
    dent();
    line("test, refusal 9", shape.n, nothing, call_test, 40);
    line("witness of a dent", shape.n, nothing, call_witness, 40);
    line("completion of a dent", shape.n, nothing, call_complete, 40);
}

/* The calls of a control loop, each refused by every number that there is for it: here the first `count` of 19, 20 and 12. */
static void refused_lines(const char *name, action *call, uint32_t count) {
    party = RQ_PARTIES;
    line(name, RQ_REFUSED_PARTY, restore_heads, call, 400);
    party = 0;
    place = RQ_PLACES;
    if (count > 1) line(name, RQ_REFUSED_PLACE, restore_heads, call, 400);
    place = 1;
    if (count > 2) line(name, RQ_REFUSED_NOTHING_AT_WORK, restore_heads, call, 400);
    place = 0;
}

static void question_refusals(void) {
    refused_lines("query, refused", call_query, 3);
    refused_lines("row, refused", call_row, 3);
    refused_lines("reading, refused", call_reading, 3);
    refused_lines("piece, refused", call_piece, 3);
    col = row = RQ_SIDE;
    angle = -1.0f;
    line("query, refused", RQ_REFUSED_CELL, nothing, call_query, 400);
    line("row, refused", RQ_REFUSED_CELL, nothing, call_row, 400);
    line("reading, refused", RQ_REFUSED_CELL, nothing, call_reading, 400);
    col = row = 80;
    angle = 80.0f;
}

static void at_work_lines(void) {
    const uint32_t count = one.m / 2u;
    put_at_work();
    col = row = 80;
    angle = load = 80.0f;
    line("query", count, nothing, call_query, 400);
    line("row", count, nothing, call_row, 400);
    line("reading, inside", count, nothing, call_reading, 400);
    angle = load = 1.0f;
    line("reading, outside", count, nothing, call_reading, 400);
    line("loose query, inside", count, nothing, call_loose, 400);
    col = 0;
    line("piece, first", count, nothing, call_piece, 400);
    col = (uint16_t)(count - 1);
    line("piece, last line", count, nothing, call_piece, 400);
    question_refusals();
}

/* The draft of party 0 is open, and party 1 has none. */
static void draft_refusals(void) {
    refused_lines("add, refused", call_add, 1);
    refused_lines("begin, refused", call_begin, 1);
    refused_lines("draft, refused", call_draft, 1);
    refused_lines("drop, refused", call_drop, 1);
    refused_lines("clear, refused", call_clear, 2);
    line("begin, refused", RQ_REFUSED_DRAFT_OPEN, restore_heads, call_begin, 400);
    letter = 4;
    line("add, refused", RQ_REFUSED_LETTER, restore_heads, call_add, 400);
    letter = 1;
    party = 1;
    line("add, refused", RQ_REFUSED_NO_DRAFT, restore_heads, call_add, 400);
    line("draft, refused", RQ_REFUSED_NO_DRAFT, restore_heads, call_draft, 400);
    line("drop, refused", RQ_REFUSED_NO_DRAFT, restore_heads, call_drop, 400);
    corner = 256;
    line("begin, refused", RQ_REFUSED_START, restore_heads, call_begin, 400);
    corner = 5;
    party = 0;
    rq_fresh(&holder);
    rq_begin(&holder, 0, 5, 5, &reply);
    for (uint32_t i = 0; i < RQ_LETTERS; i++) rq_add(&holder, 0, 1, &reply);
    line("add, refused", RQ_REFUSED_DRAFT_FULL, nothing, call_add, 400);
    restore();
}

static void holder_lines(void) {
    draft_refusals();
    line("add", 0, restore_heads, call_add, 400);
    set_call(RQ_CALL_ADD, 1);
    line("add by rq_call", 0, restore_heads, call_bytes, 400);
    set_call(RQ_CALL_QUERY, 80);
    line("query by rq_call", 0, nothing, call_bytes, 400);
    line("draft", 0, restore_heads, call_draft, 400);
    line("drop", 0, restore_heads, call_drop, 400);
    kept.heads[0] = 0;
    line("begin", 0, restore_heads, call_begin, 400);
    line("clear", 0, nothing, call_clear, 400);
    line("fresh", 0, nothing, call_fresh, 40);
}

/* A circle's hull from a given anchor. */
static void circle_at(struct hull *h, int32_t half, uint16_t at_col, uint16_t at_row) {
    circle(half);
    take_edges(h);
    h->col = at_col;
    h->row = at_row;
}

static void compare_lines(void) {
    circle_at(&one, 76, 20, 100);
    circle_at(&two, 76, 20, 100);
    line("compare, equal", one.m / 2u, nothing, call_compare, 40);
    circle_at(&two, 30, 60, 100);
    line("compare, second within first", one.m / 2u, nothing, call_compare, 40);
    circle_at(&two, 76, 30, 104);
    line("compare, crossing", one.m / 2u, nothing, call_compare, 40);
    many_directions(&one, 33, 0, 125);
    many_directions(&two, 33, 1, 126);
    line("compare, crossing", one.m / 2u, nothing, call_compare, 40);
    circle_at(&one, 50, 0, 100);
    circle_at(&two, 50, 120, 100);
    line("compare, no common cell", one.m / 2u, nothing, call_compare, 40);
}

/* As long a list as is taken: its hull is far larger than the chart. */
static void long_list_lines(void) {
    many_directions(&one, RQ_LIST_NUMBERS / 8, 0, 0);
    col = row = 120;
    line("loose query, inside", one.m / 2u, nothing, call_loose, 40);
    line("border, refusal 17", one.m / 2u, nothing, call_border, 40);
    line("compare, refusal 11", one.m / 2u, nothing, call_compare, 40);
}

static int table(void) {
    seed(7, 7, 7);
    rq_pile_fresh(&pile);
    put("call\tof\tnumber\tword\tinstructions\tstack\n");
    test_lines();
    outline_lines(12);
    outline_lines(37);
    outline_lines(76);
    octagon(150, 40);
    take_edges(&one);
    at_work_lines();
    most_edges();
    take_edges(&one);
    at_work_lines();
    holder_lines();
    long_list_lines();
    circle(74);
    set_all_layers();
    line("pile check, sixteen layers", shape.n, nothing, call_pile_check, 8);
    line("pile check, one section", shape.n, nothing, call_pile_step, 510);
    col = row = 80;
    line("pile query", 16, nothing, call_pile_query, 400);
    col = RQ_SIDE;
    line("pile query, refused", RQ_REFUSED_CELL, nothing, call_pile_query, 400);
    layer = RQ_LAYERS;
    line("pile query, refused", RQ_REFUSED_LAYER, nothing, call_pile_query, 400);
    layer = 3;
    compare_lines();
    return 0;
}

int program(uint32_t first, uint32_t second) {
    (void)first;
    (void)second;
    return table();
}
