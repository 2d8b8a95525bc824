/*
 * Questions between any two instructions of a call that alters a holder or a pile, as an interrupt would ask them. All answers at a place
 * of a holder must be those from before the call, or all those from after it; so must what is told of each draft, and all answers of a
 * pile. The port runs a call instruction by instruction, and whenever memory has changed, questions are asked. The status is 1 where an
 * answer is neither, and 2 where the machine cannot be stepped.
 *
 * The numbers of the command line: a seed, and how many cells are asked at each place; 0 asks every cell where the call acts.
 */
#include <string.h>

#include "random.h"
#include "robequarry.h"
#include "shapes.h"
#include "text.h"

static rq_holder holder, seen_holder, old_holder, new_holder;
static rq_pile pile, seen_pile, old_pile, new_pile;
static rq_reply reply;
static struct outline shape;

/* What the call acts on. A layer is a place, too. */
static uint8_t party, place;

static uint32_t cells, steps, contents, wrong, all_wrong;

/* Without a branch in the loop, so that a compiler can compare many bytes at once. */
static bool same_bytes(const void *a, const void *b, uint32_t size) {
    const uint8_t *one = a, *two = b;
    uint8_t different = 0;
    for (uint32_t i = 0; i < size; i++) different |= one[i] ^ two[i];
    return different == 0;
}

/* ---- what is asked */

/* One question: a cell, a row, a reading or a path command, at one place of a holder. */
struct question {
    enum { CELL, ROW, READING, PIECE } kind;
    uint16_t col, row;
};

struct answer {
    rq_reply reply;
    float point[2];
};

static void ask(const rq_holder *h, uint8_t whose, uint8_t at, struct question q, struct answer *a) {
    memset(a, 0, sizeof *a);
    switch (q.kind) {
        case CELL: rq_query(h, whose, at, q.col, q.row, &a->reply); break;
        case ROW: rq_row(h, whose, at, q.row, &a->reply); break;
        case READING: rq_reading(h, whose, at, (float)q.col * 0.9375f, (float)q.row * 0.9375f, &a->reply); break;
        default: rq_piece(h, whose, at, q.row % (RQ_MOST_EDGES + 2), a->point, &a->reply);
    }
}

/* Whether all answers so far are the old ones, and whether all are the new ones. */
struct agreement {
    bool with_old, with_new;
};

static void agree(struct agreement *so_far, const void *now, const void *old, const void *new, uint32_t size) {
    so_far->with_old = so_far->with_old && same_bytes(now, old, size);
    so_far->with_new = so_far->with_new && same_bytes(now, new, size);
}

static void compare_holders(struct agreement *so_far, uint8_t whose, uint8_t at, struct question q) {
    struct answer now, old, new;
    ask(&holder, whose, at, q, &now);
    ask(&old_holder, whose, at, q, &old);
    ask(&new_holder, whose, at, q, &new);
    agree(so_far, &now, &old, &new, sizeof now);
}

/* Cells anywhere, and as often where a row of the old or the new outline ends. */
static struct question any_question(uint8_t whose, uint8_t at) {
    const uint32_t kind = below(8);
    struct question q = {kind < 3 ? ROW + (int)kind : CELL, (uint16_t)below(RQ_SIDE), (uint16_t)below(RQ_SIDE)};
    rq_reply row = {0, 0, 0, 0, 0, 0, 0};
    rq_row(once_in(2) ? &old_holder : &new_holder, whose, at, q.row, &row);
    if (row.word == RQ_WORD_COLUMNS && once_in(2)) q.col = once_in(2) ? row.col : rq_last_column(&row);
    return q;
}

static void ask_place(uint8_t whose, uint8_t at) {
    struct agreement so_far = {true, true};
    for (uint32_t i = cells > 0 ? cells : 400; i > 0; i--) compare_holders(&so_far, whose, at, any_question(whose, at));
    if (cells == 0 && whose == party && at == place) {
        for (uint16_t row = 0; row < RQ_SIDE; row++) {
            for (uint16_t col = 0; col < RQ_SIDE; col++) compare_holders(&so_far, whose, at, (struct question){CELL, col, row});
        }
    }
    wrong += !so_far.with_old && !so_far.with_new;
}

/* Whether memory is sound, and what a save writes: a longer question, so on a controller it is asked less often. */
struct saved {
    rq_reply checked, reply;
    uint8_t image[RQ_IMAGE_BYTES];
};

static void save(const rq_holder *h, uint8_t whose, uint8_t at, struct saved *s) {
    memset(s, 0, sizeof *s);
    rq_check(h, whose, at, &s->checked);
    rq_save(h, whose, at, s->image, sizeof s->image, &s->reply);
}

static void ask_image(uint8_t whose, uint8_t at) {
    static struct saved now, old, new;
    struct agreement so_far = {true, true};
    save(&holder, whose, at, &now);
    save(&old_holder, whose, at, &old);
    save(&new_holder, whose, at, &new);
    agree(&so_far, &now, &old, &new, sizeof now);
    wrong += !so_far.with_old && !so_far.with_new;
}

static void ask_draft(uint8_t whose) {
    struct agreement so_far = {true, true};
    rq_reply now = RQ_REPLY_INIT, old = RQ_REPLY_INIT, new = RQ_REPLY_INIT;
    rq_draft(&holder, whose, &now);
    rq_draft(&old_holder, whose, &old);
    rq_draft(&new_holder, whose, &new);
    agree(&so_far, &now, &old, &new, sizeof now);
    wrong += !so_far.with_old && !so_far.with_new;
}

/* While a holder is made fresh, its drafts are not asked about. */
static bool ask_drafts;

static void ask_holder(void) {
    if (once_in(cells == 0 ? 2 : 32)) ask_image(party, place < RQ_PLACES ? place : 0);
    for (uint8_t whose = 0; whose < RQ_PARTIES; whose++) {
        if (ask_drafts) ask_draft(whose);
        for (uint8_t at = 0; at < RQ_PLACES; at++) ask_place(whose, at);
    }
}

/* As often where the squares of the layers are. */
static void ask_pile(void) {
    struct agreement so_far = {true, true};
    for (uint32_t i = cells > 0 ? 16 * cells : 40000; i > 0; i--) {
        rq_reply now = {0, 0, 0, 0, 0, 0, 0}, old = now, new = now;
        const uint8_t layer = (uint8_t)below(RQ_LAYERS);
        const bool near = once_in(2);
        const uint16_t col = (uint16_t)(near ? between(98, 114) : below(RQ_SIDE));
        const uint16_t row = (uint16_t)(near ? between(98, 114) : below(RQ_SIDE));
        rq_pile_query(&pile, layer, col, row, &now);
        rq_pile_query(&old_pile, layer, col, row, &old);
        rq_pile_query(&new_pile, layer, col, row, &new);
        agree(&so_far, &now, &old, &new, sizeof now);
    }
    wrong += !so_far.with_old && !so_far.with_new;
}

/* ---- stepping through a call */

/* What is altered: now, when it was last asked, before the call and after it. */
static struct {
    void *now, *seen, *old, *new;
    uint32_t size;
    void (*ask)(void);
} subject;

static void look(void) {
    steps++;
    if (same_bytes(subject.now, subject.seen, subject.size)) return;
    memcpy(subject.seen, subject.now, subject.size);
    contents++;
    subject.ask();
}

static void put_line(const char *name, uint32_t letters) {
    put("  ");
    put(name);
    if (letters > 0) {
        put(" of ");
        put_number(letters);
        put(" letters");
    }
    put(reply.number == 0 ? ": " : ": refused by ");
    if (reply.number > 0) {
        put_number(reply.number);
        put("; ");
    }
    put_number(steps);
    put(" instructions, ");
    put_number(contents);
    put(" contents of memory, ");
    put_number(wrong);
    put(wrong == 1 ? " wrong answer\n" : " wrong answers\n");
}

/* The call is made once to see what it leaves, memory is put back, and it is made again, instruction by instruction. */
static void step_through(const char *name, uint32_t letters, void (*call)(void)) {
    memset(&reply, 0, sizeof reply);
    memcpy(subject.old, subject.now, subject.size);
    call();
    const rq_reply expected = reply;
    memcpy(subject.new, subject.now, subject.size);
    memcpy(subject.now, subject.old, subject.size);
    memcpy(subject.seen, subject.old, subject.size);
    steps = contents = wrong = 0;
    port_step(call, look);
    look();
    wrong += !same_bytes(&reply, &expected, sizeof reply) || !same_bytes(subject.now, subject.new, subject.size);
    put_line(name, letters);
    all_wrong += wrong;
}

/* ---- a holder */

static void make_begin(void) { rq_begin(&holder, party, shape.col, shape.row, &reply); }
static void make_add(void) { rq_add(&holder, party, shape.letters[0], &reply); }
static void make_drop(void) { rq_drop(&holder, party, &reply); }
static void make_clear(void) { rq_clear(&holder, party, place, &reply); }
static void make_close(void) { rq_close(&holder, party, place, &reply); }
static void make_fresh(void) { rq_fresh(&holder); }

/* An image of the shape, or of an empty place. */
static uint8_t image[RQ_IMAGE_BYTES];
static void make_restore(void) { rq_restore(&holder, party, place, image, sizeof image, &reply); }

static void image_of(const struct outline *o) {
    memset(image, 0, sizeof image);
    image[0] = 0x4b;
    image[1] = 0x4f;
    image[2] = (uint8_t)o->col;
    image[3] = (uint8_t)o->row;
    image[4] = (uint8_t)o->n;
    image[5] = (uint8_t)(o->n >> 8);
    for (uint32_t i = 0; i < o->n; i++) image[6 + i] = o->letters[i];
    const uint32_t sum = rq_checksum(image, sizeof image - 4);
    for (uint32_t i = 0; i < 4; i++) image[sizeof image - 4 + i] = (uint8_t)(sum >> 8 * i);
}

static uint8_t bytes[RQ_CALL_BYTES];
static void make_bytes(void) { rq_call(&holder, bytes, sizeof bytes, &reply); }

static void draw(const struct outline *o) {
    rq_drop(&holder, party, &reply);
    rq_begin(&holder, party, o->col, o->row, &reply);
    for (uint32_t i = 0; i < o->n; i++) rq_add(&holder, party, o->letters[i], &reply);
}

/* A convex block with so many letters. */
static void convex(uint32_t least, uint32_t most) {
    do draw_convex(&shape);
    while (shape.n < least || shape.n > most);
}

static void dented(uint32_t least, uint32_t most) {
    do {
        convex(least, most);
        flip_cell(&shape);
        rq_test(shape.col, shape.row, shape.letters, shape.n, (int16_t[RQ_EDGE_NUMBERS]){0}, RQ_EDGE_NUMBERS, &reply);
    } while (reply.number != RQ_REFUSED_DENT);
}

/* Something is at work at every place, and both parties have drafts. */
static void fill_holder(void) {
    rq_fresh(&holder);
    for (party = 0; party < RQ_PARTIES; party++) {
        for (place = 0; place < RQ_PLACES; place++) {
            convex(40, 120);
            draw(&shape);
            make_close();
        }
        convex(40, 120);
        draw(&shape);
    }
}

static void as_bytes(uint8_t number) {
    memset(bytes, 0, sizeof bytes);
    bytes[0] = number;
    bytes[1] = party;
    bytes[2] = place;
    bytes[3] = shape.letters[0];
}

static void step_close(const char *name, void (*call)(void)) {
    draw(&shape);
    step_through(name, shape.n, call);
}

/* Over what is at work, over nothing, over the same, and refused. */
static void step_closes(uint32_t least, uint32_t most) {
    convex(least, most);
    step_close("close", make_close);
    step_close("close, the same", make_close);
    convex(least, most);
    as_bytes(RQ_CALL_CLOSE);
    step_close("close as bytes", make_bytes);
    step_through("clear", 0, make_clear);
    step_close("close over nothing", make_close);
    dented(least, most);
    step_close("close", make_close);
}

/* Over what is at work, the same again, refused by 9 and by 26, an empty place, and over nothing. */
static void step_restores(uint32_t least, uint32_t most) {
    convex(least, most);
    image_of(&shape);
    step_through("restore", shape.n, make_restore);
    step_through("restore, the same", shape.n, make_restore);
    dented(least, most);
    image_of(&shape);
    step_through("restore", shape.n, make_restore);
    image[7] ^= 1;
    step_through("restore", shape.n, make_restore);
    shape.n = 0;
    image_of(&shape);
    step_through("restore of an empty place", 0, make_restore);
    convex(least, most);
    image_of(&shape);
    step_through("restore over nothing", shape.n, make_restore);
}

static void step_holder(void) {
    subject.now = &holder;
    subject.seen = &seen_holder;
    subject.old = &old_holder;
    subject.new = &new_holder;
    subject.size = sizeof holder;
    subject.ask = ask_holder;
    for (uint8_t whose = 0; whose < RQ_PARTIES; whose++) {
        fill_holder();
        ask_drafts = true;
        party = whose;
        place = (uint8_t)below(RQ_PLACES);
        step_through("begin", 0, make_begin);
        step_through("add", 0, make_add);
        as_bytes(RQ_CALL_ADD);
        step_through("add as bytes", 0, make_bytes);
        step_through("drop", 0, make_drop);
        step_through("begin", 0, make_begin);
        as_bytes(RQ_CALL_DROP);
        step_through("drop as bytes", 0, make_bytes);
        as_bytes(RQ_CALL_BEGIN);
        step_through("begin as bytes", 0, make_bytes);
        step_closes(40, 120);
        if (cells == 0) step_closes(400, RQ_LETTERS);
        draw(&shape);
        step_restores(40, 120);
        as_bytes(RQ_CALL_CLEAR);
        step_through("clear as bytes", 0, make_bytes);
        place = RQ_PLACES;
        step_through("close", 0, make_close);
        place = 0;
        ask_drafts = false;
        step_through("fresh", 0, make_fresh);
    }
}

/* ---- a pile */

static void make_set(void) { rq_pile_set(&pile, place, shape.col, shape.row, shape.letters, shape.n, &reply); }
static void make_empty(void) { rq_pile_empty(&pile, place, &reply); }
static void make_check(void) { rq_pile_check(&pile, &reply); }
static void make_step(void) { rq_pile_check_step(&pile, 60, &reply); }
static void make_last_step(void) { rq_pile_check_step(&pile, 2 * RQ_SIDE, &reply); }
static void make_pile_fresh(void) { rq_pile_fresh(&pile); }
static void make_pile_restore(void) { rq_pile_restore(&pile, place, image, sizeof image, &reply); }

static void square(void) {
    shape.col = shape.row = 100;
    shape.n = 0;
    for (uint8_t i = 0; i < 4; i++) add_letters(&shape, (uint8_t)((5 - i) % 4), 12);
}

static void step_pile(void) {
    subject.now = &pile;
    subject.seen = &seen_pile;
    subject.old = &old_pile;
    subject.new = &new_pile;
    subject.size = sizeof pile;
    subject.ask = ask_pile;
    rq_pile_fresh(&pile);
    square();
    for (place = 3; place < 6; place++) make_set();
    step_through("pile check, 60 sections", 0, make_step);
    step_through("pile check, all that are left", 0, make_last_step);
    rq_pile_fresh(&pile);
    for (place = 3; place < 6; place++) make_set();
    step_through("pile check", 0, make_check);
    place = 4;
    convex(40, 120);
    step_through("pile set", shape.n, make_set);
    square();
    make_set();
    make_check();
    step_through("pile empty", 0, make_empty);
    step_through("pile check", 0, make_check);
    step_through("pile check, a step", 0, make_last_step);
    make_set();
    make_check();
    image_of(&shape);
    step_through("pile restore", shape.n, make_pile_restore);
    make_check();
    image[7] ^= 1;
    step_through("pile restore", shape.n, make_pile_restore);
    step_through("pile fresh", 0, make_pile_fresh);
}

int program(uint32_t first, uint32_t second) {
    if (!port_can_step()) {
        put("interrupts: this machine cannot be stepped\n");
        return 2;
    }
    seed(first == 0 ? 1 : first, 0, 0);
    cells = second;
    step_holder();
    step_pile();
    put(all_wrong == 0 ? "interrupts: every answer is from before the call or from after it\n" : "interrupts: there are WRONG ANSWERS\n");
    return all_wrong == 0 ? 0 : 1;
}
