/*
 * One corpus of inputs for every target, from a seed. Every reply and every buffer goes into a hash, and so does the memory of holders
 * and piles. A line is written for each block of inputs. Targets that agree write the same lines.
 *
 * The numbers of the command line: the seed, and a block. With a block, that one alone is run, and every input and reply is written.
 */
#include <string.h>

#include "random.h"
#include "robequarry.h"
#include "shapes.h"
#include "text.h"

/* What is counted and hashed. */
static struct {
    uint32_t a, b, inputs, calls;
    bool detailed;
} run;

static void hash(uint32_t half) {
    run.a = (run.a ^ half) * 0x01000193u;
    run.b = (run.b + half) * 0x85ebca6bu;
    run.b ^= run.b >> 13;
}

static void hash_bytes(const void *memory, uint32_t count) {
    const uint8_t *bytes = memory;
    for (uint32_t i = 0; i + 1 < count; i += 2) hash((uint32_t)(bytes[i] | bytes[i + 1] << 8));
    if (count % 2 == 1) hash(bytes[count - 1]);
}

/* The list of a call's own numbers, where each is wanted: "name 1 2 3". */
static void put_list(const char *name, const int32_t *numbers, uint32_t count) {
    put(name);
    for (uint32_t i = 0; i < count; i++) {
        put(" ");
        put_signed(numbers[i]);
    }
}

#define SAY(name, ...) \
    do { \
        if (run.detailed) { \
            const int32_t numbers[] = {__VA_ARGS__}; \
            put_list("  " name, numbers, sizeof numbers / sizeof numbers[0]); \
            put("\n"); \
        } \
    } while (0)

static void new_input(void) {
    run.inputs++;
}

/* After a call: its reply. */
static void told(const char *call, const rq_reply *reply) {
    run.calls++;
    hash_bytes(reply, sizeof *reply);
    if (!run.detailed) return;
    const int32_t numbers[] = {reply->number, reply->word, reply->place, reply->piece, reply->length, reply->col, reply->row};
    put_list(call, numbers, RQ_REPLY_NUMBERS);
    put(" hash ");
    put_hex(run.a);
    put_hex(run.b);
    put("\n");
}

static void put_letters(const uint8_t *letters, uint32_t count) {
    for (uint32_t i = 0; i < count; i++) {
        if (letters[i] > 9) put(".");
        put_number(letters[i]);
        if (letters[i] > 9) put(".");
    }
}

static void say_outline(const struct outline *o) {
    if (!run.detailed) return;
    const int32_t start[] = {o->col, o->row};
    put_list("  outline", start, 2);
    put(" ");
    put_letters(o->letters, o->n);
    put("\n");
}

static const rq_reply blank = {77, 77, 77, 77, 77, 77, 77};

/* A list of edges, from an anchor. */
enum { MOST_NUMBERS = 2100 };
struct hull {
    uint16_t col, row, m;
    int16_t edges[MOST_NUMBERS];
};

static void say_hull(const struct hull *h) {
    if (!run.detailed) return;
    const int32_t anchor[] = {h->col, h->row};
    put_list("  anchor", anchor, 2);
    put(" edges");
    for (uint32_t i = 0; i < h->m; i++) {
        put(" ");
        put_signed(h->edges[i]);
    }
    put("\n");
}

/* The length of a buffer: enough, or sometimes any up to that. */
static uint32_t room(uint32_t enough) {
    return once_in(8) ? below(enough + 1) : enough;
}

/* Tests an outline. True, with its edges in `h`, where it is taken. */
static bool test(const struct outline *o, struct hull *h) {
    int16_t edges[RQ_EDGE_NUMBERS + 2];
    const uint32_t m = room(RQ_EDGE_NUMBERS);
    rq_reply reply = blank;
    memset(edges, 77, sizeof edges);
    rq_test(o->col, o->row, o->letters, o->n, edges, m, &reply);
    hash_bytes(edges, sizeof edges);
    told("test", &reply);
    if (reply.number != 0) return false;
    h->col = reply.col;
    h->row = reply.row;
    h->m = (uint16_t)(2 * reply.place);
    memcpy(h->edges, edges, sizeof(int16_t) * h->m);
    return true;
}

static void witness(const struct outline *o) {
    uint16_t cells[RQ_WITNESS_NUMBERS + 2];
    const uint32_t m = room(RQ_WITNESS_NUMBERS + 1);
    rq_reply reply = blank;
    memset(cells, 77, sizeof cells);
    rq_witness(o->col, o->row, o->letters, o->n, cells, m, &reply);
    hash_bytes(cells, sizeof cells);
    told("witness", &reply);
}

static void complete(const struct outline *o) {
    static uint8_t out[RQ_LETTERS + 2];
    const uint32_t m = room(RQ_LETTERS);
    rq_reply reply = blank;
    memset(out, 77, sizeof out);
    rq_complete(o->col, o->row, o->letters, o->n, out, m, &reply);
    hash_bytes(out, sizeof out);
    told("complete", &reply);
}

static void border(const struct hull *h) {
    static uint8_t letters[RQ_LETTERS + 2];
    const uint32_t n = room(RQ_LETTERS);
    rq_reply reply = blank;
    memset(letters, 77, sizeof letters);
    rq_border(h->col, h->row, h->edges, h->m, letters, n, &reply);
    hash_bytes(letters, sizeof letters);
    told("border", &reply);
}

static uint16_t near(uint16_t number) {
    return (uint16_t)(once_in(16) ? bits() : once_in(4) ? below(256) : number + below(40));
}

static void loose_query(const struct hull *h) {
    const uint16_t col = near(h->col), row = (uint16_t)(near(h->row) - (once_in(2) ? below(20) : 0));
    rq_reply reply = blank;
    SAY("cell", col, row);
    rq_loose_query(h->col, h->row, h->edges, h->m, col, row, &reply);
    told("loose query", &reply);
}

static void compare(const struct hull *one, const struct hull *two) {
    rq_reply reply = blank;
    rq_compare(one->col, one->row, one->edges, one->m, two->col, two->row, two->edges, two->m, &reply);
    told("compare", &reply);
}

static struct outline outline;
static struct hull hull, others[4];
static uint32_t other;

/* An outline through every call that takes one, and its edges through every call that takes those. */
static void every_call(const struct outline *o) {
    new_input();
    say_outline(o);
    const bool taken = test(o, &hull);
    witness(o);
    complete(o);
    if (!taken) return;
    border(&hull);
    loose_query(&hull);
    loose_query(&hull);
    compare(&hull, &others[other % 4]);
    compare(&others[(other + 1) % 4], &hull);
    others[++other % 4] = hull;
}

/* Specimens: a start, and letters as digits. */
static const struct {
    uint16_t col, row;
    const char *digits;
} specimens[] = {
    {0, 0, "1032"},         {0, 0, "10003222"},     {0, 1, "101030323212"}, {1, 1, "210103032321"}, {0, 0, "11030322"},
    {0, 0, "111033003222"}, {0, 0, "110301033222"}, {0, 0, "1023"},         {0, 0, "0123"},         {0, 0, "103"},
    {255, 0, "1032"},       {0, 1, "1033"},         {256, 0, "7777"},       {0, 0, "11070322"},     {255, 0, "1037"},
    {0, 1, "030101212323"}, {1, 1, "301012123230"}, {0, 0, "000122112333"}, {0, 0, "000112321233"}, {0, 0, "1001101033332222"},
    {0, 81, MANY_EDGES},
};

static void take_specimen(struct outline *o, uint32_t i) {
    o->col = specimens[i].col;
    o->row = specimens[i].row;
    o->n = 0;
    for (const char *digit = specimens[i].digits; *digit != '\0'; digit++) add_letter(o, (uint8_t)(*digit - '0'));
}

static void run_specimens(uint32_t number) {
    (void)number;
    for (uint32_t i = 0; i < sizeof specimens / sizeof specimens[0]; i++) {
        take_specimen(&outline, i);
        every_call(&outline);
    }
}

/* Every outline in the 4 by 4 corner that starts at one corner and has no corner before it, by columns. They are drawn both ways. */
static struct {
    bool seen[5][5];
    uint16_t col, row;
    struct outline walk;
} search;

static void corner_found(void) {
    outline = search.walk;
    every_call(&outline);
    rotate(&outline, below(outline.n));
    every_call(&outline);
}

static bool is_open(uint16_t col, uint16_t row) {
    if (col > 4 || row > 4 || search.seen[col][row]) return false;
    return col > search.col || (col == search.col && row > search.row);
}

static void search_from(uint16_t col, uint16_t row) {
    for (uint8_t letter = 0; letter < 4; letter++) {
        uint16_t c = col, r = row;
        step(&c, &r, letter);
        add_letter(&search.walk, letter);
        if (c == search.col && r == search.row) {
            if (search.walk.n > 2) corner_found();
        } else if (is_open(c, r)) {
            search.seen[c][r] = true;
            search_from(c, r);
            search.seen[c][r] = false;
        }
        search.walk.n--;
    }
}

static void run_corner(uint32_t number) {
    memset(&search, 0, sizeof search);
    search.walk.col = search.col = (uint16_t)(number / 5);
    search.walk.row = search.row = (uint16_t)(number % 5);
    search_from(search.col, search.row);
}

static void run_drawings(uint32_t number) {
    (void)number;
    for (uint32_t i = 0; i < 256; i++) {
        draw_convex(&outline);
        every_call(&outline);
    }
}

static void run_dents(uint32_t number) {
    (void)number;
    for (uint32_t i = 0; i < 256; i++) {
        draw_dented(&outline);
        every_call(&outline);
    }
}

static void run_garbage(uint32_t number) {
    (void)number;
    for (uint32_t i = 0; i < 1024; i++) {
        garbage(&outline);
        every_call(&outline);
    }
}

/* A list of edges: a drawing's, altered or not; or any numbers. */
static int16_t any_number(void) {
    return (int16_t)(once_in(4) ? bits() : below(9) - 4u);
}

static void any_hull(struct hull *h) {
    h->col = near(0);
    h->row = near(0);
    h->m = (uint16_t)(once_in(16) ? between(2028, 2036) : below(20));
    for (uint32_t i = 0; i < h->m; i++) h->edges[i] = any_number();
}

/* The edges of a convex drawing, without a test's reply in the hash. */
static void drawn_hull(struct hull *h) {
    rq_reply reply = blank;
    draw_convex(&outline);
    rq_test(outline.col, outline.row, outline.letters, outline.n, h->edges, RQ_EDGE_NUMBERS, &reply);
    h->col = reply.col;
    h->row = reply.row;
    h->m = (uint16_t)(reply.number == 0 ? 2 * reply.place : 0);
}

static void alter(struct hull *h) {
    switch (below(6)) {
        case 0: h->col = near(h->col); break;
        case 1: h->row = near(h->row); break;
        case 2: h->m = (uint16_t)(h->m - (h->m > 0)); break;
        case 3:
            for (uint32_t i = 0; i < h->m; i++) h->edges[i] = (int16_t)(2 * h->edges[i]);
            break;
        case 4:
            if (h->m > 0) h->edges[below(h->m)] = any_number();
            break;
        default: break;
    }
}

static void run_lists(uint32_t number) {
    (void)number;
    for (uint32_t i = 0; i < 512; i++) {
        new_input();
        if (once_in(3)) any_hull(&hull);
        else drawn_hull(&hull), alter(&hull);
        say_hull(&hull);
        border(&hull);
        loose_query(&hull);
        loose_query(&hull);
        compare(&hull, &others[i % 4]);
        compare(&others[i % 4], &hull);
        others[i % 4] = hull;
    }
}

/* Two hulls, of which the second is often the first, moved or altered. */
static void run_comparisons(uint32_t number) {
    (void)number;
    for (uint32_t i = 0; i < 512; i++) {
        new_input();
        drawn_hull(&hull);
        if (once_in(3)) drawn_hull(&others[0]);
        else others[0] = hull;
        others[0].col = (uint16_t)(others[0].col + below(5) - (others[0].col > 2 ? 2 : 0));
        if (once_in(2)) others[0].row = (uint16_t)(others[0].row + below(3));
        say_hull(&hull);
        say_hull(&others[0]);
        compare(&hull, &others[0]);
        compare(&others[0], &hull);
    }
}

/* Two holders with the same calls: one by arguments and one by bytes. */
enum { MOST_CALLS = 4096 };
static rq_holder holder, by_bytes;
static uint8_t script[RQ_CALL_BYTES * MOST_CALLS];
static rq_reply replies[MOST_CALLS];
static uint32_t calls;

static void put_word(uint8_t *bytes, uint32_t word) {
    for (uint32_t i = 0; i < 4; i++, word >>= 8) bytes[i] = (uint8_t)word;
}

static float float_of(uint32_t word) {
    float number;
    memcpy(&number, &word, sizeof number);
    return number;
}

static void by_arguments(uint8_t number, uint8_t party, uint8_t place, uint32_t x, uint32_t y, rq_reply *reply) {
    float point[3] = {-1.0f, -1.0f, -1.0f};
    switch (number) {
        case RQ_CALL_BEGIN: rq_begin(&holder, party, (uint16_t)x, (uint16_t)y, reply); break;
        case RQ_CALL_ADD: rq_add(&holder, party, (uint8_t)x, reply); break;
        case RQ_CALL_DROP: rq_drop(&holder, party, reply); break;
        case RQ_CALL_CLEAR: rq_clear(&holder, party, place, reply); break;
        case RQ_CALL_CLOSE: rq_close(&holder, party, place, reply); break;
        case RQ_CALL_QUERY: rq_query(&holder, party, place, (uint16_t)x, (uint16_t)y, reply); break;
        case RQ_CALL_ROW: rq_row(&holder, party, place, (uint16_t)x, reply); break;
        case RQ_CALL_READING: rq_reading(&holder, party, place, float_of(x), float_of(y), reply); break;
        case RQ_CALL_PIECE: rq_piece(&holder, party, place, (uint16_t)x, point, reply); break;
        default: break;
    }
    hash_bytes(point, sizeof point);
}

/* A call on both holders. The bytes are kept for a replay. */
static void call(uint8_t number, uint8_t party, uint8_t place, uint32_t x, uint32_t y) {
    rq_reply reply = blank, other_reply = blank;
    uint8_t *bytes = script + RQ_CALL_BYTES * calls;
    new_input();
    SAY("call, party, place, x, y", number, party, place, (int32_t)x, (int32_t)y);
    by_arguments(number, party, place, x, y, &reply);
    told("call", &reply);
    bytes[0] = number;
    bytes[1] = party;
    bytes[2] = place;
    put_word(bytes + 3, x);
    put_word(bytes + 7, y);
    hash(rq_call(&by_bytes, bytes, RQ_CALL_BYTES, &other_reply));
    told("the same by bytes", &other_reply);
    if (number <= RQ_CALL_DROP || number == RQ_CALL_CLOSE) {
        rq_draft(&holder, party, &reply);
        told("draft", &reply);
    }
    if (calls + 1 < MOST_CALLS) calls++;
}

static void draw_on_holder(const struct outline *o, uint8_t party, uint8_t place) {
    if (calls + o->n + 2u >= MOST_CALLS) return;
    say_outline(o);
    call(RQ_CALL_BEGIN, party, 0, o->col, o->row);
    for (uint32_t i = 0; i < o->n; i++) call(RQ_CALL_ADD, party, 0, o->letters[i], 0);
    call(RQ_CALL_CLOSE, party, place, 0, 0);
}

static uint8_t any_party(void) {
    return (uint8_t)(once_in(32) ? bits() : below(RQ_PARTIES));
}

static uint8_t any_place(void) {
    return (uint8_t)(once_in(32) ? bits() : below(RQ_PLACES));
}

static void any_call(void) {
    const uint8_t number = (uint8_t)(once_in(64) ? bits() : below(RQ_CALL_PIECE + 1));
    const uint32_t x = once_in(4) ? bits() : below(120), y = once_in(4) ? bits() : below(120);
    call(number, any_party(), any_place(), x, y);
}

static void fresh(void) {
    memset(&holder, 0x5a, sizeof holder);
    memset(&by_bytes, 0xa5, sizeof by_bytes);
    rq_fresh(&holder);
    rq_fresh(&by_bytes);
    calls = 0;
}

/* The memory of both holders, which must be the same, and all calls once more. */
static void end_script(void) {
    hash_bytes(&holder, sizeof holder);
    hash_bytes(&by_bytes, sizeof by_bytes);
    const uint32_t m = once_in(2) ? MOST_CALLS : below(MOST_CALLS);
    memset(replies, 77, sizeof replies);
    const uint64_t count = rq_replay(script, RQ_CALL_BYTES * calls + below(RQ_CALL_BYTES), replies, m);
    SAY("replayed", (int32_t)count);
    hash((uint32_t)count);
    hash_bytes(replies, (uint32_t)(sizeof(rq_reply) * (count < MOST_CALLS ? count + 1 : count)));
}

static void run_scripts(uint32_t number) {
    (void)number;
    fresh();
    while (calls + 700 < MOST_CALLS && calls < 1500) {
        if (once_in(3)) draw_convex(&outline);
        else draw_dented(&outline);
        const uint8_t party = any_party(), place = any_place();
        if (outline.n < 100 || once_in(8)) draw_on_holder(&outline, party, place);
        if (outline.n < 60 && once_in(3)) {
            rotate(&outline, below(60));
            draw_on_holder(&outline, party, place);
        }
        for (uint32_t i = below(60); i > 0; i--) any_call();
    }
    end_script();
}

/* A whole number of 4096ths, up to 255: exact in a float. */
static uint32_t chart_float(uint32_t parts) {
    if (parts == 0) return 0;
    uint32_t high = 31;
    while ((parts >> high & 1) == 0) high--;
    const uint32_t exponent = 127 + high - 12;
    const uint32_t fraction = high <= 23 ? parts << (23 - high) : parts >> (high - 23);
    return exponent << 23 | (fraction & 0x7fffff);
}

/* One of every class: zeros, subnormal and least normal numbers, those at the chart's ends, infinities, and what is no number. */
static uint32_t odd_float(void) {
    static const uint32_t odd[] = {0x00000000, 0x80000000, 0x00000001, 0x80000001, 0x007fffff, 0x807fffff, 0x00800000, 0x80800000,
                                   0x00400000, 0x437e0000, 0x437e0001, 0x437dffff, 0x437f0000, 0x7f7fffff, 0xff7fffff, 0x7f800000,
                                   0xff800000, 0x7fc00000, 0xffc00000, 0x7f800001, 0xff800001, 0x7fffffff, 0x3c800000, 0x3c7fffff,
                                   0x3c800001, 0x3c000000, 0x3f000000, 0x33800000, 0x34000000};
    const uint32_t i = below(sizeof odd / sizeof odd[0] + 2);
    return i < sizeof odd / sizeof odd[0] ? odd[i] : bits();
}

/* 4096ths by which a side value of an edge is nearest to 1/64 or to -1/64, from a cell that is `q` 4096ths away along the rows. */
static int32_t nudge(int32_t dx, int32_t dy, int32_t q) {
    const int32_t side = once_in(2) ? 64 : -64;
    return dy == 0 ? 0 : (side + dx * q) / dy;
}

struct bits_of_reading {
    uint32_t angle, load;
};

/* A reading near an edge of a list: near its line, and near where the side value is 1/64. Some are a last bit further. */
static struct bits_of_reading at_edge(const struct hull *h) {
    int32_t x = h->col * 4096, y = h->row * 4096;
    uint32_t i = h->m > 1 ? 2 * below(h->m / 2u) : 0;
    for (uint32_t before = 0; before < i; before += 2) {
        x += 4096 * h->edges[before];
        y += 4096 * h->edges[before + 1];
    }
    const int32_t dx = h->m > 1 ? h->edges[i] : 1, dy = h->m > 1 ? h->edges[i + 1] : 1;
    const int32_t q = (int32_t)below(8192) - 2048, p = nudge(dx, dy, q);
    const int32_t angle = clamped(x + p, 0, 254 * 4096), load = clamped(y + q, 0, 254 * 4096);
    const uint32_t last_bit = below(3);
    const uint32_t bits_of_angle = chart_float((uint32_t)angle);
    const struct bits_of_reading reading = {bits_of_angle == 0 ? 0 : bits_of_angle + last_bit - 1, chart_float((uint32_t)load)};
    return reading;
}

static void reading_at_edge(const struct hull *h, uint8_t party, uint8_t place) {
    const struct bits_of_reading reading = at_edge(h);
    call(RQ_CALL_READING, party, place, reading.angle, reading.load);
}

static void any_reading(const struct hull *h, uint8_t party, uint8_t place) {
    switch (below(4)) {
        case 0: call(RQ_CALL_READING, party, place, odd_float(), odd_float()); break;
        case 1: {
            const uint32_t x = chart_float(below(254 * 4096)), y = chart_float(below(254 * 4096));
            call(RQ_CALL_READING, party, place, x, once_in(2) ? odd_float() : y);
            break;
        }
        default: reading_at_edge(h, party, place);
    }
}

static void run_readings(uint32_t number) {
    const uint8_t party = number % RQ_PARTIES, place = number / RQ_PARTIES % RQ_PLACES;
    fresh();
    do drawn_hull(&hull);
    while (outline.n > 400);
    draw_on_holder(&outline, party, place);
    for (uint32_t i = 0; i < 1024; i++) any_reading(&hull, party, place);
    for (uint32_t i = 0; i < hull.m / 2u + 3u; i++) call(RQ_CALL_PIECE, party, place, i, 0);
    for (uint32_t i = 0; i < 256; i += between(1, 4)) call(RQ_CALL_ROW, party, place, i, 0);
    end_script();
}

/* Piles: layers set to one block that shrinks from the middle, or to any; then checked and queried. */
static rq_pile pile;

static void set_layer(uint8_t layer) {
    rq_reply reply = blank;
    new_input();
    SAY("layer", layer);
    say_outline(&outline);
    rq_pile_set(&pile, layer, outline.col, outline.row, outline.letters, outline.n, &reply);
    told("pile set", &reply);
}

static void check_pile(void) {
    rq_reply reply = blank;
    new_input();
    rq_pile_check(&pile, &reply);
    told("pile check", &reply);
    hash_bytes(&pile, sizeof pile);
}

/* Steps of any size. A damaged place begins anew, or goes on elsewhere. */
static void check_pile_in_steps(void) {
    rq_reply reply = blank;
    if (once_in(4)) pile.state[1] = (uint16_t)(once_in(2) ? bits() : below(2 * RQ_SIDE + 2));
    do {
        const uint16_t sections = (uint16_t)(once_in(8) ? bits() : below(300));
        new_input();
        SAY("sections", sections);
        rq_pile_check_step(&pile, sections, &reply);
        told("pile check step", &reply);
        hash_bytes(pile.state, sizeof pile.state);
    } while (reply.word == RQ_WORD_MORE);
}

/* A cell beside the outline's border, or any. */
static void query_pile(uint8_t layer) {
    uint16_t col = outline.col, row = outline.row;
    rq_reply reply = blank;
    for (uint32_t i = below(outline.n + 1u); i > 0; i--) step(&col, &row, outline.letters[i - 1]);
    col = once_in(8) ? near(col) : (uint16_t)(col - (col > 0 && once_in(2)));
    row = once_in(8) ? near(row) : (uint16_t)(row - (row > 0 && once_in(2)));
    new_input();
    SAY("layer and cell", layer, col, row);
    rq_pile_query(&pile, layer, col, row, &reply);
    told("pile query", &reply);
}

/* Layers that are all different, now and then different, sometimes dented, or all the same. */
static void fill_layers(uint32_t kind) {
    draw_convex(&outline);
    for (uint8_t layer = 0; layer < RQ_LAYERS; layer++) {
        if (kind == 0 || (kind == 1 && once_in(6))) draw_convex(&outline);
        if (kind == 2 && once_in(6)) draw_dented(&outline);
        if (kind == 3 || !once_in(10)) set_layer(layer);
    }
}

static void empty_pile(uint8_t layer) {
    rq_reply reply = blank;
    new_input();
    SAY("layer", layer);
    rq_pile_empty(&pile, layer, &reply);
    told("pile empty", &reply);
}

/* Some layers from the top are emptied: what passed still does. */
static void lower_pile(void) {
    const uint8_t top = (uint8_t)below(20);
    for (uint8_t layer = RQ_LAYERS; layer > top; layer--) empty_pile(layer);
    check_pile();
}

static void run_piles(uint32_t number) {
    memset(&pile, 0x5a, sizeof pile);
    rq_pile_fresh(&pile);
    check_pile();
    for (uint32_t times = 0; times < 12; times++) {
        fill_layers((number + times) % 4);
        check_pile_in_steps();
        check_pile();
        for (uint32_t i = 0; i < 60; i++) query_pile((uint8_t)(once_in(16) ? bits() : below(RQ_LAYERS)));
        if (once_in(2)) lower_pile();
        empty_pile((uint8_t)below(20));
        check_pile();
    }
}

/* Images: what is at work saved, damaged or not, and restored at any place; the same of layers. */
static uint8_t image[RQ_IMAGE_BYTES + 2];

static void check_place(uint8_t party, uint8_t place) {
    rq_reply reply = blank;
    new_input();
    SAY("party and place", party, place);
    rq_check(&holder, party, place, &reply);
    told("check", &reply);
}

static void save_place(uint8_t party, uint8_t place) {
    rq_reply reply = blank;
    const uint32_t m = room(RQ_IMAGE_BYTES);
    new_input();
    SAY("party, place and buffer", party, place, (int32_t)m);
    rq_save(&holder, party, place, image, m, &reply);
    hash_bytes(image, sizeof image);
    told("save", &reply);
}

static void save_layer(uint8_t layer) {
    rq_reply reply = blank;
    const uint32_t m = room(RQ_IMAGE_BYTES);
    new_input();
    SAY("layer and buffer", layer, (int32_t)m);
    rq_pile_save(&pile, layer, image, m, &reply);
    hash_bytes(image, sizeof image);
    told("pile save", &reply);
}

static uint32_t image_bytes(void) {
    return once_in(16) ? below(sizeof image + 1) : RQ_IMAGE_BYTES;
}

static void restore_place(uint8_t party, uint8_t place) {
    rq_reply reply = blank;
    const uint32_t n = image_bytes();
    new_input();
    SAY("party, place and bytes", party, place, (int32_t)n);
    rq_restore(&holder, party, place, image, n, &reply);
    hash_bytes(&holder, sizeof holder);
    told("restore", &reply);
}

static void restore_layer(uint8_t layer) {
    rq_reply reply = blank;
    const uint32_t n = image_bytes();
    new_input();
    SAY("layer and bytes", layer, (int32_t)n);
    rq_pile_restore(&pile, layer, image, n, &reply);
    hash_bytes(&pile, sizeof pile);
    told("pile restore", &reply);
}

static void sum_image(void) {
    const uint32_t sum = rq_checksum(image, RQ_IMAGE_BYTES - 4);
    put_word(image + RQ_IMAGE_BYTES - 4, sum);
    hash(sum);
}

/* The image of an outline, as far as it has one, taken or not. */
static void image_of(const struct outline *o) {
    memset(image, 0, sizeof image);
    image[0] = 0x4b;
    image[1] = 0x4f;
    image[2] = (uint8_t)o->col;
    image[3] = (uint8_t)o->row;
    image[4] = (uint8_t)o->n;
    image[5] = (uint8_t)(o->n >> 8);
    memcpy(image + 6, o->letters, o->n < RQ_LETTERS ? o->n : RQ_LETTERS);
    sum_image();
}

/* Some bits, or a byte that is then summed again. */
static void damage_image(void) {
    for (uint32_t i = below(3); i > 0; i--) image[below(RQ_IMAGE_BYTES)] ^= (uint8_t)(1u << below(8));
    if (once_in(4)) {
        image[once_in(2) ? below(6) : below(RQ_IMAGE_BYTES - 4)] = (uint8_t)bits();
        sum_image();
    }
}

static void any_image(void) {
    switch (below(4)) {
        case 0: save_place(any_party(), any_place()); break;
        case 1: save_layer((uint8_t)below(RQ_LAYERS)); break;
        case 2:
            draw_dented(&outline);
            image_of(&outline);
            break;
        default:
            if (once_in(3)) garbage(&outline);
            else draw_convex(&outline);
            image_of(&outline);
    }
    if (once_in(3)) damage_image();
}

static void image_calls(void) {
    any_image();
    const uint8_t party = any_party(), place = any_place(), layer = (uint8_t)(once_in(16) ? bits() : below(RQ_LAYERS));
    restore_place(party, place);
    check_place(party, place);
    save_place(party, place);
    restore_layer(layer);
    save_layer(layer);
}

static void run_images(uint32_t number) {
    (void)number;
    fresh();
    rq_pile_fresh(&pile);
    memset(image, 77, sizeof image);
    for (uint32_t i = 0; i < 200; i++) image_calls();
    check_pile();
}

/* Memory of any content: any numbers, or an outline's with some of them altered. */
static void any_bytes(void *memory, uint32_t count) {
    for (uint32_t i = 0; i < count; i++) ((uint8_t *)memory)[i] = (uint8_t)bits();
}

static uint16_t any_head(void) {
    static const uint16_t telling[] = {0, 1, 99, 100, 101, 254, 255, 256, 611, 612, 613, 65535, 0x5555, 0x3333, 0x6666, 0x0f0f, 0x5a5a};
    return (uint16_t)(once_in(4) ? bits() : telling[below(sizeof telling / sizeof telling[0])]);
}

static void any_words(void) {
    static const uint16_t words[] = {0x5555, 0x3333, 0x6666, 0x0f0f, 0x5a5a, 0};
    for (uint32_t i = 0; i < RQ_PARTIES * RQ_PLACES; i++) holder.heads[4 * RQ_PARTIES + i] = words[below(6)];
}

static void alter_holder(void) {
    switch (below(6)) {
        case 0: holder.rows[below(RQ_HOLDER_ROWS)] ^= (uint8_t)(1u << below(8)); break;
        case 1: holder.numbers[below(RQ_HOLDER_NUMBERS)] = any_number(); break;
        case 2: holder.heads[below(RQ_HOLDER_HEADS)] = any_head(); break;
        case 3: holder.heads[below(RQ_HOLDER_HEADS)] ^= (uint16_t)(1u << below(16)); break;
        case 4: holder.letters[below(RQ_HOLDER_LETTERS)] = (uint8_t)bits(); break;
        default: memcpy(&holder.rows[510 * below(RQ_SLOTS)], &by_bytes.rows[510 * below(RQ_SLOTS)], 510);
    }
}

static void any_memory(void) {
    if (once_in(3)) {
        any_bytes(&holder, sizeof holder);
        any_words();
    } else {
        fresh();
        for (uint32_t i = between(1, 4); i > 0; i--) {
            draw_convex(&outline);
            image_of(&outline);
            restore_place((uint8_t)below(RQ_PARTIES), (uint8_t)below(RQ_PLACES));
        }
    }
    by_bytes = holder;
    for (uint32_t i = below(6); i > 0; i--) alter_holder();
    by_bytes = holder;
    calls = 0;
}

static void any_pile_memory(void) {
    if (once_in(3)) any_bytes(&pile, sizeof pile);
    for (uint32_t i = below(6); i > 0; i--) pile.rows[below(RQ_PILE_ROWS)] = (uint8_t)bits();
    pile.state[0] = (uint16_t)(once_in(2) ? 0x5aa5 : bits());
    pile.state[1] = (uint16_t)(once_in(2) ? bits() : below(2 * RQ_SIDE + 2));
}

static void run_memory(uint32_t number) {
    (void)number;
    rq_pile_fresh(&pile);
    memset(image, 77, sizeof image);
    for (uint32_t times = 0; times < 24; times++) {
        any_memory();
        for (uint32_t i = 0; i < 40; i++) {
            if (once_in(3)) image_calls(), by_bytes = holder;
            else any_call();
        }
        hash_bytes(&holder, sizeof holder);
        hash_bytes(&by_bytes, sizeof by_bytes);
        any_pile_memory();
        const uint8_t layer = (uint8_t)below(RQ_LAYERS);
        query_pile(layer);
        save_layer(layer);
        check_pile();
        check_pile_in_steps();
    }
}

#include "rare.h"

static const struct family {
    const char *name;
    uint32_t blocks;
    void (*block)(uint32_t number);
} families[] = {
    {"specimens", 1, run_specimens}, {"corner", 25, run_corner}, {"drawings", 100, run_drawings},       {"dents", 140, run_dents},
    {"garbage", 60, run_garbage},    {"lists", 40, run_lists},   {"comparisons", 40, run_comparisons}, {"scripts", 60, run_scripts},
    {"readings", 60, run_readings},  {"piles", 24, run_piles},   {"images", 24, run_images},           {"memory", 40, run_memory},
    {"rare", 24, run_rare},          {"damaged", 16, run_damaged},
};

static void put_hash(void) {
    put(" hash ");
    put_hex(run.a);
    put_hex(run.b);
    put("\n");
}

/* Every block starts from its own numbers, so that it can be run alone. */
static void run_block(const struct family *family, uint32_t index, uint32_t number, uint32_t first_seed) {
    const uint32_t inputs = run.inputs;
    seed(first_seed, index, 0x517cc1b7u);
    memset(others, 0, sizeof others);
    other = 0;
    run.a = 0x811c9dc5u;
    run.b = index;
    family->block(number);
    put("block ");
    put_number(index);
    put(" ");
    put(family->name);
    put(" inputs ");
    put_number(run.inputs - inputs);
    put_hash();
}

int program(uint32_t first_seed, uint32_t only) {
    uint32_t index = 0, all_a = 0, all_b = 0;
    for (uint32_t f = 0; f < sizeof families / sizeof families[0]; f++) {
        for (uint32_t number = 0; number < families[f].blocks; number++) {
            index++;
            if (only != 0 && index != only) continue;
            run.detailed = only != 0;
            run_block(&families[f], index, number, first_seed);
            all_a = mixed(all_a + run.a);
            all_b = mixed(all_b + run.b);
        }
    }
    run.a = all_a;
    run.b = all_b;
    put("all inputs ");
    put_number(run.inputs);
    put(" calls ");
    put_number(run.calls);
    put_hash();
    return 0;
}
