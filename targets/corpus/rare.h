/*
 * Inputs that the other families meet rarely or never. `targets/object coverage` says which conditions of the library want them: calls of
 * other lengths, layers above the last, outlines that differ in one edge, piles dented in a given section, a check's last step, the second
 * half of a close by itself, checksums of few bytes, frames, readings of a list of edges, the longest images, and damaged memory.
 */
#ifndef RARE_H
#define RARE_H

/* A call and a replay of so many bytes, up to two calls. */
static void odd_lengths(void) {
    rq_reply reply = blank;
    const uint32_t n = below(2 * RQ_CALL_BYTES + 1), m = below(3);
    new_input();
    SAY("bytes of a call", (int32_t)n);
    hash(rq_call(&by_bytes, script, n, &reply));
    told("a call of so many bytes", &reply);
    memset(replies, 77, sizeof(rq_reply) * 4);
    hash((uint32_t)rq_replay(script, n, replies, m));
    hash_bytes(replies, sizeof(rq_reply) * 4);
}

/* A rectangle without its corners: how much each lacks, clockwise from the lower left. */
static void cut_rectangle(int32_t col, int32_t row, int32_t width, int32_t height, const int32_t cut[4]) {
    block.bottom = row;
    block.rows = height;
    for (int32_t r = 0; r < height; r++) {
        const int32_t above = height - 1 - r;
        block.first[r] = col + clamped(cut[0] - r > cut[1] - above ? cut[0] - r : cut[1] - above, 0, width);
        block.last[r] = col + width - 1 - clamped(cut[3] - r > cut[2] - above ? cut[3] - r : cut[2] - above, 0, width);
    }
    border_of(&block, &outline);
}

static void rectangle(int32_t col, int32_t row, int32_t width, int32_t height) {
    static const int32_t none[4] = {0, 0, 0, 0};
    cut_rectangle(col, row, width, height, none);
}

/* Closes at one place, mostly of outlines with the same anchor, which differ in one edge or another. */
static void same_anchor(uint8_t place) {
    int32_t cut[] = {1, 1, 1, 1}, width = 8, height = 8, row = 20;
    for (uint32_t i = 0; i < 36; i++) {
        switch (below(8)) {
            case 0: row = (int32_t)between(20, 21); break;
            case 1: width = (int32_t)between(8, 9); break;
            case 2: height = (int32_t)between(8, 9); break;
            default: cut[between(1, 3)] = (int32_t)below(4); break;
        }
        cut_rectangle(30, row, width, height, cut);
        rotate(&outline, below(outline.n));
        draw_on_holder(&outline, 1, place);
        call(RQ_CALL_QUERY, 1, place, between(28, 40), between(18, 32));
    }
}

/* The last specimen, which has the most edges: closed twice, after one cell at the same anchor, read and drawn. */
static void most_edges_at_work(uint8_t place) {
    const uint32_t last = sizeof specimens / sizeof specimens[0] - 1;
    rq_reply reply = blank;
    take_specimen(&outline, last);
    draw_on_holder(&outline, 0, place);
    rotate(&outline, below(outline.n));
    draw_on_holder(&outline, 0, place);
    rq_test(outline.col, outline.row, outline.letters, outline.n, hull.edges, RQ_EDGE_NUMBERS, &reply);
    rectangle(reply.col, reply.row, 1, 1);
    draw_on_holder(&outline, 0, place);
    take_specimen(&outline, last);
    draw_on_holder(&outline, 0, place);
    for (uint32_t i = 0; i < 40; i++) call(RQ_CALL_READING, 0, place, chart_float(below(160 * 4096)), chart_float(below(160 * 4096)));
    for (uint32_t i = RQ_MOST_EDGES - 3; i < RQ_MOST_EDGES + 3; i++) call(RQ_CALL_PIECE, 0, place, i, 0);
}

/* A bit of both holders is altered, mostly of the heads. Every call still has a reply, and the same everywhere. */
static void damage(void) {
    const uint32_t heads = (uint32_t)((uint8_t *)holder.heads - (uint8_t *)&holder);
    const uint32_t at = once_in(4) ? below(sizeof holder) : heads + below(sizeof holder.heads);
    const uint8_t bit = (uint8_t)(1u << below(8));
    SAY("damage, byte and bit", (int32_t)at, bit);
    ((uint8_t *)&holder)[at] ^= bit;
    ((uint8_t *)&by_bytes)[at] ^= bit;
}

/* The heads of a holder: four numbers for each draft, a word for each place, three numbers for each slot (RQ_HOLDER_HEADS). */
enum { PLACE_WORDS = 8, SLOT_HEADS = 16 };

/* The four places of a party with any of the five words that name a slot: two may name one slot, and slots may be left over. */
static void put_words(uint32_t party, uint32_t which) {
    static const uint16_t words[] = {0x5555, 0x3333, 0x6666, 0x0f0f, 0x5a5a};
    SAY("the words of a party's places", (int32_t)party, (int32_t)which);
    for (uint32_t i = PLACE_WORDS + RQ_PLACES * party; i < PLACE_WORDS + RQ_PLACES * (party + 1); i++, which /= 5) {
        holder.heads[i] = by_bytes.heads[i] = words[which % 5];
    }
}

enum { WORD_LISTS = 5 * 5 * 5 * 5 };

/* A close with every list of words: it takes a slot that no place names. */
static void every_word_list(void) {
    for (uint32_t which = 0; which < WORD_LISTS; which++) {
        calls = 0;
        put_words(which % RQ_PARTIES, which);
        rectangle((int32_t)below(200), (int32_t)below(200), 2, 1);
        draw_on_holder(&outline, (uint8_t)(which % RQ_PARTIES), (uint8_t)below(RQ_PLACES));
        hash_bytes(holder.heads, sizeof holder.heads);
    }
    calls = 0;
}

/* Rows of a slot begin and end anywhere, also before they begin. */
static void wild_rows(void) {
    const uint32_t at = 2 * RQ_SIDE * below(RQ_SLOTS);
    SAY("rows of a slot, from", (int32_t)at);
    for (uint32_t i = at; i < at + 2 * RQ_SIDE; i++) holder.rows[i] = by_bytes.rows[i] = (uint8_t)bits();
}

/* Four edges of a slot lead round a rectangle from one of its corners, and perhaps off the chart; or are any numbers. */
static void wild_edges(uint32_t slot) {
    static const int16_t turns[] = {0, 1, 1, 0, 0, -1, -1, 0};
    const uint32_t corner = 2 * below(4);
    const int16_t sizes[] = {(int16_t)below(300), (int16_t)below(300)};
    uint16_t *const heads[] = {holder.heads + SLOT_HEADS + 3 * slot, by_bytes.heads + SLOT_HEADS + 3 * slot};
    int16_t *const numbers[] = {holder.numbers + RQ_EDGE_NUMBERS * slot, by_bytes.numbers + RQ_EDGE_NUMBERS * slot};
    const uint16_t count = (uint16_t)(once_in(8) ? bits() : once_in(3) ? below(130) : 4);
    const uint16_t col = (uint16_t)below(255), row = (uint16_t)below(255);
    SAY("edges of a slot: slot, corner, width, height", (int32_t)slot, (int32_t)corner, sizes[0], sizes[1]);
    for (uint32_t which = 0; which < 2; which++) {
        const uint16_t head[] = {col, row, count};
        memcpy(heads[which], head, sizeof head);
        for (uint32_t i = 0; i < 8; i++) numbers[which][i] = (int16_t)(turns[(corner + i) % 8] * sizes[i % 2]);
    }
}

/* Readings where the rectangle of wild_edges is, mostly, and the pieces at the end of its edges. */
static void read_near(uint32_t slot) {
    const uint16_t *const head = holder.heads + SLOT_HEADS + 3 * slot;
    for (uint8_t at = 0; at < 8; at++) {
        const int32_t x = clamped(head[0] + wander(0, 40), 0, 254), y = clamped(head[1] + wander(0, 40), 0, 254);
        call(RQ_CALL_READING, at % 2, at / 2, chart_float((uint32_t)(4096 * x + 512)), chart_float((uint32_t)(4096 * y + 512)));
        for (uint32_t i = 0; i < 4; i++) call(RQ_CALL_PIECE, at % 2, at / 2, (uint16_t)(head[2] + i - 2), 0);
    }
}

static void ask_all(void) {
    for (uint8_t at = 0; at < 8; at++) {
        call(RQ_CALL_READING, at % 2, at / 2, chart_float(below(254 * 4096)), chart_float(below(254 * 4096)));
        call(RQ_CALL_PIECE, at % 2, at / 2, below(8), 0);
        call(RQ_CALL_QUERY, at % 2, at / 2, below(255), below(255));
        call(RQ_CALL_ROW, at % 2, at / 2, below(255), 0);
    }
}

static void query_any_cell(uint8_t layer) {
    rq_reply reply = blank;
    const uint16_t col = (uint16_t)below(RQ_SIDE), row = (uint16_t)below(RQ_SIDE);
    new_input();
    SAY("layer and cell", layer, col, row);
    rq_pile_query(&pile, layer, col, row, &reply);
    told("pile query", &reply);
}

/* Rows of a pile that no outline has, and a word that says it has passed. */
static void damaged_pile(void) {
    fill_layers(3);
    for (uint32_t i = 0; i < 60; i++) {
        const uint32_t at = 2 * RQ_SIDE * below(RQ_LAYERS) + below(RQ_SIDE);
        const uint32_t first = at + (once_in(2) ? 0 : below(RQ_SIDE - at % RQ_SIDE));
        SAY("damaged rows", (int32_t)at, (int32_t)first);
        for (uint32_t row = at; row <= first; row++) {
            pile.rows[row] = (uint8_t)(once_in(2) ? 0 : bits());
            pile.rows[row + RQ_SIDE] = (uint8_t)(once_in(2) ? 0 : bits());
        }
        if (once_in(4)) pile.state[0] = (uint16_t)(once_in(4) ? bits() : 0x5aa5);
        for (uint32_t cell = 0; cell < 8; cell++) query_any_cell((uint8_t)(at / (2 * RQ_SIDE)));
        if (once_in(2)) check_pile_in_steps();
        else check_pile();
        query_pile((uint8_t)below(RQ_LAYERS));
    }
}

/* Edges of every slot lead round a rectangle from below the chart's first row to above its last one. Readings lie in it. */
static void tall_edges(void) {
    static const int16_t edges[] = {0, 300, 20, 0, 0, -600, -20, 0, 0, 300};
    static const uint16_t head[] = {100, 100, 5};
    fresh();
    rectangle(100, 100, 2, 2);
    for (uint8_t at = 0; at < 8; at++) draw_on_holder(&outline, at % 2, at / 2);
    for (uint32_t slot = 0; slot < RQ_SLOTS; slot++) {
        memcpy(holder.heads + SLOT_HEADS + 3 * slot, head, sizeof head);
        memcpy(by_bytes.heads + SLOT_HEADS + 3 * slot, head, sizeof head);
        memcpy(holder.numbers + RQ_EDGE_NUMBERS * slot, edges, sizeof edges);
        memcpy(by_bytes.numbers + RQ_EDGE_NUMBERS * slot, edges, sizeof edges);
    }
    for (uint8_t at = 0; at < 8; at++) call(RQ_CALL_READING, at % 2, at / 2, chart_float(110 * 4096), chart_float(below(254 * 4096)));
}

static void run_damaged(uint32_t number) {
    fresh();
    if (number == 0) every_word_list();
    for (uint8_t i = 0; i < 8; i++) {
        do draw_convex(&outline);
        while (outline.n > 200);
        draw_on_holder(&outline, i % 2, i / 2);
    }
    for (uint32_t i = 0; i < 40; i++) {
        switch (below(6)) {
            case 0: put_words(below(RQ_PARTIES), below(WORD_LISTS)); break;
            case 1: {
                const uint32_t slot = below(RQ_SLOTS);
                wild_edges(slot);
                read_near(slot);
                break;
            }
            case 2: wild_rows(); break;
            default: damage(); break;
        }
        ask_all();
        any_call();
        if (once_in(4)) {
            rectangle((int32_t)below(200), (int32_t)below(200), 2, 2);
            draw_on_holder(&outline, (uint8_t)below(2), (uint8_t)below(4));
        }
    }
    hash_bytes(&holder, sizeof holder);
    hash_bytes(&by_bytes, sizeof by_bytes);
    damaged_pile();
    tall_edges();
}

/* Three layers. Kinds 0 and 3: the middle one lacks the others' columns. 1: no column has two layers, and a row is dented. 2: clear. */
static void three_layers(uint32_t kind, int32_t col, int32_t row) {
    static const int32_t columns[4][3] = {{0, 3, 0}, {0, 5, 2}, {0, 1, 2}, {3, 0, 3}};
    const uint8_t bottom = (uint8_t)below(RQ_LAYERS - 2);
    rq_pile_fresh(&pile);
    for (uint8_t layer = 0; layer < 3; layer++) {
        rectangle(col + columns[kind][layer], row, 1, (int32_t)between(1, 2));
        set_layer((uint8_t)(bottom + layer));
    }
    if (once_in(2)) check_pile_in_steps();
    check_pile();
    query_pile((uint8_t)(bottom + 2));
    lower_pile();
}

/* Sixteen rectangles that begin and end at chosen columns and rows. */
static void layers_at_ends(void) {
    rq_pile_fresh(&pile);
    for (uint8_t layer = 0; layer < RQ_LAYERS; layer++) {
        const int32_t width = (int32_t)between(1, 9), height = once_in(4) ? RQ_SIDE : (int32_t)between(1, 9);
        const int32_t col = once_in(2) ? (int32_t)below(4) : RQ_SIDE - width - (int32_t)below(4);
        const int32_t most = RQ_SIDE - height, row = clamped(once_in(2) ? (int32_t)below(9) : most - (int32_t)below(9), 0, most);
        rectangle(clamped(col, 0, RQ_SIDE - width), row, width, height);
        if (!once_in(6)) set_layer(layer);
        check_pile();
    }
}

/* Layers that are refused: 22, and what a test of the outline refuses. */
static void refused_layers(void) {
    set_layer((uint8_t)between(RQ_LAYERS, 255));
    garbage(&outline);
    set_layer((uint8_t)below(RQ_LAYERS));
    rectangle((int32_t)below(250), (int32_t)below(250), 4, 4);
    if (once_in(2)) outline.col = (uint16_t)between(255, 300);
    else outline.row = (uint16_t)between(253, 300);
    set_layer((uint8_t)below(RQ_LAYERS));
}

/* Walks that leave the chart: with steps that add up to zero, or not; before or after a corner is met again. */
static void leaving_walk(void) {
    const int32_t side = (int32_t)between(1, 6);
    outline.col = (uint16_t)(once_in(2) ? RQ_SIDE - below(3) : below(3));
    outline.row = (uint16_t)(once_in(2) ? RQ_SIDE - below(3) : below(3));
    outline.n = 0;
    if (once_in(2)) for (uint8_t i = 0; i < 4; i++) add_letters(&outline, (uint8_t)((1 + 3 * i) % 4), 1);
    const uint8_t first = (uint8_t)below(4), turn = (uint8_t)(once_in(2) ? 1 : 3);
    for (uint8_t i = 0; i < 4; i++) add_letters(&outline, (uint8_t)((first + turn * i) % 4), side);
    if (once_in(3)) add_letters(&outline, (uint8_t)below(4), (int32_t)below(3));
    every_call(&outline);
}

/* Outlines of one row, one column, and blocks from one end of the chart to the other. */
static void long_blocks(void) {
    const int32_t width = once_in(2) ? (int32_t)between(1, 3) : (int32_t)between(RQ_SIDE - 3, RQ_SIDE);
    const int32_t height = width > 3 || once_in(2) ? (int32_t)between(1, 50) : (int32_t)between(RQ_SIDE - 3, RQ_SIDE);
    rectangle((int32_t)below((uint32_t)(RQ_SIDE - width + 1)), (int32_t)below((uint32_t)(RQ_SIDE - height + 1)), width, height);
    any_way(&outline);
    every_call(&outline);
    flip_cell(&outline);
    every_call(&outline);
}

/* A reading among the edges of a list. */
static void loose_reading(const struct hull *h, uint32_t angle, uint32_t load) {
    rq_reply reply = blank;
    SAY("reading", (int32_t)angle, (int32_t)load);
    rq_loose_reading(h->col, h->row, h->edges, h->m, float_of(angle), float_of(load), &reply);
    told("loose reading", &reply);
}

/* A reading near the anchor of a list, which may have any numbers; or any float. */
static void reading_near_anchor(const struct hull *h) {
    const int32_t col = clamped(h->col * 4096 + (int32_t)below(16 * 4096) - 4 * 4096, 0, 254 * 4096);
    const int32_t row = clamped(h->row * 4096 + (int32_t)below(16 * 4096) - 4 * 4096, 0, 254 * 4096);
    const uint32_t angle = once_in(6) ? odd_float() : chart_float((uint32_t)col);
    const uint32_t load = once_in(6) ? odd_float() : chart_float((uint32_t)row);
    loose_reading(h, angle, load);
}

/* The list of a drawing, with readings near its edges; and then the list altered, or any numbers. */
static void loose_readings(void) {
    for (uint32_t i = 0; i < 16; i++) {
        new_input();
        drawn_hull(&hull);
        say_hull(&hull);
        reading_near_anchor(&hull);
        for (uint32_t k = 0; k < 8; k++) {
            const struct bits_of_reading reading = at_edge(&hull);
            loose_reading(&hull, reading.angle, reading.load);
        }
        new_input();
        if (once_in(2)) any_hull(&hull);
        else alter(&hull);
        say_hull(&hull);
        reading_near_anchor(&hull);
    }
}

/* A list of edges whose hull goes over the chart's ends, or nearly. */
static void hulls_at_ends(void) {
    static const int16_t unit[] = {0, 1, 1, 0, 0, -1, -1, 0};
    const int16_t high = (int16_t)(once_in(3) ? RQ_SIDE : below(RQ_SIDE)), wide = (int16_t)(once_in(3) ? RQ_SIDE : below(RQ_SIDE));
    hull.col = (uint16_t)below(3);
    hull.row = (uint16_t)below(3);
    hull.m = 8;
    for (uint32_t i = 0; i < 8; i++) hull.edges[i] = (int16_t)(unit[i] * (i % 4 < 2 ? high : wide));
    drawn_hull(&others[0]);
    new_input();
    say_hull(&hull);
    compare(&hull, &others[0]);
    compare(&others[0], &hull);
    border(&hull);
    loose_query(&hull);
    reading_near_anchor(&hull);
}

/* As many letters as an outline has at most, convex and then not. */
static void most_letters(void) {
    ellipse(&block, 76, 76);
    border_of(&block, &outline);
    any_way(&outline);
    every_call(&outline);
    for (uint32_t flips = between(1, 3); flips > 0; flips--) flip_cell(&outline);
    every_call(&outline);
}

/* Lists of edges round a large hull, up to the longest list that is taken. */
static void long_lists(void) {
    const uint32_t most = once_in(2) ? RQ_LIST_NUMBERS / 8 : between(20, RQ_LIST_NUMBERS / 8);
    hull.col = (uint16_t)below(60);
    hull.row = (uint16_t)below(255);
    hull.m = (uint16_t)(8 * most);
    put_directions(hull.edges, most);
    new_input();
    say_hull(&hull);
    for (uint32_t i = 0; i < 4; i++) loose_query(&hull), reading_near_anchor(&hull);
    border(&hull);
    compare(&hull, &others[0]);
}

/* Edges whose directions do not increase strictly: one in two equal parts, or one more that is zero. The sum is still zero. */
static void parted_edge(void) {
    drawn_hull(&hull);
    for (uint32_t tries = 0; hull.m < 2 && tries < 100; tries++) drawn_hull(&hull);
    if (hull.m < 2) return; /* a library that errs, and takes nothing */
    const uint32_t at = 2 * below(hull.m / 2u), is_zero = once_in(4);
    for (uint32_t i = 0; i < hull.m; i++) hull.edges[i] = (int16_t)(2 * hull.edges[i]);
    for (uint32_t i = hull.m; i > at; i--) hull.edges[i + 1] = hull.edges[i - 1];
    for (uint32_t i = at; i < at + 2; i++) {
        hull.edges[i] = (int16_t)(is_zero ? 0 : hull.edges[i] / 2);
        if (!is_zero) hull.edges[i + 2] = hull.edges[i];
    }
    hull.m = (uint16_t)(hull.m + 2);
    new_input();
    say_hull(&hull);
    loose_query(&hull);
    border(&hull);
    reading_near_anchor(&hull);
}

/* Checksums of few bytes, of an even and of an odd count; and of none. */
static void short_sums(void) {
    any_bytes(image, sizeof image);
    for (uint32_t n = 0; n < 12; n++) {
        new_input();
        SAY("bytes of a checksum", (int32_t)n);
        hash(rq_checksum(image, n));
    }
}

/*
 * Sixteen layers of two columns (kinds 0 and 2); or of two rows, each layer in columns of its own. The first has the same length in every
 * layer. The second is shorter, and shorter still in one layer, so that its section is dented. The two begin alike and end otherwise in all
 * layers; or the other way round.
 */
static void parted_sections(uint32_t kind) {
    const int32_t col = (int32_t)below(15), row = (int32_t)below(240), odd = (int32_t)between(1, RQ_LAYERS - 2);
    const int32_t by_rows = kind & 1, ends_alike = kind & 2;
    rq_pile_fresh(&pile);
    for (int32_t layer = 0; layer < RQ_LAYERS; layer++) {
        const int32_t second = layer == odd ? 5 : 8;
        block.bottom = row;
        block.rows = by_rows ? 2 : 10;
        for (int32_t r = 0; r < block.rows; r++) {
            const int32_t length = r == 0 ? 10 : second, has_second = ends_alike ? 10 - second <= r : r < second;
            block.first[r] = by_rows ? col + 15 * layer + (ends_alike ? 10 - length : 0) : col;
            block.last[r] = by_rows ? block.first[r] + length - 1 : col + has_second;
        }
        border_of(&block, &outline);
        set_layer((uint8_t)layer);
    }
    check_pile();
    check_pile_in_steps();
}

/* Steps of a check that goes on at its end, or past it. */
static void steps_at_the_end(void) {
    for (uint16_t next = 2 * RQ_SIDE - 2; next < 2 * RQ_SIDE + 2; next++) {
        for (uint16_t sections = 0; sections < 4; sections++) {
            rq_reply reply = blank;
            pile.state[1] = next;
            new_input();
            SAY("goes on at, sections", next, sections);
            rq_pile_check_step(&pile, sections, &reply);
            told("pile check step", &reply);
            hash_bytes(pile.state, sizeof pile.state);
        }
    }
}

/* The second half of a close by itself, with any word, up to a party, a place and a word that there are not. */
static void commits(void) {
    for (uint8_t party = 0; party <= RQ_PARTIES; party++) {
        for (uint8_t place = 0; place <= RQ_PLACES; place++) {
            for (uint16_t word = 0; word < 7; word++) {
                new_input();
                SAY("commit: party, place, word", party, place, word);
                rq_commit_parts(holder.heads, party, place, word);
                hash_bytes(holder.heads, sizeof holder.heads);
            }
        }
    }
}

/* Images of as many letters as there are at most, which have no zeros behind them; saved from a place and from a layer. */
static void longest_images(void) {
    const uint8_t party = (uint8_t)below(RQ_PARTIES), place = (uint8_t)below(RQ_PLACES), layer = (uint8_t)below(RQ_LAYERS);
    const int32_t width = (int32_t)between(51, 255);
    rectangle((int32_t)below((uint32_t)(256 - width)), 0, width, 306 - width);
    image_of(&outline);
    restore_place(party, place);
    save_place(party, place);
    restore_layer(layer);
    save_layer(layer);
    by_bytes = holder;
}

/* Frames of bodies, whole, damaged and cut; and too long a body, and too short a buffer. */
static uint8_t framed[RQ_FRAME_BODY + RQ_FRAME_BYTES + 2], carried[RQ_FRAME_BODY + 2];

static void frames(void) {
    for (uint32_t i = 0; i < 24; i++) {
        rq_reply reply = blank;
        const uint32_t n = once_in(8) ? RQ_FRAME_BODY + below(2) : once_in(4) ? below(RQ_FRAME_BODY) : below(40);
        const uint32_t m = once_in(4) ? below(64) : (uint32_t)sizeof framed;
        any_bytes(carried, sizeof carried);
        new_input();
        SAY("bytes of a body and of its buffer", (int32_t)n, (int32_t)m);
        rq_frame(carried, n, framed, m, &reply);
        hash_bytes(framed, sizeof framed);
        told("frame", &reply);
        uint32_t size = reply.number == 0 ? reply.place : below(sizeof framed);
        if (once_in(3) && size > 0) framed[below(size)] ^= (uint8_t)(1u << below(8));
        if (once_in(6)) size = below(sizeof framed);
        rq_unframe(framed, size, carried, once_in(4) ? below(40) : (uint32_t)sizeof carried, &reply);
        hash_bytes(carried, sizeof carried);
        told("unframe", &reply);
    }
}

static void run_rare(uint32_t number) {
    fresh();
    hash(rq_version());
    short_sums();
    loose_readings();
    frames();
    for (uint32_t i = 0; i < 4; i++) longest_images();
    for (uint32_t i = 0; i < 8; i++) any_call();
    for (uint32_t i = 0; i < 40; i++) odd_lengths();
    same_anchor(number % RQ_PLACES);
    most_edges_at_work(number % RQ_PLACES);
    end_script();
    for (uint32_t i = 0; i < 12; i++) {
        static const int32_t ends[] = {0, 1, 248, 249}, row_ends[] = {0, 1, 252, 253};
        three_layers(i % 3, once_in(2) ? ends[below(4)] : (int32_t)below(250), once_in(2) ? row_ends[below(4)] : (int32_t)below(254));
        refused_layers();
    }
    layers_at_ends();
    for (uint32_t i = 0; i < 6; i++) most_letters();
    for (uint32_t i = 0; i < 4; i++) long_lists();
    for (uint32_t i = 0; i < 60; i++) {
        leaving_walk();
        long_blocks();
        hulls_at_ends();
        parted_edge();
    }
    three_layers(3, RQ_SIDE - 4, (int32_t)below(254)); /* dented at the last column */
    parted_sections(number % 4);
    if (number < 4) steps_at_the_end();
    if (number == 0) commits();
}

#endif
