/*
 * Damage. Every single bit of what is at work at a place, its word included: a check notices it. Every other bit of the heads, bits
 * behind the counted edges, and a count of 100 edges that is made larger, which is read as 100: a check notices it, or no answer changes.
 * Every single bit of a pile's layer: a save notices it, or the layer now has the rows of another outline, which a layer that keeps rows
 * cannot tell, and the save is of these. Every single bit of an image, images of other lengths, and many random damages of two and three
 * bits and within 32 bits: refused, with nothing altered. The status is 1 where one of these fails.
 *
 * The numbers of the command line: a seed, and how many random damages of images are tried in all; 0 tries 20,000.
 */
#include <string.h>

#include "random.h"
#include "robequarry.h"
#include "shapes.h"
#include "text.h"

static rq_holder holder, sound;
static rq_pile pile, sound_pile;
static rq_reply reply;
static struct outline shape;
static uint8_t image[RQ_IMAGE_BYTES], damaged[2 * RQ_IMAGE_BYTES];

static uint32_t all_wrong;

enum { SLOTS = RQ_SLOTS / RQ_PARTIES, ROWS = 2 * RQ_SIDE };

/* Four bytes at a time; both counts are multiples of four. */
static bool same_bytes(const void *a, const void *b, uint32_t size) {
    const uint8_t *one = a, *two = b;
    uint32_t different = 0;
    for (uint32_t i = 0; i + 3 < size; i += 4) {
        uint32_t x, y;
        __builtin_memcpy(&x, one + i, 4);
        __builtin_memcpy(&y, two + i, 4);
        different |= x ^ y;
    }
    return different == 0;
}

static bool same_reply(const rq_reply *a, const rq_reply *b) {
    return a->number == b->number && a->word == b->word && a->place == b->place && a->piece == b->piece && a->length == b->length &&
           a->col == b->col && a->row == b->row;
}

/* A refusal names nothing else. */
static bool refused_by(uint16_t number) {
    const rq_reply expected = {number, 0, 0, 0, 0, 0, 0};
    return same_reply(&reply, &expected);
}

static void wrong(const char *what, uint32_t at) {
    if (all_wrong++ >= 20) return;
    put("  WRONG: ");
    put(what);
    put(" at ");
    put_number(at);
    put("\n");
}

static void flip(void *memory, uint32_t bit) {
    ((uint8_t *)memory)[bit / 8] ^= (uint8_t)(1u << bit % 8);
}

/* The bit of a list of 16-bit numbers, counted within each number from its lowest. */
static void flip_number(void *numbers, uint32_t bit) {
    uint16_t number;
    __builtin_memcpy(&number, (uint8_t *)numbers + bit / 16 * 2, 2);
    number ^= (uint16_t)(1u << bit % 16);
    __builtin_memcpy((uint8_t *)numbers + bit / 16 * 2, &number, 2);
}

/* ---- answers */

/* Every row and every piece, and readings: at the corners, which are the most telling, and anywhere. */
static bool same_answers(const rq_holder *one, uint8_t whose, uint8_t at, const rq_holder *two, uint8_t whose_2, uint8_t at_2) {
    rq_reply a = RQ_REPLY_INIT, b = RQ_REPLY_INIT;
    for (uint16_t row = 0; row <= RQ_SIDE; row++) {
        rq_row(one, whose, at, row, &a);
        rq_row(two, whose_2, at_2, row, &b);
        if (!same_reply(&a, &b)) return false;
    }
    for (uint16_t position = 0; position < RQ_MOST_EDGES + 2; position++) {
        float p[2] = {-1.0f, -1.0f}, q[2] = {-1.0f, -1.0f};
        rq_piece(one, whose, at, position, p, &a);
        rq_piece(two, whose_2, at_2, position, q, &b);
        if (!same_reply(&a, &b) || p[0] != q[0] || p[1] != q[1]) return false;
        const float angle = position % 2 == 0 ? p[0] - 0.5f : (float)below(1016) * 0.25f;
        const float load = position % 2 == 0 ? p[1] - 0.5f : (float)below(1016) * 0.25f;
        rq_reading(one, whose, at, angle, load, &a);
        rq_reading(two, whose_2, at_2, angle, load, &b);
        if (!same_reply(&a, &b)) return false;
        rq_query(one, whose, at, (uint16_t)angle, (uint16_t)load, &a);
        rq_query(two, whose_2, at_2, (uint16_t)angle, (uint16_t)load, &b);
        if (!same_reply(&a, &b)) return false;
    }
    return true;
}

/* ---- memory of a holder */

static void convex(uint32_t least, uint32_t most) {
    do draw_convex(&shape);
    while (shape.n < least || shape.n > most);
}

static void draw(uint8_t party, uint8_t place) {
    rq_begin(&holder, party, shape.col, shape.row, &reply);
    for (uint32_t i = 0; i < shape.n; i++) rq_add(&holder, party, shape.letters[i], &reply);
    rq_close(&holder, party, place, &reply);
}

/* Outlines of every size at work, among them one cell, and the one with the most edges; a draft of each party. */
static void fill_holder(void) {
    rq_fresh(&holder);
    for (uint8_t party = 0; party < RQ_PARTIES; party++) {
        for (uint8_t place = 0; place < RQ_PLACES; place++) {
            if (place < 2) convex(place == 0 ? 300 : 30, place == 0 ? RQ_LETTERS : 120);
            else if (place == 2) ellipse(&block, 0, party == 0 ? 0 : 30), border_of(&block, &shape);
            else {
                shape.col = 0;
                shape.row = 81;
                shape.n = 0;
                for (const char *digit = MANY_EDGES; *digit != '\0'; digit++) add_letter(&shape, (uint8_t)(*digit - '0'));
            }
            draw(party, place);
            if (reply.number != 0 || reply.word != RQ_WORD_TAKEN) wrong("a drawing that is not taken", place);
        }
        rq_begin(&holder, party, 3, 4, &reply);
        rq_add(&holder, party, 1, &reply);
    }
    sound = holder;
}

static struct {
    uint32_t bits, noticed;
} memory;

/* One bit of the holder has been flipped: at this place a check notices it, or, if it is no bit of what is at work there, no answer
   changes. Then it is put back. */
static void look_at(uint8_t party, uint8_t place, bool at_work, const char *what, uint32_t bit) {
    rq_check(&holder, party, place, &reply);
    memory.bits++;
    if (refused_by(RQ_REFUSED_DAMAGED)) memory.noticed++;
    else if (at_work || reply.number != 0 || !same_answers(&holder, party, place, &sound, party, place)) wrong(what, bit);
    const uint8_t before = damaged[0];
    rq_save(&holder, party, place, damaged, RQ_IMAGE_BYTES, &reply);
    if ((reply.number == RQ_REFUSED_DAMAGED) != (damaged[0] == before)) wrong("a save of damaged memory", bit);
    damaged[0] = 0;
}

static void put_line(const char *what, uint32_t tried, const char *then, uint32_t count) {
    put("  ");
    put(what);
    put(": ");
    put_number(tried);
    put(then);
    put_number(count);
    put("\n");
}

static void damage_place(uint8_t party, uint8_t place) {
    const uint32_t own = RQ_PLACE_WORDS + RQ_PLACES * party + place;
    const uint16_t word = sound.heads[own];
    static const uint16_t words[SLOTS] = {0x5555, 0x3333, 0x6666, 0x0f0f, 0x5a5a};
    uint32_t slot = SLOTS * party;
    for (uint32_t tag = 0; tag < SLOTS; tag++) slot += words[tag] == word ? tag : 0;
    const uint32_t first = RQ_SLOT_HEADS + RQ_SLOT_NUMBERS * slot;
    const uint32_t edges = sound.heads[first + 2];
    for (uint32_t bit = 0; bit < 8 * ROWS; bit++) {
        flip(&holder.rows[ROWS * slot], bit);
        look_at(party, place, true, "a bit of the rows", bit);
        flip(&holder.rows[ROWS * slot], bit);
    }
    /* The edges that are counted, and a few behind them. */
    for (uint32_t bit = 0; bit < 16 * RQ_EDGE_NUMBERS && bit < 32 * edges + 64; bit++) {
        flip_number(&holder.numbers[RQ_EDGE_NUMBERS * slot], bit);
        look_at(party, place, bit < 32 * edges, "a bit of the edges", bit);
        flip_number(&holder.numbers[RQ_EDGE_NUMBERS * slot], bit);
    }
    /* All heads: drafts, words and slots. */
    for (uint32_t bit = 0; bit < 16 * RQ_HOLDER_HEADS; bit++) {
        const uint32_t head = bit / 16;
        flip_number(holder.heads, bit);
        const bool read_as_before = head == first + 2 && edges == RQ_EDGE_NUMBERS / 2 && holder.heads[head] > edges;
        const bool in_slot = head >= first && head < first + RQ_SLOT_NUMBERS;
        look_at(party, place, head == own || (in_slot && !read_as_before), "a bit of the heads", bit);
        flip_number(holder.heads, bit);
    }
    if (!same_bytes(&holder, &sound, sizeof holder)) wrong("a check that alters", place);
}

/* A place that was cleared: whatever bit of its word flips, it has nothing at work, and a check notices. */
static void damage_cleared(uint8_t party, uint8_t place) {
    uint16_t *const word = &holder.heads[RQ_PLACE_WORDS + RQ_PLACES * party + place];
    rq_clear(&holder, party, place, &reply);
    rq_check(&holder, party, place, &reply);
    if (!refused_by(0)) wrong("a check of a cleared place", place);
    for (uint32_t bit = 0; bit < 16; bit++) {
        *word ^= (uint16_t)(1u << bit);
        rq_check(&holder, party, place, &reply);
        memory.bits++;
        memory.noticed += refused_by(RQ_REFUSED_DAMAGED);
        if (!refused_by(RQ_REFUSED_DAMAGED)) wrong("a bit of a cleared word", bit);
        rq_row(&holder, party, place, 0, &reply);
        if (!refused_by(RQ_REFUSED_NOTHING_AT_WORK)) wrong("a cleared outline that came back", bit);
        *word ^= (uint16_t)(1u << bit);
    }
    holder = sound;
}

static void damage_memory(void) {
    memset(&memory, 0, sizeof memory);
    fill_holder();
    for (uint8_t party = 0; party < RQ_PARTIES; party++) {
        for (uint8_t place = 0; place < RQ_PLACES; place++) {
            damage_place(party, place);
            damage_cleared(party, place);
        }
    }
    put_line("bits of a holder", memory.bits, " tried, noticed by a check ", memory.noticed);
}

/* ---- memory of a pile */

/* What a save wrote of a damaged layer, put into another pile: the rows are the damaged ones. */
static bool same_rows(uint8_t layer) {
    static rq_pile other;
    rq_pile_restore(&other, 0, damaged, RQ_IMAGE_BYTES, &reply);
    for (uint32_t i = 0; i < ROWS; i++) {
        if (other.rows[i] != pile.rows[ROWS * layer + i]) return false;
    }
    return reply.number == 0;
}

/* An empty layer, a large one, a small one and one cell. */
static void damage_pile(void) {
    memset(&memory, 0, sizeof memory);
    rq_pile_fresh(&pile);
    for (uint8_t layer = 1; layer < 4; layer++) {
        if (layer == 3) ellipse(&block, 0, 0), border_of(&block, &shape);
        else convex(layer == 1 ? 300 : 30, layer == 1 ? RQ_LETTERS : 120);
        rq_pile_set(&pile, layer, shape.col, shape.row, shape.letters, shape.n, &reply);
    }
    sound_pile = pile;
    for (uint8_t layer = 0; layer < 4; layer++) {
        for (uint32_t bit = 0; bit < 8 * ROWS; bit++) {
            flip(&pile.rows[ROWS * layer], bit);
            rq_pile_save(&pile, layer, damaged, RQ_IMAGE_BYTES, &reply);
            memory.bits++;
            if (refused_by(RQ_REFUSED_DAMAGED)) memory.noticed++;
            else if (reply.number != 0 || !same_rows(layer)) wrong("a bit of a layer", bit);
            flip(&pile.rows[ROWS * layer], bit);
        }
    }
    if (!same_bytes(&pile, &sound_pile, sizeof pile)) wrong("a save that alters", 0);
    put_line("bits of a pile's layers", memory.bits, " tried, noticed by a save ", memory.noticed);
}

/* ---- images */

static uint32_t images_tried, images_refused;

/* The damaged bytes are refused by 26, at a place of a holder and, now and then, in a layer of a pile; nothing is altered. */
static void must_refuse(uint32_t length, const char *what, uint32_t at) {
    const uint8_t party = (uint8_t)below(RQ_PARTIES), place = (uint8_t)below(RQ_PLACES);
    rq_restore(&holder, party, place, damaged, length, &reply);
    images_tried++;
    bool refused = refused_by(RQ_REFUSED_IMAGE) && same_bytes(&holder, &sound, sizeof holder);
    if (once_in(8)) {
        rq_pile_restore(&pile, (uint8_t)below(RQ_LAYERS), damaged, length, &reply);
        refused = refused && refused_by(RQ_REFUSED_IMAGE) && same_bytes(&pile, &sound_pile, sizeof pile);
    }
    if (refused) {
        images_refused++;
        return;
    }
    wrong(what, at);
    holder = sound;
    pile = sound_pile;
}

static void single_bits(void) {
    for (uint32_t bit = 0; bit < 8 * RQ_IMAGE_BYTES; bit++) {
        memcpy(damaged, image, sizeof image);
        flip(damaged, bit);
        must_refuse(RQ_IMAGE_BYTES, "a bit of an image", bit);
    }
}

/* The front of the image, or the image with zeros behind it. */
static void other_lengths(void) {
    memset(damaged, 0, sizeof damaged);
    memcpy(damaged, image, sizeof image);
    for (uint32_t length = 0; length <= sizeof damaged; length += length < RQ_IMAGE_BYTES + 8 ? 1 : 61) {
        if (length != RQ_IMAGE_BYTES) must_refuse(length, "an image of another length", length);
    }
}

/* Two or three bits, or any change within 32 bits that follow each other. */
static void random_damage(uint32_t number) {
    uint32_t at[3];
    memcpy(damaged, image, sizeof image);
    if (number % 3 < 2) {
        for (uint32_t i = 0; i < 2 + number % 3; i++) {
            bool again = true;
            while (again) {
                at[i] = below(8 * RQ_IMAGE_BYTES);
                again = (i > 0 && at[i] == at[0]) || (i > 1 && at[i] == at[1]);
            }
            flip(damaged, at[i]);
        }
    } else {
        uint32_t burst = 0;
        while (burst == 0) burst = bits();
        at[0] = below(8 * RQ_IMAGE_BYTES - 31);
        for (uint32_t i = 0; i < 32; i++) {
            if (burst >> i & 1) flip(damaged, at[0] + i);
        }
    }
    must_refuse(RQ_IMAGE_BYTES, "a random damage of an image", number);
}

/* What was saved is restored, to any place, and answers as it did. */
static void restored(uint8_t party, uint8_t place) {
    static rq_holder other;
    const uint8_t party_2 = (uint8_t)below(RQ_PARTIES), place_2 = (uint8_t)below(RQ_PLACES);
    other = sound;
    rq_restore(&other, party_2, place_2, image, RQ_IMAGE_BYTES, &reply);
    if (reply.number != 0 || !same_answers(&other, party_2, place_2, &holder, party, place)) wrong("a restore of a save", place);
}

static void damage_images(uint32_t damages) {
    images_tried = images_refused = 0;
    fill_holder();
    for (uint8_t spot = 0; spot <= RQ_PARTIES * RQ_PLACES; spot++) {
        const uint8_t party = spot / RQ_PLACES % RQ_PARTIES, place = spot % RQ_PLACES;
        if (spot == RQ_PARTIES * RQ_PLACES) {
            rq_clear(&holder, party, place, &reply);
            sound = holder;
        }
        rq_save(&holder, party, place, image, RQ_IMAGE_BYTES, &reply);
        if (!refused_by(0)) wrong("a save", spot);
        restored(party, place);
        single_bits();
        other_lengths();
        for (uint32_t i = 0; i < damages / (RQ_PARTIES * RQ_PLACES + 1); i++) random_damage(i);
    }
    put_line("damaged images", images_tried, " tried, refused ", images_refused);
}

int program(uint32_t first, uint32_t second) {
    seed(first == 0 ? 1 : first, 0, 0);
    damage_memory();
    damage_pile();
    damage_images(second == 0 ? 20000 : second);
    put(all_wrong == 0 ? "damage: every bit is noticed or changes no answer, and no damaged image is taken\n"
                       : "damage: some is NOT NOTICED\n");
    return all_wrong == 0 ? 0 : 1;
}
