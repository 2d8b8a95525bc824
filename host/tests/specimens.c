/*
 * The specimens of contract 9 through every function of robequarry.h. The compiler is given MANY_EDGES, the letters of the longest
 * of them as a string of digits. A line that fails is named, and the status is then 1.
 */
#include <stdio.h>
#include <string.h>

#include "robequarry.h"

#define EXPECT(fact) \
    do { \
        if (!(fact)) { \
            fprintf(stderr, "specimens.c:%d: %s\n", __LINE__, #fact); \
            return false; \
        } \
    } while (0)

/* A specimen: a start, letters as digits, the reply of the test, and the first of its edges. */
struct specimen {
    uint16_t col, row;
    const char *letters;
    rq_reply reply;
    int16_t edges[8];
};

/* In the order number, word, place, piece, length, column, row. */
static const struct specimen specimens[] = {
    {0, 0, "1032", {0, 0, 0, 0, 0, 0, 0}, {0}},                                 /* H1 */
    {0, 0, "10003222", {0, 0, 2, 0, 0, 0, 0}, {2, 0, -2, 0}},                   /* H2 */
    {0, 1, "101030323212", {0, 0, 4, 0, 0, 0, 1}, {1, 1, 1, -1, -1, -1, -1, 1}}, /* H3 */
    {1, 1, "210103032321", {0, 0, 4, 0, 0, 0, 1}, {1, 1, 1, -1, -1, -1, -1, 1}}, /* H4 */
    {0, 0, "11030322", {0, 0, 3, 0, 0, 0, 0}, {0, 1, 1, -1, -1, 0}},            /* H5 */
    {0, 0, "111033003222", {9, 0, 4, 2, 4, 1, 1}, {0}},                         /* H6 */
    {0, 0, "110301033222", {8, 0, 5, 2, 0, 0, 0}, {0}},                         /* H7 */
    {0, 0, "1023", {6, 0, 2, 0, 0, 0, 0}, {0}},                                 /* H8 */
    {0, 0, "0123", {0, 0, 0, 0, 0, 0, 0}, {0}},                                 /* H9 */
    {0, 0, "103", {1, 0, 0, 0, 0, 0, 0}, {0}},                                  /* H10 */
    {255, 0, "1032", {4, 0, 1, 0, 0, 0, 0}, {0}},                               /* H11 */
    {0, 1, "1033", {5, 0, 0, 0, 0, 0, 0}, {0}},                                 /* H12 */
    {256, 0, "7777", {2, 0, 0, 0, 0, 0, 0}, {0}},
    {255, 0, "1037", {3, 0, 3, 0, 0, 0, 0}, {0}},
    {0, 1, "030101212323", {0, 0, 4, 0, 0, 0, 1}, {1, 1, 1, -1, -1, -1, -1, 1}}, /* H3 backward */
    {1, 1, "301012123230", {0, 0, 4, 0, 0, 0, 1}, {1, 1, 1, -1, -1, -1, -1, 1}}, /* H4 backward */
    {0, 0, "000122112333", {9, 0, 7, 2, 4, 1, 1}, {0}},                         /* H6 backward */
    {0, 0, "000112321233", {8, 0, 6, 2, 0, 0, 0}, {0}},                         /* H7 backward */
    {0, 81, MANY_EDGES, {0, 0, 100, 0, 0, 0, 81}, {0, 1, 1, 8, 1, 7, 1, 6}},
};

#define COUNT (sizeof specimens / sizeof specimens[0])

/* A list of letters. */
struct list {
    uint8_t bytes[RQ_LETTERS];
    uint16_t count;
};

static struct list letters_of(const struct specimen *specimen) {
    struct list list;
    memset(&list, 0, sizeof list);
    for (const char *digit = specimen->letters; *digit != '\0'; digit++) {
        list.bytes[list.count] = (uint8_t)(*digit - '0');
        list.count = (uint16_t)(list.count + 1);
    }
    return list;
}

static bool same(const rq_reply *one, const rq_reply *other) {
    return memcmp(one, other, sizeof *one) == 0;
}

/* Whether a reply has this number and this word, and no other field. */
static bool plain(const rq_reply *reply, uint16_t number, uint16_t word) {
    const rq_reply expected = {number, word, 0, 0, 0, 0, 0};
    return same(reply, &expected);
}

/* A reply that no call gives. */
static const rq_reply blank = {77, 77, 77, 77, 77, 77, 77};

/* The test, the loose query, the border and the comparison. */
static bool without_a_holder(const struct specimen *specimen) {
    const struct list letters = letters_of(specimen);
    int16_t edges[RQ_EDGE_NUMBERS + 1];
    for (int i = 0; i <= RQ_EDGE_NUMBERS; i++) edges[i] = 77;
    rq_reply reply = blank;
    rq_test(specimen->col, specimen->row, letters.bytes, letters.count, edges, RQ_EDGE_NUMBERS, &reply);
    EXPECT(same(&reply, &specimen->reply));
    const uint16_t m = reply.number == 0 ? (uint16_t)(2u * reply.place) : 0;
    EXPECT(memcmp(edges, specimen->edges, (m < 8 ? m : 8) * sizeof edges[0]) == 0);
    for (int i = m; i <= RQ_EDGE_NUMBERS; i++) EXPECT(edges[i] == 77);
    if (reply.number != 0) return true;

    /* One number less is too few. */
    int16_t few[RQ_EDGE_NUMBERS] = {0};
    if (m > 0) {
        rq_test(specimen->col, specimen->row, letters.bytes, letters.count, few, m - 1u, &reply);
        EXPECT(reply.number == RQ_REFUSED_EDGE_LIST && reply.place == m / 2 && few[0] == 0);
    }

    const uint16_t col = specimen->reply.col, row = specimen->reply.row;
    rq_loose_query(col, row, edges, m, col, row, &reply);
    EXPECT(plain(&reply, 0, RQ_WORD_INSIDE));
    rq_loose_query(col, row, edges, m, 254, 254, &reply);
    EXPECT(plain(&reply, 0, RQ_WORD_OUTSIDE));
    rq_loose_query(col, row, edges, m, 255, 0, &reply);
    EXPECT(plain(&reply, RQ_REFUSED_CELL, RQ_NO_WORD));
    const int16_t zero[] = {0, 0};
    rq_loose_query(col, row, zero, 2, 0, 0, &reply);
    EXPECT(plain(&reply, RQ_REFUSED_DIRECTIONS, RQ_NO_WORD));
    rq_loose_query(col, row, zero, 1, 0, 0, &reply);
    EXPECT(plain(&reply, RQ_REFUSED_EDGE_LIST, RQ_NO_WORD));

    /* The border is an outline with the same edges. */
    uint8_t border[RQ_LETTERS + 1];
    memset(border, 9, sizeof border);
    rq_border(col, row, edges, m, border, RQ_LETTERS, &reply);
    EXPECT(reply.number == 0 && reply.place == letters.count && border[letters.count] == 9);
    int16_t again[RQ_EDGE_NUMBERS] = {0};
    rq_test(col, row, border, reply.place, again, RQ_EDGE_NUMBERS, &reply);
    EXPECT(same(&reply, &specimen->reply) && memcmp(again, edges, m * sizeof edges[0]) == 0);
    rq_border(col, row, edges, m, border, letters.count - 1u, &reply);
    EXPECT(plain(&reply, RQ_REFUSED_LETTER_BUFFER, RQ_NO_WORD));
    const int16_t diagonal[] = {1, 1, -1, -1};
    rq_border(col, row, diagonal, 4, border, 0, &reply);
    EXPECT(plain(&reply, RQ_REFUSED_NO_OUTLINE, RQ_NO_WORD));

    /* The cells are their own, and the anchor is one of them. */
    rq_compare(col, row, edges, m, col, row, edges, m, &reply);
    EXPECT(reply.number == 0 && reply.word == RQ_WORD_EQUAL && reply.piece == 1);
    rq_compare(col, row, edges, m, col, row, edges, 0, &reply);
    EXPECT(reply.word == (m == 0 ? RQ_WORD_EQUAL : RQ_WORD_SECOND_WITHIN) && reply.piece == (m == 0 ? 1 : 2));
    rq_compare(col, row, edges, 0, col, row, edges, m, &reply);
    EXPECT(reply.word == (m == 0 ? RQ_WORD_EQUAL : RQ_WORD_FIRST_WITHIN) && reply.piece == 1);
    rq_compare(col, row, edges, m, 254, 254, edges, 0, &reply);
    EXPECT(plain(&reply, 0, RQ_WORD_NO_COMMON));
    rq_compare(col, row, edges, m, 255, 0, edges, 0, &reply);
    EXPECT(reply.number == RQ_REFUSED_CELL && reply.place == 2);
    return true;
}

/* What a witness and a completion give for one of the specimens. */
struct help {
    const char *letters;
    uint16_t witness[RQ_WITNESS_NUMBERS];
    const char *completion;
};

/* By the letters of the specimen. What a test takes has no witness, and is not listed. */
static const struct help helps[] = {
    {"111033003222", {2, 0, 0, 2, 0, 1}, "111030303222"}, /* H6 */
    {"110301033222", {0, 1, 2, 1, 2, 1}, "1100033222"},   /* H7 */
    {"000122112333", {2, 0, 0, 2, 0, 1}, "111030303222"}, /* H6 backward */
    {"000112321233", {0, 1, 2, 1, 2, 1}, "1100033222"},   /* H7 backward */
};

static const struct help *help_of(const struct specimen *specimen) {
    for (size_t i = 0; i < sizeof helps / sizeof helps[0]; i++) {
        if (strcmp(helps[i].letters, specimen->letters) == 0) return &helps[i];
    }
    return NULL;
}

/* Whether the first n bytes of a list are these letters, and the next is still 9. */
static bool written(const uint8_t *list, uint16_t n, const char *letters) {
    if (strlen(letters) != n) return false;
    for (uint16_t i = 0; i < n; i++) {
        if (list[i] != (uint8_t)(letters[i] - '0')) return false;
    }
    return list[n] == 9;
}

/* Whether all of a list of six numbers and one more are as they were. */
static bool untouched(const uint16_t cells[RQ_WITNESS_NUMBERS + 1]) {
    for (int i = 0; i <= RQ_WITNESS_NUMBERS; i++) {
        if (cells[i] != 77) return false;
    }
    return true;
}

/* The witness and the completion: 1 to 6 as the test has them, then 10 and 18, then what they give. */
static bool help(const struct specimen *specimen) {
    const struct list letters = letters_of(specimen);
    const uint16_t number = specimen->reply.number, n = letters.count;
    uint16_t cells[RQ_WITNESS_NUMBERS + 1];
    uint8_t out[RQ_LETTERS + 1];
    for (int i = 0; i <= RQ_WITNESS_NUMBERS; i++) cells[i] = 77;
    memset(out, 9, sizeof out);
    rq_reply reply = blank;
    if (number >= RQ_REFUSED_LENGTH && number <= RQ_REFUSED_TOUCHES) {
        rq_witness(specimen->col, specimen->row, letters.bytes, n, cells, 0, &reply);
        EXPECT(same(&reply, &specimen->reply) && untouched(cells));
        rq_witness(specimen->col, specimen->row, letters.bytes, n, cells, RQ_WITNESS_NUMBERS, &reply);
        EXPECT(same(&reply, &specimen->reply) && untouched(cells));
        rq_complete(specimen->col, specimen->row, letters.bytes, n, out, 0, &reply);
        EXPECT(same(&reply, &specimen->reply) && written(out, 0, ""));
        rq_complete(specimen->col, specimen->row, letters.bytes, n, out, RQ_LETTERS, &reply);
        EXPECT(same(&reply, &specimen->reply) && written(out, 0, ""));
        return true;
    }

    const struct help *expected = help_of(specimen);
    EXPECT((expected == NULL) == (number == 0));
    rq_witness(specimen->col, specimen->row, letters.bytes, n, cells, RQ_WITNESS_NUMBERS - 1, &reply);
    EXPECT(plain(&reply, RQ_REFUSED_EDGE_LIST, RQ_NO_WORD) && untouched(cells));
    rq_witness(specimen->col, specimen->row, letters.bytes, n, cells, RQ_WITNESS_NUMBERS + 1, &reply);
    if (expected == NULL) {
        EXPECT(plain(&reply, 0, RQ_WORD_NONE) && untouched(cells));
    } else {
        const rq_reply missing = {0, RQ_NO_WORD, 0, 0, 0, 1, 1};
        EXPECT(same(&reply, &missing) && memcmp(cells, expected->witness, sizeof expected->witness) == 0);
        EXPECT(cells[RQ_WITNESS_NUMBERS] == 77);
    }

    /* Of a taken outline its own border, which the library also writes from its edges. */
    char own[RQ_LETTERS + 1] = "";
    rq_reply completed = {0, RQ_NO_WORD, 0, 0, 0, 0, 0};
    int16_t edges[RQ_EDGE_NUMBERS] = {0};
    if (expected == NULL) {
        uint8_t border[RQ_LETTERS] = {0};
        rq_test(specimen->col, specimen->row, letters.bytes, n, edges, RQ_EDGE_NUMBERS, &completed);
        rq_border(completed.col, completed.row, edges, 2u * completed.place, border, RQ_LETTERS, &reply);
        for (uint16_t i = 0; i < reply.place; i++) own[i] = (char)('0' + border[i]);
        completed.place = reply.place;
    } else {
        strcpy(own, expected->completion);
        completed.place = (uint16_t)strlen(own);
    }
    rq_complete(specimen->col, specimen->row, letters.bytes, n, out, completed.place - 1u, &reply);
    EXPECT(plain(&reply, RQ_REFUSED_LETTER_BUFFER, RQ_NO_WORD) && written(out, 0, ""));
    rq_complete(specimen->col, specimen->row, letters.bytes, n, out, RQ_LETTERS, &reply);
    EXPECT(same(&reply, &completed) && written(out, completed.place, own));

    /* A test takes it, and it is its own completion. */
    uint8_t again[RQ_LETTERS + 1];
    memset(again, 9, sizeof again);
    rq_test(completed.col, completed.row, out, completed.place, edges, RQ_EDGE_NUMBERS, &reply);
    EXPECT(reply.number == 0 && reply.col == completed.col && reply.row == completed.row);
    rq_complete(completed.col, completed.row, out, completed.place, again, completed.place, &reply);
    EXPECT(same(&reply, &completed) && memcmp(again, out, sizeof out) == 0);
    return true;
}

/* A call as bytes. */
static void put_call(uint8_t call[RQ_CALL_BYTES], uint8_t number, uint8_t party, uint8_t place, uint32_t x, uint32_t y) {
    call[0] = number;
    call[1] = party;
    call[2] = place;
    for (int i = 0; i < 4; i++) {
        call[3 + i] = (uint8_t)(x >> 8 * i);
        call[7 + i] = (uint8_t)(y >> 8 * i);
    }
}

static uint32_t bits_of(float number) {
    uint32_t bits = 0;
    memcpy(&bits, &number, sizeof bits);
    return bits;
}

/* What is held against each other: a holder that is called by arguments, one that is called by bytes, and the bytes of all calls. */
static struct both {
    rq_holder by_arguments;
    uint8_t guard;
    rq_holder by_bytes;
    uint8_t script[RQ_CALL_BYTES * 4096];
    uint64_t calls;
    rq_reply replies[4096];
    rq_reply replayed[4097];
} both;

/* After a call by its arguments: the same call as bytes has the same reply, and leaves the same memory. */
static bool called(const rq_reply *reply, uint8_t number, uint8_t party, uint8_t place, uint32_t x, uint32_t y) {
    EXPECT(both.calls < 4096);
    uint8_t *call = both.script + RQ_CALL_BYTES * both.calls;
    put_call(call, number, party, place, x, y);
    rq_reply other = blank;
    EXPECT(rq_call(&both.by_bytes, call, RQ_CALL_BYTES, &other));
    EXPECT(same(reply, &other));
    EXPECT(memcmp(&both.by_arguments, &both.by_bytes, sizeof(rq_holder)) == 0);
    both.replies[both.calls] = other;
    both.calls++;
    return true;
}

static bool begin(uint8_t party, uint16_t col, uint16_t row, rq_reply *reply) {
    rq_begin(&both.by_arguments, party, col, row, reply);
    return called(reply, RQ_CALL_BEGIN, party, 0, col, row);
}

static bool add(uint8_t party, uint8_t letter, rq_reply *reply) {
    rq_add(&both.by_arguments, party, letter, reply);
    return called(reply, RQ_CALL_ADD, party, 0, letter, 0);
}

static bool drop(uint8_t party, rq_reply *reply) {
    rq_drop(&both.by_arguments, party, reply);
    return called(reply, RQ_CALL_DROP, party, 0, 0, 0);
}

static bool clear(uint8_t party, uint8_t place, rq_reply *reply) {
    rq_clear(&both.by_arguments, party, place, reply);
    return called(reply, RQ_CALL_CLEAR, party, place, 0, 0);
}

static bool finish(uint8_t party, uint8_t place, rq_reply *reply) {
    rq_close(&both.by_arguments, party, place, reply);
    return called(reply, RQ_CALL_CLOSE, party, place, 0, 0);
}

static bool query(uint8_t party, uint8_t place, uint16_t col, uint16_t row, rq_reply *reply) {
    rq_query(&both.by_arguments, party, place, col, row, reply);
    return called(reply, RQ_CALL_QUERY, party, place, col, row);
}

static bool columns(uint8_t party, uint8_t place, uint16_t row, rq_reply *reply) {
    rq_row(&both.by_arguments, party, place, row, reply);
    return called(reply, RQ_CALL_ROW, party, place, row, 0);
}

static bool reading(uint8_t party, uint8_t place, float angle, float load, rq_reply *reply) {
    rq_reading(&both.by_arguments, party, place, angle, load, reply);
    return called(reply, RQ_CALL_READING, party, place, bits_of(angle), bits_of(load));
}

static bool piece(uint8_t party, uint8_t place, uint16_t position, float point[2], rq_reply *reply) {
    rq_piece(&both.by_arguments, party, place, position, point, reply);
    return called(reply, RQ_CALL_PIECE, party, place, position, 0);
}

/* Two fresh holders, in memory that held something else. */
static void fresh(void) {
    memset(&both, 0x5a, sizeof both);
    both.calls = 0;
    rq_fresh(&both.by_arguments);
    rq_fresh(&both.by_bytes);
}

/* All calls again as a script; without its last byte the last of them is cut, and space for one reply less leaves the rest unaltered. */
static bool replayed(void) {
    const uint64_t n = RQ_CALL_BYTES * both.calls;
    for (int i = 0; i <= 4096; i++) both.replayed[i] = blank;
    EXPECT(rq_replay(both.script, n, both.replayed, 4096) == both.calls);
    EXPECT(memcmp(both.replayed, both.replies, both.calls * sizeof(rq_reply)) == 0);
    EXPECT(same(&both.replayed[both.calls], &blank));
    for (int i = 0; i <= 4096; i++) both.replayed[i] = blank;
    EXPECT(rq_replay(both.script, n - 1, both.replayed, 4096) == both.calls - 1);
    EXPECT(rq_replay(both.script, n, both.replayed, both.calls - 1) == both.calls - 1);
    EXPECT(same(&both.replayed[both.calls - 1], &blank) && both.guard == 0x5a);
    return true;
}

/* A specimen drawn and closed, twice, and asked about; then cleared. */
static bool on_a_holder(const struct specimen *specimen, uint8_t party, uint8_t place) {
    const struct list letters = letters_of(specimen);
    rq_reply reply = blank;
    fresh();
    EXPECT(query(party, place, 0, 0, &reply) && plain(&reply, RQ_REFUSED_NOTHING_AT_WORK, RQ_NO_WORD));
    EXPECT(add(party, 0, &reply) && plain(&reply, RQ_REFUSED_NO_DRAFT, RQ_NO_WORD));
    for (int times = 0; times < 2; times++) {
        EXPECT(begin(party, specimen->col, specimen->row, &reply));
        if (reply.number != 0) {
            EXPECT(same(&reply, &specimen->reply) && reply.number == RQ_REFUSED_START);
            return replayed();
        }
        EXPECT(begin(party, 0, 0, &reply) && plain(&reply, RQ_REFUSED_DRAFT_OPEN, RQ_NO_WORD));
        for (uint16_t i = 0; i < letters.count; i++) {
            EXPECT(add(party, letters.bytes[i], &reply));
            if (reply.number != 0) {
                EXPECT(same(&reply, &specimen->reply) && reply.number == RQ_REFUSED_LETTER);
                EXPECT(drop(party, &reply) && plain(&reply, 0, RQ_NO_WORD));
                return replayed();
            }
        }
        EXPECT(finish(party, place, &reply));
        rq_reply expected = specimen->reply;
        if (expected.number == 0) expected.word = times == 0 ? RQ_WORD_TAKEN : RQ_WORD_SAME;
        EXPECT(same(&reply, &expected));
    }
    EXPECT(drop(party, &reply) && plain(&reply, RQ_REFUSED_NO_DRAFT, RQ_NO_WORD));
    if (specimen->reply.number != 0) {
        EXPECT(columns(party, place, 0, &reply) && plain(&reply, RQ_REFUSED_NOTHING_AT_WORK, RQ_NO_WORD));
        return replayed();
    }

    /* The anchor is the first cell of its row, and its centre is where the drawing begins. */
    const uint16_t col = specimen->reply.col, row = specimen->reply.row, edges = specimen->reply.place;
    EXPECT(query(party, place, col, row, &reply) && plain(&reply, 0, RQ_WORD_INSIDE));
    EXPECT(query(party, place, 254, 254, &reply) && plain(&reply, 0, RQ_WORD_OUTSIDE));
    EXPECT(query(party, place, 0, 255, &reply) && plain(&reply, RQ_REFUSED_CELL, RQ_NO_WORD));
    EXPECT(columns(party, place, row, &reply) && reply.word == RQ_WORD_COLUMNS);
    EXPECT(reply.col == col && rq_last_column(&reply) >= col && rq_last_column(&reply) == reply.row);
    EXPECT(columns(party, place, 254, &reply) && plain(&reply, 0, RQ_WORD_NONE));
    EXPECT(reading(party, place, (float)col, (float)row, &reply));
    EXPECT(plain(&reply, 0, edges == 0 ? RQ_WORD_INSIDE : RQ_WORD_UNDECIDED));
    EXPECT(reading(party, place, 254.0f, 254.0f, &reply) && plain(&reply, 0, RQ_WORD_OUTSIDE));
    EXPECT(reading(party, place, -0.25f, 0.0f, &reply) && plain(&reply, RQ_REFUSED_CELL, RQ_NO_WORD));
    const uint16_t last = edges == 0 ? 1 : edges;
    for (uint16_t position = 0; position <= last + 1; position++) {
        float point[] = {-1.0f, -1.0f, -1.0f};
        EXPECT(piece(party, place, position, point, &reply) && reply.number == 0);
        const bool has_point = position < last;
        EXPECT(reply.word == (position == 0       ? RQ_WORD_MOVE
                              : position < last   ? RQ_WORD_LINE
                              : position == last  ? RQ_WORD_CLOSE
                                                  : RQ_WORD_NONE));
        EXPECT(point[0] == (has_point ? (float)reply.col + 0.5f : -1.0f));
        EXPECT(point[1] == (has_point ? (float)reply.row + 0.5f : -1.0f));
        EXPECT(point[2] == -1.0f && (position > 0 || (reply.col == col && reply.row == row)));
    }

    /* The other party and the other places have nothing. Then this one has nothing, too. */
    EXPECT(query(party ^ 1, place, col, row, &reply) && plain(&reply, RQ_REFUSED_NOTHING_AT_WORK, RQ_NO_WORD));
    EXPECT(query(party, place ^ 1, col, row, &reply) && plain(&reply, RQ_REFUSED_NOTHING_AT_WORK, RQ_NO_WORD));
    EXPECT(query(RQ_PARTIES, RQ_PLACES, col, row, &reply) && plain(&reply, RQ_REFUSED_PARTY, RQ_NO_WORD));
    EXPECT(query(party, RQ_PLACES, col, row, &reply) && plain(&reply, RQ_REFUSED_PLACE, RQ_NO_WORD));
    EXPECT(clear(party, RQ_PLACES, &reply) && plain(&reply, RQ_REFUSED_PLACE, RQ_NO_WORD));
    EXPECT(clear(party, place, &reply) && plain(&reply, 0, RQ_NO_WORD));
    EXPECT(query(party, place, col, row, &reply) && plain(&reply, RQ_REFUSED_NOTHING_AT_WORK, RQ_NO_WORD));

    /* A close that 20 refuses ends the draft. */
    EXPECT(begin(party, 0, 0, &reply) && finish(party, RQ_PLACES, &reply) && plain(&reply, RQ_REFUSED_PLACE, RQ_NO_WORD));
    EXPECT(finish(party, place, &reply) && plain(&reply, RQ_REFUSED_NO_DRAFT, RQ_NO_WORD));
    return replayed();
}

/* Bytes that are no call alter nothing. A draft takes as many letters as an outline has. A copy is a holder of its own. */
static bool on_holders(void) {
    static rq_holder holder, copy;
    rq_reply reply = blank;
    memset(&holder, 0xff, sizeof holder);
    rq_fresh(&holder);
    rq_begin(&holder, 1, 0, 0, &reply);
    EXPECT(plain(&reply, 0, RQ_NO_WORD));
    memcpy(&copy, &holder, sizeof copy);
    uint8_t call[RQ_CALL_BYTES + 1] = {0};
    put_call(call, RQ_CALL_PIECE + 1, 1, 0, 0, 0);
    reply = blank;
    EXPECT(!rq_call(&holder, call, RQ_CALL_BYTES, &reply));
    put_call(call, RQ_CALL_DROP, 1, 0, 0, 0);
    EXPECT(!rq_call(&holder, call, RQ_CALL_BYTES - 1, &reply) && !rq_call(&holder, call, RQ_CALL_BYTES + 1, &reply));
    EXPECT(!rq_call(&holder, call, 0, &reply) && same(&reply, &blank));
    EXPECT(memcmp(&copy, &holder, sizeof copy) == 0);
    for (int i = 0; i < RQ_LETTERS; i++) {
        rq_add(&holder, 1, 1, &reply);
        EXPECT(plain(&reply, 0, RQ_NO_WORD));
    }
    rq_add(&holder, 1, 1, &reply);
    EXPECT(plain(&reply, RQ_REFUSED_DRAFT_FULL, RQ_NO_WORD));
    rq_close(&holder, 1, 0, &reply);
    EXPECT(reply.number == RQ_REFUSED_OFF_CHART && reply.place == 255);
    rq_drop(&copy, 1, &reply);
    EXPECT(plain(&reply, 0, RQ_NO_WORD));
    return true;
}

/* Of one cell alone its centre is inside, and nothing else, however near: subnormal numbers are not flushed to zero. */
static bool least_reading(void) {
    rq_reply reply = blank;
    const uint8_t cell[] = {1, 0, 3, 2};
    fresh();
    EXPECT(begin(0, 0, 0, &reply));
    for (int i = 0; i < 4; i++) EXPECT(add(0, cell[i], &reply));
    EXPECT(finish(0, 0, &reply) && reply.word == RQ_WORD_TAKEN);
    const uint32_t least_bits = 1;
    float least = 0.0f;
    memcpy(&least, &least_bits, sizeof least);
    EXPECT(reading(0, 0, 0.0f, -0.0f, &reply) && plain(&reply, 0, RQ_WORD_INSIDE));
    EXPECT(reading(0, 0, least, 0.0f, &reply) && plain(&reply, 0, RQ_WORD_OUTSIDE));
    EXPECT(reading(0, 0, 0.0f, least, &reply) && plain(&reply, 0, RQ_WORD_OUTSIDE));
    return replayed();
}

/* A specimen as a layer of a pile. */
static bool on_a_pile(const struct specimen *specimen, uint8_t layer) {
    static struct {
        rq_pile pile;
        uint8_t guard;
    } memory;
    const struct list letters = letters_of(specimen);
    rq_reply reply = blank;
    memset(&memory, 0x5a, sizeof memory);
    rq_pile_fresh(&memory.pile);
    rq_pile_query(&memory.pile, layer, 0, 0, &reply);
    EXPECT(plain(&reply, RQ_REFUSED_NOTHING_AT_WORK, RQ_NO_WORD));
    rq_pile_check(&memory.pile, &reply);
    EXPECT(plain(&reply, 0, RQ_NO_WORD));
    const rq_pile before = memory.pile;
    rq_pile_set(&memory.pile, layer, specimen->col, specimen->row, letters.bytes, letters.count, &reply);
    EXPECT(same(&reply, &specimen->reply));
    EXPECT((memcmp(&before, &memory.pile, sizeof before) == 0) == (reply.number != 0));
    rq_pile_check(&memory.pile, &reply);
    EXPECT(plain(&reply, 0, RQ_NO_WORD));
    const uint16_t word = specimen->reply.number == 0 ? RQ_WORD_INSIDE : RQ_WORD_OUTSIDE;
    rq_pile_query(&memory.pile, layer, specimen->reply.col, specimen->reply.row, &reply);
    EXPECT(plain(&reply, 0, word));
    rq_pile_query(&memory.pile, layer, 255, 0, &reply);
    EXPECT(plain(&reply, RQ_REFUSED_CELL, RQ_NO_WORD));
    rq_pile_query(&memory.pile, RQ_LAYERS, 0, 0, &reply);
    EXPECT(plain(&reply, RQ_REFUSED_LAYER, RQ_NO_WORD));
    rq_pile_set(&memory.pile, RQ_LAYERS, specimen->col, specimen->row, letters.bytes, letters.count, &reply);
    EXPECT(plain(&reply, RQ_REFUSED_LAYER, RQ_NO_WORD));
    rq_pile_empty(&memory.pile, RQ_LAYERS, &reply);
    EXPECT(plain(&reply, RQ_REFUSED_LAYER, RQ_NO_WORD));
    rq_pile_empty(&memory.pile, layer, &reply);
    EXPECT(plain(&reply, 0, RQ_NO_WORD));
    rq_pile_query(&memory.pile, layer, 0, 0, &reply);
    EXPECT(plain(&reply, RQ_REFUSED_NOTHING_AT_WORK, RQ_NO_WORD));
    EXPECT(memory.guard == 0x5a);
    return true;
}

/* A specimen as an image, where it has one: restored, checked, and saved again, at a place of a holder and in a layer of a pile. */
static bool as_image(const struct specimen *specimen, uint8_t party, uint8_t place) {
    static rq_holder h, before;
    static rq_pile pile, pile_before;
    const struct list letters = letters_of(specimen);
    uint8_t image[RQ_IMAGE_BYTES + 1], saved[RQ_IMAGE_BYTES + 1];
    rq_reply reply = blank, expected = specimen->reply;
    if (specimen->col > 255 || specimen->row > 255 || letters.count > RQ_LETTERS) return true;
    memset(image, 0, sizeof image);
    image[0] = 0x4b;
    image[1] = 0x4f;
    image[2] = (uint8_t)specimen->col;
    image[3] = (uint8_t)specimen->row;
    image[4] = (uint8_t)(letters.count % 256);
    image[5] = (uint8_t)(letters.count / 256);
    memcpy(image + 6, letters.bytes, letters.count);
    const uint32_t sum = rq_checksum(image, RQ_IMAGE_BYTES - 4);
    for (int i = 0; i < 4; i++) image[RQ_IMAGE_BYTES - 4 + i] = (uint8_t)(sum >> 8 * i);

    rq_fresh(&h);
    rq_begin(&h, party, 7, 8, &reply);
    before = h;
    image[9] ^= 1;
    rq_restore(&h, party, place, image, RQ_IMAGE_BYTES, &reply);
    EXPECT(plain(&reply, RQ_REFUSED_IMAGE, RQ_NO_WORD) && memcmp(&h, &before, sizeof h) == 0);
    image[9] ^= 1;
    rq_restore(&h, party, place, image, RQ_IMAGE_BYTES + 1, &reply);
    EXPECT(plain(&reply, RQ_REFUSED_IMAGE, RQ_NO_WORD) && memcmp(&h, &before, sizeof h) == 0);
    rq_restore(&h, party, RQ_PLACES, image, RQ_IMAGE_BYTES, &reply);
    EXPECT(plain(&reply, RQ_REFUSED_PLACE, RQ_NO_WORD) && memcmp(&h, &before, sizeof h) == 0);
    rq_restore(&h, party, place, image, RQ_IMAGE_BYTES, &reply);
    expected.word = expected.number == 0 ? RQ_WORD_TAKEN : RQ_NO_WORD;
    EXPECT(same(&reply, &expected));
    EXPECT((memcmp(&h, &before, sizeof h) == 0) == (expected.number != 0));
    rq_check(&h, party, place, &reply);
    EXPECT(plain(&reply, 0, RQ_NO_WORD));
    memset(saved, 77, sizeof saved);
    rq_save(&h, party, place, saved, RQ_IMAGE_BYTES - 1, &reply);
    EXPECT(reply.number == RQ_REFUSED_LETTER_BUFFER && saved[0] == 77);
    rq_save(&h, party, place, saved, RQ_IMAGE_BYTES, &reply);
    EXPECT(plain(&reply, 0, RQ_NO_WORD) && saved[RQ_IMAGE_BYTES] == 77 && saved[0] == 0x4b);
    EXPECT((saved[4] + 256 * saved[5] == 0) == (expected.number != 0));
    rq_draft(&h, party, &reply);
    EXPECT(reply.number == 0 && reply.col == 7 && reply.row == 8);

    /* A pile keeps what a holder does. */
    rq_pile_fresh(&pile);
    rq_pile_check(&pile, &reply);
    pile_before = pile;
    rq_pile_restore(&pile, 5, image, RQ_IMAGE_BYTES, &reply);
    EXPECT(same(&reply, &specimen->reply));
    EXPECT((memcmp(&pile, &pile_before, sizeof pile) == 0) == (expected.number != 0));
    rq_pile_save(&pile, 5, image, RQ_IMAGE_BYTES, &reply);
    EXPECT(plain(&reply, 0, RQ_NO_WORD) && memcmp(image, saved, RQ_IMAGE_BYTES) == 0);
    rq_pile_save(&pile, RQ_LAYERS, image, RQ_IMAGE_BYTES, &reply);
    EXPECT(plain(&reply, RQ_REFUSED_LAYER, RQ_NO_WORD));
    pile.rows[5 * 2 * RQ_SIDE + 200] ^= 1;
    rq_pile_save(&pile, 5, image, RQ_IMAGE_BYTES, &reply);
    EXPECT(plain(&reply, RQ_REFUSED_DAMAGED, RQ_NO_WORD));
    if (expected.number != 0) return true;

    /* One bit of what is at work. */
    before = h;
    h.rows[2 * RQ_SIDE * (RQ_SLOTS / RQ_PARTIES) * party + 200] ^= 1;
    rq_check(&h, party, place, &reply);
    EXPECT(plain(&reply, RQ_REFUSED_DAMAGED, RQ_NO_WORD));
    rq_save(&h, party, place, image, RQ_IMAGE_BYTES, &reply);
    EXPECT(plain(&reply, RQ_REFUSED_DAMAGED, RQ_NO_WORD));
    rq_restore(&h, party, place, saved, RQ_IMAGE_BYTES, &reply);
    EXPECT(reply.number == 0 && reply.word == RQ_WORD_SAME);
    rq_check(&h, party, place, &reply);
    EXPECT(plain(&reply, 0, RQ_NO_WORD));
    return true;
}

/* One cell in each of three layers: the middle one lies beside the hull of the others, first in a column and then in a row. */
static bool sections(void) {
    static rq_pile pile;
    const uint8_t cell[] = {1, 0, 3, 2};
    const uint16_t at[] = {1, 2, 0};
    rq_reply reply = blank;
    for (uint16_t kind = 0; kind < 2; kind++) {
        rq_pile_fresh(&pile);
        for (uint8_t layer = 0; layer < 3; layer++) {
            rq_pile_set(&pile, layer, kind == 0 ? 9 : at[layer], kind == 0 ? at[layer] : 9, cell, sizeof cell, &reply);
            EXPECT(reply.number == 0);
        }
        rq_pile_check(&pile, &reply);
        const rq_reply dented = {RQ_REFUSED_SECTION, 0, 9, kind, 0, 0, 0};
        EXPECT(same(&reply, &dented));
        rq_pile_query(&pile, 0, 9, 1, &reply);
        EXPECT(plain(&reply, RQ_REFUSED_NOTHING_AT_WORK, RQ_NO_WORD));
    }
    return true;
}

/* Lists that are too long, and that leave the chart. */
static bool long_lists(void) {
    static uint8_t up[2049];
    const uint16_t counts[] = {612, 613, 2048, 2049};
    memset(up, 1, sizeof up);
    int16_t edges[RQ_EDGE_NUMBERS] = {0};
    for (int i = 0; i < 4; i++) {
        rq_reply reply = blank;
        rq_test(0, 0, up, counts[i], edges, RQ_EDGE_NUMBERS, &reply);
        EXPECT(reply.number == (i == 0 ? RQ_REFUSED_OFF_CHART : RQ_REFUSED_LENGTH) && reply.place == (i == 0 ? 255 : 0));
        rq_reply other = blank;
        uint16_t cells[RQ_WITNESS_NUMBERS] = {0};
        uint8_t out[RQ_LETTERS] = {0};
        rq_witness(0, 0, up, counts[i], cells, RQ_WITNESS_NUMBERS, &other);
        EXPECT(same(&reply, &other));
        rq_complete(0, 0, up, counts[i], out, RQ_LETTERS, &other);
        EXPECT(same(&reply, &other));
    }
    return true;
}

int main(void) {
    for (uint8_t i = 0; i < COUNT; i++) {
        const bool passed = without_a_holder(&specimens[i]) && help(&specimens[i]) &&
                            on_a_holder(&specimens[i], i % RQ_PARTIES, i / 2 % RQ_PLACES) && on_a_pile(&specimens[i], i % RQ_LAYERS) &&
                            as_image(&specimens[i], i % RQ_PARTIES, i % RQ_PLACES);
        if (!passed) {
            fprintf(stderr, "specimen %d: %s\n", i, specimens[i].letters);
            return 1;
        }
    }
    return on_holders() && least_reading() && sections() && long_lists() ? 0 : 1;
}
