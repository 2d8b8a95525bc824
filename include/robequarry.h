/*
 * Robequarry 0.4.0: digital convexity on a chart of 255 by 255 cells.
 *
 * You pass the border of a block of cells. The library says whether the block is convex. A convex block gets edges, by which a cell or
 * a sensor's reading is then located. Any other is refused, with the place where the border goes wrong; a dent also with the lowest
 * cell that is missing. A witness then shows why that cell is missing, and a completion is what to draw instead. The library is
 * proved: every input has the reply that is described here.
 *
 * Link librobequarry.a, which `./build TARGET` writes to target/TARGET/: for x86-64 and AArch64 Linux, Cortex-M4F and Cortex-M0+. This
 * header is C99 and C++, and the same for all of them. docs/PORTING.md says what a controller needs besides, and how to go elsewhere.
 *
 *
 * THE CHART
 *
 * Columns are counted from the left and rows from the bottom. Cells have 0 to 254, corners 0 to 255. Corner (c, r) is at the lower
 * left of cell (c, r). An outline has a start corner and letters. A letter is a byte and one step along the border: 0 goes right, 1 up,
 * 2 left and 3 down. The letters go once round a block, either way. They are counted from 0; that is a letter's place.
 *
 * An outline is taken if the convex hull of its cells holds no other cell. It then has an anchor, which is the lowest cell of its
 * leftmost column, and edges. Edges lead from the anchor clockwise round the hull, from cell centre to cell centre. An edge is two
 * numbers, columns and then rows.
 *
 *
 * WHO OWNS WHAT
 *
 * All memory is the caller's. The library allocates nothing, keeps nothing between calls, and has no state of its own. rq_holder
 * and rq_pile are plain numbers, without pointers or padding: put them where you like, copy them with memcpy, compare them with
 * memcmp. Calls may run in any thread. Calls that take a holder or a pile as const are questions.
 *
 * One holder or pile has one writer at a time, and nothing that alters it may interrupt another call on it. A question may interrupt any
 * call on the same holder or pile, on the same processor; only rq_pile_save may not. Its answer is the one from before that call or the one
 * from after it: a close fills a spare slot, and then one 16-bit store puts the slot to work. Only rq_draft, while rq_fresh is under way,
 * may tell a draft that is half cleared. A reset in the middle of a call leaves what is at work so, too.
 *
 * A list is a pointer and a count of its elements. A list that is const is not altered. A buffer is a list that a call writes to,
 * from its front; the rest of it is unaltered. Every call writes all seven numbers of its reply.
 *
 *
 * WHAT A CALLER OWES
 *
 * The numbers are those of the duties in docs/SAFETY.md.
 *
 *  - D1. A pointer is good for its count, and is not null, also where the count is 0. It is aligned as its type asks: 16-bit numbers,
 *    replies, holders and piles to 2 bytes, floats to 4.
 *  - D2. What is passed has been initialised: lists, replies, and buffers too. A holder or a pile has been made fresh once. Only
 *    rq_fresh and rq_pile_fresh take memory with any content: `rq_holder h; rq_fresh(&h);` is right.
 *  - D3. What a call writes overlaps nothing else that is passed to it.
 *  - D4. For readings, floating point is as a C program starts with it: it rounds to nearest, and subnormal numbers are not flushed
 *    to zero. The start-up code of -ffast-math breaks this. On a Cortex-M4F the bits FZ and RMode of FPSCR must be 0.
 *  - D5. A Cortex-M4F has its FPU switched on and does not trap unaligned access: the bit UNALIGN_TRP of CCR is 0, as it is after a
 *    reset.
 *  - D6. The stack has the bytes that are stated below.
 *  - D7. One holder or pile has one writer at a time. An interrupt routine may ask during any call, and alters nothing during one (see
 *    WHO OWNS WHAT). Only rq_pile_save must not interrupt a call that alters the pile.
 *
 * Nothing else is asked for the replies to be as described. Counts, letters, numbers of edges, parties, places and floats may be
 * anything. D8 to D21 are what a device owes besides: what to do with a reply, records, damaged memory, time, and how to build.
 *
 *
 * STACK
 *
 * At most so many bytes, for every input: the deepest path of the compiled code's call graph is within them (docs/OBJECT.md). The first
 * column is for a Cortex-M4F and a Cortex-M0+, by the fast and by the small recipe, the second for x86-64. `./test --targets` holds both,
 * and what a painted stack shows on the controllers; `./test` holds what it shows on x86-64.
 *
 *                                                     Cortex-M    x86-64
 *     rq_test                                            8,700     8,600
 *     rq_pile_set, rq_pile_restore                       9,200     9,200
 *     rq_close, rq_restore                               9,800     9,700
 *     a close by rq_call                                 9,900     9,800
 *     rq_border                                          9,900     9,700
 *     rq_check, rq_save, rq_pile_save                   11,300    11,200
 *     rq_witness, rq_complete                           12,700    13,000
 *     rq_replay                                         20,400    20,300
 *     rq_pile_check, rq_pile_check_step                    600       600
 *     rq_compare                                         1,500     1,700
 *     any other call by rq_call                            600       300
 *     every other function                                 400       200
 */
#ifndef ROBEQUARRY_H
#define ROBEQUARRY_H

#include <stdbool.h>
#include <stdint.h>

#include "robequarry_texts.h"

/** @file robequarry.h The calls of the library. What holds for all of them stands at the top of this file, and in docs/CONTRACT.md. */

#ifdef __cplusplus
extern "C" {
#endif

/** The version of this header. */
#define RQ_VERSION_MAJOR 0
#define RQ_VERSION_MINOR 4
#define RQ_VERSION_PATCH 0
#define RQ_VERSION "0.4.0"

/** The three numbers as one, eight bits each from the lowest up: what rq_version returns. */
#define RQ_VERSION_NUMBER 0x000400

/** Limits. */
enum {
    RQ_SIDE = 255,          /**< columns of cells on the chart, and rows */
    RQ_LETTERS = 612,       /**< letters of an outline at most; a buffer of so many bytes holds any border */
    RQ_MOST_EDGES = 100,    /**< edges of a taken outline at most */
    RQ_EDGE_NUMBERS = 200,  /**< a buffer of so many numbers holds the edges of any taken outline */
    RQ_LIST_NUMBERS = 2032, /**< numbers of a list of edges at most, where one is passed */
    RQ_WITNESS_NUMBERS = 6, /**< numbers of the three cells of a witness */
    RQ_PARTIES = 2,         /**< parties of a holder: 0 the knee, 1 the ankle */
    RQ_PLACES = 4,          /**< places of a party, from 0 */
    RQ_LAYERS = 16,         /**< layers of a pile, from 0 */
    RQ_CALL_BYTES = 11,     /**< bytes of a call, for rq_call and rq_replay */
    RQ_IMAGE_BYTES = 622,   /**< bytes of an image, for rq_save and rq_restore */
    RQ_FRAME_BYTES = 8,     /**< bytes of a frame besides its body, for rq_frame and rq_unframe */
    RQ_FRAME_BODY = 1024,   /**< bytes of a body at most */
    RQ_REPLY_NUMBERS = 7    /**< numbers of a reply */
};

/** Lengths of the arrays of a holder and of a pile. */
enum {
    RQ_SLOTS = 10,             /**< slots for outlines of a holder: for each party one more than it has places */
    RQ_HOLDER_LETTERS = 1224,  /**< RQ_LETTERS for each party */
    RQ_HOLDER_ROWS = 5100,     /**< 2 * RQ_SIDE for each slot */
    RQ_HOLDER_NUMBERS = 2000,  /**< RQ_EDGE_NUMBERS for each slot */
    RQ_HOLDER_HEADS = 46,      /**< RQ_DRAFT_NUMBERS for each draft, 1 for each place, RQ_SLOT_NUMBERS for each slot */
    RQ_DRAFT_NUMBERS = 4,      /**< of a draft: whether there is one, its start's column and row, its count of letters */
    RQ_PLACE_WORDS = 8,        /**< where the words of the places begin in heads, RQ_PLACES for each party */
    RQ_SLOT_HEADS = 16,        /**< where the slots begin in heads, RQ_SLOTS / RQ_PARTIES for each party */
    RQ_SLOT_NUMBERS = 3,       /**< of a slot: the anchor's column and row, the count of edges */
    RQ_PILE_ROWS = 8160,       /**< 2 * RQ_SIDE for each layer */
    RQ_PILE_STATE = 2
};

/** A reply. A number that a call does not name is 0. */
typedef struct rq_reply {
    uint16_t number; /**< 0, or the refusal: RQ_REFUSED_... */
    uint16_t word;   /**< RQ_NO_WORD, or the answer: RQ_WORD_... */
    uint16_t place;  /**< of a letter; or a count, as the call says */
    uint16_t piece;  /**< of the border, clockwise: 1 left to top, 2 top to right, 3 right to bottom, 4 bottom to left; or see the call */
    uint16_t length; /**< a count of letters */
    uint16_t col;    /**< column and, with row, the row of a cell; or of a corner, as the call says */
    uint16_t row;    /**< see col */
} rq_reply;

/** A reply to begin with: rq_reply reply = RQ_REPLY_INIT; */
#define RQ_REPLY_INIT { 0, 0, 0, 0, 0, 0, 0 }

/** The last column of a row, where the word is RQ_WORD_COLUMNS; `col` is the first. */
#define rq_last_column(reply) ((reply)->row)

/**
 * Refusals, with the fields that they name. Each call lists its own in the order in which they are checked, and the reply has the first
 * that applies. A refused call alters nothing but its reply, with three exceptions: a close still ends its party's draft, unless it is
 * refused by 19; a pile whose check is refused has not passed; and after a refused step of a check the next step begins anew. There is
 * no 7.
 */
enum {
    RQ_REFUSED_LENGTH = 1,           /**< fewer than 4 letters, or more than RQ_LETTERS */
    RQ_REFUSED_START = 2,            /**< a number of the start corner is above 255 */
    RQ_REFUSED_LETTER = 3,           /**< a letter is above 3. place: the first such; in an add, the count of letters in the draft */
    RQ_REFUSED_OFF_CHART = 4,        /**< a letter steps off the chart. place: the first such */
    RQ_REFUSED_NOT_CLOSED = 5,       /**< the walk does not end where it started */
    RQ_REFUSED_TOUCHES = 6,          /**< a letter, not the last, reaches a corner where the walk has been. place: the first such */
    RQ_REFUSED_BACK_STEP = 8,        /**< a letter goes backward in its piece, so a cell is missing. piece, place: the first such */
    RQ_REFUSED_DENT = 9,             /**< a cell is missing. piece, place, length: one copy of the first factor that is no Christoffel word.
                                        col, row: the lowest missing cell, the leftmost of its row */
    RQ_REFUSED_EDGE_LIST = 10,       /**< test: the buffer is too short. place: the count of edges. witness: the buffer has fewer than
                                        RQ_WITNESS_NUMBERS numbers. Other calls: the list has an odd count of numbers, or more than
                                        RQ_LIST_NUMBERS. compare, place: which list, 1 or 2 */
    RQ_REFUSED_CELL = 11,            /**< a number of a cell is above 254; in a reading, a number is none, infinite, below 0 or above 254;
                                        in a compare and a loose reading, the edges leave the chart. compare, place: which list */
    RQ_REFUSED_NOTHING_AT_WORK = 12, /**< nothing is at work at the place; in a pile, no check has passed since a layer was set */
    RQ_REFUSED_NO_DRAFT = 13,        /**< add, draft, drop, close: the party has no draft */
    RQ_REFUSED_DRAFT_OPEN = 14,      /**< begin: the party has a draft */
    RQ_REFUSED_DRAFT_FULL = 15,      /**< add: the draft has RQ_LETTERS letters */
    RQ_REFUSED_DIRECTIONS = 16,      /**< an edge is zero, or the edges do not sum to zero, or their directions do not increase strictly
                                        clockwise from up, which is the first. compare, place: which list */
    RQ_REFUSED_NO_OUTLINE = 17,      /**< border: the test takes no outline with this anchor and these edges */
    RQ_REFUSED_LETTER_BUFFER = 18,   /**< border, complete: the buffer is too short for the letters; save: for an image; frame: for the
                                        frame; unframe: for the body */
    RQ_REFUSED_PARTY = 19,           /**< the party is above 1 */
    RQ_REFUSED_PLACE = 20,           /**< the place is above 3 */
    RQ_REFUSED_SECTION = 21,         /**< pile check: a section is dented. piece: 0 at a column, 1 at a row. place: that column or row.
                                        The first one, columns before rows */
    RQ_REFUSED_LAYER = 22,           /**< pile: the layer is above 15 */
    RQ_REFUSED_IMAGE = 26,           /**< restore: the bytes are not an image */
    RQ_REFUSED_DAMAGED = 27,         /**< check, save: what is at work is what no taking leaves */
    RQ_REFUSED_FRAME = 28            /**< frame: the body has more than RQ_FRAME_BODY bytes; unframe: the bytes are not a frame */
};

/** Words. */
enum {
    RQ_NO_WORD = 0,
    RQ_WORD_INSIDE = 1,
    RQ_WORD_OUTSIDE = 2,
    RQ_WORD_TAKEN = 3,          /**< close */
    RQ_WORD_SAME = 4,           /**< close: taken, with the cells that were at work before */
    RQ_WORD_NONE = 5,           /**< row: no cell; piece: past the end; witness: no cell is missing */
    RQ_WORD_COLUMNS = 6,        /**< row */
    RQ_WORD_UNDECIDED = 7,      /**< reading: too near an edge to tell */
    RQ_WORD_MOVE = 8,           /**< piece */
    RQ_WORD_LINE = 9,           /**< piece */
    RQ_WORD_CLOSE = 10,         /**< piece */
    RQ_WORD_EQUAL = 11,         /**< compare, up to 15 */
    RQ_WORD_FIRST_WITHIN = 12,
    RQ_WORD_SECOND_WITHIN = 13,
    RQ_WORD_NO_COMMON = 14,
    RQ_WORD_CROSSING = 15,
    RQ_WORD_MORE = 16           /**< pile check in steps: it goes on */
};

/**
 * Returns the version of the library that is linked, as RQ_VERSION_NUMBER is that of the header: major << 16 | minor << 8 | patch. A
 * program whose header and library may differ compares them once, at its start.
 */
uint32_t rq_version(void);

/**
 * Tests an outline: the start corner (col, row) and n letters.
 *
 * Taken: number 0, place the count of edges, col and row the anchor. The edges stand in the buffer `edges`, which has m numbers.
 * Refused by 1 to 10.
 */
void rq_test(uint16_t col, uint16_t row, const uint8_t *letters, uint64_t n, int16_t *edges, uint64_t m, rq_reply *reply);

/**
 * Says whether the cell (col, row) is inside a list of m numbers, which are m / 2 edges from an anchor.
 *
 * RQ_WORD_INSIDE if the cell lies in the convex hull of the anchor and the cells at which the edges end, on the chart or off it; else
 * RQ_WORD_OUTSIDE. With the edges of a taken outline the cells inside are its own. A list without edges has the anchor alone.
 * Refused by 10, 11 (anchor or cell) and 16.
 */
void rq_loose_query(uint16_t anchor_col, uint16_t anchor_row, const int16_t *edges, uint64_t m, uint16_t col, uint16_t row,
                    rq_reply *reply);

/**
 * Says where a reading lies among m numbers, which are m / 2 edges from an anchor: rq_reading without a holder.
 *
 * RQ_WORD_INSIDE, RQ_WORD_OUTSIDE or RQ_WORD_UNDECIDED, as rq_reading has them. With the edges of a taken outline the reply is that of
 * rq_reading where that outline is at work. Refused by 10, 11 (anchor), 16, 11 (the edges leave the chart) and 11 (the reading).
 */
void rq_loose_reading(uint16_t anchor_col, uint16_t anchor_row, const int16_t *edges, uint64_t m, float angle, float load,
                      rq_reply *reply);

/**
 * Writes the border of the outline that has an anchor and edges.
 *
 * place is the count of letters. They stand in the buffer `letters`, which has n bytes: clockwise from the lower left corner of the
 * anchor. A test of them gives the same anchor and edges. Of a taken outline they are its own letters, wherever it was begun and
 * whichever way it was drawn. Refused by 10, 11 (anchor), 16, 17 and 18.
 */
void rq_border(uint16_t anchor_col, uint16_t anchor_row, const int16_t *edges, uint64_t m, uint8_t *letters, uint64_t n,
               rq_reply *reply);

/**
 * Compares the cells in two hulls, each of an anchor and a list of edges.
 *
 * RQ_WORD_EQUAL: both have the same cells. RQ_WORD_FIRST_WITHIN: every cell of the first is one of the second, which has more.
 * RQ_WORD_SECOND_WITHIN: the other way round. RQ_WORD_NO_COMMON: no cell is in both, though the hulls may overlap. RQ_WORD_CROSSING:
 * some cells are in both, some in the first alone and some in the second alone. piece says which list is the inner one's: 1 for equal
 * and first within, 2 for second within, else 0. Refused by 10, 11 (anchor), 16 and 11 (the edges leave the chart), all of the first
 * list before the second.
 */
void rq_compare(uint16_t anchor_col_1, uint16_t anchor_row_1, const int16_t *edges_1, uint64_t m_1, uint16_t anchor_col_2,
                uint16_t anchor_row_2, const int16_t *edges_2, uint64_t m_2, rq_reply *reply);

/**
 * Shows why an outline is not convex (contract 6.5): the start corner (col, row) and n letters.
 *
 * If a cell is missing, the word is RQ_NO_WORD, and col and row are the lowest missing cell, the leftmost of its row. Three cells of
 * the block then stand in the buffer `cells`, which has m numbers: column and row of each, RQ_WITNESS_NUMBERS in all. The missing cell
 * lies in their triangle, which may be flat, and two of them may be the same. If no cell is missing, the word is RQ_WORD_NONE, and the
 * buffer is unaltered. An outline that a test refuses by 8 or 9 has a witness, and one that it takes has none. Refused by 1 to 6 and 10.
 */
void rq_witness(uint16_t col, uint16_t row, const uint8_t *letters, uint64_t n, uint16_t *cells, uint64_t m, rq_reply *reply);

/**
 * Completes an outline (contract 6.6): the start corner (col, row) and n letters.
 *
 * place is the count of letters of the smallest convex block that has every cell of the outline, and the corner (col, row) is where
 * they start. They stand in the buffer `out`, which has m bytes: clockwise from the lowest corner of the leftmost column. A test takes
 * them. They are never more than n, so a buffer of RQ_LETTERS bytes always suffices. An outline that a test takes gets its own border.
 * Refused by 1 to 6 and 18.
 */
void rq_complete(uint16_t col, uint16_t row, const uint8_t *letters, uint64_t n, uint8_t *out, uint64_t m, rq_reply *reply);

/** The CRC-32C of n bytes, which an image ends with, lowest byte first. */
uint32_t rq_checksum(const uint8_t *bytes, uint64_t n);

/**
 * Writes the frame of a body of n bytes to the front of the buffer `frame`, which has m bytes: the mark 0x52 0x51, n as two bytes, low byte
 * first, the body, and the checksum (rq_checksum) of everything before it, lowest byte first.
 *
 * Number 0, and place is n + RQ_FRAME_BYTES, the count of the frame's bytes. The rest of the buffer is unaltered. Refused by 28 if n is
 * above RQ_FRAME_BODY, and by 18 if m is below n + RQ_FRAME_BYTES. A refused call leaves the buffer.
 */
void rq_frame(const uint8_t *body, uint64_t n, uint8_t *frame, uint64_t m, rq_reply *reply);

/**
 * Writes the body of a frame of n bytes to the front of the buffer `body`, which has m bytes. The n bytes are exactly the frame.
 *
 * Number 0, and place is the count of the body's bytes. The rest of the buffer is unaltered. Refused by 28 if the bytes are not a frame,
 * and by 18 if m is below the body's count. A refused call leaves the buffer. Always refused of a frame that was altered on its way: 1, 2
 * or 3 altered bits, any odd number of them, alterations within 32 consecutive bits, and fewer or more bytes than its header counts.
 */
void rq_unframe(const uint8_t *frame, uint64_t n, uint8_t *body, uint64_t m, rq_reply *reply);

/**
 * A holder keeps outlines for two parties. Each party has a draft, or none, which is drawn letter by letter; and four places, each
 * with an outline at work or nothing. Replies to a party depend only on that party's calls. Memory of zeros is a fresh holder too.
 *
 * An outline lies in a slot. A place has one number, which names a slot of its party, or nothing: 0x5555, 0x3333, 0x6666, 0x0F0F and
 * 0x5A5A name the party's slots 0 to 4, and every other number means nothing. These five differ from each other, from 0 and from 0xFFFF in
 * at least eight bits.
 */
typedef struct rq_holder {
    uint8_t letters[RQ_HOLDER_LETTERS];  /**< of the two drafts */
    uint8_t rows[RQ_HOLDER_ROWS];        /**< of the outlines in the slots: first columns, and columns after the last */
    int16_t numbers[RQ_HOLDER_NUMBERS];  /**< of their edges */
    uint16_t heads[RQ_HOLDER_HEADS];     /**< of each draft whether there is one, its start and its count; what each place names; of each
                                            slot the anchor and the count of edges */
} rq_holder;

/** Makes it a fresh holder, whatever the memory holds: no draft, and nothing at work. Every place is cleared before a slot is. */
static inline void rq_fresh(rq_holder *holder);

/** Opens a draft that starts at the corner (col, row). Refused by 19, 14 and 2. */
static inline void rq_begin(rq_holder *holder, uint8_t party, uint16_t col, uint16_t row, rq_reply *reply);

/** Adds a letter at the draft's end. Refused by 19, 13, 15 and 3. */
static inline void rq_add(rq_holder *holder, uint8_t party, uint8_t letter, rq_reply *reply);

/** Tells a party's draft: col and row its start, place its count of letters. Refused by 19 and 13. */
static inline void rq_draft(const rq_holder *holder, uint8_t party, rq_reply *reply);

/** Discards the draft. Refused by 19 and 13. */
static inline void rq_drop(rq_holder *holder, uint8_t party, rq_reply *reply);

/** Removes what is at work at the place. The draft stays. Refused by 19 and 20. */
static inline void rq_clear(rq_holder *holder, uint8_t party, uint8_t place, rq_reply *reply);

/**
 * Tests the draft and ends it. A draft that is taken replaces what is at work at the place. The word is then RQ_WORD_SAME if it has
 * the same cells as what was at work there, else RQ_WORD_TAKEN, with the fields of a taken test. Refused by 19, 20, 13 and 1 to 9;
 * what is at work stays then.
 *
 * It is two calls, one after the other. The first replies, ends the draft, and writes a taken outline to the party's slot that no place
 * names; every question about a place still has its old answer. The second puts that slot to work, by one store.
 */
static inline void rq_close(rq_holder *holder, uint8_t party, uint8_t place, rq_reply *reply);

/**
 * Checks a place. Number 0 if the place's number is 0, or names a slot with what the taking of some outline leaves: anchor, edges, rows.
 * Else 27, also where the place's number is not 0 and names no slot; a question about the place is then refused by 12. Refused by 19, 20
 * and 27.
 */
static inline void rq_check(const rq_holder *holder, uint8_t party, uint8_t place, rq_reply *reply);

/**
 * Saves a place: writes an image of RQ_IMAGE_BYTES bytes to the front of the buffer `image`, which has m bytes. It is the image of the
 * border of the outline at work, or of an empty place. The same outline has the same bytes on every target. Refused by 19, 20, 27, and
 * by 18 if m is below RQ_IMAGE_BYTES.
 */
static inline void rq_save(const rq_holder *holder, uint8_t party, uint8_t place, uint8_t *image, uint64_t m, rq_reply *reply);

/**
 * Restores a place from n bytes, which have to be an image: as a close of its outline, or as a clear if it is the image of an empty place.
 * The draft stays. It has the two halves of a close. Refused by 19, 20, 26 and 1 to 9; what is at work stays then.
 */
static inline void rq_restore(rq_holder *holder, uint8_t party, uint8_t place, const uint8_t *image, uint64_t n, rq_reply *reply);

/** RQ_WORD_INSIDE if the outline at work at the place has the cell (col, row), else RQ_WORD_OUTSIDE. Refused by 19, 20, 12 and 11. */
static inline void rq_query(const rq_holder *holder, uint8_t party, uint8_t place, uint16_t col, uint16_t row, rq_reply *reply);

/**
 * RQ_WORD_COLUMNS if the outline at work has cells in the row: col is the first column and rq_last_column the last, and every column
 * between them has its cell. Else RQ_WORD_NONE. Refused by 19, 20, 12 and 11.
 */
static inline void rq_row(const rq_holder *holder, uint8_t party, uint8_t place, uint16_t row, rq_reply *reply);

/**
 * Locates a reading among the edges of the outline at work. Angle and load are in chart units: the centre of the cell (c, r) is at c
 * and r. RQ_WORD_INSIDE and RQ_WORD_OUTSIDE are exactly true, whatever was rounded. RQ_WORD_UNDECIDED is said near an edge alone. An
 * edge (dx, dy) that leaves the cell (x, y) has the side value dy (angle - x) - dx (load - y); where a reading is undecided, some side
 * value is between -1/32 and 1/32. One cell alone has its centre inside. -0 is 0. Refused by 19, 20, 12 and 11.
 */
static inline void rq_reading(const rq_holder *holder, uint8_t party, uint8_t place, float angle, float load, rq_reply *reply);

/**
 * Gives one piece of a drawing of the edges of the outline at work, by its position from 0: RQ_WORD_MOVE to the anchor; RQ_WORD_LINE
 * to where an edge ends, edge after edge; RQ_WORD_CLOSE in place of the last line; and RQ_WORD_NONE after that. col and row are the cell
 * of a move or a line, and `point` gets its centre: column + 1/2 and row + 1/2, exactly. Any other piece leaves `point` unaltered.
 * Refused by 19, 20 and 12.
 */
static inline void rq_piece(const rq_holder *holder, uint8_t party, uint8_t place, uint16_t position, float point[2],
                            rq_reply *reply);

/**
 * A call on a holder as eleven bytes: the number of the call, the party, the place, then x and y, two numbers of 32 bits, low byte
 * first. Bytes that a call does not name are ignored.
 */
enum {
    RQ_CALL_BEGIN = 0,   /**< the corner: the low 16 bits of x and of y */
    RQ_CALL_ADD = 1,     /**< the letter: the low 8 bits of x */
    RQ_CALL_DROP = 2,
    RQ_CALL_CLEAR = 3,   /**< the place */
    RQ_CALL_CLOSE = 4,   /**< the place */
    RQ_CALL_QUERY = 5,   /**< the place; the cell: the low 16 bits of x and of y */
    RQ_CALL_ROW = 6,     /**< the place; the row: the low 16 bits of x */
    RQ_CALL_READING = 7, /**< the place; angle and load: the bits of two floats, x and y */
    RQ_CALL_PIECE = 8    /**< the place; the position: the low 16 bits of x */
};

/** Makes the call that stands in n bytes. Returns false, with nothing altered, unless n is RQ_CALL_BYTES and the number is a call's. */
static inline bool rq_call(rq_holder *holder, const uint8_t *call, uint64_t n, rq_reply *reply);

/**
 * Runs the calls that stand one after the other in n bytes, on a fresh holder of its own, and writes a reply for each. It ends at
 * bytes that are no call, at a call that is cut, and after m replies. Returns how many replies it wrote.
 */
static inline uint64_t rq_replay(const uint8_t *script, uint64_t n, rq_reply *replies, uint64_t m);

/**
 * A pile keeps sixteen layers, each empty or one taken outline. A section cuts through all layers at one column, or at one row. It is
 * dented if some cell lies in the convex hull of its cells, in the plane of layers and rows or of layers and columns, and is none of
 * them. A pile has passed from a check that finds no dent until a layer is set. Memory of zeros is a fresh pile too.
 */
typedef struct rq_pile {
    uint8_t rows[RQ_PILE_ROWS]; /**< of the sixteen layers: first columns, and columns after the last */
    uint16_t state[RQ_PILE_STATE];  /**< 0x5AA5 where the pile has passed; how many sections a check in steps has behind it */
} rq_pile;

/** Makes it a fresh pile, whatever the memory holds: every layer is empty, and it has not passed. */
static inline void rq_pile_fresh(rq_pile *pile);

/** Sets a layer to an outline, as rq_test has it. The reply is that of the test. Refused by 22 and 1 to 9. */
static inline void rq_pile_set(rq_pile *pile, uint8_t layer, uint16_t col, uint16_t row, const uint8_t *letters, uint64_t n,
                               rq_reply *reply);

/** Sets a layer to empty. Refused by 22. */
static inline void rq_pile_empty(rq_pile *pile, uint8_t layer, rq_reply *reply);

/** Checks every section. Number 0, and the pile has passed; or refused by 21, and it has not. */
static inline void rq_pile_check(rq_pile *pile, rq_reply *reply);

/**
 * Some sections of a check, so that a watchdog can be fed in between: there are 2 * RQ_SIDE. The word is RQ_WORD_MORE while the check goes
 * on; else the reply is that of rq_pile_check, the pile has passed or not as after it, and the next step begins anew. A set or an empty
 * begins it anew, too. With 0 sections it replies RQ_WORD_MORE and does nothing. Where it goes on stands in the pile's memory: if that may
 * be damaged, only rq_pile_check tests every section.
 */
static inline void rq_pile_check_step(rq_pile *pile, uint16_t sections, rq_reply *reply);

/** RQ_WORD_INSIDE if the layer's outline has the cell (col, row), else RQ_WORD_OUTSIDE. Refused by 22, 12 and 11. */
static inline void rq_pile_query(const rq_pile *pile, uint8_t layer, uint16_t col, uint16_t row, rq_reply *reply);

/**
 * Saves a layer: writes an image of 622 bytes to the front of the buffer `image`, which has m bytes. It is the image of the border of the
 * layer's outline, from W, or of an empty layer. Refused by 22, by 27 if the layer's rows are what no set leaves, and by 18 if m is below
 * 622. A refused save leaves the buffer. It must not interrupt a set, an empty or a restore of the same pile: rows may be half written.
 */
static inline void rq_pile_save(const rq_pile *pile, uint8_t layer, uint8_t *image, uint64_t m, rq_reply *reply);

/**
 * Restores a layer from n bytes: as rq_pile_set of the outline whose image they are, or rq_pile_empty if it has no letters. Refused by 22,
 * by 26 if they are no image, and by 1 to 9. A refused restore changes nothing.
 */
static inline void rq_pile_restore(rq_pile *pile, uint8_t layer, const uint8_t *image, uint64_t n, rq_reply *reply);

/**
 * @name The functions of the archive
 *
 * This is how the calls above reach the library, which takes the arrays of a holder or a pile one by one. They have a symbol each, so that
 * bindings of other languages can load them. They are as stable as the calls above: names, arguments and the lengths of the arrays change
 * only with the version by which the interface changes. Whoever calls these makes rq_commit_parts the next call that alters after
 * rq_prepare_parts or rq_prepare_image_parts, with the same party and place and with the word that it returned.
 * @{
 */
void rq_fresh_parts(uint8_t letters[RQ_HOLDER_LETTERS], uint8_t rows[RQ_HOLDER_ROWS], int16_t numbers[RQ_HOLDER_NUMBERS],
                    uint16_t heads[RQ_HOLDER_HEADS]);
void rq_begin_parts(uint16_t heads[RQ_HOLDER_HEADS], uint8_t party, uint16_t col, uint16_t row, rq_reply *reply);
void rq_add_parts(uint8_t letters[RQ_HOLDER_LETTERS], uint16_t heads[RQ_HOLDER_HEADS], uint8_t party, uint8_t letter, rq_reply *reply);
void rq_draft_parts(const uint16_t heads[RQ_HOLDER_HEADS], uint8_t party, rq_reply *reply);
void rq_drop_parts(uint16_t heads[RQ_HOLDER_HEADS], uint8_t party, rq_reply *reply);
void rq_clear_parts(uint16_t heads[RQ_HOLDER_HEADS], uint8_t party, uint8_t place, rq_reply *reply);
uint16_t rq_prepare_parts(const uint8_t letters[RQ_HOLDER_LETTERS], uint8_t rows[RQ_HOLDER_ROWS], int16_t numbers[RQ_HOLDER_NUMBERS],
                          uint16_t heads[RQ_HOLDER_HEADS], uint8_t party, uint8_t place, rq_reply *reply);
void rq_commit_parts(uint16_t heads[RQ_HOLDER_HEADS], uint8_t party, uint8_t place, uint16_t word);
void rq_check_parts(const uint8_t rows[RQ_HOLDER_ROWS], const int16_t numbers[RQ_HOLDER_NUMBERS], const uint16_t heads[RQ_HOLDER_HEADS],
                    uint8_t party, uint8_t place, rq_reply *reply);
void rq_save_parts(const uint8_t rows[RQ_HOLDER_ROWS], const int16_t numbers[RQ_HOLDER_NUMBERS], const uint16_t heads[RQ_HOLDER_HEADS],
                   uint8_t party, uint8_t place, uint8_t *image, uint64_t m, rq_reply *reply);
uint16_t rq_prepare_image_parts(uint8_t rows[RQ_HOLDER_ROWS], int16_t numbers[RQ_HOLDER_NUMBERS], uint16_t heads[RQ_HOLDER_HEADS],
                                uint8_t party, uint8_t place, const uint8_t *image, uint64_t n, rq_reply *reply);
void rq_query_parts(const uint8_t rows[RQ_HOLDER_ROWS], const uint16_t heads[RQ_HOLDER_HEADS], uint8_t party, uint8_t place, uint16_t col,
                    uint16_t row, rq_reply *reply);
void rq_row_parts(const uint8_t rows[RQ_HOLDER_ROWS], const uint16_t heads[RQ_HOLDER_HEADS], uint8_t party, uint8_t place, uint16_t row,
                  rq_reply *reply);
void rq_reading_parts(const int16_t numbers[RQ_HOLDER_NUMBERS], const uint16_t heads[RQ_HOLDER_HEADS], uint8_t party, uint8_t place,
                      float angle, float load, rq_reply *reply);
void rq_piece_parts(const int16_t numbers[RQ_HOLDER_NUMBERS], const uint16_t heads[RQ_HOLDER_HEADS], uint8_t party, uint8_t place,
                    uint16_t position, float point[2], rq_reply *reply);
bool rq_call_parts(uint8_t letters[RQ_HOLDER_LETTERS], uint8_t rows[RQ_HOLDER_ROWS], int16_t numbers[RQ_HOLDER_NUMBERS],
                   uint16_t heads[RQ_HOLDER_HEADS], const uint8_t *call, uint64_t n, rq_reply *reply);
uint64_t rq_replay_numbers(const uint8_t *script, uint64_t n, rq_reply *replies, uint64_t k);
void rq_pile_fresh_parts(uint8_t rows[RQ_PILE_ROWS], uint16_t state[RQ_PILE_STATE]);
void rq_pile_set_parts(uint8_t rows[RQ_PILE_ROWS], uint16_t state[RQ_PILE_STATE], uint8_t layer, uint16_t col, uint16_t row,
                       const uint8_t *letters, uint64_t n, rq_reply *reply);
void rq_pile_empty_parts(uint8_t rows[RQ_PILE_ROWS], uint16_t state[RQ_PILE_STATE], uint8_t layer, rq_reply *reply);
void rq_pile_check_parts(const uint8_t rows[RQ_PILE_ROWS], uint16_t state[RQ_PILE_STATE], rq_reply *reply);
void rq_pile_check_step_parts(const uint8_t rows[RQ_PILE_ROWS], uint16_t state[RQ_PILE_STATE], uint16_t sections, rq_reply *reply);
void rq_pile_query_parts(const uint8_t rows[RQ_PILE_ROWS], const uint16_t state[RQ_PILE_STATE], uint8_t layer, uint16_t col, uint16_t row,
                         rq_reply *reply);
void rq_pile_save_parts(const uint8_t rows[RQ_PILE_ROWS], uint8_t layer, uint8_t *image, uint64_t m, rq_reply *reply);
void rq_pile_restore_parts(uint8_t rows[RQ_PILE_ROWS], uint16_t state[RQ_PILE_STATE], uint8_t layer, const uint8_t *image, uint64_t n,
                           rq_reply *reply);
/** @} */

static inline void rq_fresh(rq_holder *holder) {
    rq_reply reply = RQ_REPLY_INIT;
    uint8_t spot;
    for (spot = 0; spot < RQ_PARTIES * RQ_PLACES; spot++) {
        rq_clear_parts(holder->heads, (uint8_t)(spot / RQ_PLACES), (uint8_t)(spot % RQ_PLACES), &reply);
    }
    rq_fresh_parts(holder->letters, holder->rows, holder->numbers, holder->heads);
}

static inline void rq_begin(rq_holder *holder, uint8_t party, uint16_t col, uint16_t row, rq_reply *reply) {
    rq_begin_parts(holder->heads, party, col, row, reply);
}

static inline void rq_add(rq_holder *holder, uint8_t party, uint8_t letter, rq_reply *reply) {
    rq_add_parts(holder->letters, holder->heads, party, letter, reply);
}

static inline void rq_draft(const rq_holder *holder, uint8_t party, rq_reply *reply) {
    rq_draft_parts(holder->heads, party, reply);
}

static inline void rq_drop(rq_holder *holder, uint8_t party, rq_reply *reply) {
    rq_drop_parts(holder->heads, party, reply);
}

static inline void rq_clear(rq_holder *holder, uint8_t party, uint8_t place, rq_reply *reply) {
    rq_clear_parts(holder->heads, party, place, reply);
}

static inline void rq_close(rq_holder *holder, uint8_t party, uint8_t place, rq_reply *reply) {
    const uint16_t word = rq_prepare_parts(holder->letters, holder->rows, holder->numbers, holder->heads, party, place, reply);
    rq_commit_parts(holder->heads, party, place, word);
}

static inline void rq_check(const rq_holder *holder, uint8_t party, uint8_t place, rq_reply *reply) {
    rq_check_parts(holder->rows, holder->numbers, holder->heads, party, place, reply);
}

static inline void rq_save(const rq_holder *holder, uint8_t party, uint8_t place, uint8_t *image, uint64_t m, rq_reply *reply) {
    rq_save_parts(holder->rows, holder->numbers, holder->heads, party, place, image, m, reply);
}

static inline void rq_restore(rq_holder *holder, uint8_t party, uint8_t place, const uint8_t *image, uint64_t n, rq_reply *reply) {
    const uint16_t word = rq_prepare_image_parts(holder->rows, holder->numbers, holder->heads, party, place, image, n, reply);
    rq_commit_parts(holder->heads, party, place, word);
}

static inline void rq_query(const rq_holder *holder, uint8_t party, uint8_t place, uint16_t col, uint16_t row, rq_reply *reply) {
    rq_query_parts(holder->rows, holder->heads, party, place, col, row, reply);
}

static inline void rq_row(const rq_holder *holder, uint8_t party, uint8_t place, uint16_t row, rq_reply *reply) {
    rq_row_parts(holder->rows, holder->heads, party, place, row, reply);
}

static inline void rq_reading(const rq_holder *holder, uint8_t party, uint8_t place, float angle, float load, rq_reply *reply) {
    rq_reading_parts(holder->numbers, holder->heads, party, place, angle, load, reply);
}

static inline void rq_piece(const rq_holder *holder, uint8_t party, uint8_t place, uint16_t position, float point[2],
                            rq_reply *reply) {
    rq_piece_parts(holder->numbers, holder->heads, party, place, position, point, reply);
}

static inline bool rq_call(rq_holder *holder, const uint8_t *call, uint64_t n, rq_reply *reply) {
    return rq_call_parts(holder->letters, holder->rows, holder->numbers, holder->heads, call, n, reply);
}

static inline uint64_t rq_replay(const uint8_t *script, uint64_t n, rq_reply *replies, uint64_t m) {
    return rq_replay_numbers(script, n, replies, RQ_REPLY_NUMBERS * m);
}

static inline void rq_pile_fresh(rq_pile *pile) {
    rq_pile_fresh_parts(pile->rows, pile->state);
}

static inline void rq_pile_set(rq_pile *pile, uint8_t layer, uint16_t col, uint16_t row, const uint8_t *letters, uint64_t n,
                               rq_reply *reply) {
    rq_pile_set_parts(pile->rows, pile->state, layer, col, row, letters, n, reply);
}

static inline void rq_pile_empty(rq_pile *pile, uint8_t layer, rq_reply *reply) {
    rq_pile_empty_parts(pile->rows, pile->state, layer, reply);
}

static inline void rq_pile_check(rq_pile *pile, rq_reply *reply) {
    rq_pile_check_parts(pile->rows, pile->state, reply);
}

static inline void rq_pile_check_step(rq_pile *pile, uint16_t sections, rq_reply *reply) {
    rq_pile_check_step_parts(pile->rows, pile->state, sections, reply);
}

static inline void rq_pile_query(const rq_pile *pile, uint8_t layer, uint16_t col, uint16_t row, rq_reply *reply) {
    rq_pile_query_parts(pile->rows, pile->state, layer, col, row, reply);
}

static inline void rq_pile_save(const rq_pile *pile, uint8_t layer, uint8_t *image, uint64_t m, rq_reply *reply) {
    rq_pile_save_parts(pile->rows, layer, image, m, reply);
}

static inline void rq_pile_restore(rq_pile *pile, uint8_t layer, const uint8_t *image, uint64_t n, rq_reply *reply) {
    rq_pile_restore_parts(pile->rows, pile->state, layer, image, n, reply);
}

/* The structs have no padding. */
#if defined(__cplusplus) && __cplusplus >= 201103L
#define RQ_CHECK(name, fact) static_assert(fact, #name)
#elif !defined(__cplusplus) && defined(__STDC_VERSION__) && __STDC_VERSION__ >= 201112L
#define RQ_CHECK(name, fact) _Static_assert(fact, #name)
#else
#define RQ_CHECK(name, fact) typedef char rq_check_##name[(fact) ? 1 : -1]
#endif
RQ_CHECK(a_reply_has_14_bytes, sizeof(rq_reply) == 14);
RQ_CHECK(a_holder_has_10416_bytes, sizeof(rq_holder) == 10416);
RQ_CHECK(a_pile_has_8164_bytes, sizeof(rq_pile) == 8164);
#undef RQ_CHECK

#ifdef __cplusplus
}
#endif

#endif
