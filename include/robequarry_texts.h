/*
 * Robequarry: sentences for the refusals and the words of replies, for logs and for people. robequarry.h includes it.
 * Written by texts/make from texts/refusals.tsv and texts/words.tsv; not to be edited.
 */
#ifndef ROBEQUARRY_TEXTS_H
#define ROBEQUARRY_TEXTS_H

#include <stdint.h>

/** The sentence of a refusal's number; of 0, that the call was not refused. Never null. */
static inline const char *rq_refusal_text(uint16_t number) {
    switch (number) {
        case 0: return "The call was not refused.";
        case 1: return "The outline has fewer than 4 letters or more than 612.";
        case 2: return "The start corner is off the chart: one of its numbers is above 255.";
        case 3: return "A letter is above 3.";
        case 4: return "A letter steps off the chart.";
        case 5: return "The border does not end where it started.";
        case 6: return "The border reaches a corner where it has been before.";
        case 8: return "The border goes backward, so the block lacks a cell of its convex hull.";
        case 9: return "The border has a dent, so the block lacks a cell of its convex hull.";
        case 10: return "The buffer for edges or cells is too short, or the list of edges has an odd count or more than 2,032 numbers.";
        case 11: return "The cell, the reading or the hull is off the chart.";
        case 12: return "Nothing is at work at this place, or the pile has not passed a check since a layer was set.";
        case 13: return "The party has no draft.";
        case 14: return "The party has a draft already.";
        case 15: return "The draft has 612 letters already.";
        case 16: return "The edges do not lead once round, clockwise from up.";
        case 17: return "No outline that the test takes has this anchor and these edges.";
        case 18: return "The buffer for letters or bytes is too short.";
        case 19: return "There is no such party: it is above 1.";
        case 20: return "There is no such place: it is above 3.";
        case 21: return "A section of the pile is dented.";
        case 22: return "There is no such layer: it is above 15.";
        case 23: return "The record does not begin with its mark.";
        case 24: return "The record is cut short.";
        case 25: return "The file has more than 65,536 bytes.";
        case 26: return "The bytes are not an image.";
        case 27: return "Memory is damaged: no taking leaves what stands there.";
        case 28: return "The bytes are not a frame, or there are too many for one.";
        default: return "There is no such refusal.";
    }
}

/** The sentence of a reply's word; of 0, that there is no word. Never null. */
static inline const char *rq_word_text(uint16_t word) {
    switch (word) {
        case 0: return "The reply has no word.";
        case 1: return "The cell or the reading is inside.";
        case 2: return "The cell or the reading is outside.";
        case 3: return "The outline is taken.";
        case 4: return "The outline is taken, and has the cells that were at work before.";
        case 5: return "There is none: no cell in the row, no further piece, or no missing cell.";
        case 6: return "The row has cells, from one column to another.";
        case 7: return "The reading is too near an edge to tell.";
        case 8: return "Move to a point.";
        case 9: return "Draw a line to a point.";
        case 10: return "Draw a line back to the start.";
        case 11: return "Both blocks have the same cells.";
        case 12: return "The first block lies within the second.";
        case 13: return "The second block lies within the first.";
        case 14: return "The blocks have no cell in common.";
        case 15: return "Each block has cells that the other lacks, and some are in both.";
        case 16: return "The check goes on.";
        default: return "There is no such word.";
    }
}

#endif
