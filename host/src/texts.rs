//! Names and sentences of refusals and words.
// Written by texts/make from texts/refusals.tsv and texts/words.tsv; not to be edited.

/// The refusals: number, name, sentence.
pub const REFUSALS: [(u16, &str, &str); 27] = [
    (1, "LENGTH", "The outline has fewer than 4 letters or more than 612."),
    (2, "START", "The start corner is off the chart: one of its numbers is above 255."),
    (3, "LETTER", "A letter is above 3."),
    (4, "OFF_CHART", "A letter steps off the chart."),
    (5, "NOT_CLOSED", "The border does not end where it started."),
    (6, "TOUCHES", "The border reaches a corner where it has been before."),
    (8, "BACK_STEP", "The border goes backward, so the block lacks a cell of its convex hull."),
    (9, "DENT", "The border has a dent, so the block lacks a cell of its convex hull."),
    (10, "EDGE_LIST", "The buffer for edges or cells is too short, or the list of edges has an odd count or more than 2,032 numbers."),
    (11, "CELL", "The cell, the reading or the hull is off the chart."),
    (12, "NOTHING_AT_WORK", "Nothing is at work at this place, or the pile has not passed a check since a layer was set."),
    (13, "NO_DRAFT", "The party has no draft."),
    (14, "DRAFT_OPEN", "The party has a draft already."),
    (15, "DRAFT_FULL", "The draft has 612 letters already."),
    (16, "DIRECTIONS", "The edges do not lead once round, clockwise from up."),
    (17, "NO_OUTLINE", "No outline that the test takes has this anchor and these edges."),
    (18, "LETTER_BUFFER", "The buffer for letters or bytes is too short."),
    (19, "PARTY", "There is no such party: it is above 1."),
    (20, "PLACE", "There is no such place: it is above 3."),
    (21, "SECTION", "A section of the pile is dented."),
    (22, "LAYER", "There is no such layer: it is above 15."),
    (23, "NO_MARK", "The record does not begin with its mark."),
    (24, "CUT_SHORT", "The record is cut short."),
    (25, "TOO_LARGE", "The file has more than 65,536 bytes."),
    (26, "IMAGE", "The bytes are not an image."),
    (27, "DAMAGED", "Memory is damaged: no taking leaves what stands there."),
    (28, "FRAME", "The bytes are not a frame, or there are too many for one."),
];

/// The words of replies: number, name, sentence.
pub const WORDS: [(u16, &str, &str); 16] = [
    (1, "INSIDE", "The cell or the reading is inside."),
    (2, "OUTSIDE", "The cell or the reading is outside."),
    (3, "TAKEN", "The outline is taken."),
    (4, "SAME", "The outline is taken, and has the cells that were at work before."),
    (5, "NONE", "There is none: no cell in the row, no further piece, or no missing cell."),
    (6, "COLUMNS", "The row has cells, from one column to another."),
    (7, "UNDECIDED", "The reading is too near an edge to tell."),
    (8, "MOVE", "Move to a point."),
    (9, "LINE", "Draw a line to a point."),
    (10, "CLOSE", "Draw a line back to the start."),
    (11, "EQUAL", "Both blocks have the same cells."),
    (12, "FIRST_WITHIN", "The first block lies within the second."),
    (13, "SECOND_WITHIN", "The second block lies within the first."),
    (14, "NO_COMMON", "The blocks have no cell in common."),
    (15, "CROSSING", "Each block has cells that the other lacks, and some are in both."),
    (16, "MORE", "The check goes on."),
];
