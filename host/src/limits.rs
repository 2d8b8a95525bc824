//! The engine's limits, each named once. Clauses are those of docs/CONTRACT.md.

/// The chart has this many columns of cells, and as many rows (contract 1.1).
pub const SIDE: u16 = 255;

/// The last column, and the last row, of a cell.
pub const LAST_CELL: u16 = SIDE - 1;

/// The last column, and the last row, of a corner (contract 1.2).
pub const LAST_CORNER: u16 = SIDE;

/// The last of the four letters, which are counted from 0 (contract 1.3).
pub const LAST_LETTER: u8 = 3;

/// An outline has at least this many letters (contract 1.4).
pub const SHORTEST: usize = 4;

/// An outline, and a draft, has at most this many letters (contract 1.4).
pub const LONGEST: usize = 612;

/// A taken outline has at most this many edges (contract 3.12).
pub const MOST_EDGES: usize = 100;

/// A buffer of this many numbers has space for the edges of any taken outline.
pub const MOST_NUMBERS: usize = 2 * MOST_EDGES;

/// A list of edges that is passed has at most this many numbers (contract 5.2, refusal 10).
pub const LONGEST_LIST: usize = 2032;

/// A witness has three cells, of two numbers each (contract 6.5).
pub const WITNESS_NUMBERS: usize = 6;

/// The refusals are numbered from 1 to 22, and from 26 to 28 (contract 5.2); 7 is not used, and 23 to 25 are faults of a fitting file.
pub const LAST_REFUSAL: u16 = 28;

/// A reply has this many numbers (contract 4.1).
pub const REPLY: usize = 7;

/// A call has this many bytes (contract 10.3).
pub const CALL: usize = 11;

/// An image of an outline has this many bytes (contract 13.1).
pub const IMAGE: usize = 622;

/// The memory of a holder has this many bytes (contract 10.4).
pub const HOLDER_BYTES: usize = 10_416;

/// The memory of a pile has this many bytes (contract 12.8).
pub const PILE_BYTES: usize = 8_164;

/// A frame has this many bytes besides its body (contract 14.1).
pub const FRAME: usize = 8;

/// A frame's body has at most this many bytes (contract 14.1).
pub const FRAME_BODY: usize = 1024;

/// There are this many parties (contract 7.1).
pub const PARTIES: u8 = 2;

/// Each party has outlines at this many places (contract 7.1).
pub const PLACES: u8 = 4;

/// A pile has this many layers (contract 12.1).
pub const LAYERS: u8 = 16;

/// A fitting file has at most this many bytes (contract 11.3).
pub const LONGEST_FILE: usize = 65_536;
