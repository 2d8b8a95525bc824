//! The safe interface's own part: lists as types, the memory of holders and piles, the refusals' words.

use robequarry::codec::{INSIDE, TAKEN};
use robequarry::limits::{
    CALL, FRAME, FRAME_BODY, HOLDER_BYTES, LAST_CORNER, LAST_REFUSAL, LAYERS, LONGEST, LONGEST_LIST, PARTIES, PILE_BYTES,
    PLACES, REPLY,
};
use robequarry::raw::{self, HolderMemory, PileMemory};
use robequarry::{
    frame, unframe, Action, Answer, Cell, Closed, Comparison, Corner, Edges, Holder, Image, Located, Nesting, Outline,
    Piece, Pile, PileCall, Reading, Refusal, RefusedList, SectionKind, Taken, Witness,
};

const BAR: [u8; 8] = [1, 0, 0, 0, 3, 2, 2, 2];
const CELL: [u8; 4] = [1, 0, 3, 2];
/// H6: the cell (1, 1) is missing.
const DENTED: [u8; 12] = [1, 1, 1, 0, 3, 3, 0, 0, 3, 2, 2, 2];

const KNEE: u8 = 0;
const ANKLE: u8 = 1;

/// Draws an outline for the knee and closes it at this place.
fn draw(holder: &mut Holder, place: u8, start: (u16, u16), letters: &[u8]) -> Result<Closed, Refusal> {
    holder.begin(KNEE, Corner::new(start.0, start.1))?;
    for &letter in letters {
        holder.add(KNEE, letter)?;
    }
    holder.close(KNEE, place)
}

/// The library, the header, this crate and the JavaScript have one version.
#[test]
fn versions() {
    let number = raw::version();
    let parts = [number >> 16, number >> 8 & 0xff, number & 0xff].map(|part| part.to_string()).join(".");
    assert_eq!(parts, robequarry::VERSION);
    let header = include_str!("../../include/robequarry.h");
    assert!(header.contains(&format!("#define RQ_VERSION \"{parts}\"\n")));
    assert!(header.contains(&format!("#define RQ_VERSION_NUMBER {number:#08x}\n")));
    let script = include_str!("../../js/robequarry.js");
    assert!(script.contains(&format!("export const version = '{parts}';\n")));
}

#[test]
fn replies_and_buffers() {
    let (mut edges, mut reply) = ([9; 6], [5; REPLY]);
    raw::test(0, 0, &BAR, &mut edges, &mut reply);
    assert_eq!((edges, reply), ([2, 0, -2, 0, 9, 9], [0, 0, 2, 0, 0, 0, 0]));
    raw::loose_query(0, 0, &edges[..4], 2, 0, &mut reply);
    assert_eq!(reply, [0, 1, 0, 0, 0, 0, 0]);
    // Above the line of a flat hull, on it, past its end; edges that leave the chart; a reading that is none.
    for (anchor, load, angle, expected) in [
        (0, 1.0, 1.0, [0, 2, 0, 0, 0, 0, 0]),
        (0, 0.0, 1.0, [0, 7, 0, 0, 0, 0, 0]),
        (0, 0.0, 3.0, [0, 2, 0, 0, 0, 0, 0]),
        (253, 0.0, 254.0, [11, 0, 0, 0, 0, 0, 0]),
        (0, 0.0, f32::NAN, [11, 0, 0, 0, 0, 0, 0]),
    ] {
        raw::loose_reading(anchor, 0, &edges[..4], angle, load, &mut reply);
        assert_eq!(reply, expected, "{anchor} {angle} {load}");
    }
    raw::loose_reading(0, 1, &[1, 1, 1, -1, -1, -1, -1, 1], 1.0, 1.0, &mut reply);
    assert_eq!(reply, [0, 1, 0, 0, 0, 0, 0]);
    let mut letters = [9; 10];
    raw::border(0, 0, &edges[..4], &mut letters, &mut reply);
    assert_eq!((letters, reply), ([1, 0, 0, 0, 3, 2, 2, 2, 9, 9], [0, 0, 8, 0, 0, 0, 0]));
    let mut cells = [9; 8];
    raw::witness(0, 0, &BAR, &mut cells, &mut reply);
    assert_eq!((cells, reply), ([9; 8], [0, 5, 0, 0, 0, 0, 0]));
    raw::witness(0, 0, &DENTED, &mut cells, &mut reply);
    assert_eq!((cells, reply), ([2, 0, 0, 2, 0, 1, 9, 9], [0, 0, 0, 0, 0, 1, 1]));
    let mut letters = [9; 14];
    raw::complete(7, 3, &DENTED, &mut letters, &mut reply);
    assert_eq!((letters, reply), ([1, 1, 1, 0, 3, 0, 3, 0, 3, 2, 2, 2, 9, 9], [0, 0, 12, 0, 0, 7, 3]));
    // A replay has space for whole replies alone.
    let script = [Action::Drop.by(KNEE).bytes(), Action::Drop.by(ANKLE).bytes()].concat();
    for space in 0..3 * REPLY {
        let mut replies = vec![5; space];
        let written = (space / REPLY).min(2);
        assert_eq!(raw::replay(&script, &mut replies), written);
        let expected: Vec<u16> = [13, 0, 0, 0, 0, 0, 0].repeat(written);
        assert_eq!(replies, [expected, vec![5; space - REPLY * written]].concat());
    }
}

/// A frame stands first in its buffer and gives its body back; a refusal leaves the buffer.
#[test]
fn frames() {
    let mut reply = [5; REPLY];
    let mut frame = [9; 13];
    raw::frame(b"abc", &mut frame, &mut reply);
    assert_eq!(reply, [0, 0, 11, 0, 0, 0, 0]);
    assert_eq!((&frame[..7], &frame[11..]), (&b"RQ\x03\0abc"[..], &[9, 9][..]));
    assert_eq!(frame[7..11], raw::checksum(&frame[..7]).to_le_bytes());
    let mut body = [9; 5];
    raw::unframe(&frame[..11], &mut body, &mut reply);
    assert_eq!((reply, &body), ([0, 0, 3, 0, 0, 0, 0], b"abc\x09\x09"));
    raw::unframe(&frame[..11], &mut body[..2], &mut reply);
    assert_eq!((reply, &body), ([18, 0, 0, 0, 0, 0, 0], b"abc\x09\x09"));
    body = [9; 5];
    for n in [0, 7, 8, 10, 12] {
        raw::unframe(&frame[..n], &mut body, &mut reply);
        assert_eq!((reply, body), ([28, 0, 0, 0, 0, 0, 0], [9; 5]));
    }
    for bit in 0..88 {
        frame[bit / 8] ^= 1 << (bit % 8);
        raw::unframe(&frame[..11], &mut body, &mut reply);
        assert_eq!((reply, body), ([28, 0, 0, 0, 0, 0, 0], [9; 5]), "bit {bit}");
        frame[bit / 8] ^= 1 << (bit % 8);
    }
    let before = frame;
    raw::frame(b"abcdef", &mut frame, &mut reply);
    assert_eq!((reply, frame), ([18, 0, 0, 0, 0, 0, 0], before));
    raw::frame(&[0; 1025], &mut frame, &mut reply);
    assert_eq!((reply, frame), ([28, 0, 0, 0, 0, 0, 0], before));
}

/// What memory held before it is made fresh does not matter, and memory of zeros is fresh.
#[test]
fn fresh_memory() {
    for byte in [0, 1, 0x5a, 0xff] {
        let mut holder = HolderMemory::filled(byte);
        holder.fresh();
        assert_eq!(holder, HolderMemory::filled(0));
        let mut pile = PileMemory::filled(byte);
        pile.fresh();
        assert_eq!(pile, PileMemory::filled(0));
    }
    assert_eq!((Holder::new(), Pile::new()), (Holder::default(), Pile::default()));
}

/// A draft is told, and a close is its two halves.
#[test]
fn drafts_and_halves() {
    let mut holder = Holder::new();
    assert_eq!(holder.draft(KNEE), Err(Refusal::NoDraft));
    assert_eq!(holder.draft(2), Err(Refusal::Party));
    holder.begin(KNEE, Corner::new(5, 6)).unwrap();
    holder.add(KNEE, 1).unwrap();
    assert_eq!(holder.draft(KNEE), Ok((Corner::new(5, 6), 1)));

    let mut memory = HolderMemory::filled(0);
    let mut reply = [0; REPLY];
    memory.begin(KNEE, 5, 6, &mut reply);
    for letter in [1, 0, 3, 2] {
        memory.add(KNEE, letter, &mut reply);
    }
    let word = memory.prepare(KNEE, 2, &mut reply);
    assert_eq!((reply[0], reply[1]), (0, TAKEN));
    memory.query(KNEE, 2, 5, 6, &mut reply);
    assert_eq!(reply[0], 12, "before the second half nothing is at work");
    memory.commit(KNEE, 2, word);
    memory.query(KNEE, 2, 5, 6, &mut reply);
    assert_eq!((reply[0], reply[1]), (0, INSIDE));
}

/// Holders and piles are values: a copy goes its own way.
#[test]
fn copies_stand_apart() {
    let mut holder = Holder::new();
    draw(&mut holder, 0, (5, 5), &BAR).unwrap();
    let mut copy = holder.clone();
    assert_eq!(copy, holder);
    copy.clear(KNEE, 0).unwrap();
    assert_ne!(copy, holder);
    assert_eq!(holder.query(KNEE, 0, Cell::new(5, 5)), Ok(true));
    assert_eq!(copy.query(KNEE, 0, Cell::new(5, 5)), Err(Refusal::NothingAtWork));
    let shown = format!("{holder:?}");
    assert!(shown.contains("[5, 5, 2]") && shown.len() < 1_000, "{shown}");

    let mut pile = Pile::new();
    pile.check().unwrap();
    let mut copy = pile.clone();
    copy.empty(0).unwrap();
    assert_eq!(pile.query(0, Cell::new(0, 0)), Ok(false));
    assert_eq!(copy.query(0, Cell::new(0, 0)), Err(Refusal::NothingAtWork));
    assert_ne!(copy, pile);
    assert!(format!("{pile:?}").len() < 1_000);
}

/// A holder and a pile whose bytes were kept answer as before, and damaged bytes are noticed by a check.
#[test]
fn memory_that_was_kept() {
    let mut holder = Holder::new();
    draw(&mut holder, 3, (5, 5), &BAR).unwrap();
    holder.begin(ANKLE, Corner::new(7, 8)).unwrap();
    let mut kept = holder.as_bytes().to_vec();
    let bytes: &[u8; HOLDER_BYTES] = kept[..].try_into().unwrap();
    let again = Holder::from_bytes(bytes);
    assert_eq!(again, holder);
    assert_eq!(again.row(KNEE, 3, 5), Ok(Some((5, 7))));
    assert_eq!(again.draft(ANKLE), Ok((Corner::new(7, 8), 0)));
    assert_eq!(Holder::from_bytes(&[0; HOLDER_BYTES]), Holder::new());
    // The row of the bar, in the first slot.
    kept[2 * LONGEST + 5] ^= 1;
    let damaged = Holder::from_bytes(kept[..].try_into().unwrap());
    assert_eq!(damaged.check(KNEE, 3), Err(Refusal::Damaged));
    assert_eq!(damaged.memory(), &HolderMemory::from_bytes(kept[..].try_into().unwrap()));

    let mut pile = Pile::new();
    pile.set(4, &Outline::new(Corner::new(5, 5), BAR)).unwrap();
    pile.check().unwrap();
    let mut kept = *pile.as_bytes();
    assert_eq!(Pile::from_bytes(&kept), pile);
    assert_eq!(Pile::from_bytes(&kept).query(4, Cell::new(7, 5)), Ok(true));
    // A cell of a row far from the bar.
    kept[4 * 510 + 255 + 100] ^= 1;
    assert_eq!(Pile::from_bytes(&kept).save(4), Err(Refusal::Damaged));
    assert_eq!(Pile::from_bytes(&[0; PILE_BYTES]), Pile::new());
}

#[test]
fn loose_queries() {
    let anchor = Cell::new(3, 4);
    assert_eq!(Edges::new(anchor, []).contains(anchor), Ok(true));
    assert_eq!(Edges::new(anchor, []).contains(Cell::new(3, 5)), Ok(false));
    assert_eq!(Edges::new(anchor, [1, 0, 2]).contains(anchor), Err(Refusal::EdgeList { edges: None }));
    assert_eq!(
        Edges::new(anchor, [0; LONGEST_LIST + 2]).contains(Cell::new(255, 0)),
        Err(Refusal::EdgeList { edges: None })
    );
    assert_eq!(Edges::new(anchor, [0; LONGEST_LIST]).contains(Cell::new(255, 0)), Err(Refusal::Cell));
    assert_eq!(Edges::new(Cell::new(0, 255), []).contains(anchor), Err(Refusal::Cell));
}

#[test]
fn lists_that_do_not_lead_once_round() {
    let anchor = Cell::new(3, 4);
    let ask = |numbers: &[i16], cell| Edges::new(anchor, numbers).contains(cell);
    // A zero edge, an open walk, one direction twice, up after left, anticlockwise.
    for list in [&[0, 0][..], &[0, 2, 1, 0], &[0, 1, 0, 1, 0, -2], &[1, 0, -1, -1, 0, 1], &[1, 0, -1, 1, 0, -1]] {
        assert_eq!(ask(list, anchor), Err(Refusal::Directions), "{list:?}");
        assert_eq!(ask(list, Cell::new(0, 255)), Err(Refusal::Cell), "{list:?}");
    }
    // Up comes first, and a half turn is no fault: its cells may meet at corners alone.
    assert_eq!(ask(&[0, 1, 1, -1, -1, 0], Cell::new(3, 5)), Ok(true));
    assert_eq!(ask(&[1, 1, -1, -1], Cell::new(4, 5)), Ok(true));
    assert_eq!(ask(&[1, 1, -1, -1], Cell::new(4, 4)), Ok(false));
    // Corner cells off the chart count.
    assert_eq!(ask(&[0, 600, 300, -600, -300, 0], Cell::new(103, 204)), Ok(true));
    assert_eq!(ask(&[0, 600, 300, -600, -300, 0], Cell::new(254, 254)), Ok(false));
}

#[test]
fn borders() {
    let anchor = Cell::new(3, 4);
    let border = |numbers: &[i16]| Edges::new(anchor, numbers).border();
    let letters = |outline: Outline| outline.letters;
    // No edge is one cell; edges of several copies are written out.
    assert_eq!(border(&[]).map(letters), Ok(CELL.to_vec()));
    assert_eq!(border(&[2, 0, -2, 0]).map(letters), Ok(BAR.to_vec()));
    assert_eq!(border(&[]).unwrap().start, Corner::new(3, 4));
    // 16 before 17 before 18. Two cells with only a corner in common have no border, nor has what leaves the chart or is too long.
    let into = |numbers: &[i16], space: usize| Edges::new(anchor, numbers).border_into(&mut vec![9; space]);
    assert_eq!(into(&[0, 0], 0), Err(Refusal::Directions));
    assert_eq!(into(&[1, 1, -1, -1], 0), Err(Refusal::NoOutline));
    assert_eq!(into(&[0, 251, 1, -251, -1, 0], LONGEST), Err(Refusal::NoOutline));
    assert_eq!(into(&[0, 200, 200, 0, 0, -200, -200, 0], LONGEST), Err(Refusal::NoOutline));
    assert_eq!(into(&[2, 0, -2, 0], 7), Err(Refusal::LetterBuffer));
    assert_eq!(into(&[2, 0, -2, 0], 8), Ok(8));
    assert_eq!(into(&[2], LONGEST), Err(Refusal::EdgeList { edges: None }));
    assert_eq!(Edges::new(Cell::new(0, 255), [0, 0]).border(), Err(Refusal::Cell));
    // The rest of the buffer is unaltered.
    let mut buffer = [9; 6];
    assert_eq!(Edges::new(anchor, []).border_into(&mut buffer), Ok(4));
    assert_eq!(buffer, [1, 0, 3, 2, 9, 9]);
}

#[test]
fn witnesses() {
    let at = |letters: &[u8]| Outline::new(Corner::new(0, 0), letters);
    let cells = |cells: [(u16, u16); 3]| cells.map(|(col, row)| Cell::new(col, row));
    let found = |missing: (u16, u16), three| Witness { missing: Cell::new(missing.0, missing.1), cells: cells(three) };
    assert_eq!(at(&DENTED).witness(), Ok(Some(found((1, 1), [(2, 0), (0, 2), (0, 1)]))));
    // A back-step has a missing cell as well: here between two cells of its row.
    let back_step = at(&[1, 1, 0, 3, 0, 1, 0, 3, 3, 2, 2, 2]);
    assert_eq!(back_step.witness(), Ok(Some(found((1, 1), [(0, 1), (2, 1), (2, 1)]))));
    assert_eq!((at(&BAR).witness(), at(&CELL).witness()), (Ok(None), Ok(None)));

    // 1 to 6 come before the buffer is looked at.
    let mut reply = [5; REPLY];
    for space in 0..6 {
        raw::witness(0, 0, &DENTED, &mut vec![9; space], &mut reply);
        assert_eq!(reply, [10, 0, 0, 0, 0, 0, 0]);
        raw::witness(0, 1, &[1, 0, 3, 3], &mut vec![9; space], &mut reply);
        assert_eq!(reply, [5, 0, 0, 0, 0, 0, 0]);
    }
    assert_eq!(at(&CELL[..3]).witness(), Err(Refusal::Length));
    assert_eq!(Outline::new(Corner::new(256, 0), CELL).witness(), Err(Refusal::Start));
    assert_eq!(at(&[1, 0, 3, 9]).witness(), Err(Refusal::Letter { place: 3 }));
    assert_eq!(at(&[1, 0, 3, 3]).witness(), Err(Refusal::OffChart { place: 3 }));
    assert_eq!(at(&[1, 0, 3, 0]).witness(), Err(Refusal::NotClosed));
    assert_eq!(at(&[1, 0, 2, 3]).witness(), Err(Refusal::Touches { place: 2 }));
}

/// Whether a triangle holds a cell is arithmetic on any numbers, also flat, in either order, and off the chart.
#[test]
fn triangles_hold_cells() {
    let holds = |missing: (u16, u16), [a, b, c]: [(u16, u16); 3]| {
        let cell = |(col, row)| Cell::new(col, row);
        let orders = [[a, b, c], [b, c, a], [c, b, a]];
        let held = orders.map(|cells| Witness { missing: cell(missing), cells: cells.map(cell) }.holds());
        assert_eq!(held, [held[0]; 3]);
        held[0]
    };
    let triangle = [(0, 0), (4, 0), (0, 4)];
    assert!(holds((1, 1), triangle) && holds((2, 2), triangle) && holds((4, 0), triangle));
    assert!(!holds((3, 2), triangle) && !holds((5, 0), triangle));
    let segment = [(1, 1), (3, 3), (3, 3)];
    assert!(holds((2, 2), segment) && !holds((4, 4), segment) && !holds((2, 3), segment) && !holds((0, 0), segment));
    assert!(holds((7, 7), [(7, 7); 3]) && !holds((7, 8), [(7, 7); 3]));
    let far = [(0, 0), (u16::MAX, 0), (0, u16::MAX)];
    assert!(holds((32_767, 32_767), far) && !holds((32_768, 32_768), far));
}

#[test]
fn completions() {
    let at = |col, row, letters: &[u8]| Outline::new(Corner::new(col, row), letters);
    let straight = [1, 1, 1, 0, 3, 0, 3, 0, 3, 2, 2, 2];
    assert_eq!(at(0, 0, &DENTED).complete(), Ok(at(0, 0, &straight)));
    assert_eq!(at(9, 9, &straight).complete(), Ok(at(9, 9, &straight)));
    // A taken outline gets its own border, wherever it was begun and whichever way it was drawn.
    assert_eq!(at(8, 5, &[2, 2, 2, 1, 0, 0, 0, 3]).complete(), Ok(at(5, 5, &BAR)));
    assert_eq!(at(5, 5, &[0, 0, 0, 1, 2, 2, 2, 3]).complete(), Ok(at(5, 5, &BAR)));
    // A notch is filled: fewer letters.
    let notched = at(0, 0, &[1, 1, 0, 3, 0, 1, 0, 3, 3, 2, 2, 2]);
    assert_eq!(notched.complete(), Ok(at(0, 0, &[1, 1, 0, 0, 0, 3, 3, 2, 2, 2])));

    // 1 to 6 and then 18; a buffer that is too short is unaltered.
    let mut reply = [5; REPLY];
    for space in 0..straight.len() {
        let mut letters = vec![9; space];
        raw::complete(0, 0, &DENTED, &mut letters, &mut reply);
        assert_eq!((letters, reply), (vec![9; space], [18, 0, 0, 0, 0, 0, 0]));
        raw::complete(0, 0, &[1, 0, 2, 3], &mut [9; 3], &mut reply);
        assert_eq!(reply, [6, 0, 2, 0, 0, 0, 0]);
    }
    assert_eq!(at(0, 0, &[]).complete(), Err(Refusal::Length));
    assert_eq!(at(0, 256, &CELL).complete(), Err(Refusal::Start));
    assert_eq!(at(0, 0, &[7; 4]).complete(), Err(Refusal::Letter { place: 0 }));
    assert_eq!(at(255, 0, &CELL).complete(), Err(Refusal::OffChart { place: 1 }));
    assert_eq!(at(0, 0, &[1, 0, 0, 3]).complete(), Err(Refusal::NotClosed));
    assert_eq!(Refusal::LetterBuffer.to_string(), "the buffer for letters or bytes is too short");
}

#[test]
fn holder_keeps_draft_and_work() {
    let mut holder = Holder::new();
    let bar = Closed { same: false, edges: 2, anchor: Cell::new(5, 5) };
    let at = |col| Cell::new(col, 5);
    assert_eq!(holder.query(KNEE, 0, at(5)), Err(Refusal::NothingAtWork));
    assert_eq!(holder.add(KNEE, 1), Err(Refusal::NoDraft));
    assert_eq!(draw(&mut holder, 0, (5, 5), &BAR), Ok(bar));
    assert_eq!(draw(&mut holder, 0, (5, 5), &BAR), Ok(Closed { same: true, ..bar }));
    assert_eq!(holder.query(KNEE, 0, at(7)), Ok(true));
    assert_eq!(holder.query(KNEE, 0, at(8)), Ok(false));
    assert_eq!(holder.query(KNEE, 0, at(255)), Err(Refusal::Cell));

    // A draft in the making, and one that is refused, leave what is at work.
    holder.begin(KNEE, Corner::new(0, 0)).unwrap();
    assert_eq!(holder.begin(KNEE, Corner::new(0, 0)), Err(Refusal::DraftOpen));
    holder.add(KNEE, 1).unwrap();
    assert_eq!(holder.add(KNEE, 4), Err(Refusal::Letter { place: 1 }));
    assert_eq!(holder.query(KNEE, 0, at(7)), Ok(true));
    assert_eq!(holder.close(KNEE, 0), Err(Refusal::Length));
    assert_eq!(holder.close(KNEE, 0), Err(Refusal::NoDraft));
    assert_eq!(holder.query(KNEE, 0, at(7)), Ok(true));

    // A clear keeps the draft, and what was at work is then no longer the same.
    holder.begin(KNEE, Corner::new(5, 5)).unwrap();
    holder.clear(KNEE, 0).unwrap();
    assert_eq!(holder.query(KNEE, 0, at(7)), Err(Refusal::NothingAtWork));
    for letter in BAR {
        holder.add(KNEE, letter).unwrap();
    }
    assert_eq!(holder.close(KNEE, 0), Ok(bar));

    // Another outline takes its place.
    let cell = Closed { same: false, edges: 0, anchor: Cell::new(9, 9) };
    assert_eq!(draw(&mut holder, 0, (9, 9), &CELL), Ok(cell));
    assert_eq!(holder.query(KNEE, 0, at(7)), Ok(false));
    assert_eq!(holder.drop_draft(KNEE), Err(Refusal::NoDraft));
    holder.begin(KNEE, Corner::new(0, 0)).unwrap();
    holder.drop_draft(KNEE).unwrap();
    assert_eq!(holder.begin(KNEE, Corner::new(0, 256)), Err(Refusal::Start));
}

#[test]
fn parties_and_places_stand_apart() {
    let mut holder = Holder::new();
    let bar = Closed { same: false, edges: 2, anchor: Cell::new(5, 5) };
    let cell = Cell::new(5, 5);
    holder.begin(ANKLE, Corner::new(1, 1)).unwrap();
    assert_eq!(draw(&mut holder, 2, (5, 5), &BAR), Ok(bar));
    assert_eq!(draw(&mut holder, 3, (5, 5), &BAR), Ok(bar));
    assert_eq!(holder.query(ANKLE, 2, cell), Err(Refusal::NothingAtWork));
    assert_eq!(holder.query(KNEE, 0, cell), Err(Refusal::NothingAtWork));
    holder.clear(KNEE, 2).unwrap();
    assert_eq!(holder.query(KNEE, 2, cell), Err(Refusal::NothingAtWork));
    assert_eq!(holder.query(KNEE, 3, cell), Ok(true));

    // 19 before 20, and both before all others; a close that 20 refuses ends its party's draft.
    assert_eq!(holder.begin(PARTIES, Corner::new(256, 0)), Err(Refusal::Party));
    assert_eq!(holder.clear(PARTIES, PLACES), Err(Refusal::Party));
    assert_eq!(holder.query(ANKLE, PLACES, Cell::new(255, 0)), Err(Refusal::Place));
    holder.begin(KNEE, Corner::new(1, 1)).unwrap();
    assert_eq!(holder.close(ANKLE, PLACES), Err(Refusal::Place));
    assert_eq!(holder.close(ANKLE, 0), Err(Refusal::NoDraft));
    assert_eq!(holder.begin(KNEE, Corner::new(1, 1)), Err(Refusal::DraftOpen));
}

#[test]
fn readings() {
    let mut holder = Holder::new();
    assert_eq!(holder.reading(KNEE, 1, 1.0, 1.0), Err(Refusal::NothingAtWork));
    // Five cells by five, from (5, 5): the edges run round the centres of the outer cells.
    let square = [[1; 5], [0; 5], [3; 5], [2; 5]].concat();
    draw(&mut holder, 1, (5, 5), &square).unwrap();
    let at = |angle, load| holder.reading(KNEE, 1, angle, load);
    assert_eq!(at(7.25, 8.5), Ok(Located::Inside));
    assert_eq!(at(5.0, 7.0), Ok(Located::Undecided));
    assert_eq!(at(4.999, 7.0), Ok(Located::Outside));
    assert_eq!(at(9.0, 9.0), Ok(Located::Undecided));
    assert_eq!(at(0.0, -0.0), Ok(Located::Outside));
    for bad in [-f32::MIN_POSITIVE, 254.5, f32::INFINITY, f32::NEG_INFINITY, f32::NAN, -f32::NAN] {
        assert_eq!((at(bad, 7.0), at(7.0, bad)), (Err(Refusal::Cell), Err(Refusal::Cell)), "{bad}");
    }
    // 19, 20, 12 and then 11; a call has the answers of all calls.
    assert_eq!(holder.reading(PARTIES, PLACES, f32::NAN, 0.0), Err(Refusal::Party));
    assert_eq!(holder.reading(ANKLE, PLACES, f32::NAN, 0.0), Err(Refusal::Place));
    assert_eq!(holder.reading(ANKLE, 1, f32::NAN, 0.0), Err(Refusal::NothingAtWork));
    let reading = Reading::new(5.0, 7.0);
    assert_eq!(holder.call(Action::Reading { place: 1, reading }.by(KNEE)), Ok(Answer::Undecided));
    assert_eq!(Refusal::Cell.to_string(), "the cell, the reading or the hull is off the chart");
    assert_eq!(Refusal::Cell.number(), 11);
}

#[test]
fn pieces() {
    let mut holder = Holder::new();
    assert_eq!(holder.piece(KNEE, 0, 0), Err(Refusal::NothingAtWork));
    // A draft in the making stays as it is.
    holder.begin(ANKLE, Corner::new(0, 0)).unwrap();
    draw(&mut holder, 0, (253, 252), &[1, 1, 0, 3, 0, 3, 2, 2]).unwrap();
    let at = |position| holder.piece(KNEE, 0, position);
    assert_eq!(at(0), Ok(Piece::Move(253.5, 252.5)));
    assert_eq!(at(1), Ok(Piece::Line(253.5, 253.5)));
    assert_eq!(at(2), Ok(Piece::Line(254.5, 252.5)));
    assert_eq!((at(3), at(4), at(u16::MAX)), (Ok(Piece::Close), Ok(Piece::None), Ok(Piece::None)));
    draw(&mut holder, 1, (9, 9), &CELL).unwrap();
    let at = |position| holder.piece(KNEE, 1, position);
    assert_eq!((at(0), at(1), at(2)), (Ok(Piece::Move(9.5, 9.5)), Ok(Piece::Close), Ok(Piece::None)));
    // A call has the cell.
    let mut call = |position| holder.call(Action::Piece { place: 0, position }.by(KNEE));
    assert_eq!((call(0), call(2)), (Ok(Answer::Move(Cell::new(253, 252))), Ok(Answer::Line(Cell::new(254, 252)))));
    assert_eq!((call(3), call(4)), (Ok(Answer::Close), Ok(Answer::None)));
    assert_eq!(holder.piece(PARTIES, PLACES, 0), Err(Refusal::Party));
    assert_eq!(holder.piece(ANKLE, PLACES, 0), Err(Refusal::Place));
    assert_eq!(holder.piece(ANKLE, 0, 0), Err(Refusal::NothingAtWork));
    assert_eq!(holder.begin(ANKLE, Corner::new(0, 0)), Err(Refusal::DraftOpen));
}

#[test]
fn comparisons() {
    let edges = |col, row, numbers: &[i16]| Edges::new(Cell::new(col, row), numbers);
    let square = edges(4, 4, &[0, 2, 2, 0, 0, -2, -2, 0]);
    let cell = edges(5, 6, &[]);
    let found = |nesting, inner| Ok(Comparison { nesting, inner });
    assert_eq!(square.compare(&square.clone()), found(Nesting::Equal, Some(&square)));
    assert_eq!(cell.compare(&square), found(Nesting::FirstWithin, Some(&cell)));
    assert_eq!(square.compare(&cell), found(Nesting::SecondWithin, Some(&cell)));

    // Two segments that cross between cells, and two that share a cell that is no corner of either.
    let rising = edges(0, 0, &[1, 1, -1, -1]);
    assert_eq!(rising.compare(&edges(0, 1, &[1, -1, -1, 1])), found(Nesting::NoCommonCell, None));
    let longer = edges(0, 0, &[2, 2, -2, -2]);
    assert_eq!(longer.compare(&edges(0, 1, &[2, 0, -2, 0])), found(Nesting::Crossing, None));

    // The whole first list is checked before the second.
    let refused = |list, refusal| Err(RefusedList { list, refusal });
    let (off, odd) = (edges(254, 0, &[0, 2, 2, 0, 0, -2, -2, 0]), edges(0, 0, &[1]));
    assert_eq!(off.compare(&odd), refused(1, Refusal::Cell));
    assert_eq!(cell.compare(&odd), refused(2, Refusal::EdgeList { edges: None }));
    assert_eq!(cell.compare(&edges(0, 0, &[1, 0])), refused(2, Refusal::Directions));
    assert_eq!(
        cell.compare(&edges(255, 0, &[1, 0])).unwrap_err().to_string(),
        "list 2: the cell, the reading or the hull is off the chart"
    );
}

#[test]
fn full_draft() {
    let mut holder = Holder::new();
    holder.begin(KNEE, Corner::new(0, 0)).unwrap();
    for _ in 0..LONGEST {
        holder.add(KNEE, 1).unwrap();
    }
    assert_eq!(holder.add(KNEE, 1), Err(Refusal::DraftFull));
    assert_eq!(holder.add(KNEE, 9), Err(Refusal::DraftFull));
    assert_eq!(holder.close(KNEE, 0), Err(Refusal::OffChart { place: usize::from(LAST_CORNER) }));
}

#[test]
fn bytes_that_are_no_call() {
    let mut memory = HolderMemory::filled(0x5a);
    memory.fresh();
    memory.begin(KNEE, 1, 2, &mut [0; REPLY]);
    let before = memory.clone();
    let drop = Action::Drop.by(KNEE).bytes();
    let mut reply = [5; REPLY];
    for bytes in [&drop[..CALL - 1], &[], &[&drop[..], &[0]].concat(), &[9, 0, 0, 0, 0, 0, 0, 0, 0, 0, 0]] {
        assert!(!memory.call(bytes, &mut reply), "{bytes:?}");
    }
    assert_eq!((reply, &memory), ([5; REPLY], &before));
    assert!(memory.call(&drop, &mut reply));
    assert_eq!(reply, [0; REPLY]);
    assert!(memory.call(&drop, &mut reply));
    assert_eq!(reply, [13, 0, 0, 0, 0, 0, 0]);
}

#[test]
fn piles() {
    let at = |col, row, letters: &[u8]| Outline::new(Corner::new(col, row), letters);
    let mut pile = Pile::new();
    assert_eq!(pile.query(0, Cell::new(0, 0)), Err(Refusal::NothingAtWork));
    let bar = Taken { edges: 2, anchor: Cell::new(5, 5) };
    assert_eq!(pile.set(15, &at(5, 5, &BAR)), Ok(bar));
    assert_eq!(pile.check(), Ok(()));
    assert_eq!(pile.query(15, Cell::new(7, 5)), Ok(true));
    assert_eq!(pile.query(15, Cell::new(8, 5)), Ok(false));
    assert_eq!(pile.query(14, Cell::new(7, 5)), Ok(false));
    assert_eq!(pile.query(15, Cell::new(0, 255)), Err(Refusal::Cell));

    // 22 comes first. A refused set leaves the pass, and one that is taken does not.
    assert_eq!(pile.set(LAYERS, &at(256, 0, &[])), Err(Refusal::Layer));
    assert_eq!(pile.empty(LAYERS), Err(Refusal::Layer));
    assert_eq!(pile.query(u8::MAX, Cell::new(255, 0)), Err(Refusal::Layer));
    assert_eq!(pile.set(0, &at(256, 0, &BAR)), Err(Refusal::Start));
    assert_eq!(pile.query(15, Cell::new(7, 5)), Ok(true));
    assert_eq!(pile.set(15, &at(5, 5, &BAR)), Ok(bar));
    assert_eq!(pile.query(15, Cell::new(7, 5)), Err(Refusal::NothingAtWork));

    // Layers 13 and 15 have the bar, and 14 nothing between them: of the sections the columns come first.
    pile.set(13, &at(5, 5, &BAR)).unwrap();
    let section = |kind, at| Refusal::Section { kind, at };
    assert_eq!(pile.check(), Err(section(SectionKind::Column, 5)));
    assert_eq!(pile.query(15, Cell::new(7, 5)), Err(Refusal::NothingAtWork));
    // A cell elsewhere in layer 14 does not help; cells that lead from the one to the other do.
    pile.empty(13).unwrap();
    pile.set(14, &at(9, 5, &CELL)).unwrap();
    pile.set(13, &at(5, 5, &CELL)).unwrap();
    assert_eq!(pile.check(), Err(section(SectionKind::Column, 5)));
    pile.set(14, &at(5, 5, &[1, 0, 0, 3, 2, 2])).unwrap();
    assert_eq!(pile.check(), Ok(()));
    // By calls as values the same replies come as they are.
    assert_eq!(pile.call(&PileCall::Query(13, Cell::new(5, 5))).word, 1);
    assert_eq!(pile.call(&PileCall::SetEmpty(14)).number, 0);
    let reply = pile.call(&PileCall::Check);
    assert_eq!((reply.number, reply.piece, reply.place), (21, 0, 5));
    assert_eq!(pile.call(&PileCall::Query(13, Cell::new(5, 5))).number, 12);
}

/// A dent that only a row's section has.
#[test]
fn a_section_at_a_row() {
    let at = |col, row| Outline::new(Corner::new(col, row), CELL);
    let mut pile = Pile::new();
    for (layer, col) in [(0, 3), (1, 5), (2, 4)] {
        pile.set(layer, &at(col, 8)).unwrap();
    }
    assert_eq!(pile.check(), Err(Refusal::Section { kind: SectionKind::Row, at: 8 }));
}

#[test]
fn refusals_in_words() {
    let dent = Refusal::Dent { piece: 2, place: 4, length: 4, missing: Cell::new(1, 1) };
    assert_eq!(dent.to_string(), "the border has a dent, so the block lacks a cell of its convex hull (piece 2, place 4, length 4, missing cell (1, 1))");
    assert_eq!(Refusal::Length.to_string(), "the outline has fewer than 4 letters or more than 612");
    let section = Refusal::Section { kind: SectionKind::Row, at: 8 };
    assert_eq!(section.to_string(), "a section of the pile is dented (row 8)");
    assert_eq!(Refusal::Layer.to_string(), "there is no such layer: it is above 15");
    assert_eq!((Refusal::EdgeList { edges: None }.number(), Refusal::Directions.number()), (10, 16));
    assert_eq!((Refusal::Party.number(), Refusal::Place.number()), (19, 20));
    assert_eq!((section.number(), Refusal::Layer.number()), (21, 22));
    assert_eq!((Refusal::Damaged.number(), Refusal::Frame.number()), (27, LAST_REFUSAL));
    let error: Box<dyn std::error::Error> = Box::new(Refusal::NoDraft);
    assert_eq!(error.to_string(), "the party has no draft");
}

/// A body there and back through a frame. Every damaged bit is noticed, and what is too long or too short is refused.
#[test]
fn bodies_in_frames() {
    for count in [0, 1, CALL, FRAME_BODY - 1, FRAME_BODY] {
        let body: Vec<u8> = (0..count).map(|i| (i * 37 + 5) as u8).collect();
        let framed = frame(&body).unwrap();
        assert_eq!((framed.len(), &framed[FRAME / 2..][..count]), (count + FRAME, &body[..]));
        assert_eq!(framed[..4], [0x52, 0x51, count as u8, (count >> 8) as u8]);
        let (checked, last) = framed.split_at(count + 4);
        assert_eq!(raw::checksum(checked).to_le_bytes(), last);
        assert_eq!(unframe(&framed), Ok(body));
        for bit in (0..8 * framed.len()).step_by(if count < 20 { 1 } else { 61 }) {
            let mut damaged = framed.clone();
            damaged[bit / 8] ^= 1 << (bit % 8);
            assert_eq!(unframe(&damaged), Err(Refusal::Frame), "{bit}");
        }
        assert_eq!(unframe(&framed[..framed.len() - 1]), Err(Refusal::Frame));
        assert_eq!(unframe(&[&framed[..], &[0]].concat()), Err(Refusal::Frame));
    }
    assert_eq!(frame(&[0; FRAME_BODY + 1]), Err(Refusal::Frame));
    assert_eq!(frame(&[0; 100_000]), Err(Refusal::Frame));
    assert_eq!((unframe(&[]), unframe(&[0x52; 70_000])), (Err(Refusal::Frame), Err(Refusal::Frame)));
}

/// With its edges alone an outline answers a reading as where it is at work.
#[test]
fn readings_without_a_holder() {
    let bar = Outline::new(Corner::new(5, 5), BAR).test().unwrap();
    let mut holder = Holder::new();
    draw(&mut holder, 1, (5, 5), &BAR).unwrap();
    for (angle, load) in [(5.0, 5.0), (6.5, 5.0), (6.5, 5.25), (8.0, 5.0), (-0.0, 0.0), (f32::NAN, 5.0), (5.0, 254.5)] {
        assert_eq!(bar.reading(angle, load), holder.reading(KNEE, 1, angle, load), "{angle} {load}");
    }
    let cell = Edges::new(Cell::new(9, 9), []);
    assert_eq!((cell.reading(9.0, 9.0), cell.reading(9.0, 9.5)), (Ok(Located::Inside), Ok(Located::Outside)));
    assert_eq!(Edges::new(Cell::new(9, 9), [1]).reading(9.0, 9.0), Err(Refusal::EdgeList { edges: None }));
    assert_eq!(Edges::new(Cell::new(9, 255), []).reading(9.0, 9.0), Err(Refusal::Cell));
    assert_eq!(Edges::new(Cell::new(9, 9), [1, 0]).reading(9.0, 9.0), Err(Refusal::Directions));
    assert_eq!(Edges::new(Cell::new(254, 9), [1, 0, -1, 0]).reading(9.0, 9.0), Err(Refusal::Cell));
}

/// With the feature `std` what is wrong with bytes is an error of reading them.
#[test]
fn refusals_as_errors_of_reading() {
    let read = |bytes: &[u8]| -> std::io::Result<Outline> {
        let outline = Image::try_from(bytes)?.outline().cloned().ok_or(Refusal::Length)?;
        outline.test()?;
        Ok(outline)
    };
    let image = Image::of(&Outline::new(Corner::new(255, 0), CELL)).unwrap().bytes();
    let told = read(&image).unwrap_err();
    assert_eq!(told.kind(), std::io::ErrorKind::InvalidData);
    assert_eq!(told.to_string(), "a letter steps off the chart (place 1)");
    assert!(read(&image[1..]).unwrap_err().to_string().starts_with("refusal 26"));
    let fitting: std::io::Error = robequarry::fitting::Fault::TooLarge.into();
    assert_eq!(fitting.to_string(), "fault 25: the file has more than 65,536 bytes");
    let line = robequarry::text::Lines::of("x").next().unwrap().unwrap_err();
    assert!(std::io::Error::from(line).to_string().starts_with("line 1: "));
}

/// What is saved at one place is restored at another, and one bit of damage is noticed, in an image and in memory.
#[test]
fn images_of_a_place() {
    let mut holder = Holder::new();
    assert!(draw(&mut holder, 2, (5, 6), &BAR).is_ok_and(|closed| !closed.same));
    holder.check(KNEE, 2).unwrap();
    assert_eq!(holder.check(2, 2), Err(Refusal::Party));
    assert_eq!(holder.save(KNEE, 4), Err(Refusal::Place));
    let image = holder.save(KNEE, 2).unwrap();
    assert_eq!(image, Image::of(&Outline::new(Corner::new(5, 6), BAR)).unwrap());
    assert_eq!(holder.save(ANKLE, 2).unwrap(), Image::empty());

    let mut other = Holder::new();
    other.begin(ANKLE, Corner::new(1, 1)).unwrap();
    let bar = Closed { same: false, anchor: Cell::new(5, 6), edges: 2 };
    assert_eq!(other.restore(ANKLE, 0, &image.bytes()), Ok(Some(bar)));
    assert_eq!(other.restore(ANKLE, 0, &image.bytes()), Ok(Some(Closed { same: true, ..bar })));
    assert_eq!(other.row(ANKLE, 0, 6), Ok(Some((5, 7))));
    assert_eq!(other.draft(ANKLE), Ok((Corner::new(1, 1), 0)));
    let before = other.clone();
    let mut bytes = image.bytes();
    bytes[9] ^= 4;
    assert_eq!(other.restore(ANKLE, 0, &bytes), Err(Refusal::Image));
    assert_eq!(other.restore(ANKLE, 0, &bytes[1..]), Err(Refusal::Image));
    let dented = Image::of(&Outline::new(Corner::new(0, 0), DENTED)).unwrap();
    assert!(matches!(other.restore(ANKLE, 0, &dented.bytes()), Err(Refusal::Dent { .. })));
    assert_eq!(other, before);
    assert_eq!(other.restore(ANKLE, 0, &Image::empty().bytes()), Ok(None));
    assert_eq!(other.row(ANKLE, 0, 6), Err(Refusal::NothingAtWork));

    // In memory: a row of what is at work, and the word of a place.
    let mut memory = holder.memory().clone();
    let mut reply = [0; REPLY];
    memory.rows[6] ^= 1;
    memory.check(KNEE, 2, &mut reply);
    assert_eq!(reply, [27, 0, 0, 0, 0, 0, 0]);
    memory.rows[6] ^= 1;
    memory.heads[8 + 2] ^= 1;
    memory.check(KNEE, 2, &mut reply);
    assert_eq!(reply, [27, 0, 0, 0, 0, 0, 0]);
    memory.query(KNEE, 2, 5, 6, &mut reply);
    assert_eq!(reply, [12, 0, 0, 0, 0, 0, 0]);
}

/// Readings are floats, and equal by their bits.
#[test]
fn readings_as_values() {
    let reading = Reading { angle: 1.25, load: 0.75 };
    assert_eq!((reading, reading.bits()), (Reading::new(1.25, 0.75), (1.25f32.to_bits(), 0.75f32.to_bits())));
    let none = Reading::from_bits(0x7fc0_0001, 0xff80_0001);
    assert!(none.angle.is_nan() && none == none && none != Reading::from_bits(0x7fc0_0002, 0xff80_0001));
    assert_ne!(Reading::new(0.0, 1.0), Reading::new(-0.0, 1.0));
}

/// The archive that is linked is named by its digest, of which the standard's examples hold.
#[test]
fn the_library_says_which_it_is() {
    #[path = "../build/archive.rs"]
    #[allow(dead_code)]
    mod archive;
    #[path = "../build/sha256.rs"]
    mod sha256;
    assert_eq!(sha256::hexadecimal(b""), "e3b0c44298fc1c149afbf4c8996fb92427ae41e4649b934ca495991b7852b855");
    assert_eq!(sha256::hexadecimal(b"abc"), "ba7816bf8f01cfea414140de5dae2223b00361a396177a9cb410ff61f20015ad");
    let two = b"abcdbcdecdefdefgefghfghighijhijkijkljklmklmnlmnomnopnopq";
    assert_eq!(sha256::hexadecimal(two), "248d6a61d20638b8e5c026930c3e6039a33ce45964ff2167f6ecedd419db06c1");
    let root = concat!(env!("CARGO_MANIFEST_DIR"), "/..");
    let folder = archive::folder("x86_64-unknown-linux-gnu", None, root.as_ref()).expect("the build has linked it");
    let bytes = std::fs::read(folder.join(archive::ARCHIVE)).expect("the build has linked it");
    assert_eq!(robequarry::ARCHIVE, sha256::hexadecimal(&bytes));
}
