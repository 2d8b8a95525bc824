//! Images, and memory of any content: lists of calls on a holder and on a pile with checks, saves and restores among them, and memory and
//! images that are damaged.

use robequarry::limits::{IMAGE, LAYERS, LONGEST, PARTIES, PLACES, REPLY};
use robequarry::raw::{HolderMemory, PileMemory, Reply};
use robequarry::{Action, Call, Holder, Reading};

use crate::case::Case;
use crate::draw::any_taken;
use crate::garbage::{any_outline, spoilt_test};
use crate::live::{by_arguments, fresh};
use crate::random::Random;
use crate::reference::book::Book;
use crate::reference::images::{checksum, image};
use crate::reference::memory;
use crate::reply::numbered;
use crate::scripts::{position, script, to_work};
use crate::typed::{answered, holder_call, refused, restored};
use crate::{plain, Fields, Outline, Point};

/// A call on a holder, of any kind. A save has a buffer of so many bytes.
#[derive(Clone, Debug, PartialEq)]
pub enum Step {
    Call(Call),
    Draft(u8),
    Check(u8, u8),
    Save { party: u8, place: u8, space: usize },
    Restore { party: u8, place: u8, bytes: Vec<u8> },
}

/// A reply, and the buffer of a save.
#[derive(Clone, Debug, PartialEq)]
pub struct Told {
    pub reply: Fields,
    pub buffer: Vec<u8>,
}

impl From<Fields> for Told {
    fn from(reply: Fields) -> Self {
        Told { reply, buffer: Vec::new() }
    }
}

/// What stands in the buffer of a save before it.
const BLANK: u8 = 0xA5;

impl Step {
    /// On memory of the library.
    pub fn on(&self, memory: &mut HolderMemory) -> Told {
        let mut reply: Reply = [u16::MAX; REPLY];
        let mut buffer = Vec::new();
        match self {
            Step::Call(call) => by_arguments(memory, *call, &mut reply),
            Step::Draft(party) => memory.draft(*party, &mut reply),
            Step::Check(party, place) => memory.check(*party, *place, &mut reply),
            Step::Save { party, place, space } => {
                buffer = vec![BLANK; *space];
                memory.save(*party, *place, &mut buffer, &mut reply);
            }
            Step::Restore { party, place, bytes } => memory.restore(*party, *place, bytes, &mut reply),
        }
        Told { reply: reply.into(), buffer }
    }

    /// What the contract says of memory with any content.
    pub fn on_arrays(&self, memory: &mut HolderMemory) -> Told {
        match self {
            Step::Call(call) => memory::answer(memory, *call).into(),
            Step::Draft(party) => memory::draft(memory, *party).into(),
            Step::Check(party, place) => memory::check(memory, *party, *place).into(),
            Step::Save { party, place, space } => {
                let mut buffer = vec![BLANK; *space];
                Told { reply: memory::save(memory, *party, *place, &mut buffer), buffer }
            }
            Step::Restore { party, place, bytes } => memory::restore(memory, *party, *place, bytes).into(),
        }
    }

    /// What the plain book says. It is never damaged.
    pub fn in_book(&self, book: &mut Book) -> Told {
        match self {
            Step::Call(call) => book.answer(*call).into(),
            Step::Draft(party) => book.draft(*party).into(),
            Step::Check(party, place) => refusal(*party, *place).unwrap_or(numbered(0)).into(),
            Step::Save { party, place, space } => {
                let mut buffer = vec![BLANK; *space];
                let reply = match (book.image(*party, *place), buffer.get_mut(..IMAGE)) {
                    (None, _) => refusal(*party, *place).expect("only then is there no image"),
                    (Some(_), None) => numbered(18),
                    (Some(image), Some(buffer)) => {
                        buffer.copy_from_slice(&image);
                        numbered(0)
                    }
                };
                Told { reply, buffer }
            }
            Step::Restore { party, place, bytes } => book.restore(*party, *place, bytes).into(),
        }
    }

    /// On the rival, which tells no draft.
    fn on_plain(&self, holder: &mut plain::Holder) -> Option<Told> {
        Some(match self {
            Step::Call(call) => {
                let mut reply = [0; REPLY];
                assert!(holder.call(&call.bytes(), &mut reply), "this is a call");
                Fields::from(reply).into()
            }
            Step::Draft(_) => return None,
            Step::Check(party, place) => holder.check(*party, *place).into(),
            Step::Save { party, place, space } => {
                let mut buffer = vec![BLANK; *space];
                Told { reply: holder.save(*party, *place, &mut buffer), buffer }
            }
            Step::Restore { party, place, bytes } => holder.restore(*party, *place, bytes).into(),
        })
    }

    /// By the typed calls, where a save always has space.
    fn on_typed(&self, holder: &mut Holder) -> Option<Told> {
        Some(match self {
            Step::Call(call) => {
                let mut other = holder.clone();
                let told = holder_call(holder, *call);
                // The same as a value.
                assert_eq!((answered(other.call(*call)), &other), (told, &*holder), "{call:?}");
                told.into()
            }
            Step::Draft(party) => match holder.draft(*party) {
                Ok((start, count)) => Fields { place: count, col: start.col, row: start.row, ..Fields::default() }.into(),
                Err(refusal) => refused(refusal).into(),
            },
            Step::Check(party, place) => holder.check(*party, *place).map_or_else(refused, |()| numbered(0)).into(),
            Step::Save { party, place, space: IMAGE } => match holder.save(*party, *place) {
                Ok(image) => Told { reply: numbered(0), buffer: image.bytes().to_vec() },
                Err(refusal) => Told { reply: refused(refusal), buffer: vec![BLANK; IMAGE] },
            },
            Step::Save { .. } => return None,
            Step::Restore { party, place, bytes } => restored(holder.restore(*party, *place, bytes)).into(),
        })
    }
}

/// 19 and 20.
fn refusal(party: u8, place: u8) -> Option<Fields> {
    match (party, place) {
        (PARTIES.., _) => Some(numbered(19)),
        (_, PLACES..) => Some(numbered(20)),
        _ => None,
    }
}

/// Holders that get the same steps from fresh memory on. Replies and buffers are the book's, and the library's memory is what the contract
/// says, number for number.
pub struct Alike {
    book: Book,
    plain: plain::Holder,
    typed: Holder,
    memory: Box<HolderMemory>,
}

impl Default for Alike {
    fn default() -> Self {
        Alike { book: Book::default(), plain: plain::Holder::default(), typed: Holder::new(), memory: fresh() }
    }
}

impl Alike {
    /// Makes a step on all of them, and gives what the book says.
    pub fn step(&mut self, step: &Step) -> Told {
        let expected = step.in_book(&mut self.book);
        let mut arrays = self.memory.clone();
        assert_eq!(step.on(&mut self.memory), expected, "library: {step:?}");
        assert_eq!(step.on_arrays(&mut arrays), expected, "arrays: {step:?}");
        assert!(self.memory == arrays, "memory differs after {step:?}");
        if let Some(told) = step.on_plain(&mut self.plain) {
            assert_eq!(told, expected, "plain: {step:?}");
        }
        if let Some(told) = step.on_typed(&mut self.typed) {
            assert_eq!(told, expected, "typed: {step:?}");
        }
        assert!(*self.typed.memory() == *self.memory, "memory differs after the typed {step:?}");
        expected
    }

    /// Saves what is at one place and restores it at another: every question there has the answer of the first.
    pub fn copy(&mut self, from: (u8, u8), to: (u8, u8)) -> [Told; 2] {
        let saved = self.step(&Step::Save { party: from.0, place: from.1, space: IMAGE });
        let bytes = saved.buffer.clone();
        let restored = self.step(&Step::Restore { party: to.0, place: to.1, bytes });
        [saved, restored]
    }
}

/// What a list of steps is made of: a step, or a save that is restored elsewhere.
#[derive(Clone, Debug)]
pub enum Move {
    Step(Step),
    Copy((u8, u8), (u8, u8)),
}

/// The calls of a script with checks, saves and restores among them.
pub fn moves(random: &mut Random) -> Vec<Move> {
    let Case::Script { bytes, .. } = script(random) else { unreachable!("a script is asked for") };
    let mut moves = Vec::new();
    for call in Call::each(&bytes) {
        moves.push(Move::Step(Step::Call(call)));
        let closed = matches!(call.action, Action::Close { .. });
        while random.once_in(if closed { 2 } else { 40 }) {
            moves.push(image_move(random));
        }
    }
    (0..random.below(6)).for_each(|_| moves.push(image_move(random)));
    moves
}

fn image_move(random: &mut Random) -> Move {
    match random.below(8) {
        0 | 1 => Move::Copy(spot(random), spot(random)),
        _ => Move::Step(image_step(random)),
    }
}

/// A party and a place, mostly those that there are, and few of the places, so that outlines meet there.
fn spot(random: &mut Random) -> (u8, u8) {
    let party = if random.once_in(30) { random.any() as u8 } else { random.below(2) as u8 };
    let place = if random.once_in(30) { random.any() as u8 } else { [0, 0, 3, 1][random.below(4)] };
    (party, place)
}

fn image_step(random: &mut Random) -> Step {
    let (party, place) = spot(random);
    match random.below(8) {
        0 => Step::Draft(party),
        1 | 2 => Step::Check(party, place),
        3 | 4 => {
            let space = [IMAGE, IMAGE, IMAGE, IMAGE - 1, IMAGE + 9, random.below(IMAGE)][random.below(6)];
            Step::Save { party, place, space }
        }
        _ => Step::Restore { party, place, bytes: bytes(random) },
    }
}

/// Bytes to restore: mostly the image of an outline, that of an empty place, or such a one damaged.
pub fn bytes(random: &mut Random) -> Vec<u8> {
    let sound = sound(random);
    match random.below(10) {
        0..=4 => sound,
        5 => flipped(random, sound),
        6 => with_burst(random, sound),
        7 => of_any_length(random, sound),
        8 => summed_again(random, sound),
        _ => (0..IMAGE).map(|_| random.any() as u8).collect(),
    }
}

/// An image of an outline that is taken or not, or of an empty place, which may have any start.
fn sound(random: &mut Random) -> Vec<u8> {
    loop {
        let outline = match random.below(8) {
            0 => Outline { start: random.corner(), letters: Vec::new() },
            1 | 2 => any_outline(random),
            3 => {
                let Case::Test { outline, .. } = spoilt_test(random) else { unreachable!("a test is asked for") };
                outline
            }
            _ => any_taken(random),
        };
        let Outline { start, letters } = &outline;
        if letters.len() <= LONGEST && start.col.max(start.row) <= u16::from(u8::MAX) {
            return image(Some(&outline)).to_vec();
        }
    }
}

/// Up to four bits, which need not differ.
fn flipped(random: &mut Random, mut bytes: Vec<u8>) -> Vec<u8> {
    for _ in 0..random.from_to(1, 4) {
        bytes[random.below(IMAGE)] ^= 1 << random.below(8);
    }
    bytes
}

/// Any change within 32 bits that follow each other.
fn with_burst(random: &mut Random, mut bytes: Vec<u8>) -> Vec<u8> {
    let (at, burst) = (random.below(8 * IMAGE - 31), random.any() as u32);
    for bit in (0..32).filter(|bit| burst >> bit & 1 == 1).map(|bit| at + bit) {
        bytes[bit / 8] ^= 1 << (bit % 8);
    }
    bytes
}

fn of_any_length(random: &mut Random, mut bytes: Vec<u8>) -> Vec<u8> {
    let length = [0, 6, IMAGE - 4, IMAGE - 1, IMAGE + 1, 2 * IMAGE, random.below(2 * IMAGE)][random.below(7)];
    bytes.resize(length, if random.once_in(2) { 0 } else { random.any() as u8 });
    bytes
}

/// A mark, a count, a letter or a byte behind the letters that is altered, with the checksum of what stands there then.
fn summed_again(random: &mut Random, mut bytes: Vec<u8>) -> Vec<u8> {
    let record = IMAGE - 4;
    let count = usize::from(u16::from_le_bytes([bytes[4], bytes[5]]));
    match random.below(4) {
        0 => bytes[random.below(2)] ^= 1 << random.below(8),
        1 => {
            let other = [0, count.wrapping_sub(1), count + 1, LONGEST, LONGEST + 1, usize::from(u16::MAX)][random.below(6)];
            bytes[4..6].copy_from_slice(&(other as u16).to_le_bytes());
        }
        2 => bytes[6 + random.below(LONGEST)] = random.any() as u8,
        _ => bytes[record - 1 - random.below(LONGEST - count + 1).min(LONGEST - 1)] ^= 1,
    }
    let sum = checksum(&bytes[..record]).to_le_bytes();
    bytes[record..].copy_from_slice(&sum);
    bytes
}

/// Memory of any content: sound and then damaged, or any numbers.
pub fn any_memory(random: &mut Random) -> Box<HolderMemory> {
    let mut memory = if random.once_in(4) { any_numbers(random) } else { sound_memory(random) };
    for _ in 0..random.below(4) {
        damage(random, &mut memory);
    }
    memory
}

/// Some outlines at work, and perhaps drafts.
fn sound_memory(random: &mut Random) -> Box<HolderMemory> {
    let mut memory = fresh();
    for _ in 0..random.from_to(1, 5) {
        let (party, place) = (random.below(2) as u8, random.below(4) as u8);
        let outline = any_taken(random);
        Call::each(&to_work(&outline, party, place)).for_each(|call| by_arguments(&mut memory, call, &mut [0; REPLY]));
    }
    if random.once_in(2) {
        let drawn = to_work(&any_outline(random), random.below(2) as u8, 0);
        let calls = Call::each(&drawn).filter(|call| !matches!(call.action, Action::Close { .. }));
        calls.for_each(|call| by_arguments(&mut memory, call, &mut [0; REPLY]));
    }
    memory
}

fn any_numbers(random: &mut Random) -> Box<HolderMemory> {
    let mut memory = Box::new(HolderMemory::filled(0));
    memory.letters.fill_with(|| if random.once_in(50) { random.any() as u8 } else { random.letter() });
    memory.rows.fill_with(|| random.any() as u8);
    memory.numbers.fill_with(|| if random.once_in(2) { random.any() as i16 } else { random.below(7) as i16 - 3 });
    memory.heads.fill_with(|| if random.once_in(2) { random.any() as u16 } else { random.below(120) as u16 });
    for word in &mut memory.heads[WORDS] {
        *word = any_word(random);
    }
    memory
}

/// Where the words of the places stand, and the three heads of a slot.
const WORDS: std::ops::Range<usize> = 8..16;
fn slot_head(slot: usize) -> usize {
    16 + 3 * slot
}

fn any_word(random: &mut Random) -> u16 {
    match random.below(8) {
        0 => random.any() as u16,
        1 => 0,
        _ => [0x5555, 0x3333, 0x6666, 0x0F0F, 0x5A5A][random.below(5)],
    }
}

/// One part of memory is another number than it was, or was another's.
fn damage(random: &mut Random, memory: &mut HolderMemory) {
    let slot = random.below(10);
    let (rows, edges, head) = (510 * slot, 200 * slot, slot_head(slot));
    match random.below(14) {
        0 => memory.rows[rows + random.below(510)] ^= 1 << random.below(8),
        1 => memory.rows[rows + random.below(510)] = random.any() as u8,
        2 => {
            let other = 510 * random.below(10);
            memory.rows.copy_within(other..other + 510, rows);
        }
        3 => memory.rows[rows..rows + 510].rotate_left([1, 255, 509][random.below(3)]),
        4 => memory.numbers[edges + random.below(200)] ^= 1 << random.below(16),
        5 => memory.numbers[edges + random.below(8)] = random.any() as i16,
        6 => {
            let other = 200 * random.below(10);
            memory.numbers.copy_within(other..other + 200, edges);
        }
        7 => memory.heads[head + random.below(3)] ^= 1 << random.below(16),
        8 => memory.heads[head + random.below(2)] = [0, 254, 255, 256, random.any() as u16][random.below(5)],
        9 => memory.heads[head + 2] = [0, 1, 2, 99, 100, 101, 255, u16::MAX][random.below(8)],
        10 => memory.heads[random.from_to(WORDS.start, WORDS.end - 1)] = any_word(random),
        11 => memory.heads[random.from_to(WORDS.start, WORDS.end - 1)] ^= 1 << random.below(16),
        12 => memory.heads[random.below(8)] = [0, 1, 611, 612, 613, u16::MAX, random.any() as u16][random.below(7)],
        _ => memory.letters[random.below(2 * LONGEST)] = random.any() as u8,
    }
}

/// Any step, of any party and place.
pub fn any_step(random: &mut Random) -> Step {
    if random.once_in(2) {
        return image_step(random);
    }
    let party = if random.once_in(30) { random.any() as u8 } else { random.below(2) as u8 };
    let place = if random.once_in(30) { random.any() as u8 } else { random.below(4) as u8 };
    let mut cell = || if random.once_in(10) { random.odd_point() } else { random.cell() };
    let (cell, start): (Point, Point) = (cell(), cell());
    let action = match random.below(9) {
        0 => Action::Begin(start.into()),
        1 => Action::Add(if random.once_in(8) { random.any() as u8 } else { random.letter() }),
        2 => Action::Drop,
        3 => Action::Clear { place },
        4 => Action::Close { place },
        5 => Action::Query { place, cell: cell.into() },
        6 => Action::Row { place, row: cell.row },
        7 => {
            let reading = Reading::new(f32::from(cell.col) + random.below(3) as f32 / 4.0, cell.row.into());
            Action::Reading { place, reading }
        }
        _ => Action::Piece { place, position: position(random, 100) },
    };
    Step::Call(action.by(party))
}

/// A step on memory with any content: the library's reply, its buffer and every number that it leaves are the contract's.
pub fn on_any(memory: &mut HolderMemory, step: &Step) -> Told {
    let mut arrays = Box::new(memory.clone());
    let expected = step.on_arrays(&mut arrays);
    assert_eq!(step.on(memory), expected, "{step:?} on {arrays:?}");
    assert!(*memory == *arrays, "memory differs after {step:?}");
    expected
}

/// A call on a pile that the contract defines for every content.
#[derive(Clone, Debug)]
pub enum PileStep {
    Set(u8, Outline),
    Empty(u8),
    Query(u8, Point),
    Save(u8, usize),
    Restore(u8, Vec<u8>),
}

/// Layers set and then damaged, or any numbers. As often as not the state says that it has passed.
pub fn any_pile(random: &mut Random) -> Box<PileMemory> {
    let mut pile = Box::new(PileMemory::filled(0));
    if random.once_in(4) {
        pile.rows.fill_with(|| random.any() as u8);
    } else {
        for layer in 0..LAYERS {
            let Outline { start, letters } = any_taken(random);
            pile.set(layer, start.col, start.row, &letters, &mut [0; REPLY]);
        }
    }
    for _ in 0..random.below(8) {
        let layer = 510 * random.below(LAYERS.into());
        match random.below(4) {
            0 => pile.rows[layer + random.below(510)] ^= 1 << random.below(8),
            1 => pile.rows[layer..layer + 510].rotate_left([1, 255, 509][random.below(3)]),
            2 => pile.rows[layer..layer + 510].fill(random.below(3) as u8),
            _ => pile.rows[layer + random.below(510)] = random.any() as u8,
        }
    }
    pile.state = [0, 1].map(|_| if random.once_in(2) { 0x5AA5 } else { random.any() as u16 });
    pile
}

pub fn any_pile_step(random: &mut Random) -> PileStep {
    let layer = if random.once_in(20) { random.any() as u8 } else { random.below(LAYERS.into()) as u8 };
    match random.below(8) {
        0 => PileStep::Set(layer, any_outline(random)),
        1 => PileStep::Empty(layer),
        2 | 3 => PileStep::Query(layer, if random.once_in(10) { random.odd_point() } else { random.cell() }),
        4 | 5 => PileStep::Save(layer, [IMAGE, IMAGE, IMAGE - 1, IMAGE + 9][random.below(4)]),
        _ => PileStep::Restore(layer, bytes(random)),
    }
}

/// The same of a pile.
pub fn on_any_pile(pile: &mut PileMemory, step: &PileStep) -> Told {
    let mut reply: Reply = [u16::MAX; REPLY];
    let mut arrays = Box::new(pile.clone());
    let (mut buffer, mut expected_buffer) = (Vec::new(), Vec::new());
    let expected = match step {
        PileStep::Set(layer, outline) => {
            pile.set(*layer, outline.start.col, outline.start.row, &outline.letters, &mut reply);
            memory::pile_set(&mut arrays, *layer, outline)
        }
        PileStep::Empty(layer) => {
            pile.empty(*layer, &mut reply);
            memory::pile_empty(&mut arrays, *layer)
        }
        PileStep::Query(layer, cell) => {
            pile.query(*layer, cell.col, cell.row, &mut reply);
            memory::pile_query(&arrays, *layer, *cell)
        }
        PileStep::Save(layer, space) => {
            (buffer, expected_buffer) = (vec![BLANK; *space], vec![BLANK; *space]);
            pile.save(*layer, &mut buffer, &mut reply);
            memory::pile_save(&arrays, *layer, &mut expected_buffer)
        }
        PileStep::Restore(layer, bytes) => {
            pile.restore(*layer, bytes, &mut reply);
            memory::pile_restore(&mut arrays, *layer, bytes)
        }
    };
    assert_eq!((Fields::from(reply), &buffer), (expected, &expected_buffer), "{step:?} on {arrays:?}");
    assert!(*pile == *arrays, "memory differs after {step:?}");
    Told { reply: expected, buffer }
}
