//! Lists of calls on a pile, from a seed: layers that are like each other, so that about half of the checks pass. And such a list on
//! piles of the library.

use robequarry::codec::MORE;
use robequarry::limits::{IMAGE, LAST_CELL, LAST_CORNER, LAYERS, REPLY};
use robequarry::raw::{PileMemory, Reply};
use robequarry::{Cell, Corner, Image, Outline, Pile, PileCall};

use crate::case::Case;
use crate::draw::Shape;
use crate::live::FILLER;
use crate::random::Random;
use crate::{garbage, images, typed, Fields};

/// A rectangle of cells.
#[derive(Clone, Copy)]
struct Block {
    left: i32,
    bottom: i32,
    width: i32,
    height: i32,
}

impl Block {
    fn any(random: &mut Random) -> Self {
        let number = |random: &mut Random, low, high| random.from_to(low, high) as i32;
        Block {
            left: number(random, 0, 200),
            bottom: number(random, 0, 200),
            width: number(random, 1, 40),
            height: number(random, 1, 40),
        }
    }

    /// Every number moved on by so much, as far as the chart goes.
    fn moved(self, by: [i32; 4]) -> Self {
        let last = i32::from(LAST_CELL);
        let left = (self.left + by[0]).clamp(0, last);
        let bottom = (self.bottom + by[1]).clamp(0, last);
        Block {
            left,
            bottom,
            width: (self.width + by[2]).clamp(1, i32::from(LAST_CORNER) - left),
            height: (self.height + by[3]).clamp(1, i32::from(LAST_CORNER) - bottom),
        }
    }

    fn outline(self) -> Outline {
        let mut letters = Vec::new();
        for (letter, times) in [(1, self.height), (0, self.width), (3, self.height), (2, self.width)] {
            letters.resize(letters.len() + times as usize, letter);
        }
        Outline::new(Corner::new(self.left as u16, self.bottom as u16), letters)
    }
}

/// Layers that change evenly from one to the next, now and then one that does not, and a check after each few.
pub fn calls(random: &mut Random) -> Vec<PileCall> {
    let mut calls = Vec::new();
    if random.once_in(4) {
        calls.push(PileCall::Check);
    }
    let mut block = Block::any(random);
    let by = [0; 4].map(|_: i32| random.from_to(0, 4) as i32 - 2);
    let (first, last) = (random.below(8) as u8, random.from_to(8, usize::from(LAYERS) - 1) as u8);
    for layer in first..=last {
        block = block.moved(by);
        if random.once_in(40) {
            block = block.moved([0; 4].map(|_: i32| random.from_to(0, 2) as i32 - 1));
        }
        calls.push(PileCall::Set(layer, block.outline()));
        if random.once_in(30) {
            calls.push(PileCall::SetEmpty(layer));
        }
    }
    calls.push(PileCall::Check);
    for _ in 0..random.from_to(2, 12) {
        let call = other_call(random, block);
        calls.push(call);
        if random.once_in(3) {
            calls.push(PileCall::Check);
        }
    }
    calls
}

fn other_call(random: &mut Random, near: Block) -> PileCall {
    let end = if random.once_in(8) { 256 } else { usize::from(LAYERS) };
    let layer = random.below(end) as u8;
    match random.below(11) {
        0 => PileCall::SetEmpty(layer),
        9 => PileCall::Restore(layer, images::bytes(random)),
        10 => {
            let moved = near.moved([0; 4].map(|_: i32| random.from_to(0, 2) as i32 - 1)).outline();
            PileCall::Restore(layer, Image::of(&moved).expect("a block has few letters").bytes().to_vec())
        }
        1 => {
            let drawn = Shape::ALL[random.below(Shape::ALL.len())].draw_in(random, 24);
            PileCall::Set(layer, Outline::new(drawn.start.into(), drawn.letters))
        }
        2 => PileCall::Set(layer, near.moved([0; 4].map(|_: i32| random.from_to(0, 2) as i32 - 1)).outline()),
        3 => {
            let cell = random.odd_point();
            PileCall::Query(layer, cell.into())
        }
        4 => {
            let Case::Test { outline, .. } = garbage::spoilt_test(random) else { unreachable!("that is a test") };
            PileCall::Set(layer, Outline::new(outline.start.into(), outline.letters))
        }
        _ => {
            let col = near.left + random.from_to(0, 8) as i32 - 4;
            let row = near.bottom + random.from_to(0, 8) as i32 - 4;
            PileCall::Query(layer, Cell::new(col.max(0) as u16, row.max(0) as u16))
        }
    }
}

/// Two piles of the library that get the same calls, the one by the typed calls or by [`Pile::call`], as chance has it, the other in
/// memory that held something else before it was made fresh, where half of the checks are made in steps. After each call the memory of
/// both is the same.
pub struct Mixed {
    random: Random,
    pile: Pile,
    memory: Box<PileMemory>,
}

impl Mixed {
    pub fn new(seed: u64) -> Self {
        let mut memory = Box::new(PileMemory::filled(FILLER));
        memory.fresh();
        Mixed { random: Random::new(seed), pile: Pile::new(), memory }
    }

    pub fn call(&mut self, call: &PileCall) -> Fields {
        let reply = if self.random.once_in(2) { self.pile.call(call) } else { typed::pile_call(&mut self.pile, call) };
        let mut other: Reply = [u16::MAX; REPLY];
        match call {
            PileCall::Set(layer, Outline { start, letters }) => {
                self.memory.set(*layer, start.col, start.row, letters, &mut other);
            }
            PileCall::SetEmpty(layer) => self.memory.empty(*layer, &mut other),
            PileCall::Check if self.random.once_in(2) => self.check_in_steps(&mut other),
            PileCall::Check => self.memory.check(&mut other),
            PileCall::Query(layer, cell) => self.memory.query(*layer, cell.col, cell.row, &mut other),
            PileCall::Restore(layer, image) => self.memory.restore(*layer, image, &mut other),
        }
        assert_eq!(reply, other.into(), "{call:?}");
        assert!(*self.pile.memory() == *self.memory, "memory differs after {call:?}");
        reply
    }

    /// The image of a layer of both, which is the same.
    pub fn save(&self, layer: u8, image: &mut [u8; IMAGE]) -> Fields {
        let (mut reply, mut other): (Reply, Reply) = ([u16::MAX; REPLY], [0; REPLY]);
        self.memory.save(layer, image, &mut reply);
        let mut again = *image;
        self.pile.memory().save(layer, &mut again, &mut other);
        assert_eq!((reply, *image), (other, again), "layer {layer}");
        reply.into()
    }

    /// Steps of any size, until the check has ended.
    fn check_in_steps(&mut self, reply: &mut Reply) {
        loop {
            let sections = self.random.below(300) as u16;
            self.memory.check_step(sections, reply);
            let [_, word, ..] = *reply;
            if word != MORE {
                return;
            }
        }
    }
}
