//! Live holders of the library: calls made one by one, as bytes or by their arguments.

use robequarry::limits::{CALL, REPLY};
use robequarry::raw::{HolderMemory, Reply};
use robequarry::{Action, Call, Reading};

use crate::case::Case;
use crate::random::Random;
use crate::scripts::to_work;
use crate::{Fields, Outline};

/// What memory holds before it is made fresh, so that nothing of it may be left.
pub const FILLER: u8 = 0x5a;

/// A fresh holder in memory that held something else.
pub fn fresh() -> Box<HolderMemory> {
    let mut holder = Box::new(HolderMemory::filled(FILLER));
    holder.fresh();
    holder
}

/// The holder that a script leaves, up to what is no call.
pub fn after(script: &[u8]) -> Box<HolderMemory> {
    let mut holder = fresh();
    script.chunks(CALL).all(|call| holder.call(call, &mut [0; REPLY]));
    holder
}

/// Makes a call by its arguments.
pub fn by_arguments(holder: &mut HolderMemory, Call { party, action }: Call, reply: &mut Reply) {
    match action {
        Action::Begin(start) => holder.begin(party, start.col, start.row, reply),
        Action::Add(letter) => holder.add(party, letter, reply),
        Action::Drop => holder.drop_draft(party, reply),
        Action::Clear { place } => holder.clear(party, place, reply),
        Action::Close { place } => holder.close(party, place, reply),
        Action::Query { place, cell } => holder.query(party, place, cell.col, cell.row, reply),
        Action::Row { place, row } => holder.row(party, place, row, reply),
        Action::Reading { place, reading: Reading { angle, load } } => {
            holder.reading(party, place, angle, load, reply);
        }
        Action::Piece { place, position } => holder.piece(party, place, position, &mut [0.0; 2], reply),
    }
}

/// Runs a script on one holder, each call as bytes or by its arguments, as chance has it, and writes the replies. A second holder gets
/// the same calls as bytes alone, and after each call the memory of both is the same. Returns how many replies were written.
pub fn replay_mixed(script: &[u8], replies: &mut [u16]) -> usize {
    let space = replies.len();
    // The same script is mixed alike each time.
    let mut random = Random::new(script.iter().fold(0, |sum, &byte| sum * 31 % 1_000_003 + u64::from(byte)));
    let (mut mixed, mut by_bytes) = (fresh(), fresh());
    let mut written = 0;
    for (bytes, reply) in script.chunks(CALL).zip(replies.chunks_exact_mut(REPLY)) {
        let reply: &mut Reply = reply.try_into().expect("a chunk is as long");
        let before = *reply;
        let Some(call) = bytes.try_into().ok().and_then(Call::read) else {
            // No call: nothing is altered.
            let unaltered = mixed.clone();
            let refused = !mixed.call(bytes, reply) && *reply == before && mixed == unaltered;
            assert!(refused, "after {written} calls: {}", again(script, space));
            break;
        };
        if random.once_in(2) {
            assert!(mixed.call(bytes, reply), "a call is made: {}", again(script, space));
        } else {
            by_arguments(&mut mixed, call, reply);
        }
        by_bytes.call(bytes, &mut [0; REPLY]);
        written += 1;
        assert!(mixed == by_bytes, "memory differs after {written} calls, the last {call:?}: {}", again(script, space));
    }
    written
}

/// How a script is run again.
fn again(script: &[u8], space: usize) -> String {
    format!("cargo run --release --bin differential -- replay {}", Case::Script { bytes: script.to_vec(), space })
}

/// A holder with an outline at work.
pub struct AtWork {
    pub holder: Box<HolderMemory>,
    pub party: u8,
    pub place: u8,
}

impl AtWork {
    /// The holder after the calls that draw an outline and close it.
    pub fn new(outline: &Outline, party: u8, place: u8) -> Self {
        AtWork { holder: after(&to_work(outline, party, place)), party, place }
    }

    /// What is replied to a call as bytes, and by its arguments.
    pub fn call(&mut self, call: Call) -> Fields {
        let (mut reply, mut other) = ([0; REPLY], [0; REPLY]);
        let mut copy = self.holder.clone();
        assert!(self.holder.call(&call.bytes(), &mut reply), "this is a call");
        by_arguments(&mut copy, call, &mut other);
        assert_eq!((reply, &copy), (other, &self.holder), "{call:?}");
        reply.into()
    }

    /// What is said of a position of the drawing, with the point in floats.
    pub fn piece(&self, position: u16, point: &mut [f32; 2]) -> Fields {
        let mut reply = [0; REPLY];
        self.holder.piece(self.party, self.place, position, point, &mut reply);
        reply.into()
    }

    /// What is said of a reading.
    pub fn reading(&mut self, reading: Reading) -> Fields {
        self.call(Action::Reading { place: self.place, reading }.by(self.party))
    }
}
