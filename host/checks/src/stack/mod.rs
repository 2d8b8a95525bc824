//! How many bytes of stack each of the library's functions needs, by painting: a call runs on a stack of its own that was filled
//! with a pattern, and the deepest byte that is no longer the pattern's was the deepest in use.

mod inputs;

use std::arch::asm;
use std::collections::{BTreeMap, HashSet};

use robequarry::limits::{CALL, FRAME, FRAME_BODY, REPLY};
use robequarry::raw::{self, HolderMemory, PileMemory, Reply};
use robequarry::{Action, Call, PileCall, Reading};

use crate::case::Case;
use crate::images::{PileStep, Step};
use crate::live::{self, after};
use crate::{Fields, Outline};

/// Bytes of a painted stack, many times what a call should need.
const SIZE: usize = 1 << 18;

/// What a byte of the stack is before a call. A call that writes the one pattern by chance does not write the other.
const PAINTS: [u8; 2] = [0xa5, 0x5a];

/// The functions of include/robequarry.h, in its order. A close as bytes needs what a close needs, and every other call little.
const FUNCTIONS: [&str; 36] = [
    "rq_test",
    "rq_loose_query",
    "rq_loose_reading",
    "rq_border",
    "rq_compare",
    "rq_witness",
    "rq_complete",
    "rq_fresh",
    "rq_begin",
    "rq_add",
    "rq_draft",
    "rq_drop",
    "rq_clear",
    "rq_close",
    "rq_query",
    "rq_row",
    "rq_reading",
    "rq_piece",
    "rq_check",
    "rq_save",
    "rq_restore",
    "rq_call",
    "rq_call, a close",
    "rq_replay",
    "rq_pile_fresh",
    "rq_pile_set",
    "rq_pile_empty",
    "rq_pile_check",
    "rq_pile_check_step",
    "rq_pile_query",
    "rq_pile_save",
    "rq_pile_restore",
    "rq_checksum",
    "rq_frame",
    "rq_unframe",
    "rq_version",
];

/// The most bytes of stack that each function needs for any of its inputs: the longest outlines, and every way through the test.
pub fn needs() -> [(&'static str, usize); FUNCTIONS.len()] {
    let mut stack = Stack { bytes: vec![0; SIZE], needs: BTreeMap::new() };
    for case in inputs::all() {
        stack.measure(&case);
    }
    for calls in inputs::piles() {
        stack.measure_pile(&calls);
    }
    for (memory, steps) in inputs::images() {
        stack.measure_images(memory, &steps);
    }
    for (pile, steps) in inputs::pile_images() {
        stack.measure_pile_images(pile, &steps);
    }
    stack.measure_frames();
    FUNCTIONS.map(|function| (function, stack.needs[function]))
}

struct Stack {
    bytes: Vec<u8>,
    /// The most bytes so far, by the function.
    needs: BTreeMap<&'static str, usize>,
}

impl Stack {
    /// Measures the function of an input. Its lists are on the heap.
    fn measure(&mut self, case: &Case) {
        let mut reply = [0; REPLY];
        match case {
            Case::Test { outline, space } => {
                let mut edges = vec![0; *space];
                let (start, letters) = (outline.start, &outline.letters[..]);
                self.note("rq_test", &mut || raw::test(start.col, start.row, letters, &mut edges, &mut reply));
            }
            Case::Loose { anchor, edges, cell } => {
                self.note("rq_loose_query", &mut || {
                    raw::loose_query(anchor.col, anchor.row, edges, cell.col, cell.row, &mut reply);
                });
                self.note("rq_loose_reading", &mut || {
                    let (angle, load) = (cell.col.into(), cell.row.into());
                    raw::loose_reading(anchor.col, anchor.row, edges, angle, load, &mut reply);
                });
            }
            Case::Border { anchor, edges, space } => {
                let mut letters = vec![0; *space];
                self.note("rq_border", &mut || raw::border(anchor.col, anchor.row, edges, &mut letters, &mut reply));
            }
            Case::Compare { first, second } => {
                let (a, b) = (first.anchor, second.anchor);
                self.note("rq_compare", &mut || {
                    raw::compare((a.col, a.row), &first.edges, (b.col, b.row), &second.edges, &mut reply);
                });
            }
            Case::Witness { outline, space } => {
                let mut cells = vec![0; *space];
                let (start, letters) = (outline.start, &outline.letters[..]);
                self.note("rq_witness", &mut || raw::witness(start.col, start.row, letters, &mut cells, &mut reply));
            }
            Case::Complete { outline, space } => {
                let mut out = vec![0; *space];
                let (start, letters) = (outline.start, &outline.letters[..]);
                self.note("rq_complete", &mut || raw::complete(start.col, start.row, letters, &mut out, &mut reply));
            }
            Case::Script { bytes, space } => {
                let mut replies = vec![0; *space];
                self.note("rq_replay", &mut || {
                    raw::replay(bytes, &mut replies);
                });
                self.measure_calls(bytes);
            }
            Case::Piece { script, asked } => {
                let (holder, mut point) = (after(script), [0.0; 2]);
                self.note("rq_piece", &mut || {
                    holder.piece(asked.party, asked.place, asked.position, &mut point, &mut reply);
                });
            }
        }
    }

    /// Measures the calls of a script on a live holder, as bytes and by their arguments: one of each call and reply.
    fn measure_calls(&mut self, script: &[u8]) {
        let mut holder = Box::new(HolderMemory::filled(live::FILLER));
        self.note("rq_fresh", &mut || holder.fresh());
        let mut seen = HashSet::new();
        for bytes in script.chunks_exact(CALL) {
            let mut next = holder.clone();
            let mut reply = [0; REPLY];
            next.call(bytes, &mut reply);
            let Fields { number, word, .. } = reply.into();
            if let (true, Some(call)) = (seen.insert((bytes[0], number, word)), bytes.try_into().ok().and_then(Call::read)) {
                let name = if matches!(call.action, Action::Close { .. }) { "rq_call, a close" } else { "rq_call" };
                self.on_copies(name, &holder, |holder| {
                    holder.call(bytes, &mut reply);
                });
                self.measure_call(&holder, call, &mut reply);
            }
            holder = next;
        }
    }

    /// Measures a call by its arguments, and the question about its party's draft.
    fn measure_call(&mut self, on: &HolderMemory, Call { party, action }: Call, reply: &mut Reply) {
        self.note("rq_draft", &mut || on.draft(party, reply));
        match action {
            Action::Begin(start) => self.on_copies("rq_begin", on, |h| h.begin(party, start.col, start.row, reply)),
            Action::Add(letter) => self.on_copies("rq_add", on, |h| h.add(party, letter, reply)),
            Action::Drop => self.on_copies("rq_drop", on, |h| h.drop_draft(party, reply)),
            Action::Clear { place } => self.on_copies("rq_clear", on, |h| h.clear(party, place, reply)),
            Action::Close { place } => self.on_copies("rq_close", on, |h| h.close(party, place, reply)),
            Action::Query { place, cell } => {
                self.note("rq_query", &mut || on.query(party, place, cell.col, cell.row, reply));
            }
            Action::Row { place, row } => self.note("rq_row", &mut || on.row(party, place, row, reply)),
            Action::Reading { place, reading: Reading { angle, load } } => {
                self.note("rq_reading", &mut || on.reading(party, place, angle, load, reply));
            }
            Action::Piece { place, position } => {
                let mut point = [0.0; 2];
                self.note("rq_piece", &mut || on.piece(party, place, position, &mut point, reply));
            }
        }
    }

    /// Measures checks, saves and restores in a list of steps on memory of any content: one of each call and reply. The other calls are made.
    fn measure_images(&mut self, mut memory: Box<HolderMemory>, steps: &[Step]) {
        let mut seen = HashSet::new();
        for step in steps {
            let before = memory.clone();
            let Fields { number, word, .. } = step.on(&mut memory).reply;
            if !seen.insert((std::mem::discriminant(step), number, word)) {
                continue;
            }
            let mut reply = [0; REPLY];
            match step {
                Step::Call(_) | Step::Draft(_) => {}
                Step::Check(party, place) => {
                    self.note("rq_check", &mut || before.check(*party, *place, &mut reply));
                }
                Step::Save { party, place, space } => {
                    let mut image = vec![0; *space];
                    self.note("rq_save", &mut || before.save(*party, *place, &mut image, &mut reply));
                }
                Step::Restore { party, place, bytes } => {
                    self.on_copies("rq_restore", &before, |holder| holder.restore(*party, *place, bytes, &mut reply));
                    self.note("rq_checksum", &mut || {
                        raw::checksum(bytes);
                    });
                }
            }
        }
    }

    /// Frames of no bytes and of the most, and the version.
    fn measure_frames(&mut self) {
        let mut reply = [0; REPLY];
        for n in [0, FRAME_BODY] {
            let (body, mut frame, mut back) = (vec![7; n], vec![0; n + FRAME], vec![0; n]);
            self.note("rq_frame", &mut || raw::frame(&body, &mut frame, &mut reply));
            self.note("rq_unframe", &mut || raw::unframe(&frame, &mut back, &mut reply));
        }
        self.note("rq_version", &mut || {
            raw::version();
        });
    }

    /// The same of a pile's layers.
    fn measure_pile_images(&mut self, mut pile: Box<PileMemory>, steps: &[PileStep]) {
        let mut reply = [0; REPLY];
        for step in steps {
            match step {
                PileStep::Set(layer, Outline { start, letters }) => {
                    pile.set(*layer, start.col, start.row, letters, &mut reply);
                }
                PileStep::Empty(layer) => pile.empty(*layer, &mut reply),
                PileStep::Query(..) => {}
                PileStep::Save(layer, space) => {
                    let mut image = vec![0; *space];
                    self.note("rq_pile_save", &mut || pile.save(*layer, &mut image, &mut reply));
                }
                PileStep::Restore(layer, bytes) => {
                    self.note("rq_pile_restore", &mut || pile.restore(*layer, bytes, &mut reply));
                }
            }
        }
    }

    /// Measures a list of calls on a pile.
    fn measure_pile(&mut self, calls: &[PileCall]) {
        let mut pile = Box::new(PileMemory::filled(live::FILLER));
        self.note("rq_pile_fresh", &mut || pile.fresh());
        let mut reply = [0; REPLY];
        for call in calls {
            match call {
                PileCall::Set(layer, outline) => {
                    let (start, letters) = (outline.start, &outline.letters[..]);
                    self.note("rq_pile_set", &mut || pile.set(*layer, start.col, start.row, letters, &mut reply));
                }
                PileCall::SetEmpty(layer) => self.note("rq_pile_empty", &mut || pile.empty(*layer, &mut reply)),
                PileCall::Check => {
                    self.note("rq_pile_check_step", &mut || pile.check_step(300, &mut reply));
                    self.note("rq_pile_check", &mut || pile.check(&mut reply));
                }
                PileCall::Query(layer, cell) => {
                    self.note("rq_pile_query", &mut || pile.query(*layer, cell.col, cell.row, &mut reply));
                }
                PileCall::Restore(layer, image) => pile.restore(*layer, image, &mut reply),
            }
        }
    }

    /// Measures a call that alters a holder: each paint has a copy of its own, made beforehand.
    fn on_copies(&mut self, function: &'static str, holder: &HolderMemory, mut call: impl FnMut(&mut HolderMemory)) {
        let mut copies = PAINTS.map(|_| Box::new(holder.clone()));
        let mut each = copies.iter_mut();
        self.note(function, &mut || call(each.next().expect("each paint has one")));
    }

    /// Keeps what a function needs, if no call before needed as much.
    fn note<F: FnMut()>(&mut self, function: &'static str, call: &mut F) {
        let depth = self.depth(call);
        let most = self.needs.entry(function).or_default();
        *most = depth.max(*most);
    }

    /// How far below its caller's frame a call goes, the way back included. Arguments on the stack are in that frame.
    fn depth<F: FnMut()>(&mut self, call: &mut F) -> usize {
        PAINTS.map(|paint| self.depth_in(paint, call)).into_iter().max().expect("there are paints")
    }

    fn depth_in<F: FnMut()>(&mut self, paint: u8, call: &mut F) -> usize {
        self.bytes.fill(paint);
        let bottom = self.bytes.as_mut_ptr();
        // A stack pointer is a multiple of 16 where a function is called.
        let top = bottom.wrapping_add(SIZE - (bottom as usize + SIZE) % 16);
        let mut run = Run { call, pointer: 0 };
        // SAFETY: between `bottom` and `top` there is nothing but this stack, which nobody else uses meanwhile. `r12` keeps the
        // thread's own stack pointer, as it is one of the registers that a function gives back as they were.
        unsafe {
            asm!(
                "xchg rsp, r12",
                "call {enter}",
                "mov rsp, r12",
                enter = in(reg) enter::<F> as extern "C" fn(&mut Run<'_, F>),
                inout("r12") top => _,
                in("rdi") &mut run,
                clobber_abi("C"),
            );
        }
        run.pointer - (bottom as usize + self.untouched(paint))
    }

    /// How many bytes from the bottom on are as they were painted.
    fn untouched(&self, paint: u8) -> usize {
        const PAGE: usize = 4096;
        let blank = [paint; PAGE];
        let pages = self.bytes.chunks(PAGE).take_while(|&page| page == blank).count() * PAGE;
        pages + self.bytes[pages..].iter().take_while(|&&byte| byte == paint).count()
    }
}

/// A call, and the stack pointer from which it is made.
struct Run<'a, F> {
    call: &'a mut F,
    pointer: usize,
}

/// The first function on a painted stack. What its own frame needs is not counted. A panic in here would end the process.
extern "C" fn enter<F: FnMut()>(run: &mut Run<'_, F>) {
    // SAFETY: it reads a register.
    unsafe { asm!("mov {}, rsp", out(reg) run.pointer, options(nomem, nostack, preserves_flags)) };
    (run.call)();
    // SAFETY: it does nothing. The call before it is then not the last thing done, so that it comes back here.
    unsafe { asm!("", options(nostack, preserves_flags)) };
}

#[cfg(test)]
mod tests {
    use super::*;
    use std::hint::black_box;

    #[inline(never)]
    fn use_bytes<const N: usize>() {
        black_box([1u8; N]);
    }

    #[test]
    fn a_frame_is_measured() {
        let mut stack = Stack { bytes: vec![0; SIZE], needs: BTreeMap::new() };
        let (small, large) = (stack.depth(&mut use_bytes::<1000>), stack.depth(&mut use_bytes::<9000>));
        assert!((1000..2000).contains(&small) && (9000..10_000).contains(&large), "{small} {large}");
        assert_eq!(stack.depth(&mut use_bytes::<1000>), small);
        assert!(stack.depth(&mut || ()) < 16);
    }
}
