//! A program without std: it has its own allocator and its own panic handler, which no program with std may have. It puts an outline to
//! work and asks about it, and its status is 0 where every answer is right.
#![no_std]
#![no_main]

extern crate alloc;

use alloc::string::ToString;
use core::alloc::{GlobalAlloc, Layout};
use core::cell::UnsafeCell;
use core::panic::PanicInfo;
use core::ptr;
use core::sync::atomic::{AtomicUsize, Ordering};

use robequarry::{Cell, Holder, Located, Outline, Refusal};

/// Memory that is given out from its front and never taken back.
struct Memory {
    bytes: UnsafeCell<[u64; 8192]>,
    used: AtomicUsize,
}

// SAFETY: every byte is given out once at most.
unsafe impl Sync for Memory {}

// SAFETY: what is given out lies within the array, is aligned, and overlaps nothing that was given out before.
unsafe impl GlobalAlloc for Memory {
    unsafe fn alloc(&self, layout: Layout) -> *mut u8 {
        let size = layout.size().next_multiple_of(8);
        let at = self.used.fetch_add(size, Ordering::Relaxed);
        if layout.align() > 8 || at + size > size_of_val(&self.bytes) {
            return ptr::null_mut();
        }
        // SAFETY: the test above has seen that the end of it is within the array.
        unsafe { self.bytes.get().cast::<u8>().add(at) }
    }

    unsafe fn dealloc(&self, _: *mut u8, _: Layout) {}
}

#[global_allocator]
static MEMORY: Memory = Memory { bytes: UnsafeCell::new([0; 8192]), used: AtomicUsize::new(0) };

#[link(name = "c")]
unsafe extern "C" {
    safe fn exit(status: i32) -> !;
}

#[panic_handler]
fn panicked(_: &PanicInfo<'_>) -> ! {
    exit(101)
}

fn answers() -> Result<bool, Refusal> {
    let Ok(plus) = "0 1 101030323212".parse::<Outline>() else { return Ok(false) };
    let (mut holder, knee, place) = (Holder::new(), 0, 3);
    holder.begin(knee, plus.start)?;
    for &letter in &plus.letters {
        holder.add(knee, letter)?;
    }
    holder.close(knee, place)?;
    let image = holder.save(knee, place)?;
    let asked = holder.query(knee, place, Cell::new(1, 1))? && !holder.query(knee, place, Cell::new(0, 0))?;
    let located = holder.reading(knee, place, 1.25, 0.75)? == Located::Inside;
    let told = Refusal::NoDraft.to_string() == "the party has no draft";
    Ok(asked && located && told && image.outline() == Some(&plus))
}

#[unsafe(no_mangle)]
pub extern "C" fn main() -> i32 {
    match answers() {
        Ok(true) => 0,
        Ok(false) => 1,
        Err(refusal) => refusal.number().into(),
    }
}
