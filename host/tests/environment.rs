//! The floating-point environment is as a reading needs it: rounding to nearest, and subnormal numbers that are not taken for 0.

use std::hint::black_box;

use robequarry::{Corner, Holder, Located};

/// The least float above 0: 2^-149.
fn least() -> f32 {
    f32::from_bits(1)
}

/// The control register: rounding control is 0, and neither "flush to zero" nor "denormals are zero" is set.
#[cfg(target_arch = "x86_64")]
#[test]
fn the_control_register() {
    const ROUNDING: u32 = 3 << 13;
    const FLUSH_TO_ZERO: u32 = 1 << 15;
    const DENORMALS_ARE_ZERO: u32 = 1 << 6;
    let mut mxcsr = 0u32;
    // SAFETY: it writes the register to four bytes that are there for it.
    unsafe { std::arch::asm!("stmxcsr [{}]", in(reg) &mut mxcsr, options(nostack, preserves_flags)) };
    assert_eq!(mxcsr & (ROUNDING | FLUSH_TO_ZERO | DENORMALS_ARE_ZERO), 0, "{mxcsr:#x}");
}

/// The same by what is computed.
#[test]
fn numbers() {
    assert!(black_box(least()) > black_box(0.0));
    assert_eq!((black_box(f32::MIN_POSITIVE) / black_box(2.0)).to_bits(), 1 << 22);
    assert_eq!(black_box(least()) + black_box(least()), f32::from_bits(2));
    // A half of the last digit of 1, and a little more, and of 1 and its last digit: to nearest, ties to even.
    let (one, half) = (black_box(1.0f32), black_box(f32::EPSILON / 2.0));
    assert_eq!(one + half, 1.0);
    assert_eq!(one + half * 1.5, 1.0 + f32::EPSILON);
    assert_eq!((1.0 + f32::EPSILON) + half, 1.0 + 2.0 * f32::EPSILON);
    assert_eq!(-one - half, -1.0);
    assert_eq!(black_box(1.0f32) / black_box(3.0), f32::from_bits(0x3eaa_aaab));
}

/// Of one cell alone the centre is inside, and nothing else, however near it is.
#[test]
fn the_least_reading() {
    let mut holder = Holder::new();
    holder.begin(0, Corner::new(0, 0)).unwrap();
    for letter in [1, 0, 3, 2] {
        holder.add(0, letter).unwrap();
    }
    holder.close(0, 0).unwrap();
    assert_eq!(holder.reading(0, 0, 0.0, -0.0), Ok(Located::Inside));
    for (angle, load) in [(least(), 0.0), (0.0, least()), (least(), least()), (f32::MIN_POSITIVE, 0.0)] {
        assert_ne!(holder.reading(0, 0, angle, load), Ok(Located::Inside), "{angle:e} {load:e}");
    }
}
