//! Frames: the library against the reference, with bodies of every length, damaged frames and any bytes.

use robequarry::limits::{FRAME, FRAME_BODY, REPLY};
use robequarry::raw;
use robequarry_checks::random::Random;
use robequarry_checks::reference::frames::{frame, frame_of, unframe};
use robequarry_checks::Fields;

fn bytes(random: &mut Random, n: usize) -> Vec<u8> {
    (0..n).map(|_| random.below(256) as u8).collect()
}

/// The frame of a body with a buffer of so many bytes, as the reference has it.
fn framed(body: &[u8], space: usize) -> Fields {
    let (mut own, mut other, mut reply) = (vec![0xA5; space], vec![0xA5; space], [9; REPLY]);
    raw::frame(body, &mut own, &mut reply);
    let expected = frame(body, &mut other);
    assert_eq!((Fields::from(reply), own), (expected, other), "{} bytes, space {space}", body.len());
    expected
}

/// The same of the body of a frame.
fn unframed(list: &[u8], space: usize) -> Fields {
    let (mut own, mut other, mut reply) = (vec![0xA5; space], vec![0xA5; space], [9; REPLY]);
    raw::unframe(list, &mut own, &mut reply);
    let expected = unframe(list, &mut other);
    assert_eq!((Fields::from(reply), own), (expected, other), "{list:?}, space {space}");
    expected
}

#[test]
fn every_length() {
    let random = &mut Random::new(1);
    for n in 0..FRAME_BODY + 3 {
        let body = bytes(random, n);
        for space in [n + FRAME - 1, n + FRAME, n + FRAME + 3] {
            let number = framed(&body, space).number;
            assert_eq!(
                number,
                if n > FRAME_BODY {
                    28
                } else if space < n + FRAME {
                    18
                } else {
                    0
                }
            );
        }
        let list = frame_of(&body);
        for space in [n.saturating_sub(1), n, n + 2] {
            let number = unframed(&list, space).number;
            assert_eq!(
                number,
                if n > FRAME_BODY {
                    28
                } else if space < n {
                    18
                } else {
                    0
                }
            );
        }
    }
}

/// Every kind of damage that is always noticed, and bytes that are cut or have more behind them.
#[test]
fn damaged() {
    let random = &mut Random::new(2);
    for _ in 0..4_000 {
        let n = [0, 1, 11, 100, FRAME_BODY][random.below(5)];
        let body = bytes(random, n);
        let whole = frame_of(&body);
        let mut list = whole.clone();
        let size = 8 * list.len();
        match random.below(4) {
            0 => (0..1 + random.below(3)).for_each(|_| flip(&mut list, random.below(size))),
            1 => (0..2 * random.below(20) + 1).for_each(|_| flip(&mut list, random.below(size))),
            2 => {
                let first = random.below(size - 31);
                (0..32).filter(|_| random.once_in(2)).collect::<Vec<_>>().iter().for_each(|i| flip(&mut list, first + i));
            }
            _ if random.once_in(2) => list.truncate(random.below(list.len())),
            _ => list.extend((0..=random.below(9)).map(|i| i as u8)),
        }
        let expected = if list == whole { 0 } else { 28 };
        assert_eq!(unframed(&list, FRAME_BODY).number, expected);
    }
}

fn flip(list: &mut [u8], bit: usize) {
    list[bit / 8] ^= 1 << (bit % 8);
}

/// Bytes with any mark, any count and any checksum, some of them right.
#[test]
fn any_bytes() {
    let random = &mut Random::new(3);
    let mut taken = 0;
    for _ in 0..20_000 {
        let n = random.below(24);
        let mut list = bytes(random, n);
        let some = random.below(16);
        if some & 1 == 0 && n >= 2 {
            list[..2].copy_from_slice(b"RQ");
        }
        if some & 2 == 0 && n >= 8 {
            list[2..4].copy_from_slice(&((n - FRAME) as u16).to_le_bytes());
        }
        if some & 4 == 0 && n >= 4 {
            let sum = raw::checksum(&list[..n - 4]);
            list[n - 4..].copy_from_slice(&sum.to_le_bytes());
        }
        taken += u32::from(unframed(&list, random.below(24)).number != 28);
    }
    assert!(taken > 500, "{taken}");
}
