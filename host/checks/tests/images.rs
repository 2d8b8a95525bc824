//! Checks, saves and restores, on sound memory and on memory of any content, against the contract as written.

use std::collections::BTreeMap;

use robequarry::limits::IMAGE;
use robequarry::raw::checksum;
use robequarry::{image, Image, Outline, Pile, Refusal};
use robequarry_checks::images::{any_memory, any_pile, any_pile_step, any_step, moves, on_any, on_any_pile, Alike, Move};
use robequarry_checks::random::Random;
use robequarry_checks::reference::images as reference;
use robequarry_checks::{images, plain, specimens};

/// How often each number was replied.
type Numbers = BTreeMap<u16, u32>;

fn reached(numbers: &Numbers, expected: &[u16]) {
    let missed: Vec<&u16> = expected.iter().filter(|number| !numbers.contains_key(number)).collect();
    assert!(missed.is_empty(), "never replied: {missed:?} {numbers:?}");
}

#[test]
fn lists_of_calls_with_restores_are_answered_as_the_book_does() {
    let mut random = Random::new(21);
    let mut numbers = Numbers::new();
    for _ in 0..60 {
        let mut alike = Alike::default();
        for next in moves(&mut random) {
            let told = match next {
                Move::Step(step) => vec![alike.step(&step)],
                Move::Copy(from, to) => alike.copy(from, to).to_vec(),
            };
            told.iter().for_each(|told| *numbers.entry(told.reply.number).or_default() += 1);
        }
    }
    reached(&numbers, &[0, 1, 9, 12, 13, 18, 19, 20, 26]);
    assert!(!numbers.contains_key(&27), "nothing was damaged");
}

#[test]
fn memory_of_any_content_is_answered_as_the_contract_says() {
    let mut random = Random::new(22);
    let mut numbers = Numbers::new();
    for _ in 0..300 {
        let mut memory = any_memory(&mut random);
        for _ in 0..20 {
            let told = on_any(&mut memory, &any_step(&mut random));
            *numbers.entry(told.reply.number).or_default() += 1;
        }
    }
    reached(&numbers, &[0, 1, 3, 11, 12, 13, 14, 15, 18, 19, 20, 26, 27]);
}

#[test]
fn piles_of_any_content_are_answered_as_the_contract_says() {
    let mut random = Random::new(23);
    let mut numbers = Numbers::new();
    for _ in 0..60 {
        let mut pile = any_pile(&mut random);
        for _ in 0..40 {
            let told = on_any_pile(&mut pile, &any_pile_step(&mut random));
            *numbers.entry(told.reply.number).or_default() += 1;
        }
    }
    reached(&numbers, &[0, 8, 9, 11, 12, 18, 22, 26, 27]);
}

/// Four ways to compute the code agree, and with them what an image is.
#[test]
fn checksums_and_images_are_the_same() {
    let mut random = Random::new(24);
    for i in 0..2_000 {
        let bytes = images::bytes(&mut random);
        let part = &bytes[..random.below(bytes.len() + 1)];
        assert_eq!((checksum(part), plain::checksum(part)), (reference::checksum(part), reference::checksum(part)), "{i}");
        assert_eq!(image::checksum(part), reference::checksum(part), "{i}");
        let read = Image::try_from(&bytes[..]).ok().map(|image| image.outline().cloned());
        let expected = reference::outline_in(&bytes)
            .map(|outline| Outline::new(outline.start.into(), outline.letters))
            .map(|outline| (!outline.letters.is_empty()).then_some(outline));
        assert_eq!(read, expected);
    }
}

/// The typed pile: what is saved is restored, and damage of one bit is refused.
#[test]
fn a_layer_is_saved_and_restored() {
    let drawn = specimens::specimen("H3");
    let plus = Outline::new(drawn.start.into(), drawn.letters);
    let (mut pile, mut other) = (Pile::new(), Pile::new());
    pile.set(3, &plus).unwrap();
    let image = pile.save(3).unwrap();
    assert_eq!(image, Image::of(&plus).unwrap());
    assert_eq!(pile.save(4).unwrap(), Image::empty());
    assert_eq!(pile.save(16), Err(Refusal::Layer));
    other.restore(3, &image.bytes()).unwrap();
    assert_eq!(other, pile);
    for bit in 0..8 * IMAGE {
        let mut bytes = image.bytes();
        bytes[bit / 8] ^= 1 << (bit % 8);
        assert_eq!(other.restore(3, &bytes), Err(Refusal::Image));
    }
    assert_eq!(other, pile);
    other.restore(3, &Image::empty().bytes()).unwrap();
    assert_eq!(other, Pile::new());
}
