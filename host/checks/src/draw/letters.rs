//! Random closed walks that are made by their letters.

use robequarry::limits::{LONGEST, SIDE};

use crate::random::Random;

/// A rectangle whose four corners are cut off by words over the pieces' letters.
pub fn four_words(random: &mut Random, side: i32) -> Vec<u8> {
    const PAIRS: [[u8; 2]; 4] = [[0, 1], [3, 0], [2, 3], [1, 2]];
    let longest = (side as usize / 2).clamp(1, 60);
    let words: [Vec<u8>; 4] = std::array::from_fn(|k| {
        let [earlier, later] = PAIRS[k];
        word(random, longest).into_iter().map(|l| if l { later } else { earlier }).collect()
    });
    let count = |letter: u8| words.iter().flatten().filter(|&&l| l == letter).count();
    let (width, height) = (count(0).max(count(2)), count(1).max(count(3)));
    let (width, height) = (width + random.from_to(1, 4), height + random.from_to(1, 4));
    let mut letters = Vec::new();
    for (k, word) in words.iter().enumerate() {
        let straight = PAIRS[k][1];
        let length = if straight % 2 == 0 { width } else { height };
        letters.extend(std::iter::repeat_n(straight, length - count(straight)));
        letters.extend(word);
    }
    letters
}

/// A word of up to `longest` letters: any, a power, words that nearly follow a slope, or falling slopes.
fn word(random: &mut Random, longest: usize) -> Vec<bool> {
    let length = random.below(longest + 1);
    let mut word = match random.below(4) {
        0 => (0..length).map(|_| random.once_in(2)).collect(),
        1 => {
            let base: Vec<bool> = (0..random.from_to(1, 6)).map(|_| random.once_in(2)).collect();
            base.iter().copied().cycle().take(length).collect()
        }
        _ => falling_slopes(random, length),
    };
    if word.len() > 1 && random.once_in(3) {
        let i = random.below(word.len() - 1);
        word.swap(i, i + 1);
    }
    word
}

/// Words that follow lines, steeper ones first.
fn falling_slopes(random: &mut Random, length: usize) -> Vec<bool> {
    let mut lines: Vec<(usize, usize)> = (0..random.from_to(1, 3)).map(|_| (random.below(12), random.below(12))).collect();
    lines.retain(|&(e, l)| e + l > 0);
    lines.sort_by(|a, b| (b.1 * (a.0 + a.1)).cmp(&(a.1 * (b.0 + b.1))));
    let letters = lines.iter().flat_map(|&(e, l)| (0..e + l).map(move |i| (i + 1) * l / (e + l) > i * l / (e + l)));
    letters.take(length).collect()
}

/// A comb whose border has as many letters as an outline may have, or a few more or less; it may lie on its side.
pub fn comb(random: &mut Random) -> Vec<u8> {
    let teeth = random.from_to(20, 120);
    let letters = [LONGEST - 4, LONGEST - 2, LONGEST, LONGEST, LONGEST, LONGEST + 2][random.below(6)];
    // A base of one row, twice as wide as its teeth less one, and teeth above it: each of their cells adds two letters.
    let mut left = letters / 2 - (2 * teeth - 1) - 1;
    let mut heights = vec![0; teeth];
    while left > 0 {
        let tooth = random.below(teeth);
        let more = random.from_to(1, left).min(usize::from(SIDE) - 2 - heights[tooth]).min(20);
        heights[tooth] += more;
        left -= more;
    }
    let mut comb = vec![1];
    for (tooth, &height) in heights.iter().enumerate() {
        comb.extend(std::iter::repeat_n(1, height));
        comb.push(0);
        comb.extend(std::iter::repeat_n(3, height));
        if tooth + 1 < teeth {
            comb.push(0);
        }
    }
    comb.push(3);
    comb.extend(std::iter::repeat_n(2, 2 * teeth - 1));
    let turn = random.below(4) as u8;
    comb.iter().map(|letter| (letter + turn) % 4).collect()
}
