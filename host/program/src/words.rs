//! Words over two ordered letters, `true` the later one: factors and Christoffel words (contract 3.7 to 3.10), for the story alone.

/// A Lyndon word with its repeats.
#[derive(Clone, Copy, Debug, PartialEq, Eq)]
pub struct Factor {
    /// Where its first copy begins in the word.
    pub at: usize,
    /// The letters of one copy.
    pub length: usize,
    pub times: usize,
}

/// The factors of a word from left to right, by Duval's search.
pub fn factors(word: &[bool]) -> Vec<Factor> {
    let mut found = Vec::new();
    let mut at = 0;
    while at < word.len() {
        let (length, reach) = longest_power(&word[at..]);
        let times = reach / length;
        found.push(Factor { at, length, times });
        at += times * length;
    }
    found
}

/// The longest beginning that repeats a Lyndon word, its last copy cut perhaps: the Lyndon word's length, and how far it reaches.
fn longest_power(word: &[bool]) -> (usize, usize) {
    let (mut length, mut reach) = (1, 1);
    while reach < word.len() && word[reach] >= word[reach - length] {
        if word[reach] && !word[reach - length] {
            length = reach + 1;
        }
        reach += 1;
    }
    (length, reach)
}

pub fn divisor(a: usize, b: usize) -> usize {
    if b == 0 {
        a
    } else {
        divisor(b, a % b)
    }
}

pub fn laters(word: &[bool]) -> usize {
    word.iter().filter(|&&later| later).count()
}

/// The Christoffel word of n letters, k of them later ones; none if n and k share a divisor.
pub fn christoffel(n: usize, k: usize) -> Option<Vec<bool>> {
    let of = |i: usize| i * k % n <= (i - 1) * k % n;
    match n {
        1 => Some(vec![k == 1]),
        _ => (divisor(n, k) == 1).then(|| (1..=n).map(of).collect()),
    }
}

pub fn is_christoffel(word: &[bool]) -> bool {
    christoffel(word.len(), laters(word)).as_deref() == Some(word)
}

#[cfg(test)]
mod tests {
    use super::*;
    use robequarry_checks::reference::words as reference;

    /// Of every word up to 12 letters: what the definitions say.
    #[test]
    fn words_are_the_reference_s() {
        for length in 1..=12 {
            for bits in 0u32..1 << length {
                let word: Vec<bool> = (0..length).map(|i| bits >> i & 1 == 1).collect();
                assert_eq!(is_christoffel(&word), reference::is_christoffel(&word), "{word:?}");
                let found = factors(&word);
                let expected = reference::factors(&word);
                assert!(found.iter().map(|f| (f.at, f.length, f.times)).eq(expected.iter().map(|f| (
                    f.at,
                    f.copy.len(),
                    f.times
                ))));
            }
        }
    }
}
