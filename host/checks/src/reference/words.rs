//! Words over two ordered letters (contract 3.7 to 3.10), `false` the earlier and `true` the later.

/// Whether a word is smaller than another (contract 3.7).
fn smaller<'a>(word: impl Iterator<Item = &'a bool>, other: impl Iterator<Item = &'a bool>) -> bool {
    let mut other = other;
    for letter in word {
        match other.next() {
            None => return false,
            Some(o) if letter != o => return !letter,
            Some(_) => {}
        }
    }
    other.next().is_some()
}

/// Contract 3.8: the word against each of its other rotations.
pub fn is_lyndon(word: &[bool]) -> bool {
    let rotation = |i: usize| word[i..].iter().chain(&word[..i]);
    !word.is_empty() && (1..word.len()).all(|i| smaller(word.iter(), rotation(i)))
}

/// A Lyndon word, by its first copy's place in the piece, and how often it is repeated.
#[derive(Clone, Copy, Debug, PartialEq, Eq)]
pub struct Factor<'a> {
    pub at: usize,
    pub copy: &'a [bool],
    pub times: usize,
}

/// The factors of a word, from left to right (contract 3.9).
pub fn factors(piece: &[bool]) -> Vec<Factor<'_>> {
    let mut found = falling(piece, 0, None).expect("every word has such a way");
    found.reverse();
    found
}

/// Searches for such a way to write what follows `at` with words smaller than `bound`, and gives it from the last factor to
/// the first. Long words and many repeats are tried first.
fn falling<'a>(piece: &'a [bool], at: usize, bound: Option<&[bool]>) -> Option<Vec<Factor<'a>>> {
    let rest = &piece[at..];
    if rest.is_empty() {
        return Some(Vec::new());
    }
    for length in (1..=rest.len()).rev() {
        let copy = &rest[..length];
        let falls = bound.is_none_or(|bound| smaller(copy.iter(), bound.iter()));
        if !falls || !is_lyndon(copy) {
            continue;
        }
        let most = rest.chunks(length).take_while(|&next| next == copy).count();
        for times in (1..=most).rev() {
            if let Some(mut after) = falling(piece, at + times * length, Some(copy)) {
                after.push(Factor { at, copy, times });
                return Some(after);
            }
        }
    }
    None
}

fn greatest_common_divisor(a: usize, b: usize) -> usize {
    (1..=a.max(b)).rev().find(|d| a % d == 0 && b % d == 0).expect("1 divides both")
}

/// Contract 3.10.
pub fn is_christoffel(word: &[bool]) -> bool {
    let n = word.len();
    if n == 1 {
        return true;
    }
    let k = word.iter().filter(|&&later| later).count();
    let is_earlier = |i: usize| !word[i - 1];
    greatest_common_divisor(k, n) == 1 && (1..=n).all(|i| is_earlier(i) == (i * k % n > (i - 1) * k % n))
}

#[cfg(test)]
mod tests {
    use super::*;

    fn word(letters: &str) -> Vec<bool> {
        letters.chars().map(|c| c == '1').collect()
    }

    #[test]
    fn short_words() {
        assert!(is_lyndon(&word("001101")) && !is_christoffel(&word("001101")));
        assert!(is_lyndon(&word("00101")) && is_christoffel(&word("00101")));
        assert!(!is_lyndon(&word("0101")) && !is_lyndon(&word("11")) && is_lyndon(&word("1")));
        assert!(!is_christoffel(&word("11")) && !is_christoffel(&word("0101")) && is_christoffel(&word("0")));
    }

    /// Of every word up to 12 letters: the search gives its letters, by falling Lyndon words.
    #[test]
    fn factors_fall_and_make_the_word() {
        for length in 1..=12 {
            for bits in 0u32..1 << length {
                let word: Vec<bool> = (0..length).map(|i| bits >> i & 1 == 1).collect();
                let factors = factors(&word);
                let joined: Vec<bool> = factors.iter().flat_map(|f| f.copy.repeat(f.times)).collect();
                assert_eq!(joined, word);
                assert!(factors.iter().all(|f| is_lyndon(f.copy) && f.times > 0));
                assert!(factors.windows(2).all(|pair| pair[1].copy < pair[0].copy));
            }
        }
    }
}
