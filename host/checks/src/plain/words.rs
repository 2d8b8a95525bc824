//! Words over two ordered letters.

/// The first factor of a word: the letters of one copy, how often it is repeated, and the later letters of one copy.
pub struct Found {
    pub length: usize,
    pub times: usize,
    pub laters: usize,
}

/// The first factor of a word that is not empty, in one pass (Duval).
pub fn first_factor(word: &[u8], later: u8) -> Found {
    let mut i = 0;
    let mut j = 1;
    // The later letters of all that was read, and those of one period of it.
    let mut read = usize::from(word[0] == later);
    let mut laters = read;
    while j < word.len() {
        let (a, b) = (word[i], word[j]);
        read += usize::from(b == later);
        // The same letter, as nearly always; a larger one, which makes one Lyndon word of all that was read; or a smaller one.
        if a == b {
            i += 1;
        } else if b == later {
            i = 0;
            laters = read;
        } else {
            break;
        }
        j += 1;
    }
    let length = j - i;
    Found { length, times: j / length, laters }
}

/// Whether a word with `laters` later letters is a Christoffel word, by the remainders of i·laters.
pub fn is_christoffel(word: &[u8], laters: usize, later: u8) -> bool {
    let n = word.len();
    if n == 1 {
        return true;
    }
    let mut rem = 0;
    for (i, &letter) in word.iter().enumerate() {
        // The two counts share a divisor exactly if a remainder before the last is 0.
        if rem == 0 && i > 0 {
            return false;
        }
        let sum = rem + laters;
        let next = if sum < n { sum } else { sum - n };
        // The letter is to be the earlier one exactly where the remainder grows.
        if (letter == later) == (rem < next) {
            return false;
        }
        rem = next;
    }
    true
}
