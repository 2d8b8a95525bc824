//! A fitting file and the lines of its listing (contract 11).

use robequarry::limits::LONGEST_FILE;

use super::calls::test;
use crate::Point;

/// A record's number, the test's number or a fault's, and a place or a position.
type Line = (usize, usize, usize);

/// The lines of a file, as numbers.
pub fn lines(file: &[u8]) -> Vec<Line> {
    // 25, before anything else.
    if file.len() > LONGEST_FILE {
        return vec![(0, 25, LONGEST_FILE)];
    }
    let mut lines = Vec::new();
    let mut at = 0;
    while at < file.len() {
        let number = lines.len();
        let left = &file[at..];
        // 23: the two bytes of a mark.
        if !left.starts_with(&[0x4B, 0x4F]) {
            lines.push((number, 23, at));
            break;
        }
        // 24: the header, and then the letters that it counts.
        let count = if left.len() < 6 { usize::MAX } else { usize::from(u16::from_le_bytes([left[4], left[5]])) };
        if left.len() < 6 || left.len() - 6 < count {
            lines.push((number, 24, at));
            break;
        }
        let start = Point::new(u16::from(left[2]), u16::from(left[3]));
        let reply = test(start, &left[6..6 + count]).reply;
        lines.push((number, usize::from(reply.number), usize::from(reply.place)));
        at += 6 + count;
    }
    lines
}

/// The lines as text: single spaces, and a line feed behind each line.
pub fn listing(file: &[u8]) -> String {
    lines(file).iter().map(|(number, answer, place)| format!("{number} {answer} {place}\n")).collect()
}
