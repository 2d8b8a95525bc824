//! Images: the record of an outline, zeros, and a CRC-32C by a table.

use robequarry::limits::{IMAGE, LONGEST};

use crate::Point;

const MARK: [u8; 2] = [0x4B, 0x4F];
const HEAD: usize = 6;
const RECORD: usize = HEAD + LONGEST;

/// What each byte adds to a checksum.
const TABLE: [u32; 256] = {
    let mut table = [0; 256];
    let mut byte = 0;
    while byte < 256 {
        let (mut rest, mut bit) = (byte as u32, 0);
        while bit < 8 {
            rest = rest >> 1 ^ if rest & 1 == 1 { 0x82F6_3B78 } else { 0 };
            bit += 1;
        }
        table[byte] = rest;
        byte += 1;
    }
    table
};

pub fn checksum(bytes: &[u8]) -> u32 {
    !bytes.iter().fold(u32::MAX, |sum, &byte| sum >> 8 ^ TABLE[usize::from(sum as u8 ^ byte)])
}

/// Writes the image of an outline to the front of a buffer that has space for it; without letters, that of an empty place.
pub fn write(start: Point, letters: &[u8], buffer: &mut [u8]) {
    let (record, sum) = buffer[..IMAGE].split_at_mut(RECORD);
    record[..2].copy_from_slice(&MARK);
    record[2..4].copy_from_slice(&[start.col as u8, start.row as u8]);
    record[4..HEAD].copy_from_slice(&(letters.len() as u16).to_le_bytes());
    record[HEAD..HEAD + letters.len()].copy_from_slice(letters);
    record[HEAD + letters.len()..].fill(0);
    sum.copy_from_slice(&checksum(record).to_le_bytes());
}

/// The start and the letters of an image; none where the bytes are no image.
pub fn read(bytes: &[u8]) -> Option<(Point, &[u8])> {
    let bytes: &[u8; IMAGE] = bytes.try_into().ok()?;
    let (record, sum) = bytes.split_at(RECORD);
    let count = usize::from(u16::from_le_bytes([record[4], record[5]]));
    let letters = record.get(HEAD..HEAD + count)?;
    let sound =
        record[..2] == MARK && record[HEAD + count..].iter().all(|&byte| byte == 0) && checksum(record).to_le_bytes() == sum;
    sound.then(|| (Point::new(record[2].into(), record[3].into()), letters))
}
