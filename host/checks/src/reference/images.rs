//! Images (contract 13.1 and 13.2): an outline, or an empty place, as 622 bytes.

use robequarry::limits::{IMAGE, LONGEST};

use crate::{Outline, Point};

/// The bytes before the checksum: the mark, the start, the count, and space for the letters of any outline.
const RECORD: usize = 6 + LONGEST;

/// The CRC-32C of bytes: the remainder of a division of polynomials over two elements, bit after bit, lowest first. The remainder begins with
/// all bits set, and is inverted at the end.
pub fn checksum(bytes: &[u8]) -> u32 {
    /// The divisor 11EDC6F41 (hexadecimal) without its first bit, the others from the last to the first.
    const DIVISOR: u32 = 0x82F6_3B78;
    let bits = bytes.iter().flat_map(|&byte| (0..8).map(move |i| u32::from(byte >> i & 1)));
    !bits.fold(u32::MAX, |rest, bit| (rest >> 1) ^ if (rest ^ bit) & 1 == 1 { DIVISOR } else { 0 })
}

/// The image of an outline; of none, the one of an empty place.
pub fn image(outline: Option<&Outline>) -> [u8; IMAGE] {
    let mut bytes = [0; IMAGE];
    bytes[..2].copy_from_slice(&[0x4B, 0x4F]);
    if let Some(Outline { start, letters }) = outline {
        bytes[2..4].copy_from_slice(&[start.col as u8, start.row as u8]);
        bytes[4..6].copy_from_slice(&(letters.len() as u16).to_le_bytes());
        bytes[6..6 + letters.len()].copy_from_slice(letters);
    }
    let sum = checksum(&bytes[..RECORD]);
    bytes[RECORD..].copy_from_slice(&sum.to_le_bytes());
    bytes
}

/// The outline whose image the bytes are: without letters for an empty place. None where they are no image.
pub fn outline_in(bytes: &[u8]) -> Option<Outline> {
    if bytes.len() != IMAGE || bytes[..2] != [0x4B, 0x4F] {
        return None;
    }
    let count = usize::from(bytes[4]) + 256 * usize::from(bytes[5]);
    if count > LONGEST || bytes[6 + count..RECORD].iter().any(|&byte| byte != 0) {
        return None;
    }
    let sum = (0..4).map(|i| u32::from(bytes[RECORD + i]) << (8 * i)).sum::<u32>();
    let start = Point::new(bytes[2].into(), bytes[3].into());
    (sum == checksum(&bytes[..RECORD])).then(|| Outline { start, letters: bytes[6..6 + count].to_vec() })
}

#[cfg(test)]
mod tests {
    use super::*;
    use crate::specimens::specimen;

    /// Published values: the check value of the code, and the four lists of 32 bytes in RFC 3720, B.4.
    #[test]
    fn published_checksums() {
        assert_eq!(checksum(b"123456789"), 0xE306_9283);
        assert_eq!(checksum(&[0; 32]), 0x8A91_36AA);
        assert_eq!(checksum(&[0xFF; 32]), 0x62A8_AB43);
        let up: Vec<u8> = (0..32).collect();
        assert_eq!(checksum(&up), 0x46DD_794E);
        assert_eq!(checksum(&up.into_iter().rev().collect::<Vec<u8>>()), 0x113F_DB5C);
    }

    #[test]
    fn images_there_and_back() {
        let plus = specimen("H3");
        let image = image(Some(&plus));
        assert_eq!(image[..9], [0x4B, 0x4F, 0, 1, 12, 0, 1, 0, 1]);
        assert_eq!(image[RECORD..], [0xFA, 0xE9, 0x68, 0xA0]);
        assert_eq!(outline_in(&image), Some(plus));
        assert_eq!(outline_in(&super::image(None)).map(|outline| outline.letters), Some(Vec::new()));
        assert!((0..IMAGE).all(|length| outline_in(&image[..length]).is_none()));
    }
}
