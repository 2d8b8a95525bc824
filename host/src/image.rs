//! Images of what is at work at a place, as `rq_save` writes them: 622 bytes, which are the record of an outline as in a fitting file
//! (contract 11), zeros up to 618 bytes, and the CRC-32C of these 618, lowest byte first. An image without letters is that of an empty
//! place.
//!
//! ```
//! use robequarry::image::Image;
//! use robequarry::Outline;
//!
//! let plus: Outline = "0 1 101030323212".parse()?;
//! let bytes = Image::of(&plus).expect("it has at most 612 letters").bytes();
//! assert_eq!(bytes[618..], [0xfa, 0xe9, 0x68, 0xa0]);
//! let read = Image::try_from(&bytes[..]).expect("nothing has altered it");
//! assert_eq!(read.outline(), Some(&plus));
//! # Ok::<(), robequarry::text::Wrong>(())
//! ```

use core::error::Error;
use core::fmt;

use crate::fitting::{self, Records, MARK};
use crate::limits::LONGEST;
use crate::{Corner, Outline};

/// The CRC-32C of bytes: the library's own, with its theorem of what it notices.
pub use crate::raw::checksum;

/// An image has this many bytes.
pub const BYTES: usize = 622;

/// So many bytes stand before the checksum.
const CHECKED: usize = BYTES - 4;

/// The mark, the start and the count of letters.
const HEAD: usize = 6;

/// An image that is whole.
#[derive(Clone, Debug, PartialEq, Eq, Hash)]
pub struct Image(Outline);

/// Why bytes are no image (refusal 26 of a restore).
#[derive(Clone, Copy, Debug, PartialEq, Eq, Hash)]
#[non_exhaustive]
pub enum Wrong {
    /// There are so many bytes, and not 622.
    Length(usize),
    /// The first two bytes are not 4B 4F.
    Mark,
    /// The last four bytes are not the checksum of the others.
    Checksum,
    /// There are more letters than an outline may have.
    Count,
    /// A byte between the letters and the checksum is not 0.
    Padding,
}

impl fmt::Display for Wrong {
    fn fmt(&self, f: &mut fmt::Formatter<'_>) -> fmt::Result {
        write!(f, "refusal 26, no image: ")?;
        match self {
            Wrong::Length(bytes) => write!(f, "an image has {BYTES} bytes, and these are {bytes}"),
            Wrong::Mark => write!(f, "the bytes 4B 4F are not at its beginning"),
            Wrong::Checksum => write!(f, "its checksum is not that of its bytes: some are damaged"),
            Wrong::Count => write!(f, "it has more than {LONGEST} letters"),
            Wrong::Padding => write!(f, "a byte after the letters is not 0"),
        }
    }
}

impl Error for Wrong {}

impl Image {
    /// The image of an outline, of any letters; none if a number of its start is above 255, or if it has more than 612 letters.
    pub fn of(outline: &Outline) -> Option<Self> {
        let fits = fitting::record(outline).is_some() && outline.letters.len() <= LONGEST;
        fits.then(|| Image(outline.clone()))
    }

    /// The image of an empty place.
    pub fn empty() -> Self {
        Image(Outline::new(Corner::new(0, 0), []))
    }

    /// The outline; none where the place was empty. It was not tested.
    pub fn outline(&self) -> Option<&Outline> {
        Some(&self.0).filter(|outline| !outline.letters.is_empty())
    }

    /// The image as bytes.
    pub fn bytes(&self) -> [u8; BYTES] {
        let mut bytes = [0; BYTES];
        let record = fitting::record(&self.0).expect("an image has a record");
        bytes[..record.len()].copy_from_slice(&record);
        let checksum = checksum(&bytes[..CHECKED]);
        bytes[CHECKED..].copy_from_slice(&checksum.to_le_bytes());
        bytes
    }
}

impl TryFrom<&[u8]> for Image {
    type Error = Wrong;

    fn try_from(bytes: &[u8]) -> Result<Self, Wrong> {
        let (checked, last) = match bytes.split_at_checked(CHECKED) {
            Some((checked, last)) if bytes.len() == BYTES => (checked, last),
            _ => return Err(Wrong::Length(bytes.len())),
        };
        if !checked.starts_with(&MARK) {
            return Err(Wrong::Mark);
        }
        if checksum(checked).to_le_bytes() != last {
            return Err(Wrong::Checksum);
        }
        // A record that is cut has more letters than the bytes have space for.
        let Some(Ok(outline)) = Records::of(checked).next() else {
            return Err(Wrong::Count);
        };
        match checked[HEAD + outline.letters.len()..].iter().all(|&byte| byte == 0) {
            true => Ok(Image(outline)),
            false => Err(Wrong::Padding),
        }
    }
}

#[cfg(test)]
mod tests {
    use alloc::vec::Vec;

    use super::*;

    /// RFC 3720 B.4, and the check value of the catalogue of CRCs.
    #[test]
    fn published_checksums() {
        let rising: Vec<u8> = (0..32).collect();
        let falling: Vec<u8> = (0..32).rev().collect();
        assert_eq!(checksum(b"123456789"), 0xE306_9283);
        assert_eq!(checksum(&[0; 32]), 0x8A91_36AA);
        assert_eq!(checksum(&[0xFF; 32]), 0x62A8_AB43);
        assert_eq!(checksum(&rising), 0x46DD_794E);
        assert_eq!(checksum(&falling), 0x113F_DB5C);
        assert_eq!(checksum(&[]), 0);
    }

    fn plus() -> Outline {
        Outline::new(Corner::new(0, 1), [1, 0, 1, 0, 3, 0, 3, 2, 3, 2, 1, 2])
    }

    #[test]
    fn images_there_and_back() {
        for outline in [plus(), Outline::new(Corner::new(255, 0), [9; 612]), Outline::new(Corner::new(7, 7), [200])] {
            let image = Image::of(&outline).unwrap();
            assert_eq!(Image::try_from(&image.bytes()[..]), Ok(image.clone()));
            assert_eq!(image.outline(), Some(&outline));
        }
        let bytes = Image::of(&plus()).unwrap().bytes();
        assert_eq!(bytes[..8], [0x4B, 0x4F, 0, 1, 12, 0, 1, 0]);
        assert_eq!(bytes[CHECKED..], [0xFA, 0xE9, 0x68, 0xA0]);
        assert_eq!(Image::try_from(&Image::empty().bytes()[..]).unwrap().outline(), None);
        assert_eq!(Image::of(&Outline::new(Corner::new(0, 0), [1; 613])), None);
        assert_eq!(Image::of(&Outline::new(Corner::new(256, 0), [1; 4])), None);
    }

    /// Every single bit, and bytes that have the right checksum and are no image.
    #[test]
    fn what_is_no_image() {
        let whole = Image::of(&plus()).unwrap().bytes();
        for bit in 0..8 * BYTES {
            let mut bytes = whole;
            bytes[bit / 8] ^= 1 << (bit % 8);
            assert!(matches!(Image::try_from(&bytes[..]), Err(Wrong::Mark | Wrong::Checksum)), "{bit}");
        }
        let signed = |change: fn(&mut [u8; BYTES])| {
            let mut bytes = whole;
            change(&mut bytes);
            let checksum = checksum(&bytes[..CHECKED]);
            bytes[CHECKED..].copy_from_slice(&checksum.to_le_bytes());
            Image::try_from(&bytes[..])
        };
        assert_eq!(signed(|bytes| bytes[0] = 0x4C), Err(Wrong::Mark));
        assert_eq!(signed(|bytes| bytes[4..6].copy_from_slice(&613u16.to_le_bytes())), Err(Wrong::Count));
        assert_eq!(signed(|bytes| bytes[617] = 1), Err(Wrong::Padding));
        assert_eq!(signed(|bytes| bytes[4] = 11), Err(Wrong::Padding));
        assert!(signed(|bytes| bytes[4] = 13).is_ok());
        assert_eq!(Image::try_from(&whole[..621]), Err(Wrong::Length(621)));
        assert_eq!(Image::try_from(&[&whole[..], &[0]].concat()[..]), Err(Wrong::Length(623)));
    }
}
