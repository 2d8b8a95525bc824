//! Fitting files (contract 11): records one behind the other, without a header. A record is the mark 4B 4F (hexadecimal), the start's
//! column and row, a byte each, the count of letters, two bytes, low first, and the letters, a byte each.
//!
//! [`Records`] reads them by the rule of the proved listing: the same records, and the same fault at the same byte.
//!
//! ```
//! use robequarry::fitting::{record, Fault, Records};
//! use robequarry::Outline;
//!
//! let plus: Outline = "0 1 101030323212".parse()?;
//! let mut file = record(&plus).expect("its start fits a byte");
//! file.push(0x4B);
//! let read: Vec<_> = Records::of(&file).collect();
//! assert_eq!(read, [Ok(plus), Err(Fault::NoMark { record: 1, at: 18 })]);
//! # Ok::<(), robequarry::text::Wrong>(())
//! ```

use alloc::vec::Vec;
use core::error::Error;
use core::fmt;

use crate::limits::LONGEST_FILE;
use crate::refusal::{named, Clause};
use crate::{Corner, Outline};

/// The two bytes with which a record begins.
pub const MARK: [u8; 2] = [0x4B, 0x4F];

/// The mark, the start and the count of letters.
const HEAD: usize = 6;

/// What is wrong with a fitting file (contract 11.3). Reading stops there; the records before it stand.
#[derive(Clone, Copy, Debug, PartialEq, Eq, Hash)]
#[non_exhaustive]
pub enum Fault {
    /// 23: a wrong or truncated mark, at this byte.
    NoMark { record: usize, at: usize },
    /// 24: the record whose mark stands at this byte is truncated.
    CutShort { record: usize, at: usize },
    /// 25: the file is too large; none of it is read.
    TooLarge,
}

impl Fault {
    /// The fault's number.
    pub fn number(self) -> u16 {
        match self {
            Fault::NoMark { .. } => 23,
            Fault::CutShort { .. } => 24,
            Fault::TooLarge => 25,
        }
    }

    /// The fault's name in every language, in capitals.
    pub fn name(self) -> &'static str {
        named(self.number()).0
    }

    /// What it means, as a sentence for a person.
    pub fn sentence(self) -> &'static str {
        named(self.number()).1
    }

    /// The number of the record where reading stopped.
    pub fn record(self) -> usize {
        match self {
            Fault::NoMark { record, .. } | Fault::CutShort { record, .. } => record,
            Fault::TooLarge => 0,
        }
    }

    /// The byte position that the listing gives.
    pub fn position(self) -> usize {
        match self {
            Fault::NoMark { at, .. } | Fault::CutShort { at, .. } => at,
            Fault::TooLarge => LONGEST_FILE,
        }
    }
}

impl fmt::Display for Fault {
    fn fmt(&self, f: &mut fmt::Formatter<'_>) -> fmt::Result {
        write!(f, "fault {}: {}", self.number(), Clause(self.sentence()))?;
        match self {
            Fault::NoMark { record, at } => write!(f, " (outline {record}, byte {at})"),
            Fault::CutShort { record, at } => write!(f, " (outline {record}, its mark at byte {at})"),
            Fault::TooLarge => Ok(()),
        }
    }
}

impl Error for Fault {}

/// The records of a file, up to the first fault.
///
/// More than [`LONGEST_FILE`] bytes are a fault, so a caller that reads a file needs no more than one byte past that.
#[derive(Clone, Debug)]
pub struct Records<'a> {
    bytes: &'a [u8],
    at: usize,
    record: usize,
    ended: bool,
}

impl<'a> Records<'a> {
    /// The records of these bytes.
    pub fn of(bytes: &'a [u8]) -> Self {
        Records { bytes, at: 0, record: 0, ended: false }
    }

    /// How many bytes have been read.
    pub fn position(&self) -> usize {
        self.at
    }

    /// The record at the position, which is before the file's end, and how many bytes it has.
    fn read(&self) -> Result<(Outline, usize), Fault> {
        let Records { record, at, .. } = *self;
        let rest = &self.bytes[at..];
        if !rest.starts_with(&MARK) {
            return Err(Fault::NoMark { record, at });
        }
        let Some(&[_, _, col, row, low, high]) = rest.first_chunk::<HEAD>() else {
            return Err(Fault::CutShort { record, at });
        };
        let length = HEAD + usize::from(u16::from_le_bytes([low, high]));
        let letters = rest.get(HEAD..length).ok_or(Fault::CutShort { record, at })?;
        Ok((Outline::new(Corner::new(col.into(), row.into()), letters), length))
    }
}

impl Iterator for Records<'_> {
    type Item = Result<Outline, Fault>;

    fn next(&mut self) -> Option<Self::Item> {
        if self.ended {
            return None;
        }
        if self.bytes.len() > LONGEST_FILE {
            self.ended = true;
            return Some(Err(Fault::TooLarge));
        }
        if self.at == self.bytes.len() {
            return None;
        }
        let read = self.read();
        match &read {
            Ok((_, length)) => {
                self.at += length;
                self.record += 1;
            }
            Err(_) => self.ended = true,
        }
        Some(read.map(|(outline, _)| outline))
    }
}

/// The outline as a record; none if a number of its start is above 255, or if it has more than 65,535 letters.
pub fn record(outline: &Outline) -> Option<Vec<u8>> {
    let (col, row) = (u8::try_from(outline.start.col).ok()?, u8::try_from(outline.start.row).ok()?);
    let count = u16::try_from(outline.letters.len()).ok()?;
    Some([&MARK[..], &[col, row], &count.to_le_bytes(), &outline.letters].concat())
}

#[cfg(test)]
mod tests {
    use alloc::vec;

    use super::*;

    fn read(bytes: &[u8]) -> Vec<Result<Outline, Fault>> {
        Records::of(bytes).collect()
    }

    #[test]
    fn records_there_and_back() {
        let outlines = [
            Outline::new(Corner::new(0, 1), [1, 0, 1, 0, 3, 0, 3, 2, 3, 2, 1, 2]),
            Outline::new(Corner::new(255, 7), []),
            Outline::new(Corner::new(0x4B, 0x4F), [9; 300]),
        ];
        let bytes = outlines.iter().flat_map(|outline| record(outline).unwrap()).collect::<Vec<_>>();
        assert_eq!(bytes[..8], [0x4B, 0x4F, 0, 1, 12, 0, 1, 0]);
        assert!(read(&bytes).into_iter().eq(outlines.map(Ok)));
        assert!(read(&[]).is_empty());
        assert_eq!(record(&Outline::new(Corner::new(256, 0), [])), None);
        assert_eq!(record(&Outline::new(Corner::new(0, 0), [1; 65_536])), None);
    }

    #[test]
    fn faults() {
        let cell = record(&Outline::new(Corner::new(0, 0), [1, 0, 3, 2])).unwrap();
        let two = cell.repeat(2);
        for cut in 1..10 {
            let last = read(&two[..10 + cut]).pop().unwrap();
            let fault = if cut == 1 { Fault::NoMark { record: 1, at: 10 } } else { Fault::CutShort { record: 1, at: 10 } };
            assert_eq!(last, Err(fault), "{cut}");
            assert_eq!((fault.record(), fault.position()), (1, 10));
            assert_eq!(read(&two[..10 + cut]).len(), 2);
        }
        assert_eq!(read(b"KP"), [Err(Fault::NoMark { record: 0, at: 0 })]);
        assert_eq!(read(&vec![0; LONGEST_FILE + 1]), [Err(Fault::TooLarge)]);
        assert_eq!((Fault::TooLarge.number(), Fault::TooLarge.position()), (25, 65_536));
        assert_eq!(read(&vec![0; LONGEST_FILE]), [Err(Fault::NoMark { record: 0, at: 0 })]);
    }
}
