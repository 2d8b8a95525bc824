//! How a text is decoded (docs/PROGRAM.md, "How a text is decoded"): marks, UTF-16, line ends and Latin-1.

use alloc::borrow::Cow;
use alloc::string::{String, ToString};
use alloc::vec::Vec;
use core::mem;
use core::str;

/// What stands before a text in UTF-8 or UTF-16.
const UTF_8: &[u8] = b"\xEF\xBB\xBF";
const LOW_FIRST: &[u8] = b"\xFF\xFE";
const HIGH_FIRST: &[u8] = b"\xFE\xFF";

/// What is read for what is no UTF-16.
const REPLACEMENT: char = char::REPLACEMENT_CHARACTER;

#[derive(Clone, Copy, Debug, PartialEq, Eq)]
enum Encoding {
    /// UTF-8 or Latin-1, line by line.
    Bytes,
    LowFirst,
    HighFirst,
}

/// The encoding that a beginning shows, and how long its mark is; none while more bytes could show another.
fn encoding(begin: &[u8]) -> Option<(Encoding, usize)> {
    let marks = [(UTF_8, Encoding::Bytes), (LOW_FIRST, Encoding::LowFirst), (HIGH_FIRST, Encoding::HighFirst)];
    if let Some((mark, found)) = marks.iter().find(|(mark, _)| begin.starts_with(mark)) {
        return Some((*found, mark.len()));
    }
    (!marks.iter().any(|(mark, _)| mark.starts_with(begin))).then_some((Encoding::Bytes, 0))
}

/// The bytes of a text as they come, turned into lines that end in LF, without a mark. Each line is then UTF-8 or Latin-1, and
/// [`unicode`] makes a string of whole lines.
///
/// ```
/// use robequarry::text::{unicode, Decoder};
///
/// let (mut decoder, mut lines) = (Decoder::default(), Vec::new());
/// for bytes in [&b"\xFF"[..], b"\xFE0\0\r", b"\0\n\0", b"1\0"] {
///     decoder.push(bytes, &mut lines);
/// }
/// decoder.finish(&mut lines);
/// assert_eq!(unicode(lines), "0\n1");
/// ```
#[derive(Clone, Debug, Default)]
pub struct Decoder {
    encoding: Option<Encoding>,
    /// Bytes that mean something only with those that follow: of a mark, or of a character in UTF-16.
    kept: Vec<u8>,
    /// Whether the last character was a CR, so that an LF is part of the same line end.
    after_return: bool,
}

impl Decoder {
    /// Reads more bytes, and puts at the end of a list what they decode to.
    pub fn push(&mut self, bytes: &[u8], lines: &mut Vec<u8>) {
        let joined = [&mem::take(&mut self.kept)[..], bytes].concat();
        let Some(encoding) = self.encoding else {
            match encoding(&joined) {
                None => self.kept = joined,
                Some((found, mark)) => {
                    self.encoding = Some(found);
                    self.decode(found, &joined[mark..], lines);
                }
            }
            return;
        };
        self.decode(encoding, &joined, lines);
    }

    /// Whether these bytes decode to themselves, at this point of the text.
    pub fn leaves(&self, bytes: &[u8]) -> bool {
        self.encoding == Some(Encoding::Bytes) && self.kept.is_empty() && !self.after_return && !bytes.contains(&b'\r')
    }

    /// Puts at the end of a list what is left when the text ends.
    pub fn finish(&mut self, lines: &mut Vec<u8>) {
        let kept = mem::take(&mut self.kept);
        match self.encoding {
            Some(Encoding::LowFirst | Encoding::HighFirst) => {
                // Half a pair of surrogates, and half a unit, are each something that is no character.
                let broken = kept.len().div_ceil(2);
                (0..broken).for_each(|_| lines.extend(REPLACEMENT.to_string().bytes()));
            }
            _ => self.line_ends(&kept, lines),
        }
    }

    fn decode(&mut self, encoding: Encoding, bytes: &[u8], lines: &mut Vec<u8>) {
        let unit: fn([u8; 2]) -> u16 = match encoding {
            Encoding::Bytes => return self.line_ends(bytes, lines),
            Encoding::LowFirst => u16::from_le_bytes,
            Encoding::HighFirst => u16::from_be_bytes,
        };
        let mut units: Vec<u16> = bytes.chunks_exact(2).map(|pair| unit([pair[0], pair[1]])).collect();
        // The first half of a pair waits for the second.
        if units.last().is_some_and(|unit| (0xD800..0xDC00).contains(unit)) {
            units.pop();
        }
        self.kept = bytes[2 * units.len()..].to_vec();
        let text: String = char::decode_utf16(units).map(|read| read.unwrap_or(REPLACEMENT)).collect();
        self.line_ends(text.as_bytes(), lines);
    }

    fn line_ends(&mut self, bytes: &[u8], lines: &mut Vec<u8>) {
        if !self.after_return && !bytes.contains(&b'\r') {
            return lines.extend_from_slice(bytes);
        }
        for &byte in bytes {
            match byte {
                b'\n' if self.after_return => {}
                b'\r' => lines.push(b'\n'),
                _ => lines.push(byte),
            }
            self.after_return = byte == b'\r';
        }
    }
}

/// Whether a file is UTF-16 by its mark.
pub fn is_utf16(bytes: &[u8]) -> bool {
    bytes.starts_with(LOW_FIRST) || bytes.starts_with(HIGH_FIRST)
}

/// Whether these bytes could be a part of a mark, so that more are needed to know.
pub fn may_be_mark(bytes: &[u8]) -> bool {
    encoding(bytes).is_none()
}

/// Whole lines as a string: a line that is no UTF-8 is Latin-1.
pub fn unicode(lines: Vec<u8>) -> String {
    let line = |line: &'_ [u8]| match str::from_utf8(line) {
        Ok(line) => line.to_string(),
        Err(_) => line.iter().map(|&byte| char::from(byte)).collect(),
    };
    String::from_utf8(lines)
        .unwrap_or_else(|error| error.as_bytes().split_inclusive(|&byte| byte == b'\n').map(line).collect())
}

/// A text that is there whole, decoded.
pub fn decode(bytes: &[u8]) -> String {
    let (mut decoder, mut lines) = (Decoder::default(), Vec::with_capacity(bytes.len()));
    decoder.push(bytes, &mut lines);
    decoder.finish(&mut lines);
    unicode(lines)
}

/// A name in which `\u{1b}` stands for the character of that number.
pub fn unescaped(name: &str) -> Cow<'_, str> {
    let Some(first) = name.find("\\u{") else {
        return Cow::Borrowed(name);
    };
    let (mut plain, mut rest) = (name[..first].to_string(), &name[first..]);
    while let Some(at) = rest.find("\\u{") {
        plain.push_str(&rest[..at]);
        rest = &rest[at..];
        match escape(rest) {
            Some((char, length)) => {
                plain.push(char);
                rest = &rest[length..];
            }
            None => {
                plain.push('\\');
                rest = &rest[1..];
            }
        }
    }
    plain.push_str(rest);
    Cow::Owned(plain)
}

/// The character of an escape at the beginning of a text, and how many bytes the escape has.
fn escape(text: &str) -> Option<(char, usize)> {
    let (digits, _) = text.strip_prefix("\\u{")?.split_once('}')?;
    let hexadecimal = (1..=6).contains(&digits.len()) && digits.bytes().all(|digit| digit.is_ascii_hexdigit());
    let number = u32::from_str_radix(digits, 16).ok().filter(|_| hexadecimal)?;
    Some((char::from_u32(number)?, digits.len() + 4))
}

#[cfg(test)]
mod tests {
    use super::*;
    use crate::text::Escaped;

    /// However a text is cut, it decodes to the same.
    #[test]
    fn cuts_change_nothing() {
        for bytes in [
            &b"\xEF\xBB\xBFa\r\nb\r\rc\n\rd"[..],
            b"\xFF\xFEa\0\r\0\n\0\x3D\xD8\xBF\xDD\x3D\xD8b\0\x41",
            b"\xFE\xFF\0a\0\r\0b\xD8\x3D",
            b"\xEF\xBB",
            b"\xFF",
            b"",
            b"\xE9\r\n\xC3\xA9\r",
        ] {
            let whole = decode(bytes);
            for step in 1..=bytes.len() {
                let (mut decoder, mut lines) = (Decoder::default(), Vec::new());
                bytes.chunks(step).for_each(|part| decoder.push(part, &mut lines));
                decoder.finish(&mut lines);
                assert_eq!(unicode(lines), whole, "{bytes:?} {step}");
            }
        }
        assert_eq!(decode(b"\xFE\xFF\0a\0\r\0b\xD8\x3D"), "a\nb\u{FFFD}");
        assert_eq!(decode(b"\xEF\xBB"), "\u{EF}\u{BB}");
        assert_eq!(decode(b"\xE9\r\n\xC3\xA9\r"), "\u{E9}\n\u{E9}\n");
    }

    #[test]
    fn what_is_written_is_read_back() {
        for name in
            ["", "a", "\u{1b}[2J", "\\u{1b}", "\\\\u{1b}", "C:\\user", "\\u{", "\\", "\u{202e}\\u{110000}\\u{}", "\n\r"]
        {
            assert_eq!(unescaped(&Escaped(name).to_string()), name);
        }
        assert_eq!(unescaped("\\u{1B}\\u{0001b}\\u{00001b}\\u{000001b}\\u{+1}"), "\u{1b}\u{1b}\u{1b}\\u{000001b}\\u{+1}");
    }
}
