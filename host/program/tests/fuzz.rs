//! Fuzzing of the reader in pieces: however a source is cut, the same outlines, names and numbers come out of it, and the same fault.

use std::fs;
use std::io::{self, Read};
use std::path::Path;

use robequarry_checks::random::Random;
use robequarry_program::input::{Nothing, Pieces};

/// So many inputs, each cut in several ways.
const INPUTS: usize = 3000;

/// A source that gives as many bytes at a time as chance has it.
struct Cut<'a>(&'a [u8], Random, usize);

impl Read for Cut<'_> {
    fn read(&mut self, buffer: &mut [u8]) -> io::Result<usize> {
        let count = self.1.from_to(1, self.2).min(self.0.len()).min(buffer.len());
        buffer[..count].copy_from_slice(&self.0[..count]);
        self.0 = &self.0[count..];
        Ok(count)
    }
}

/// What is read, in words, up to the first fault.
fn read(source: impl Read) -> (Vec<String>, bool) {
    let mut pieces = Pieces::of(source, None);
    let mut lines = Vec::new();
    for piece in pieces.by_ref() {
        let piece = match piece {
            Ok(piece) => piece,
            Err(fault) => {
                lines.push(fault.to_string());
                break;
            }
        };
        let mut faulty = false;
        for (i, entry) in piece.entries().enumerate() {
            faulty |= entry.is_err();
            lines.push(match entry {
                Ok((outline, name)) => format!("{} {outline:?} {name}", piece.outlines + i),
                Err(fault) => fault.to_string(),
            });
            if faulty {
                break;
            }
        }
        if faulty {
            break;
        }
    }
    (lines, pieces.nothing() == Some(Nothing::Empty))
}

fn seeds() -> Vec<Vec<u8>> {
    let root = Path::new(env!("CARGO_MANIFEST_DIR"));
    let mut seeds = vec![
        fs::read(root.join("specimens.txt")).expect("it ships"),
        b"\xEF\xBB\xBF0 0 1032 # one\n\n# two\n1 1 1032\r\n2 2 10x2\n3 3 1032".to_vec(),
        b" \n\t 7 7 1032\n".to_vec(),
        b"\xFF\xFE0\0 \x000\0 \x001\x000\x003\x002\0\r\0\n\x001\0 \x001\0".to_vec(),
        b"0 0 1032 # Ren\xE9e\r1 1 1032\r\n2 2 1032\n\r3 3".to_vec(),
    ];
    for name in ["h3", "two_and_a_fault", "specimens", "65536_bytes", "65537_bytes", "lone_byte", "wrong_mark"] {
        seeds.push(fs::read(root.join(format!("../../files/{name}.fit"))).expect("it ships"));
    }
    seeds
}

#[test]
fn however_it_is_cut() {
    let (seeds, mut random) = (seeds(), Random::new(42));
    for round in 0..INPUTS {
        let mut bytes = seeds[random.below(seeds.len())].clone();
        for _ in 0..random.below(4) {
            let at = random.below(bytes.len() + 1);
            match random.below(4) {
                0 => bytes.truncate(at),
                1 => bytes.insert(at, b"KO#\n 0123x\0\xFF"[random.below(12)]),
                2 if at < bytes.len() => bytes[at] = random.any() as u8,
                _ => bytes.extend_from_within(at..),
            }
            bytes.truncate(70_000);
        }
        let whole = read(&bytes[..]);
        let most = [3, 50, 5000, 100_000][round % 4];
        assert_eq!(read(Cut(&bytes, Random::new(round as u64), most)), whole, "{bytes:?}");
    }
}
