//! Inputs for the targets: what ships, changed at random places.

/// Texts with names, faults, several kinds of line ends and characters that are not ASCII.
pub const TEXT: &[&[u8]] = &[
    include_bytes!("../../program/specimens.txt"),
    b"0 1 101030323212  # a plus\n256 0 7777\r\n\n# name\n3 4",
    b"\xEF\xBB\xBF0 0 1032 # Gr\xC3\xB6\xC3\x9Fe \x1b[31m\n65535 65535 3333\n",
    b"0 0 10x2\n0 -1 1032\n7\n0 0 1 2 3\n65536 0 1",
    b"",
];

pub const FITTING: &[&[u8]] = &[
    include_bytes!("../../../files/two_and_a_fault.fit"),
    include_bytes!("../../../files/cut_in_letters.fit"),
    include_bytes!("../../../files/h3.fit"),
    include_bytes!("../../../files/specimens.fit"),
    include_bytes!("../../../files/258_letters.fit"),
    b"KO\0\0\x04\0\x01\0\x03\x02KO\xFF\xFF\xFF\xFF",
    b"",
];

pub const EDGES: &[&[u8]] =
    &[b"0 1  1 1  1 -1  -1 -1  -1 1  # controller 7", b"0 0 32767 -32768 0", b"254 254", b"0 0 x", b"# none"];

/// Bytes that mean something to one of the parsers.
const TELLING: &[u8] = b"KO# \n\r\t0123456789-+\0\xFF\xEF\x80";

/// Random inputs, the same from the same seed.
pub struct Inputs<'a> {
    state: u64,
    seeds: &'a [&'a [u8]],
}

impl<'a> Inputs<'a> {
    pub fn new(seed: u64, seeds: &'a [&'a [u8]]) -> Self {
        Inputs { state: seed, seeds }
    }

    /// A number below an end: splitmix64.
    fn below(&mut self, end: usize) -> usize {
        self.state = self.state.wrapping_add(0x9e37_79b9_7f4a_7c15);
        let mut z = self.state;
        z = (z ^ z >> 30).wrapping_mul(0xbf58_476d_1ce4_e5b9);
        z = (z ^ z >> 27).wrapping_mul(0x94d0_49bb_1331_11eb);
        ((z ^ z >> 31) % end.max(1) as u64) as usize
    }

    pub fn next(&mut self) -> Vec<u8> {
        let mut bytes = self.seeds[self.below(self.seeds.len())].to_vec();
        for _ in 0..=self.below(6) {
            self.change(&mut bytes);
        }
        bytes
    }

    fn byte(&mut self) -> u8 {
        match self.below(2) {
            0 => TELLING[self.below(TELLING.len())],
            _ => self.below(256) as u8,
        }
    }

    /// One change: a byte set, put in or left out, a part cut off, repeated, left out or taken from another input.
    fn change(&mut self, bytes: &mut Vec<u8>) {
        let at = self.below(bytes.len() + 1);
        let to = at + self.below(bytes.len() + 1 - at);
        match self.below(8) {
            0 | 1 if at < bytes.len() => bytes[at] = self.byte(),
            2 => bytes.insert(at, self.byte()),
            3 if at < bytes.len() => drop(bytes.remove(at)),
            4 => bytes.truncate(at),
            5 => bytes.extend_from_within(at..to),
            6 => drop(bytes.drain(at..to)),
            _ => {
                let other = self.seeds[self.below(self.seeds.len())];
                let from = self.below(other.len() + 1);
                bytes.splice(at..to, other[from..].iter().copied());
            }
        }
    }
}
