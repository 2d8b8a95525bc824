//! Whole numbers of 320 bits with a sign, for the exact values of readings: in units of 2^-149 a finite float has at most 277 bits, and a
//! side value on the chart fewer than 168.

use std::cmp::Ordering;
use std::ops::{Add, Mul, Neg, Sub};

const LIMBS: usize = 5;
const BITS: u32 = 64 * LIMBS as u32;

/// A size, lowest 64 bits first, and a sign. 0 has none.
#[derive(Clone, Copy, Debug, Default, PartialEq, Eq)]
pub struct Wide {
    negative: bool,
    size: [u64; LIMBS],
}

impl Wide {
    pub const ZERO: Wide = Wide { negative: false, size: [0; LIMBS] };

    fn new(negative: bool, size: [u64; LIMBS]) -> Self {
        Wide { negative: negative && size != [0; LIMBS], size }
    }

    /// 2 to the power of `exponent`.
    pub fn power_of_two(exponent: u32) -> Self {
        Wide::from(1).times_power_of_two(exponent)
    }

    /// The number with its sign, times 2 to the power of `exponent`.
    pub fn times_power_of_two(self, exponent: u32) -> Self {
        assert!(self.digits() + exponent <= BITS, "no value is as long");
        let (limbs, bits) = ((exponent / 64) as usize, exponent % 64);
        let limb = |i: Option<usize>| i.map_or(0, |i| u128::from(self.size[i]));
        let shifted = |i: usize| {
            let two = limb(i.checked_sub(limbs)) << 64 | limb(i.checked_sub(limbs + 1));
            (two << bits >> 64) as u64
        };
        Wide::new(self.negative, std::array::from_fn(shifted))
    }

    /// How many binary digits the size has.
    pub fn digits(self) -> u32 {
        let last = self.size.iter().rposition(|&limb| limb != 0);
        last.map_or(0, |i| 64 * (i as u32 + 1) - self.size[i].leading_zeros())
    }

    /// The binary digit of the size that counts 2 to the power of `at`.
    pub fn digit(self, at: u32) -> bool {
        self.size[(at / 64) as usize] >> (at % 64) & 1 == 1
    }

    /// The number without the lowest `count` binary digits of its size, which become 0.
    pub fn without_lowest(self, count: u32) -> Self {
        let kept = |i: usize| match count.saturating_sub(64 * i as u32) {
            dropped @ 0..64 => self.size[i] >> dropped << dropped,
            _ => 0,
        };
        Wide::new(self.negative, std::array::from_fn(kept))
    }

    pub fn is_negative(self) -> bool {
        self.negative
    }

    /// The number without its sign.
    pub fn size(self) -> Self {
        Wide::new(false, self.size)
    }
}

/// The sum of two sizes.
fn sum(a: [u64; LIMBS], b: [u64; LIMBS]) -> [u64; LIMBS] {
    let mut carry = 0;
    let size = std::array::from_fn(|i| {
        let sum = u128::from(a[i]) + u128::from(b[i]) + carry;
        carry = sum >> 64;
        sum as u64
    });
    assert!(carry == 0, "no value is as long");
    size
}

/// The difference of two sizes, the first not the smaller.
fn difference(a: [u64; LIMBS], b: [u64; LIMBS]) -> [u64; LIMBS] {
    let mut borrow = false;
    std::array::from_fn(|i| {
        let (first, one) = a[i].overflowing_sub(b[i]);
        let (second, two) = first.overflowing_sub(u64::from(borrow));
        borrow = one || two;
        second
    })
}

fn order(a: [u64; LIMBS], b: [u64; LIMBS]) -> Ordering {
    a.iter().rev().cmp(b.iter().rev())
}

impl From<i64> for Wide {
    fn from(n: i64) -> Self {
        Wide::new(n < 0, [n.unsigned_abs(), 0, 0, 0, 0])
    }
}

impl Neg for Wide {
    type Output = Wide;

    fn neg(self) -> Wide {
        Wide::new(!self.negative, self.size)
    }
}

impl Add for Wide {
    type Output = Wide;

    fn add(self, other: Wide) -> Wide {
        if self.negative == other.negative {
            return Wide::new(self.negative, sum(self.size, other.size));
        }
        match order(self.size, other.size) {
            Ordering::Less => Wide::new(other.negative, difference(other.size, self.size)),
            _ => Wide::new(self.negative, difference(self.size, other.size)),
        }
    }
}

impl Sub for Wide {
    type Output = Wide;

    fn sub(self, other: Wide) -> Wide {
        self + -other
    }
}

/// A product by a small number.
impl Mul<i64> for Wide {
    type Output = Wide;

    fn mul(self, factor: i64) -> Wide {
        let mut carry = 0;
        let size = self.size.map(|limb| {
            let product = u128::from(limb) * u128::from(factor.unsigned_abs()) + carry;
            carry = product >> 64;
            product as u64
        });
        assert!(carry == 0, "no value is as long");
        Wide::new(self.negative != (factor < 0), size)
    }
}

impl Ord for Wide {
    fn cmp(&self, other: &Wide) -> Ordering {
        match (self.negative, other.negative) {
            (false, false) => order(self.size, other.size),
            (true, true) => order(other.size, self.size),
            (false, true) => Ordering::Greater,
            (true, false) => Ordering::Less,
        }
    }
}

impl PartialOrd for Wide {
    fn partial_cmp(&self, other: &Wide) -> Option<Ordering> {
        Some(self.cmp(other))
    }
}

#[cfg(test)]
mod tests {
    use super::*;
    use crate::random::Random;

    fn wide(n: i128) -> Wide {
        let size = n.unsigned_abs();
        Wide::new(n < 0, [size as u64, (size >> 64) as u64, 0, 0, 0])
    }

    /// A number of up to 126 bits, of any length.
    fn any(random: &mut Random) -> i128 {
        let bits = (u128::from(random.any()) << 64 | u128::from(random.any())) >> random.from_to(2, 127);
        if random.once_in(2) {
            -(bits as i128)
        } else {
            bits as i128
        }
    }

    #[test]
    fn sums_and_order_are_those_of_the_machine() {
        let random = &mut Random::new(1);
        for _ in 0..100_000 {
            let (a, b) = (any(random), any(random));
            assert_eq!(wide(a) + wide(b), wide(a + b), "{a} {b}");
            assert_eq!(wide(a) - wide(b), wide(a - b), "{a} {b}");
            assert_eq!(wide(a).cmp(&wide(b)), a.cmp(&b), "{a} {b}");
            assert_eq!(wide(a).digits(), 128 - a.unsigned_abs().leading_zeros(), "{a}");
        }
    }

    #[test]
    fn products_are_those_of_the_machine() {
        let random = &mut Random::new(2);
        for _ in 0..100_000 {
            let (a, b) = (any(random) >> 40, random.any() as i64 >> 26);
            assert_eq!(wide(a) * b, wide(a * i128::from(b)), "{a} {b}");
            let exponent = random.from_to(0, 60) as u32;
            let high = a >> 64;
            assert_eq!(wide(high).times_power_of_two(exponent), wide(high << exponent), "{high} {exponent}");
            assert_eq!(wide(a).without_lowest(exponent).size(), wide((a.unsigned_abs() >> exponent << exponent) as i128));
        }
    }
    #[test]
    fn powers_of_two_are_doublings() {
        let random = &mut Random::new(3);
        for _ in 0..20_000 {
            let (a, low) = (wide(any(random)), wide(any(random).abs()));
            let exponent = random.from_to(low.digits() as usize, 190) as u32;
            let doubled = (0..exponent).fold(a, |sum, _| sum + sum);
            assert_eq!(a.times_power_of_two(exponent), doubled, "{a:?} {exponent}");
            assert_eq!(doubled.digits(), if a == Wide::ZERO { 0 } else { a.digits() + exponent });
            assert_eq!((doubled.size() + low).without_lowest(exponent), doubled.size(), "{a:?} {low:?} {exponent}");
        }
    }
}
