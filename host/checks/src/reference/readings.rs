//! Readings between cells (contract 7.10), in whole multiples of 2^-149. No float of the machine is used.

use robequarry::codec::{INSIDE, OUTSIDE, UNDECIDED};
use robequarry::limits::LAST_CELL;
use robequarry::Reading;

use super::edges::{steps, Step};
use super::wide::Wide;
use super::{calls, compare};
use crate::reply::{numbered, said};
use crate::{case, Fields, Outline, Point};

/// One, 1/32 and 1/64 are 2 to the power of these, in units.
const ONE: u32 = 149;
pub const THIRTY_SECOND: u32 = 144;
pub const SIXTY_FOURTH: u32 = 143;

/// Binary digits that a float of 32 bits keeps.
const KEPT: u32 = 24;

/// A finite number of 32 bits in units; none for what is infinite or no number.
pub fn value(pattern: u32) -> Option<Wide> {
    let (exponent, digits) = (pattern >> 23 & 0xff, i64::from(pattern & 0x7f_ffff));
    let size = match exponent {
        0xff => return None,
        0 => Wide::from(digits),
        _ => Wide::from(digits | 1 << 23).times_power_of_two(exponent - 1),
    };
    Some(if pattern >> 31 == 1 { -size } else { size })
}

/// A whole number in units.
pub fn whole(n: i64) -> Wide {
    Wide::from(n).times_power_of_two(ONE)
}

/// The value with at most 24 binary digits that is nearest to `exact`, of two the one whose last kept digit is 0.
pub fn rounded(exact: Wide) -> Wide {
    let dropped = exact.digits().saturating_sub(KEPT);
    if dropped == 0 {
        return exact;
    }
    let size = exact.size();
    let (low, place) = (size.without_lowest(dropped), Wide::power_of_two(dropped));
    let rest = size - low;
    let half = Wide::power_of_two(dropped - 1);
    let up = rest > half || rest == half && low.digit(dropped);
    let nearest = if up { low + place } else { low };
    if exact.is_negative() {
        -nearest
    } else {
        nearest
    }
}

/// An edge, and the corner cell that it leaves.
#[derive(Clone, Copy, Debug)]
pub struct Edge {
    pub step: (i64, i64),
    pub from: (i64, i64),
}

/// The reading's two numbers, in units.
pub type Values = (Wide, Wide);

impl Edge {
    /// The exact side value, in units.
    pub fn exact(self, (x, y): Values) -> Wide {
        (x - whole(self.from.0)) * self.step.1 - (y - whole(self.from.1)) * self.step.0
    }

    /// The computed one: the same steps, each rounded.
    pub fn computed(self, (x, y): Values) -> Wide {
        let across = rounded(rounded(x - whole(self.from.0)) * self.step.1);
        let up = rounded(rounded(y - whole(self.from.1)) * self.step.0);
        rounded(across - up)
    }
}

/// The polygon of an anchor and edges: its edges, and the corner cells met.
pub struct Polygon {
    pub edges: Vec<Edge>,
    pub met: Vec<(i64, i64)>,
}

impl Polygon {
    pub fn new(anchor: Point, steps: impl IntoIterator<Item = Step>) -> Self {
        let mut from = (i64::from(anchor.col), i64::from(anchor.row));
        let (mut edges, mut met) = (Vec::new(), vec![from]);
        for (cols, rows) in steps {
            let step = (i64::from(cols), i64::from(rows));
            edges.push(Edge { step, from });
            from = (from.0 + step.0, from.1 + step.1);
            met.push(from);
        }
        Polygon { edges, met }
    }

    /// That of an outline, if it is taken.
    pub fn of(outline: &Outline) -> Option<Self> {
        let tested = calls::test(outline.start, &outline.letters);
        let anchor = Point::new(tested.reply.col, tested.reply.row);
        (tested.reply.number == 0).then(|| Polygon::new(anchor, tested.edges))
    }

    /// Within the extreme columns and rows, exactly.
    pub fn spans(&self, (x, y): Values) -> bool {
        let between = |numbers: Vec<i64>, v: Wide| {
            let (lowest, highest) = (numbers.iter().min().expect("the anchor is met"), numbers.iter().max());
            whole(*lowest) <= v && v <= whole(*highest.expect("the anchor is met"))
        };
        between(self.met.iter().map(|m| m.0).collect(), x) && between(self.met.iter().map(|m| m.1).collect(), y)
    }

    /// Within the extremes, and no exact side value is below 0.
    pub fn is_exactly_inside(&self, values: Values) -> bool {
        self.spans(values) && self.edges.iter().all(|edge| !edge.exact(values).is_negative())
    }

    /// The word for a reading that is not refused, by the computed side values.
    pub fn word(&self, values: Values) -> u16 {
        let bound = Wide::power_of_two(SIXTY_FOURTH);
        let mut computed = self.edges.iter().map(|edge| edge.computed(values));
        if !self.spans(values) || computed.clone().any(|v| v <= -bound) {
            OUTSIDE
        } else if computed.any(|v| v < bound) {
            UNDECIDED
        } else {
            INSIDE
        }
    }
}

/// The reading's values; none if it meets refusal 11.
pub fn values(reading: Reading) -> Option<Values> {
    let number = |pattern| value(pattern).filter(|&v| Wide::ZERO <= v && v <= whole(i64::from(LAST_CELL)));
    let (angle, load) = reading.bits();
    Some((number(angle)?, number(load)?))
}

/// What is said of a reading with the edges of a taken outline.
pub fn located(polygon: &Polygon, reading: Reading) -> Fields {
    match values(reading) {
        None => numbered(11),
        Some(values) => said(polygon.word(values)),
    }
}

/// The loose reading (contract 6.7): what refuses a list of a comparison refuses it, too.
pub fn loose_reading(anchor: Point, list: &[i16], reading: Reading) -> Fields {
    match compare::refusal(&case::Polygon { anchor, edges: list.to_vec() }) {
        Some(number) => numbered(number),
        None => located(&Polygon::new(anchor, steps(list)), reading),
    }
}

/// The first statement of the contract about the answer to a reading that does not hold; none if all do.
pub fn broken_claim(polygon: &Polygon, values: Values, word: u16) -> Option<&'static str> {
    let (bound, twice) = (Wide::power_of_two(SIXTY_FOURTH), Wide::power_of_two(THIRTY_SECOND));
    let exact: Vec<Wide> = polygon.edges.iter().map(|edge| edge.exact(values)).collect();
    let computed: Vec<Wide> = polygon.edges.iter().map(|edge| edge.computed(values)).collect();
    let inside = polygon.is_exactly_inside(values);
    let open = polygon.spans(values) && computed.iter().all(|&v| v > -bound) && computed.iter().any(|&v| v < bound);
    let clear = exact.iter().all(|&v| v >= twice) || exact.iter().any(|&v| v <= -twice);
    let claims = [
        ("rounding moves a side value by less than 1/64", {
            computed.iter().zip(&exact).all(|(&one, &other)| (one - other).size() < bound)
        }),
        ("what is said to be inside is exactly inside", word != INSIDE || inside),
        ("what is said to be outside is not exactly inside", word != OUTSIDE || !inside),
        ("between the extremes undecided is said where the least computed value is between -1/64 and 1/64, and nowhere else", (word == UNDECIDED) == open),
        ("where the least exact value is 1/32 or more, or -1/32 or less, a reading is decided", word != UNDECIDED || !clear),
    ];
    claims.into_iter().find(|(_, holds)| !holds).map(|(claim, _)| claim)
}
