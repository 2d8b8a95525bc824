use core::error::Error;
use core::fmt;

use crate::codec::{Fields, Word};
use crate::limits::REPLY;
use crate::{raw, Edges, Refusal};

/// How the cells in one hull lie to those in another. Of two hulls on the chart it is exactly one of these.
#[derive(Clone, Copy, Debug, PartialEq, Eq, Hash)]
pub enum Nesting {
    /// Both hold the same cells.
    Equal,
    /// Every cell of the first is one of the second, which has more.
    FirstWithin,
    /// Every cell of the second is one of the first, which has more.
    SecondWithin,
    /// No cell is in both, though the hulls may overlap.
    NoCommonCell,
    /// Some cells are in both, and some of each in it alone.
    Crossing,
}

/// What a comparison answers.
#[derive(Clone, Copy, Debug, PartialEq, Eq)]
pub struct Comparison<'a> {
    pub nesting: Nesting,
    /// The edges of the hull that lies within the other, the first where they are equal; none where neither does.
    pub inner: Option<&'a Edges>,
}

/// A list that a comparison refused.
#[derive(Clone, Copy, Debug, PartialEq, Eq, Hash)]
pub struct RefusedList {
    /// The first list or the second: 1 or 2.
    pub list: u16,
    pub refusal: Refusal,
}

impl Edges {
    /// How the cells in this hull lie to those in another. Both walks must stay on the chart.
    pub fn compare<'a>(&'a self, other: &'a Edges) -> Result<Comparison<'a>, RefusedList> {
        let anchor = |edges: &Edges| (edges.anchor().col, edges.anchor().row);
        let mut reply = [0; REPLY];
        raw::compare(anchor(self), self.numbers(), anchor(other), other.numbers(), &mut reply);
        let fields = Fields::from(reply);
        Refusal::check_list(&reply).map_err(|refusal| RefusedList { list: fields.place, refusal })?;
        let nesting = match Word::of(&reply) {
            Word::Equal => Nesting::Equal,
            Word::FirstWithin => Nesting::FirstWithin,
            Word::SecondWithin => Nesting::SecondWithin,
            Word::NoCommon => Nesting::NoCommonCell,
            Word::Crossing => Nesting::Crossing,
            other => other.foreign("comparison"),
        };
        let inner = match fields.piece {
            0 => None,
            1 => Some(self),
            2 => Some(other),
            list => unreachable!("a comparison has two lists, and none is list {list}"),
        };
        Ok(Comparison { nesting, inner })
    }
}

impl fmt::Display for RefusedList {
    fn fmt(&self, f: &mut fmt::Formatter<'_>) -> fmt::Result {
        write!(f, "list {}: {}", self.list, self.refusal)
    }
}

impl Error for RefusedList {}
