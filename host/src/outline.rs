use alloc::vec::Vec;

use crate::codec::{Fields, Word};
use crate::limits::{LONGEST, MOST_NUMBERS, REPLY};
use crate::{raw, Cell, Corner, Located, Refusal};

/// An outline: a start corner and letters, 0 right, 1 up, 2 left, 3 down. Any bytes make one; [`Outline::test`] judges it.
#[derive(Clone, Debug, PartialEq, Eq, Hash)]
pub struct Outline {
    pub start: Corner,
    pub letters: Vec<u8>,
}

/// What a test answers: the edges of the hull, or why the outline was refused.
pub type Verdict = Result<Edges, Refusal>;

/// What is said of an outline that is taken.
#[derive(Clone, Copy, Debug, PartialEq, Eq, Hash)]
pub struct Taken {
    /// How many edges it has. In a buffer each has two numbers.
    pub edges: usize,
    /// The lowest enclosed cell of the leftmost column, from which the edges lead.
    pub anchor: Cell,
}

impl Taken {
    /// What a reply says that is no refusal.
    pub(crate) fn of(reply: raw::Reply) -> Self {
        let fields = Fields::from(reply);
        Taken { edges: usize::from(fields.place), anchor: Cell::new(fields.col, fields.row) }
    }
}

impl Outline {
    pub fn new(start: Corner, letters: impl Into<Vec<u8>>) -> Self {
        Outline { start, letters: letters.into() }
    }

    /// Tests the outline, with space for every edge.
    pub fn test(&self) -> Verdict {
        let mut buffer = [0; MOST_NUMBERS];
        let taken = self.test_into(&mut buffer)?;
        Ok(Edges::new(taken.anchor, &buffer[..2 * taken.edges]))
    }

    /// Tests the outline and writes its edges into a buffer, columns then rows. What stands after them is unaltered, as is the
    /// whole buffer if the outline is refused.
    pub fn test_into(&self, buffer: &mut [i16]) -> Result<Taken, Refusal> {
        let mut reply = [0; REPLY];
        raw::test(self.start.col, self.start.row, &self.letters, buffer, &mut reply);
        Refusal::check(&reply)?;
        Ok(Taken::of(reply))
    }

    /// The smallest convex block that has every cell of this outline: its border, clockwise from W. An outline that a test takes gets
    /// its own border, and completing twice changes nothing. Refused where the outline meets one of refusals 1 to 6.
    ///
    /// ```
    /// use robequarry::{Cell, Corner, Outline, Refusal};
    ///
    /// let dented = Outline::new(Corner::new(0, 0), [1, 1, 1, 0, 3, 3, 0, 0, 3, 2, 2, 2]);
    /// let completed = dented.complete()?;
    /// assert_eq!(completed, Outline::new(Corner::new(0, 0), [1, 1, 1, 0, 3, 0, 3, 0, 3, 2, 2, 2]));
    /// assert!(completed.test()?.contains(Cell::new(1, 1))?);
    /// assert_eq!(completed.complete(), Ok(completed));
    /// # Ok::<(), Refusal>(())
    /// ```
    pub fn complete(&self) -> Result<Outline, Refusal> {
        let (mut letters, mut reply) = ([0; LONGEST], [0; REPLY]);
        raw::complete(self.start.col, self.start.row, &self.letters, &mut letters, &mut reply);
        Refusal::check(&reply)?;
        let fields = Fields::from(reply);
        Ok(Outline::new(Corner::new(fields.col, fields.row), &letters[..fields.place.into()]))
    }
}

/// The edges of a hull, clockwise from its anchor.
///
/// [`Outline::test`] gives those of a taken outline. [`Edges::new`] takes any list: a query then tests that its edges lead once
/// round clockwise, and answers for the hull of the cells at which they meet, also of those off the chart.
#[derive(Clone, Debug, PartialEq, Eq, Hash)]
pub struct Edges {
    anchor: Cell,
    numbers: Vec<i16>,
}

impl Edges {
    /// Edges from a list of numbers, columns then rows for each edge.
    pub fn new(anchor: Cell, numbers: impl Into<Vec<i16>>) -> Self {
        Edges { anchor, numbers: numbers.into() }
    }

    /// The cell from which the first edge leads, and to which the last one of a list that passes returns.
    pub fn anchor(&self) -> Cell {
        self.anchor
    }

    /// The edges as one list of numbers, columns then rows for each edge.
    pub fn numbers(&self) -> &[i16] {
        &self.numbers
    }

    /// The edges one by one, each as columns and rows.
    pub fn steps(&self) -> impl ExactSizeIterator<Item = (i16, i16)> + '_ {
        self.numbers.chunks_exact(2).map(|edge| (edge[0], edge[1]))
    }

    /// Whether the cell is in the hull: the loose query. For edges of a taken outline these are the cells that it encloses.
    pub fn contains(&self, cell: Cell) -> Result<bool, Refusal> {
        let mut reply = [0; REPLY];
        raw::loose_query(self.anchor.col, self.anchor.row, &self.numbers, cell.col, cell.row, &mut reply);
        Refusal::check_list(&reply)?;
        Ok(match Word::of(&reply) {
            Word::Inside => true,
            Word::Outside => false,
            other => other.foreign("loose query"),
        })
    }

    /// Where a reading lies among the edges: [`Holder::reading`](crate::Holder::reading) of one outline, without a holder. Also refused
    /// where the walk leaves the chart. It asks for the same floating-point environment.
    ///
    /// ```
    /// use robequarry::{Cell, Edges, Located, Refusal};
    ///
    /// let plus = Edges::new(Cell::new(0, 1), [1, 1, 1, -1, -1, -1, -1, 1]);
    /// assert_eq!(plus.reading(1.25, 0.75)?, Located::Inside);
    /// assert_eq!(plus.reading(0.5, 0.5)?, Located::Undecided);
    /// assert_eq!(plus.reading(0.25, 0.25)?, Located::Outside);
    /// assert_eq!(plus.reading(f32::NAN, 0.0), Err(Refusal::Cell));
    /// # Ok::<(), Refusal>(())
    /// ```
    pub fn reading(&self, angle: f32, load: f32) -> Result<Located, Refusal> {
        let mut reply = [0; REPLY];
        raw::loose_reading(self.anchor.col, self.anchor.row, &self.numbers, angle, load, &mut reply);
        Refusal::check_list(&reply)?;
        Ok(Located::of(&reply, "loose reading"))
    }

    /// The outline that has this anchor and these edges, clockwise from the lower left corner of the anchor, where one does.
    pub fn border(&self) -> Result<Outline, Refusal> {
        let mut letters = [0; LONGEST];
        let count = self.border_into(&mut letters)?;
        Ok(Outline::new(Corner::new(self.anchor.col, self.anchor.row), &letters[..count]))
    }

    /// Writes that outline's letters into a buffer, and says how many they are. What stands after them is unaltered, as is the
    /// whole buffer if there is no such outline.
    pub fn border_into(&self, letters: &mut [u8]) -> Result<usize, Refusal> {
        let mut reply = [0; REPLY];
        raw::border(self.anchor.col, self.anchor.row, &self.numbers, letters, &mut reply);
        Refusal::check_list(&reply)?;
        let [_, _, count, ..] = reply;
        Ok(usize::from(count))
    }
}
