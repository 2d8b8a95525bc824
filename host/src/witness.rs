use crate::codec::{Fields, Word};
use crate::limits::{REPLY, WITNESS_NUMBERS};
use crate::{raw, Cell, Outline, Refusal};

/// Why an outline is not convex: three of its cells, and a cell in their triangle that it does not have.
///
/// Anyone can check it on the chart: the outline has the three cells, it does not have the missing one, and the triangle
/// [holds](Witness::holds) that one.
#[derive(Clone, Copy, Debug, PartialEq, Eq, Hash)]
pub struct Witness {
    /// The lowest missing cell, the leftmost of its row.
    pub missing: Cell,
    /// Three cells of the outline. Two of them may be the same, and they may lie in a line.
    pub cells: [Cell; 3],
}

impl Witness {
    /// Whether the missing cell lies in the triangle of the three cells, its sides included: by their columns and rows alone, without
    /// the library.
    ///
    /// ```
    /// use robequarry::{Cell, Witness};
    ///
    /// let cells = [Cell::new(2, 0), Cell::new(0, 2), Cell::new(0, 1)];
    /// assert!(Witness { missing: Cell::new(1, 1), cells }.holds());
    /// assert!(!Witness { missing: Cell::new(1, 2), cells }.holds());
    /// ```
    pub fn holds(&self) -> bool {
        let [a, b, c] = self.cells;
        let x = self.missing;
        let sides = [side(a, b, x), side(b, c, x), side(c, a, x)];
        let one_way = sides.iter().all(|&side| side >= 0) || sides.iter().all(|&side| side <= 0);
        // Of a flat triangle the sides have no other say than that the cell is on its line.
        one_way && between([a.col, b.col, c.col], x.col) && between([a.row, b.row, c.row], x.row)
    }
}

/// Above 0 if x is left of the way from p to q, 0 if on its line, below 0 if right of it.
fn side(p: Cell, q: Cell, x: Cell) -> i64 {
    let from = |a: u16, b: u16| i64::from(b) - i64::from(a);
    from(p.col, q.col) * from(p.row, x.row) - from(p.row, q.row) * from(p.col, x.col)
}

fn between(numbers: [u16; 3], x: u16) -> bool {
    numbers.iter().any(|&n| n <= x) && numbers.iter().any(|&n| n >= x)
}

impl Outline {
    /// Why the outline is not convex; none where no cell is missing, so that a test takes it. Refused where the outline meets one of
    /// refusals 1 to 6.
    ///
    /// ```
    /// use robequarry::{Cell, Corner, Outline, Refusal, Witness};
    ///
    /// let dented = Outline::new(Corner::new(0, 0), [1, 1, 1, 0, 3, 3, 0, 0, 3, 2, 2, 2]);
    /// let Some(witness) = dented.witness()? else { panic!("this block has a dent") };
    /// assert_eq!(witness.missing, Cell::new(1, 1));
    /// assert_eq!(witness.cells, [Cell::new(2, 0), Cell::new(0, 2), Cell::new(0, 1)]);
    /// assert!(witness.holds());
    ///
    /// let plus = Outline::new(Corner::new(0, 1), [1, 0, 1, 0, 3, 0, 3, 2, 3, 2, 1, 2]);
    /// assert_eq!(plus.witness()?, None);
    /// # Ok::<(), Refusal>(())
    /// ```
    pub fn witness(&self) -> Result<Option<Witness>, Refusal> {
        let (mut numbers, mut reply) = ([0; WITNESS_NUMBERS], [0; REPLY]);
        raw::witness(self.start.col, self.start.row, &self.letters, &mut numbers, &mut reply);
        Refusal::check(&reply)?;
        let Fields { col, row, .. } = reply.into();
        match Word::of(&reply) {
            Word::NoWord => {}
            Word::None => return Ok(None),
            other => other.foreign("witness"),
        }
        let [a, b, c, d, e, f] = numbers;
        Ok(Some(Witness { missing: Cell::new(col, row), cells: [Cell::new(a, b), Cell::new(c, d), Cell::new(e, f)] }))
    }
}
