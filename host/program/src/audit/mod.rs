//! What was said of outlines then, held to what is said now, and edges from the field held to the outlines they are said to come from.

mod account;
mod cells;
mod csv;
mod now;
mod then;

use robequarry::{Outline, Refusal};

use crate::story::Rows;
use crate::walk::Point;
pub use account::Account;
pub use now::{Now, Outlines};
pub use then::{open, Line};

/// How an account from then stands to now.
#[derive(Debug, Default, PartialEq)]
pub struct Finding {
    /// Cells in the edges or rows from then that are not marked, from the lowest row up: the hazard.
    pub let_in: Vec<Point>,
    /// Marked cells that these leave out.
    pub left_out: Vec<Point>,
    /// Whether these cells differ by rows, and not by edges.
    pub by_rows: bool,
    /// Why the list of edges from then answers for no cell.
    pub list_refused: Option<Refusal>,
    /// The verdict is another: taken or refused, or by another number.
    pub verdict: bool,
    /// The verdict is the same, and this field of it is another.
    pub field: Option<&'static str>,
}

impl Finding {
    pub fn agrees(&self) -> bool {
        *self == Finding::default()
    }

    /// The kind in a word, the worst first.
    pub fn word(&self) -> &'static str {
        match self {
            Finding { let_in, .. } if !let_in.is_empty() => "unsafe",
            Finding { list_refused: Some(_), .. } => "edges refused",
            Finding { left_out, .. } if !left_out.is_empty() => "cells left out",
            Finding { verdict: true, .. } => "verdict",
            Finding { field: Some(_), .. } => "field",
            _ => "agrees",
        }
    }

    /// Compares an account with what is said now, its edges and its rows. `marked` are the cells of the outline, where that is there.
    pub fn of(then: &Account, now: &Account, marked: Option<&Rows>) -> Self {
        let mut finding = Finding::of_edges(then, now, marked);
        let Some(rows) = then.rows.as_ref().filter(|_| finding.let_in.is_empty()) else {
            return finding;
        };
        let marked = match (marked, &now.edges) {
            (Some(marked), _) => cells::of_rows(marked),
            (None, Some(edges)) => cells::inside(edges).unwrap_or_default(),
            (None, None) => return finding,
        };
        let (let_in, left_out) = cells::apart(&cells::of_rows(rows), &marked);
        if !let_in.is_empty() || finding.left_out.is_empty() && !left_out.is_empty() {
            (finding.let_in, finding.left_out, finding.by_rows) = (let_in, left_out, true);
        }
        finding
    }

    fn of_edges(then: &Account, now: &Account, marked: Option<&Rows>) -> Self {
        let verdict = then.number != now.number;
        let field = if verdict { None } else { then.other_field(now) };
        let mut finding = Finding { verdict, field, ..Finding::default() };
        let Some(edges) = &then.edges else {
            return finding;
        };
        // The cells in the edges of a taken outline are those that it encloses: that is proved, and nothing need be counted.
        if now.edges.as_ref() == Some(edges) {
            return finding;
        }
        match (cells::inside(edges), marked, &now.edges) {
            (Err(refusal), ..) => finding.list_refused = Some(refusal),
            (Ok(inside), Some(marked), _) => {
                (finding.let_in, finding.left_out) = cells::apart(&inside, &cells::of_rows(marked));
            }
            (Ok(inside), None, Some(now)) => {
                let now = cells::inside(now).unwrap_or_default();
                (finding.let_in, finding.left_out) = cells::apart(&inside, &now);
            }
            // Another engine refused the outline, which is not here.
            (Ok(_), None, None) => {}
        }
        finding
    }
}

/// The cells that an outline encloses: none where its letters go round no block.
pub fn marked(outline: &Outline, number: u16) -> Rows {
    match number {
        0 => crate::engine::rows(outline).expect("what a test takes a holder takes"),
        8 | 9 => crate::story::Story::of(outline).rows,
        _ => Rows::new(),
    }
}

#[cfg(test)]
mod tests {
    use super::*;
    use robequarry::Edges;

    fn found(edges: &str, outline: &str) -> Finding {
        let (edges, outline): (Edges, Outline) = (edges.parse().unwrap(), outline.parse().unwrap());
        let now = Account::of(&outline.test());
        Finding::of(&Account::taken(edges), &now, Some(&marked(&outline, now.number)))
    }

    const PLUS: &str = "0 1 101030323212";
    const DENTED: &str = "0 0 111033003222";

    #[test]
    fn edges_from_the_field() {
        assert!(found("0 1  1 1  1 -1  -1 -1  -1 1", PLUS).agrees());
        // The hull of the dented block: the missing cell is let in.
        let hazard = found("0 0  0 2  2 -2  -2 0", DENTED);
        assert_eq!((&hazard.let_in[..], &hazard.left_out[..], hazard.verdict), (&[(1, 1)][..], &[][..], true));
        assert_eq!(hazard.word(), "unsafe");
        // One cell alone in place of a plus.
        let small = found("1 1", PLUS);
        assert_eq!((small.let_in.len(), &small.left_out[..]), (0, &[(1, 0), (0, 1), (2, 1), (1, 2)][..]));
        // A whole square in its place.
        assert_eq!(found("0 0  0 2  2 0  0 -2  -2 0", PLUS).let_in, [(0, 0), (2, 0), (0, 2), (2, 2)]);
        assert_eq!(found("0 1  1 1  -1 -1  1 -1  -1 1", PLUS).list_refused, Some(Refusal::Directions));
        // Letters that go round no block mark no cell.
        assert_eq!(found("0 0", "0 1 1033").let_in, [(0, 0)]);
        // Edges that leave the chart let in cells of the chart alone.
        assert_eq!(found("254 254  5 0  -5 0", "254 254 1032").let_in, []);
    }

    /// A query answers by rows, so they are held to the outline by themselves.
    #[test]
    fn rows_from_the_field() {
        let outline: Outline = PLUS.parse().unwrap();
        let now = Account::of(&outline.test());
        let found = |rows: &[(i32, (i32, i32))]| {
            let rows = rows.iter().map(|&(row, run)| (row, vec![run])).collect();
            let then = Account { rows: Some(rows), ..Account::default() };
            Finding::of(&then, &now, Some(&marked(&outline, now.number)))
        };
        assert!(found(&[(0, (1, 1)), (1, (0, 2)), (2, (1, 1))]).agrees());
        let wide = found(&[(0, (1, 1)), (1, (0, 3)), (2, (1, 1))]);
        assert_eq!((wide.word(), &wide.let_in[..], wide.by_rows), ("unsafe", &[(3, 1)][..], true));
        assert_eq!(found(&[(0, (1, 1))]).word(), "cells left out");
        assert_eq!(found(&[]).left_out.len(), 5);
        // Right edges do not excuse wrong rows.
        let both = Account { rows: Some(Rows::from([(7, vec![(7, 7)])])), ..now.clone() };
        assert_eq!(Finding::of(&both, &now, Some(&marked(&outline, 0))).let_in, [(7, 7)]);
    }

    #[test]
    fn verdicts_and_fields() {
        let account = |outline: &str| Account::of(&outline.parse::<Outline>().unwrap().test());
        let (taken, dented) = (account(PLUS), account(DENTED));
        assert!(Finding::of(&dented, &dented, None).agrees());
        assert!(Finding::of(&taken, &dented, None).verdict);
        let elsewhere = Account { place: Some(5), ..dented.clone() };
        assert_eq!(Finding::of(&elsewhere, &dented, None).field, Some("place"));
        let silent = Account { place: None, piece: None, length: None, cell: None, ..dented.clone() };
        assert!(Finding::of(&silent, &dented, None).agrees());
    }
}
