//! The comparison by counting: every cell that lies between the corners of either polygon is tested against both.

use robequarry::codec::{CROSSING, EQUAL, FIRST_WITHIN, NO_COMMON, SECOND_WITHIN};
use robequarry::limits::LONGEST_LIST;

use super::loose::{is_inside, is_off_chart, leads_once_round};
use crate::case::Polygon;
use crate::reply::{compared, placed};
use crate::{Fields, Point};

/// The lowest and the highest column and row of the corner cells; none where one is off the chart.
fn extent(polygon: &Polygon) -> Option<(Point, Point)> {
    let (mut low, mut high) = (polygon.anchor, polygon.anchor);
    let mut at = polygon.anchor;
    for edge in polygon.edges.chunks_exact(2) {
        let to = |from: u16, by: i16| u16::try_from(i32::from(from) + i32::from(by)).ok();
        at = Point::new(to(at.col, edge[0])?, to(at.row, edge[1])?);
        if is_off_chart(at) {
            return None;
        }
        low = Point::new(low.col.min(at.col), low.row.min(at.row));
        high = Point::new(high.col.max(at.col), high.row.max(at.row));
    }
    Some((low, high))
}

fn checked(polygon: &Polygon) -> Result<(Point, Point), u16> {
    if polygon.edges.len() % 2 == 1 || polygon.edges.len() > LONGEST_LIST {
        return Err(10);
    }
    if is_off_chart(polygon.anchor) {
        return Err(11);
    }
    if !leads_once_round(&polygon.edges) {
        return Err(16);
    }
    extent(polygon).ok_or(11)
}

pub fn compare(first: &Polygon, second: &Polygon) -> Fields {
    let one = match checked(first) {
        Ok(extent) => extent,
        Err(number) => return placed(number, 1),
    };
    let other = match checked(second) {
        Ok(extent) => extent,
        Err(number) => return placed(number, 2),
    };
    let (mut both, mut first_alone, mut second_alone) = (0, 0, 0);
    for row in one.0.row.min(other.0.row)..=one.1.row.max(other.1.row) {
        for col in one.0.col.min(other.0.col)..=one.1.col.max(other.1.col) {
            let cell = Point::new(col, row);
            match (is_inside(first.anchor, &first.edges, cell), is_inside(second.anchor, &second.edges, cell)) {
                (true, true) => both += 1,
                (true, false) => first_alone += 1,
                (false, true) => second_alone += 1,
                (false, false) => {}
            }
        }
    }
    match (first_alone, second_alone, both) {
        (0, 0, _) => compared(EQUAL, 1),
        (0, _, _) => compared(FIRST_WITHIN, 1),
        (_, 0, _) => compared(SECOND_WITHIN, 2),
        (_, _, 0) => compared(NO_COMMON, 0),
        _ => compared(CROSSING, 0),
    }
}
