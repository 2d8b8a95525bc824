//! Where a reading lies among edges, by the machine's own floats.

use robequarry::codec::{INSIDE, OUTSIDE, UNDECIDED};
use robequarry::limits::LAST_CELL;
use robequarry::Reading;

use crate::reply::{numbered, said};
use crate::{Fields, Point};

const SIXTY_FOURTH: f32 = 1.0 / 64.0;

pub fn located(anchor: Point, edges: &[i16], reading: Reading) -> Fields {
    let Reading { angle, load } = reading;
    if is_off_chart(angle) || is_off_chart(load) {
        return numbered(11);
    }
    said(word(anchor, edges, angle, load))
}

/// No number of the chart. One that is none compares with nothing.
fn is_off_chart(number: f32) -> bool {
    !(0.0..=f32::from(LAST_CELL)).contains(&number)
}

/// One walk along the edges: the computed side values, and the extremes of the corner cells.
#[inline]
fn word(anchor: Point, edges: &[i16], angle: f32, load: f32) -> u16 {
    let (mut x, mut y) = (f32::from(anchor.col), f32::from(anchor.row));
    let (mut left, mut right, mut bottom, mut top) = (x, x, y, y);
    let mut near = false;
    for edge in edges.chunks_exact(2) {
        let (dx, dy) = (f32::from(edge[0]), f32::from(edge[1]));
        let side = dy * (angle - x) - dx * (load - y);
        if side <= -SIXTY_FOURTH {
            return OUTSIDE;
        }
        near |= side < SIXTY_FOURTH;
        x += dx;
        y += dy;
        // All are numbers, so that a comparison is enough.
        left = if x < left { x } else { left };
        right = if x > right { x } else { right };
        bottom = if y < bottom { y } else { bottom };
        top = if y > top { y } else { top };
    }
    match left <= angle && angle <= right && bottom <= load && load <= top {
        false => OUTSIDE,
        true if near => UNDECIDED,
        true => INSIDE,
    }
}
