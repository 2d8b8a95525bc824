//! A drawing on its window of the chart. What has a place on the chart is written in its columns and rows, under one transformation;
//! labels and marks of a fixed size are written in pixels.

use super::drawing::{Drawing, Fault, Kind};
use super::frame::Frame;
use super::labels::Labels;
use super::svg::{px, Svg};
use crate::walk::Point;

/// Pixels of lines, where cells are large enough; else lines are thinner.
pub const PIECE: f64 = 4.0;
pub const EDGE: f64 = 2.0;
pub const FACTOR: f64 = 3.0;

/// From this side of a cell on, lines have their full width.
const WIDE_CELL: f64 = 9.0;

/// The dashes that tell pieces 1 to 4 apart without colour, in pixels.
pub const DASHES: [&[f64]; 4] = [&[], &[11.0, 4.0], &[3.5, 3.0], &[12.0, 3.0, 3.0, 3.0]];

/// Of a chord and of the gap of an open walk.
pub const CHORD_DASHES: &[f64] = &[7.0, 4.0];

/// Of the triangle of three cells.
pub const TRIANGLE_DASHES: &[f64] = &[2.0, 3.0];

/// Where a piece's number stands: away from the block, to the upper left, upper right, lower right and lower left.
const AWAY: [(f64, f64); 4] = [(-1.0, -1.0), (1.0, -1.0), (1.0, 1.0), (-1.0, 1.0)];

/// Where the names of W, N, E and S stand.
const BESIDE: [(f64, f64); 4] = [(-1.0, 0.0), (0.0, -1.0), (1.0, 0.0), (0.0, 1.0)];

/// Grid lines closer than this are left out.
const LEAST_GRID: f64 = 5.0;

pub fn plot(svg: &mut Svg, drawing: &Drawing, frame: &Frame, axes: bool) {
    chart(svg, frame);
    svg.open("g", &[("class", &"plot"), ("transform", &transform(frame))]);
    cells(svg, drawing);
    grid(svg, frame);
    lines(svg, drawing, frame);
    svg.close();
    marks(svg, drawing, frame);
    labels(svg, drawing, frame);
    numbers(svg, frame);
    if axes {
        names_of_axes(svg, frame, drawing.plane.axes());
    }
}

/// From columns and rows to pixels.
fn transform(frame: &Frame) -> String {
    let (x, y) = frame.at((0.0, 0.0));
    format!("translate({} {}) scale({} -{})", px(x), px(y), px(frame.scale), px(frame.scale))
}

/// The window: what is off the chart, and the chart.
fn chart(svg: &mut Svg, frame: &Frame) {
    let [left, right, bottom, top] = frame.chart();
    let mut rect = |class: &str, from: (f64, f64), to: (f64, f64)| {
        let ((x, y), (right, bottom)) = (frame.at(from), frame.at(to));
        let (w, h) = (px(right - x), px(bottom - y));
        svg.empty("rect", &[("class", &class), ("x", &px(x)), ("y", &px(y)), ("width", &w), ("height", &h)]);
    };
    rect("off", (frame.left, frame.top), (frame.right, frame.bottom));
    rect("chart", (left, top), (right, bottom));
}

fn cells(svg: &mut Svg, drawing: &Drawing) {
    for (row, runs) in &drawing.rows {
        for (first, last) in runs {
            let width = last - first + 1;
            svg.empty("rect", &[("class", &"cells"), ("x", first), ("y", row), ("width", &width), ("height", &1)]);
        }
    }
}

fn grid(svg: &mut Svg, frame: &Frame) {
    let [left, right, bottom, top] = frame.chart();
    let step = [1, 5, 10, 50].into_iter().find(|&step| f64::from(step) * frame.scale >= LEAST_GRID).unwrap_or(50);
    let whole = |low: f64, high: f64| (low.ceil() as i32..=high.floor() as i32).filter(move |n| n % step == 0);
    svg.open("g", &[("stroke-width", &px(1.0 / frame.scale))]);
    for col in whole(left, right) {
        svg.line("grid", (col.into(), bottom), (col.into(), top));
    }
    for row in whole(bottom, top) {
        svg.line("grid", (left, row.into()), (right, row.into()));
    }
    svg.close();
    svg.open("g", &[("stroke-width", &px(2.0 / frame.scale))]);
    for side in [left, right].into_iter().filter(|side| frame.left < *side && *side < frame.right) {
        svg.line("side", (side, bottom), (side, top));
    }
    for side in [bottom, top].into_iter().filter(|side| frame.bottom < *side && *side < frame.top) {
        svg.line("side", (left, side), (right, side));
    }
    svg.close();
}

fn lines(svg: &mut Svg, drawing: &Drawing, frame: &Frame) {
    let corner = |&(col, row): &Point| (f64::from(col), f64::from(row));
    let centre = |&(col, row): &Point| (f64::from(col) + 0.5, f64::from(row) + 0.5);
    let corners = |points: &[Point]| points.iter().map(corner).collect::<Vec<_>>();
    let centres = |points: &[Point]| points.iter().map(centre).collect::<Vec<_>>();

    svg.open("g", &[("stroke-width", &px(1.0 / frame.scale))]);
    let [first, second] = drawing.alone.as_ref().map_or([&[][..]; 2], |[first, second]| [first, second]);
    for (class, cells) in
        [("missing", &drawing.missing[..]), ("added", &drawing.added), ("first", first), ("second", second)]
    {
        for (col, row) in cells {
            svg.empty("rect", &[("class", &class), ("x", col), ("y", row), ("width", &1), ("height", &1)]);
        }
    }
    svg.close();
    stroke(svg, frame, PIECE - 1.0, &[], |svg| {
        if drawing.walk.len() > 1 {
            svg.path("walk", &corners(&drawing.walk));
        }
    });
    for (number, points) in &drawing.pieces {
        stroke(svg, frame, PIECE, DASHES[number - 1], |svg| svg.path(&format!("piece p{number}"), &corners(points)));
    }
    stroke(svg, frame, EDGE, &[], |svg| {
        if !drawing.edges.is_empty() {
            svg.path("edges", &drawing.edges);
        }
    });
    if !drawing.others.is_empty() {
        stroke(svg, frame, EDGE, CHORD_DASHES, |svg| svg.path("others", &drawing.others));
    }
    if let [first, .., last] = drawing.factor[..] {
        stroke(svg, frame, FACTOR, &[], |svg| svg.path("factor", &centres(&drawing.factor)));
        stroke(svg, frame, EDGE, CHORD_DASHES, |svg| svg.path("chord", &centres(&[first, last])));
    }
    if let [first, ..] = drawing.triangle[..] {
        let round = [&drawing.triangle[..], &[first]].concat();
        stroke(svg, frame, EDGE, TRIANGLE_DASHES, |svg| svg.path("triangle", &centres(&round)));
    }
    if let Some(Fault { kind: Kind::Gap(from, to), .. }) = drawing.fault {
        stroke(svg, frame, FACTOR, CHORD_DASHES, |svg| svg.path("gap", &corners(&[from, to])));
    }
}

/// A group of lines of so many pixels, with dashes.
fn stroke(svg: &mut Svg, frame: &Frame, width: f64, dashes: &[f64], draw: impl FnOnce(&mut Svg)) {
    let dashes: Vec<String> = dashes.iter().map(|dash| px(dash / frame.scale)).collect();
    let width = px(width * (frame.scale / WIDE_CELL).clamp(0.4, 1.0) / frame.scale);
    if dashes.is_empty() {
        svg.open("g", &[("stroke-width", &width)]);
    } else {
        svg.open("g", &[("stroke-width", &width), ("stroke-dasharray", &dashes.join(" "))]);
    }
    draw(svg);
    svg.close();
}

/// Marks of a fixed size: arrow heads, the anchor, the start, the named cell and what shows it, the fault.
fn marks(svg: &mut Svg, drawing: &Drawing, frame: &Frame) {
    for pair in drawing.edges.windows(2) {
        let (from, to) = (frame.at(pair[0]), frame.at(pair[1]));
        if (to.0 - from.0).hypot(to.1 - from.1) >= 24.0 {
            arrow(svg, "arrow", from, to, 0.62, 6.0);
        }
    }
    if let Some(start) = drawing.start {
        let (x, y) = frame.corner(start);
        let (x, y) = (px(x - 4.5), px(y - 4.5));
        svg.empty("rect", &[("class", &"start"), ("x", &x), ("y", &y), ("width", &9), ("height", &9)]);
    }
    if let Some(&anchor) = drawing.edges.first() {
        let at = frame.at(anchor);
        svg.open("g", &[("stroke-width", &2)]);
        svg.circle("anchor", at, 6.0);
        svg.close();
        svg.circle("start", at, 2.0);
    }
    for &cell in &drawing.factor {
        if frame.scale > 6.0 {
            svg.circle("point", frame.centre(cell), 3.5);
        }
    }
    for &cell in &drawing.triangle {
        tip(svg, frame.centre(cell));
    }
    if let Some(cell) = drawing.named {
        named(svg, frame.centre(cell), (0.5 * frame.scale).max(6.0));
    }
    match drawing.fault {
        Some(Fault { kind: Kind::Step(from, to), .. }) => step(svg, frame.corner(from), frame.corner(to)),
        Some(Fault { kind: Kind::Corner(corner), .. }) => cross(svg, frame.corner(corner), 7.0),
        Some(Fault { kind: Kind::Gap(end, _), .. }) => cross(svg, frame.corner(end), 7.0),
        None => {}
    }
}

/// A ring at a cell of the triangle.
pub fn tip(svg: &mut Svg, at: (f64, f64)) {
    svg.open("g", &[("stroke-width", &2)]);
    svg.circle("tip", at, 6.5);
    svg.close();
}

/// A cross in a ring round a cell.
pub fn named(svg: &mut Svg, at: (f64, f64), radius: f64) {
    svg.open("g", &[("stroke-width", &2.5)]);
    svg.circle("named", at, radius);
    svg.close();
    cross(svg, at, (0.45 * radius).max(4.0));
}

pub fn cross(svg: &mut Svg, (x, y): (f64, f64), half: f64) {
    svg.open("g", &[("stroke-width", &3)]);
    svg.line("cross", (x - half, y - half), (x + half, y + half));
    svg.line("cross", (x - half, y + half), (x + half, y - half));
    svg.close();
}

/// A step as an arrow that is at least long enough to be seen.
pub fn step(svg: &mut Svg, from: (f64, f64), to: (f64, f64)) {
    let length = (to.0 - from.0).hypot(to.1 - from.1);
    let more = (18.0 / length).max(1.0);
    let to = (from.0 + (to.0 - from.0) * more, from.1 + (to.1 - from.1) * more);
    svg.open("g", &[("stroke-width", &6)]);
    svg.line("fault", from, to);
    svg.close();
    arrow(svg, "head", from, to, 1.0, 11.0);
}

/// An arrow head whose tip stands at a part of the way.
pub fn arrow(svg: &mut Svg, class: &str, from: (f64, f64), to: (f64, f64), part: f64, size: f64) {
    let (dx, dy) = (to.0 - from.0, to.1 - from.1);
    let length = dx.hypot(dy);
    let (ux, uy) = (dx / length, dy / length);
    let tip = (from.0 + dx * part + ux * size / 2.0, from.1 + dy * part + uy * size / 2.0);
    let (bx, by) = (tip.0 - ux * 1.5 * size, tip.1 - uy * 1.5 * size);
    let points = [tip, (bx - uy * 0.7 * size, by + ux * 0.7 * size), (bx + uy * 0.7 * size, by - ux * 0.7 * size)];
    let points: Vec<String> = points.iter().map(|(x, y)| format!("{},{}", px(*x), px(*y))).collect();
    svg.empty("polygon", &[("class", &class), ("points", &points.join(" "))]);
}

/// Names of corners, numbers of pieces and the fault's label, none upon another.
fn labels(svg: &mut Svg, drawing: &Drawing, frame: &Frame) {
    let mut labels = Labels::default();
    for &cell in drawing.missing.iter().filter(|_| frame.scale > 12.0) {
        let (x, y) = frame.centre(cell);
        labels.take(x, y, frame.scale, frame.scale);
    }
    for &cell in &drawing.triangle {
        let (x, y) = frame.centre(cell);
        labels.take(x, y, 15.0, 15.0);
    }
    if let Some(start) = drawing.start {
        let (x, y) = frame.corner(start);
        labels.take(x, y, 9.0, 9.0);
    }
    for ((name, corner), (dx, dy)) in drawing.names.iter().zip(BESIDE) {
        let (x, y) = frame.corner(*corner);
        let (x, y) = (x + 17.0 * dx, y + 15.0 * dy);
        labels.take(x, y, 14.0, 14.0);
        svg.words("name", x, y + 5.0, name);
    }
    if let Some(Fault { kind, label }) = &drawing.fault {
        fault_label(svg, &mut labels, drawing, frame, kind, label);
    }
    for (number, points) in &drawing.pieces {
        if points.len() > 1 {
            number_label(svg, &mut labels, frame, *number, points);
        }
    }
}

/// Beside the fault, in a place that is free of other labels and, if there is one, of cells.
fn fault_label(svg: &mut Svg, labels: &mut Labels, drawing: &Drawing, frame: &Frame, kind: &Kind, label: &str) {
    let (x, y) = match *kind {
        Kind::Corner(corner) => frame.corner(corner),
        Kind::Step(a, b) | Kind::Gap(a, b) => {
            let (a, b) = (frame.corner(a), frame.corner(b));
            ((a.0 + b.0) / 2.0, (a.1 + b.1) / 2.0)
        }
    };
    let width = 7.6 * label.chars().count() as f64;
    let marked = |x: f64, y: f64| {
        let col = ((x - frame.x) / frame.scale + frame.left).floor() as i32;
        let row = (frame.top - (y - frame.y) / frame.scale).floor() as i32;
        drawing.rows.get(&row).is_some_and(|runs| runs.iter().any(|&(a, b)| a <= col && col <= b))
    };
    let free = |&(x, y): &(f64, f64)| {
        let sides = [x - width / 2.0, x, x + width / 2.0];
        let on_paper =
            sides[0] > frame.x && sides[2] < frame.x + frame.width() && y > frame.y && y < frame.y + frame.height();
        on_paper && !sides.iter().any(|&x| marked(x, y - 7.0) || marked(x, y + 7.0)) && labels.free(x, y, width, 14.0)
    };
    let tries = (0..8).flat_map(|far| {
        let (up, beside) = (24.0 + 12.0 * f64::from(far), width / 2.0 + 14.0 + 12.0 * f64::from(far));
        [(0.0, -up), (beside, 0.0), (0.0, up), (-beside, 0.0), (beside, -up), (beside, up), (-beside, up), (-beside, -up)]
    });
    let (x, y) = tries.map(|(dx, dy)| (x + dx, y + dy)).find(free).unwrap_or((x, y - 24.0));
    labels.take(x, y, width, 14.0);
    svg.words("place", x, y + 4.0, label);
}

/// At the middle of the piece, or as near to it as there is room.
fn number_label(svg: &mut Svg, labels: &mut Labels, frame: &Frame, number: usize, points: &[Point]) {
    let (dx, dy) = AWAY[number - 1];
    let along = |part: f64| {
        let place = part * (points.len() - 1) as f64;
        let i = (place.floor() as usize).min(points.len() - 2);
        let (a, b) = (frame.corner(points[i]), frame.corner(points[i + 1]));
        let rest = place - i as f64;
        (a.0 + (b.0 - a.0) * rest + 12.0 * dx, a.1 + (b.1 - a.1) * rest + 12.0 * dy)
    };
    let parts = [0.5, 0.35, 0.65, 0.2, 0.8, 0.1, 0.9];
    let found = parts.into_iter().map(along).find(|&(x, y)| labels.free(x, y, 18.0, 18.0));
    let at = found.unwrap_or(along(0.5));
    labels.take(at.0, at.1, 18.0, 18.0);
    badge(svg, at, number);
}

pub fn badge(svg: &mut Svg, at: (f64, f64), number: usize) {
    svg.open("g", &[("stroke-width", &1.5)]);
    svg.circle(&format!("badge p{number}"), at, 8.0);
    svg.close();
    svg.words("number", at.0, at.1 + 4.0, &number.to_string());
}

/// The numbers of columns below, and of rows to the left.
fn numbers(svg: &mut Svg, frame: &Frame) {
    let bottom = frame.y + frame.height();
    for col in frame.column_ticks(26.0) {
        let (x, _) = frame.centre((col, 0));
        svg.words("tick middle", x, bottom + 15.0, &col.to_string());
    }
    for row in frame.row_ticks(18.0) {
        let (_, y) = frame.centre((0, row));
        svg.words("tick right", frame.x - 6.0, y + 4.0, &row.to_string());
    }
}

fn names_of_axes(svg: &mut Svg, frame: &Frame, [across, up]: [&str; 2]) {
    let (x, y) = (frame.x + frame.width() / 2.0, frame.y + frame.height());
    svg.words("axis middle", x, y + 34.0, across);
    let (x, y) = (frame.x - 38.0, frame.y + frame.height() / 2.0);
    let turn = format!("translate({} {}) rotate(-90)", px(x), px(y));
    svg.content("text", &[("class", &"axis middle"), ("transform", &turn)], up);
}
