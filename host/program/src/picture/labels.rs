//! The boxes that labels have taken.

#[derive(Default)]
pub struct Labels {
    /// Middle, width and height of each.
    boxes: Vec<[f64; 4]>,
}

impl Labels {
    pub fn take(&mut self, x: f64, y: f64, width: f64, height: f64) {
        self.boxes.push([x, y, width, height]);
    }

    /// Whether a box would lie upon none that is taken.
    pub fn free(&self, x: f64, y: f64, width: f64, height: f64) -> bool {
        let apart = |&[a, b, w, h]: &[f64; 4]| (x - a).abs() >= (width + w) / 2.0 || (y - b).abs() >= (height + h) / 2.0;
        self.boxes.iter().all(apart)
    }
}
