//! SVG as text: elements, attributes and escapes.

use std::fmt::{Display, Write};

pub struct Svg {
    text: String,
    open: Vec<&'static str>,
}

pub type Attributes<'a> = &'a [(&'a str, &'a dyn Display)];

impl Svg {
    /// A picture of this many pixels, with a title for those who cannot see it, and style sheets of its own.
    pub fn new(width: f64, height: f64, title: &str, style: &str, definitions: &str) -> Self {
        let mut svg = Svg { text: String::from("<?xml version=\"1.0\" encoding=\"UTF-8\"?>\n"), open: Vec::new() };
        let (w, h) = (px(width), px(height));
        svg.open(
            "svg",
            &[
                ("xmlns", &"http://www.w3.org/2000/svg"),
                ("width", &w),
                ("height", &h),
                ("viewBox", &format!("0 0 {w} {h}")),
                ("role", &"img"),
            ],
        );
        svg.content("title", &[], title);
        svg.content("style", &[], style);
        writeln!(svg.text, "<defs>\n{definitions}\n</defs>").expect("a string has room");
        svg.empty("rect", &[("class", &"paper"), ("width", &w), ("height", &h)]);
        svg
    }

    fn tag(&mut self, name: &str, attributes: Attributes, end: &str) {
        write!(self.text, "<{name}").expect("a string has room");
        for (name, value) in attributes {
            write!(self.text, " {name}=\"{}\"", escaped(&value.to_string())).expect("a string has room");
        }
        self.text += end;
    }

    pub fn open(&mut self, name: &'static str, attributes: Attributes) {
        self.tag(name, attributes, ">\n");
        self.open.push(name);
    }

    pub fn close(&mut self) {
        let name = self.open.pop().expect("every close has its open");
        writeln!(self.text, "</{name}>").expect("a string has room");
    }

    pub fn empty(&mut self, name: &str, attributes: Attributes) {
        self.tag(name, attributes, "/>\n");
    }

    pub fn content(&mut self, name: &str, attributes: Attributes, content: &str) {
        self.tag(name, attributes, ">");
        writeln!(self.text, "{}</{name}>", escaped(content)).expect("a string has room");
    }

    pub fn words(&mut self, class: &str, x: f64, y: f64, words: &str) {
        self.content("text", &[("class", &class), ("x", &px(x)), ("y", &px(y))], words);
    }

    pub fn line(&mut self, class: &str, from: (f64, f64), to: (f64, f64)) {
        let (x1, y1, x2, y2) = (px(from.0), px(from.1), px(to.0), px(to.1));
        self.empty("line", &[("class", &class), ("x1", &x1), ("y1", &y1), ("x2", &x2), ("y2", &y2)]);
    }

    pub fn circle(&mut self, class: &str, at: (f64, f64), radius: f64) {
        self.empty("circle", &[("class", &class), ("cx", &px(at.0)), ("cy", &px(at.1)), ("r", &px(radius))]);
    }

    pub fn path(&mut self, class: &str, points: &[(f64, f64)]) {
        let points: Vec<String> = points.iter().map(|(x, y)| format!("{},{}", px(*x), px(*y))).collect();
        self.empty("polyline", &[("class", &class), ("points", &points.join(" "))]);
    }

    pub fn end(mut self) -> String {
        while !self.open.is_empty() {
            self.close();
        }
        self.text
    }
}

/// A number with at most three digits behind the point.
pub fn px(number: f64) -> String {
    let text = format!("{number:.3}");
    let text = text.trim_end_matches('0').trim_end_matches('.');
    if text == "-0" { "0" } else { text }.to_string()
}

/// Text as XML has it; control characters, which XML has not, are left out.
fn escaped(text: &str) -> String {
    let mut escaped = String::with_capacity(text.len());
    for char in text.chars() {
        match char {
            '&' => escaped += "&amp;",
            '<' => escaped += "&lt;",
            '>' => escaped += "&gt;",
            '"' => escaped += "&quot;",
            '\n' | '\t' => escaped.push(char),
            '\u{fffe}' | '\u{ffff}' => {}
            _ if char.is_control() => {}
            _ => escaped.push(char),
        }
    }
    escaped
}

#[cfg(test)]
mod tests {
    use super::*;

    #[test]
    fn numbers_and_escapes() {
        assert_eq!([px(3.0), px(-0.0001), px(2.5), px(1.0 / 3.0), px(100.0)], ["3", "0", "2.5", "0.333", "100"]);
        assert_eq!(escaped("<a & \"b\">\u{1}"), "&lt;a &amp; &quot;b&quot;&gt;");
    }
}
