//! The report of a check as one page, with nothing outside of it: for a browser, and for paper.

use std::fmt::Write;

use robequarry::{text, Outline, Verdict};

use crate::engine::Help;
use crate::explain::capital;
use crate::origin::Origin;
use crate::picture::{beside, picture};
use crate::report::Tally;
use crate::verdict::{count, described, shown, Said};

/// So many refused outlines have a picture.
const MOST_PICTURES: usize = 300;

/// So many faults, and so many refused outlines, are written out.
const MOST_LINES: usize = 10_000;

const STYLE: &str = include_str!("report.css");

const ROOM: &str = "a string has room";

/// A refused outline of a file.
pub struct Shown {
    file: String,
    title: String,
    outline: Outline,
    verdict: Verdict,
}

impl Shown {
    pub fn of(file: &str, number: usize, name: &str, outline: &Outline, verdict: &Verdict) -> Self {
        let (file, title) = (file.to_string(), described(number, name));
        Shown { file, title, outline: outline.clone(), verdict: verdict.clone() }
    }

    fn said(&self) -> String {
        let said = Said::of(&self.outline, &self.verdict);
        format!("{} - {}", said.what, said.place)
    }

    /// With its picture, and with what helps to draw it again.
    fn section(&self) -> String {
        let title = format!("{}: {}", self.file, self.title);
        let help = Help::of(&self.outline);
        let svg = match &help {
            Some(help) => beside(&self.title, &self.outline, &self.verdict, &help.completed),
            None => picture(&self.title, &self.outline, &self.verdict),
        };
        let mut section = format!(
            "<section>\n<h3>{}</h3>\n<p>{}</p>\n<img alt=\"{}\" src=\"{}\">\n",
            escaped(&title),
            escaped(&self.said()),
            escaped(&self.said()),
            address(&svg)
        );
        if let Some(Help { witness, completed }) = &help {
            let line = text::line(completed).expect("the library's letters are digits");
            writeln!(section, "<p>{}.</p>", escaped(&capital(&shown(witness)))).expect(ROOM);
            writeln!(section, "<p>Draw this instead: <code>{line}</code></p>").expect(ROOM);
        }
        section + "</section>\n"
    }
}

/// What a page will say, as it is found.
pub struct Report {
    origin: Origin,
    faults: Vec<String>,
    more_faults: usize,
    sections: String,
    pictures: usize,
    lines: Vec<String>,
    more_lines: usize,
}

impl Report {
    pub fn new(origin: &Origin) -> Self {
        let (faults, sections, lines) = (Vec::new(), String::new(), Vec::new());
        Report { origin: origin.clone(), faults, more_faults: 0, sections, pictures: 0, lines, more_lines: 0 }
    }

    /// Takes in something that is wrong with a file.
    pub fn fault(&mut self, file: &str, sentence: &str) {
        match self.faults.len() < MOST_LINES {
            true => self.faults.push(format!("{file}: {sentence}")),
            false => self.more_faults += 1,
        }
    }

    /// Takes in refused outlines. The first have pictures.
    pub fn refused(&mut self, outlines: Vec<Shown>) {
        for outline in outlines {
            if self.pictures < MOST_PICTURES {
                self.pictures += 1;
                self.sections += &outline.section();
            } else if self.lines.len() < MOST_LINES {
                self.lines.push(format!("{}: {}: {}", outline.file, outline.title, outline.said()));
            } else {
                self.more_lines += 1;
            }
        }
    }

    /// The page.
    pub fn html(&self, tally: &Tally) -> String {
        let summary = tally.text();
        let (first, rest) = summary.split_once('\n').unwrap_or((&summary, ""));
        let mut page = format!(
            "<!DOCTYPE html>\n<html lang=\"en\">\n<head>\n<meta charset=\"utf-8\">\n\
             <meta name=\"viewport\" content=\"width=device-width\">\n<title>{0}</title>\n<style>\n{STYLE}</style>\n</head>\n\
             <body>\n<h1>{0}</h1>\n",
            escaped(first)
        );
        list(&mut page, rest.lines().map(str::trim), 0);
        if !self.faults.is_empty() {
            page += "<h2>Faults</h2>\n";
            list(&mut page, self.faults.iter().map(String::as_str), self.more_faults);
        }
        if tally.refused() > 0 {
            page += "<h2>Refused outlines</h2>\n";
            page += &self.sections;
        }
        if !self.lines.is_empty() {
            writeln!(page, "<h2>Refused outlines without a picture</h2>").expect(ROOM);
            list(&mut page, self.lines.iter().map(String::as_str), self.more_lines);
        }
        let taken = count(tally.taken, "outline");
        writeln!(page, "<h2>Taken outlines</h2>\n<p>{taken}, of which nothing is to be told.</p>").expect(ROOM);
        let origin = escaped(&self.origin.line());
        writeln!(page, "<footer>{origin}</footer>\n</body>\n</html>").expect(ROOM);
        page
    }
}

fn list<'a>(page: &mut String, lines: impl Iterator<Item = &'a str>, more: usize) {
    page.push_str("<ul>\n");
    lines.for_each(|line| writeln!(page, "<li>{}</li>", escaped(line)).expect(ROOM));
    if more > 0 {
        writeln!(page, "<li>and {more} more</li>").expect(ROOM);
    }
    page.push_str("</ul>\n");
}

/// Text in which nothing is a mark of the page. Names have no control characters left.
fn escaped(text: &str) -> String {
    text.replace('&', "&amp;").replace('<', "&lt;").replace('>', "&gt;").replace('"', "&quot;")
}

/// A picture as an address that holds it whole (RFC 2397).
fn address(svg: &str) -> String {
    let mut address = String::from("data:image/svg+xml;charset=utf-8,");
    for &byte in svg.as_bytes() {
        match byte {
            b'A'..=b'Z' | b'a'..=b'z' | b'0'..=b'9' => address.push(byte.into()),
            b'-' | b'.' | b'_' | b'=' | b'/' | b':' | b',' | b';' => address.push(byte.into()),
            _ => write!(address, "%{byte:02X}").expect(ROOM),
        }
    }
    address
}

#[cfg(test)]
mod tests {
    use super::*;

    #[test]
    fn a_page_has_everything_in_it() {
        let outline: Outline = "0 0 111033003222".parse().unwrap();
        let mut report = Report::new(&Origin { date: "then".to_string(), call: "call <x>".to_string() });
        report.fault("a&b.txt", "line 1: <wrong>");
        report.refused(vec![Shown::of("a&b.txt", 3, "knee \"x\"", &outline, &outline.test())]);
        let mut tally = Tally::default();
        tally.note(&"a".into(), 3, 12, &outline.test());
        let page = report.html(&tally);
        assert!(page.starts_with("<!DOCTYPE html>\n<html lang=\"en\">\n") && page.ends_with("</html>\n"));
        for part in [
            "<h1>1 outline in no file: 0 taken, 1 refused</h1>",
            "<li>a&amp;b.txt: line 1: &lt;wrong&gt;</li>",
            "<h3>a&amp;b.txt: outline 3 (knee &quot;x&quot;)</h3>",
            "Draw this instead: <code>0 0 111030303222</code>",
            "The cell (1, 1) lies in the triangle of (2, 0), (0, 2), (0, 1), which are all marked.",
            "call &lt;x&gt;</footer>",
        ] {
            assert!(page.contains(part), "{part}\n{page}");
        }
        // Nothing is fetched: every address holds its picture.
        assert_eq!(page.matches("src=").count(), page.matches("src=\"data:image/svg+xml").count());
        assert!(!page.contains("href=") && !page.contains("url(") && !page.contains("@import"));
    }

    #[test]
    fn an_address_is_read_back() {
        let address = address("<a b=\"c#d%\">\u{e9}\n</a>");
        assert_eq!(address, "data:image/svg+xml;charset=utf-8,%3Ca%20b=%22c%23d%25%22%3E%C3%A9%0A%3C/a%3E");
    }
}
