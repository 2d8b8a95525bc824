//! The summary of many files: counts, and the outlines that are largest.

use std::borrow::Cow;
use std::fmt::Write;
use std::sync::Arc;

use robequarry::limits::LAST_REFUSAL;
use robequarry::Verdict;

use super::row::{Row, Value};
use crate::input::Why;
use crate::verdict::{count, meaning};

/// An outline of a file.
#[derive(Clone, Debug, PartialEq, Eq)]
pub struct Place {
    pub file: Arc<str>,
    pub outline: usize,
}

/// A number and the first place where it was found.
type Most = Option<(usize, Place)>;

#[derive(Clone, Debug, Default, PartialEq, Eq)]
pub struct Tally {
    pub files: usize,
    /// Files that hold no outline.
    pub empty: usize,
    /// Files with a fault.
    pub faults: usize,
    /// Lines of texts that are no outline.
    pub faulty_lines: usize,
    /// What was not read, by its reason.
    passed_over: [usize; Why::ALL.len()],
    pub outlines: usize,
    pub taken: usize,
    refused: [usize; LAST_REFUSAL as usize + 1],
    longest: Most,
    most_edges: Most,
}

impl Tally {
    /// Counts an outline in.
    pub fn note(&mut self, file: &Arc<str>, outline: usize, letters: usize, verdict: &Verdict) {
        self.outlines += 1;
        let place = || Place { file: file.clone(), outline };
        raise(&mut self.longest, letters, place);
        match verdict {
            Ok(edges) => {
                self.taken += 1;
                raise(&mut self.most_edges, edges.steps().len(), place);
            }
            Err(refusal) => self.refused[usize::from(refusal.number())] += 1,
        }
    }

    /// Counts in what comes after all that was counted.
    pub fn add(&mut self, later: Tally) {
        self.files += later.files;
        self.empty += later.empty;
        self.faults += later.faults;
        self.faulty_lines += later.faulty_lines;
        self.passed_over.iter_mut().zip(later.passed_over).for_each(|(all, more)| *all += more);
        self.outlines += later.outlines;
        self.taken += later.taken;
        self.refused.iter_mut().zip(later.refused).for_each(|(all, more)| *all += more);
        for (most, other) in [(&mut self.longest, later.longest), (&mut self.most_edges, later.most_edges)] {
            if let Some((number, place)) = other {
                raise(most, number, || place);
            }
        }
    }

    /// Counts in what was not read.
    pub fn pass_over(&mut self, why: Why) {
        self.passed_over[why as usize] += 1;
    }

    pub fn refused(&self) -> usize {
        self.outlines - self.taken
    }

    fn refusals(&self) -> impl Iterator<Item = (u16, usize)> + '_ {
        (0..=LAST_REFUSAL).zip(self.refused).filter(|(_, count)| *count > 0)
    }

    /// The summary in lines.
    pub fn text(&self) -> String {
        let (outlines, files) = (count(self.outlines, "outline"), count(self.files, "file"));
        let mut text = format!("{outlines} in {files}: {} taken, {} refused\n", self.taken, self.refused());
        let mut line = |line: String| writeln!(text, "  {line}").expect("a string has room");
        for (number, times) in self.refusals() {
            line(format!("refused by {number}, {}: {times}", meaning(number)));
        }
        for (what, most, unit) in [("longest outline", &self.longest, "letter"), ("most edges", &self.most_edges, "edge")] {
            if let Some((number, place)) = most {
                line(format!("{what}: {}, in outline {} of {}", count(*number, unit), place.outline, place.file));
            }
        }
        for (number, unit, what) in [
            (self.faults, "file", "with a fault"),
            (self.faulty_lines, "line", "with a fault, which is no outline"),
            (self.empty, "file", "without an outline"),
        ] {
            if number > 0 {
                line(format!("{} {what}", count(number, unit)));
            }
        }
        for (why, number) in Why::ALL.iter().zip(self.passed_over).filter(|(_, number)| *number > 0) {
            line(format!("{number} passed over: {}", why.words()));
        }
        if self.outlines == 0 {
            line("nothing was checked".to_string());
        }
        text
    }

    /// The summary as a row.
    pub fn row(&self) -> Row<'_> {
        let refused = self.refusals().map(|(number, count)| (Cow::from(number.to_string()), Value::number(count)));
        let most = |most: &Most, name: &'static str| {
            Value::perhaps(most.as_ref().map(|(number, place)| {
                let fields = [
                    (name, Value::number(*number)),
                    ("file", Value::text(place.file.to_string())),
                    ("outline", Value::number(place.outline)),
                ];
                Value::Object(fields.map(|(name, value)| (name.into(), value)).to_vec())
            }))
        };
        vec![
            ("type", Value::text("summary")),
            ("files", Value::number(self.files)),
            ("empty", Value::number(self.empty)),
            ("faults", Value::number(self.faults)),
            ("faulty_lines", Value::number(self.faulty_lines)),
            ("passed_over", Value::number(self.passed_over.iter().sum::<usize>())),
            ("outlines", Value::number(self.outlines)),
            ("taken", Value::number(self.taken)),
            ("refused", Value::Object(refused.collect())),
            ("longest", most(&self.longest, "letters")),
            ("most_edges", most(&self.most_edges, "edges")),
        ]
    }
}

/// Keeps the larger number, the earlier place where both are equal.
fn raise(most: &mut Most, number: usize, place: impl FnOnce() -> Place) {
    if most.as_ref().is_none_or(|(before, _)| *before < number) {
        *most = Some((number, place()));
    }
}

#[cfg(test)]
mod tests {
    use super::*;
    use robequarry::Outline;

    /// The same, however the outlines are divided among pieces.
    #[test]
    fn parts_add_up() {
        let outlines: Vec<Outline> =
            crate::input::entries(crate::gallery::SPECIMENS).into_iter().map(|entry| entry.outline).collect();
        let file: Arc<str> = "a".into();
        let tally = |from: usize, to: usize| {
            let mut tally = Tally::default();
            for (i, outline) in outlines[from..to].iter().enumerate() {
                tally.note(&file, from + i, outline.letters.len(), &outline.test());
            }
            tally
        };
        let whole = tally(0, outlines.len());
        for cut in 0..outlines.len() {
            let mut parts = tally(0, cut);
            parts.add(tally(cut, outlines.len()));
            assert_eq!(parts, whole);
        }
        assert!(whole.text().contains("refused by 9, a dent: 2\n"));
        assert!(whole.text().contains("most edges: 100 edges, in outline 15 of a\n"));
    }
}
