//! A benchmark's rows: one that is measured is printed at once, as a row of a table or as a line for programs.

/// One figure: how long a call of the library takes, and how that compares with something else.
pub struct Row {
    pub name: &'static str,
    /// The letters of the outline that is tested or was drawn.
    pub letters: usize,
    /// Of one call of the library.
    pub nanoseconds: f64,
    pub ratio: Option<Ratio>,
}

pub struct Ratio {
    pub name: String,
    pub value: f64,
    pub goal: Option<Goal>,
}

impl Ratio {
    pub fn new(name: impl Into<String>, value: f64, goal: Option<Goal>) -> Self {
        Ratio { name: name.into(), value, goal }
    }
}

/// What a ratio is to be.
#[derive(Clone, Copy)]
pub enum Goal {
    AtMost(f64),
    AtLeast(f64),
}

impl Goal {
    fn verdict(self, value: f64) -> String {
        let (bound, goal, met) = match self {
            Goal::AtMost(goal) => ("at most", goal, value <= goal),
            Goal::AtLeast(goal) => ("at least", goal, value >= goal),
        };
        format!("{bound:>8} {goal:<4} {}", if met { "met" } else { "MISSED" })
    }
}

impl Row {
    /// The row as a line: fields set apart by tabs, `-` for what there is not.
    fn line(&self) -> String {
        let (ratio, value) = match &self.ratio {
            Some(ratio) => (ratio.name.as_str(), format!("{:.3}", ratio.value)),
            None => ("-", "-".to_string()),
        };
        format!("bench\t{}\t{}\t{:.1}\t{ratio}\t{value}", self.name, self.letters, self.nanoseconds)
    }

    fn table(&self) -> String {
        let Row { name, letters, nanoseconds, ratio } = self;
        let begin = format!("{name:<28} {letters:>7} {nanoseconds:>11.1}");
        match ratio {
            Some(Ratio { name, value, goal }) => {
                let verdict = goal.map_or(String::new(), |goal| goal.verdict(*value));
                format!("{begin}  {name:<18} {value:>7.2}  {verdict}").trim_end().to_string()
            }
            None => begin,
        }
    }
}

/// The rows so far.
pub struct Report {
    lines_only: bool,
    rows: Vec<Row>,
}

impl Report {
    /// Begins a report: lines alone, or a table and then lines.
    pub fn new(lines_only: bool) -> Self {
        if !lines_only {
            println!("{:<28} {:>7} {:>11}  {:<18} {:>7}  {:>8}", "", "letters", "ns a call", "ratio", "", "goal");
        }
        Report { lines_only, rows: Vec::new() }
    }

    /// Adds a row and prints it.
    pub fn add(&mut self, row: Row) {
        println!("{}", if self.lines_only { row.line() } else { row.table() });
        self.rows.push(row);
    }

    /// Prints what is still to be printed.
    pub fn end(&self) {
        if !self.lines_only {
            println!();
            self.rows.iter().for_each(|row| println!("{}", row.line()));
        }
    }
}

#[cfg(test)]
mod tests {
    use super::*;

    #[test]
    fn a_row_as_a_line() {
        let ratio = Ratio::new("library/plain", 1.06, Some(Goal::AtMost(1.1)));
        let row = Row { name: "taken", letters: 600, nanoseconds: 12_345.67, ratio: Some(ratio) };
        assert_eq!(row.line(), "bench\ttaken\t600\t12345.7\tlibrary/plain\t1.060");
        let row = Row { ratio: None, ..row };
        assert_eq!(row.line(), "bench\ttaken\t600\t12345.7\t-\t-");
    }
}
