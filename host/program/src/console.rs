//! Standard output and standard error, and a line on the latter that says how far a long run has come.

use std::fmt::Display;
use std::io::{self, IsTerminal, Write};
use std::time::{Duration, Instant};

/// No line is shown for a run that is shorter.
const PATIENCE: Duration = Duration::from_millis(500);

/// The line is written again after this time.
const BEAT: Duration = Duration::from_millis(200);

/// Text for standard output is kept until there is this much of it.
const KEPT: usize = 1 << 16;

/// Goes to the line's beginning and empties the line.
const ERASE: &str = "\r\x1b[K";

pub struct Console<O: Write, E: Write> {
    out: O,
    err: E,
    kept: Vec<u8>,
    /// When the progress line is due; none if it is never shown.
    due: Option<Instant>,
    shown: bool,
}

impl Console<io::Stdout, io::Stderr> {
    /// Of this process. The progress line is shown if standard error is a terminal.
    pub fn new() -> Self {
        let progress = io::stderr().is_terminal();
        Console::over(io::stdout(), io::stderr(), progress.then(|| Instant::now() + PATIENCE))
    }
}

impl<O: Write, E: Write> Console<O, E> {
    fn over(out: O, err: E, due: Option<Instant>) -> Self {
        Console { out, err, kept: Vec::new(), due, shown: false }
    }

    pub fn line(&mut self, line: impl Display) -> io::Result<()> {
        writeln!(self.kept, "{line}")?;
        self.flush_if_much()
    }

    /// Bytes as they are, lines or a file.
    pub fn bytes(&mut self, bytes: &[u8]) -> io::Result<()> {
        self.kept.extend_from_slice(bytes);
        self.flush_if_much()
    }

    fn flush_if_much(&mut self) -> io::Result<()> {
        if self.kept.len() < KEPT {
            return Ok(());
        }
        self.flush()
    }

    /// A line on standard error, after all that was written before it.
    pub fn remark(&mut self, line: impl Display) -> io::Result<()> {
        self.flush()?;
        // Where standard error is closed there is nobody to tell.
        let _ = writeln!(self.err, "robequarry: {line}");
        Ok(())
    }

    /// Says how far the work has come, where that is due.
    pub fn progress(&mut self, how_far: impl FnOnce() -> String) -> io::Result<()> {
        if self.due.is_none_or(|due| Instant::now() < due) {
            return Ok(());
        }
        self.flush()?;
        write!(self.err, "{ERASE}{}", how_far())?;
        self.err.flush()?;
        self.shown = true;
        self.due = Some(Instant::now() + BEAT);
        Ok(())
    }

    /// Writes what was kept, without the progress line in its way.
    pub fn flush(&mut self) -> io::Result<()> {
        if self.shown {
            write!(self.err, "{ERASE}")?;
            self.err.flush()?;
            self.shown = false;
        }
        self.out.write_all(&self.kept)?;
        self.kept.clear();
        self.out.flush()
    }
}

#[cfg(test)]
mod tests {
    use super::*;

    #[test]
    fn a_line_that_is_shown_is_erased_before_more_is_written() {
        let mut console = Console::over(Vec::new(), Vec::new(), Some(Instant::now()));
        console.line("one").unwrap();
        console.progress(|| "7 outlines".to_string()).unwrap();
        assert_eq!(console.out, b"one\n");
        console.bytes(b"two\n").unwrap();
        console.remark("no").unwrap();
        assert_eq!(String::from_utf8(console.err).unwrap(), "\r\x1b[K7 outlines\r\x1b[Krobequarry: no\n");
        assert_eq!(console.out, b"one\ntwo\n");
    }

    #[test]
    fn nothing_is_shown_without_a_terminal_or_ahead_of_time() {
        for due in [None, Some(Instant::now() + PATIENCE)] {
            let mut console = Console::over(Vec::new(), Vec::new(), due);
            console.progress(|| "7 outlines".to_string()).unwrap();
            console.flush().unwrap();
            assert!(console.err.is_empty());
        }
    }
}
