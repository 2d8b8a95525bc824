//! Where something that is written came from: program, library, date and call.

use std::env;
use std::ffi::{OsStr, OsString};
use std::path::Path;
use std::time::{SystemTime, UNIX_EPOCH};

use crate::paths::shown;
use crate::report::{Row, Value};

/// Program and library, when it was written, and by which call.
#[derive(Clone, Debug, Default)]
pub struct Origin {
    pub date: String,
    pub call: String,
}

impl Origin {
    /// Of a call that is made now. Where SOURCE_DATE_EPOCH is set, that is the time, so that two runs write the same.
    pub fn of(words: &[OsString]) -> Self {
        let set = env::var("SOURCE_DATE_EPOCH").ok().and_then(|seconds| seconds.parse().ok());
        let now = || SystemTime::now().duration_since(UNIX_EPOCH).map_or(0, |since| since.as_secs());
        let words: Vec<String> = words.iter().map(|word| quoted(word)).collect();
        Origin { date: date(set.unwrap_or_else(now)), call: format!("robequarry {}", words.join(" ")) }
    }

    /// In one line.
    pub fn line(&self) -> String {
        let [program, library] = [env!("CARGO_PKG_VERSION"), robequarry::VERSION];
        let archive = robequarry::ARCHIVE;
        format!("robequarry {program}, library {library} with SHA-256 {archive}, {}: {}", self.date, self.call)
    }

    pub fn row(&self) -> Row<'_> {
        vec![
            ("type", Value::text("origin")),
            ("program", Value::text(env!("CARGO_PKG_VERSION"))),
            ("library", Value::text(robequarry::VERSION)),
            ("sha256", Value::text(robequarry::ARCHIVE)),
            ("date", Value::text(&*self.date)),
            ("call", Value::text(&*self.call)),
        ]
    }
}

/// A word of a call as a shell takes it.
fn quoted(word: &OsStr) -> String {
    let shown = shown(Path::new(word));
    let plain = |char: char| char.is_alphanumeric() || "-_./=:,+@%".contains(char);
    match !shown.is_empty() && shown.chars().all(plain) {
        true => shown,
        false => format!("'{}'", shown.replace('\'', "'\\''")),
    }
}

/// A time in seconds since 1970 as a date in Greenwich, `2026-11-17T22:18:01Z` (ISO 8601).
pub fn date(seconds: u64) -> String {
    let (days, rest) = (seconds / 86_400, seconds % 86_400);
    let (hour, minute, second) = (rest / 3600, rest / 60 % 60, rest % 60);
    // Years are counted from March, so that a leap day is the last; 719,468 days lie between March of year 0 and 1970.
    let days = days + 719_468;
    let (era, day_of_era) = (days / 146_097, days % 146_097);
    let year_of_era = (day_of_era - day_of_era / 1460 + day_of_era / 36_524 - day_of_era / 146_096) / 365;
    let day_of_year = day_of_era - (365 * year_of_era + year_of_era / 4 - year_of_era / 100);
    let from_march = (5 * day_of_year + 2) / 153;
    let day = day_of_year - (153 * from_march + 2) / 5 + 1;
    let month = if from_march < 10 { from_march + 3 } else { from_march - 9 };
    let year = 400 * era + year_of_era + u64::from(month <= 2);
    format!("{year:04}-{month:02}-{day:02}T{hour:02}:{minute:02}:{second:02}Z")
}

#[cfg(test)]
mod tests {
    use super::*;

    /// As `date -u -d @SECONDS +%FT%TZ` has them.
    #[test]
    fn known_dates() {
        for (seconds, expected) in [
            (0, "1970-01-01T00:00:00Z"),
            (951_782_399, "2000-02-28T23:59:59Z"),
            (951_782_400, "2000-02-29T00:00:00Z"),
            (951_868_800, "2000-03-01T00:00:00Z"),
            (1_234_567_890, "2009-02-13T23:31:30Z"),
            (1_709_164_800, "2024-02-29T00:00:00Z"),
            (4_107_542_399, "2100-02-28T23:59:59Z"),
            (4_107_542_400, "2100-03-01T00:00:00Z"),
        ] {
            assert_eq!(date(seconds), expected);
        }
    }

    /// Day after day for 150 years: the next day is one later, or the first of the next month.
    #[test]
    fn every_day_follows_the_last() {
        let mut last = (1969, 12, 31);
        for day in 0..54_787 {
            let text = date(day * 86_400);
            let parts: Vec<u32> = text[..10].split('-').map(|part| part.parse().unwrap()).collect();
            let (year, month, today) = (parts[0], parts[1], parts[2]);
            let leap = last.0 % 4 == 0 && (last.0 % 100 != 0 || last.0 % 400 == 0);
            let length = [31, if leap { 29 } else { 28 }, 31, 30, 31, 30, 31, 31, 30, 31, 30, 31][last.1 as usize - 1];
            let next = match last {
                (year, 12, 31) => (year + 1, 1, 1),
                (year, month, day) if day == length => (year, month + 1, 1),
                (year, month, day) => (year, month, day + 1),
            };
            assert_eq!((year, month, today), next);
            last = next;
        }
    }

    #[test]
    fn words_of_a_call() {
        for (word, expected) in
            [("a/b.txt", "a/b.txt"), ("", "''"), ("a b", "'a b'"), ("it's", "'it'\\''s'"), ("\u{1b}", "'\\u{1b}'")]
        {
            assert_eq!(quoted(OsStr::new(word)), expected);
        }
    }
}
