use std::hint::black_box;
use std::path::Path;
use std::time::{Duration, Instant};

use robequarry::{Cell, Edges, Outline};

use super::{faulty, read, title, Command, Console, Failure, Status};
use crate::arguments::Arguments;
use crate::gallery::SPECIMENS;
use crate::input::{entries, Entry, Fault};

pub const COMMAND: Command = Command {
    name: "bench",
    usage: "bench [FILE]",
    summary: "how long the library takes on this machine",
    help: "\
Times the test of each outline of a file, and a query of a cell where the outline is taken; without a file, of the specimens. A
time is the least of many. The benchmark against other programs is `cargo run --release --bin bench` in host/.",
    statuses: &[(0, "every outline is taken"), (1, "an outline is refused"), (2, "something is wrong with the call, or with the file")],
    options: &["--text", "--fitting"],
    run,
};

/// One sample is at least this long, so that the clock's own time is none.
const SAMPLE: Duration = Duration::from_millis(1);

const SAMPLES: usize = 12;

fn run(arguments: &Arguments, console: &mut Console) -> Result<Status, Failure> {
    let (path, entries): (&Path, Box<dyn Iterator<Item = Result<Entry, Fault>>>) = match &arguments.plain[..] {
        [] => (Path::new("the specimens"), Box::new(entries(SPECIMENS).into_iter().map(Ok))),
        [path] => (path.as_ref(), Box::new(read(path.as_ref(), arguments)?)),
        _ => return Err(Failure::Call("bench takes one file or none".to_string())),
    };
    console.line("letters     test, ns    query, ns")?;
    let mut all_taken = true;
    for (number, entry) in entries.enumerate() {
        let entry = entry.map_err(|fault| faulty(path, fault))?;
        let verdict = entry.outline.test();
        let query = verdict.as_ref().map_or("-".to_string(), |edges| format!("{:.0}", query_time(edges)));
        let test = test_time(&entry.outline);
        console.line(format_args!(
            "{:>7} {test:>12.0} {query:>12}  {}",
            entry.outline.letters.len(),
            title(number, &entry)
        ))?;
        console.progress(|| title(number, &entry))?;
        all_taken &= verdict.is_ok();
    }
    Ok(Status::of(all_taken))
}

fn test_time(outline: &Outline) -> f64 {
    nanoseconds(|| {
        let _ = black_box(black_box(outline).test());
    })
}

fn query_time(edges: &Edges) -> f64 {
    let anchor = edges.anchor();
    let mut cols = (0..16).cycle();
    nanoseconds(|| {
        let col = anchor.col.saturating_add(cols.next().expect("it goes round"));
        let _ = black_box(edges.contains(black_box(Cell::new(col.min(254), anchor.row))));
    })
}

/// Of one turn, the least of some samples.
fn nanoseconds(mut turn: impl FnMut()) -> f64 {
    let mut sample = |turns: u32| {
        let begin = Instant::now();
        (0..turns).for_each(|_| turn());
        begin.elapsed()
    };
    let mut turns = 1;
    while sample(turns) < SAMPLE {
        turns *= 2;
    }
    let least = (0..SAMPLES).map(|_| sample(turns)).min().expect("there are samples");
    least.as_nanos() as f64 / f64::from(turns)
}
