//! Many files at once: one thread reads them in pieces, others work on the pieces, and the results come back in the files' order. Only so
//! many pieces are under way at a time, so memory does not grow with the files.

use std::collections::BTreeMap;
use std::io::Read;
use std::panic::{catch_unwind, AssertUnwindSafe};
use std::path::{Path, PathBuf};
use std::process;
use std::sync::atomic::{AtomicBool, Ordering};
use std::sync::mpsc::{channel, Receiver, Sender};
use std::sync::{Arc, Condvar, Mutex};
use std::thread;

use crate::input::{self, Fault, Form, Found, Nothing, Piece, Pieces, Why};

/// How many pieces each worker may be ahead by.
const AHEAD: usize = 4;

/// More workers than this would wait for the one reader.
const MOST_WORKERS: usize = 16;

/// A file that is being read.
pub struct Source {
    pub path: PathBuf,
    /// The path as it is shown.
    pub name: Arc<str>,
    /// Whether a fault was found in it, so that no more of it need be read.
    ended: AtomicBool,
}

/// What is found in a file, one after the other: pieces, perhaps a fault, and the end.
pub enum Step {
    Piece(Piece),
    Fault(Fault),
    End(End),
}

/// What a worker makes of a piece: what is to be written, and whether no more of the file is wanted.
pub struct Result<T> {
    pub made: T,
    pub ended: bool,
}

/// What comes back: of which file, and whether it is the end of it.
pub struct Done<T> {
    pub source: Arc<Source>,
    pub made: Option<T>,
    /// A fault after which no more of the file is read.
    pub fault: Option<Fault>,
    pub end: Option<End>,
}

#[derive(Clone, Copy, PartialEq)]
pub enum End {
    /// Of a file that was read; perhaps why it gave no outline.
    File(Option<Nothing>),
    PassedOver(Why),
}

/// How many results are still to be written. The reader waits while they are too many.
struct Window {
    open: Mutex<Option<usize>>,
    moved: Condvar,
}

impl Window {
    /// Waits for space. Returns false where the run is over.
    fn enter(&self) -> bool {
        let mut open = self.open.lock().expect("nobody panics while it is locked");
        while *open == Some(0) {
            open = self.moved.wait(open).expect("nobody panics while it is locked");
        }
        let goes_on = open.is_some();
        *open = open.map(|open| open - 1);
        goes_on
    }

    fn leave(&self) {
        let mut open = self.open.lock().expect("nobody panics while it is locked");
        *open = open.map(|open| open + 1);
        self.moved.notify_one();
    }

    fn close(&self) {
        *self.open.lock().expect("nobody panics while it is locked") = None;
        self.moved.notify_one();
    }
}

type Task = (u64, Arc<Source>, Step);

/// Reads files, works on their pieces on all cores, and gives the results to `sink` in order. An error of the sink ends the run.
pub fn run<T: Send, E>(
    files: impl Iterator<Item = Found> + Send,
    form: Option<Form>,
    work: impl Fn(&Source, &Piece) -> Result<T> + Sync,
    mut sink: impl FnMut(Done<T>) -> std::result::Result<(), E>,
) -> std::result::Result<(), E> {
    let workers = thread::available_parallelism().map_or(1, usize::from).min(MOST_WORKERS);
    let window = Window { open: Mutex::new(Some(AHEAD * workers + 1)), moved: Condvar::new() };
    let (tasks, waiting) = channel::<Task>();
    let (results, done) = channel::<(u64, Done<(T, bool)>)>();
    let waiting = Mutex::new(waiting);
    thread::scope(|scope| {
        let (window, waiting, work) = (&window, &waiting, &work);
        scope.spawn(move || read_all(files, form, window, &tasks));
        for _ in 0..workers {
            let results = results.clone();
            scope.spawn(move || work_on(waiting, &results, work));
        }
        drop(results);
        let ended = in_order(&done, window, &mut sink);
        window.close();
        ended
    })
}

/// The reader: sends every step of every file, numbered.
fn read_all(files: impl Iterator<Item = Found>, form: Option<Form>, window: &Window, tasks: &Sender<Task>) {
    let mut number = 0;
    let mut send = |source: &Arc<Source>, step: Step| {
        let sent = window.enter() && tasks.send((number, source.clone(), step)).is_ok();
        number += 1;
        sent
    };
    for found in files {
        let (path, opened) = match found {
            Found::File(path) => {
                let opened = input::open(&path);
                (path, Ok(opened))
            }
            Found::Unread(path, error) => (path, Ok(Err(error))),
            Found::PassedOver(path, why) => (path, Err(why)),
        };
        let name = shown(&path);
        let source = Arc::new(Source { path, name, ended: AtomicBool::new(false) });
        let goes_on = match opened {
            Err(why) => send(&source, Step::End(End::PassedOver(why))),
            Ok(Err(error)) => send(&source, Step::Fault(Fault::Unread(error))) && send(&source, Step::End(End::File(None))),
            Ok(Ok(bytes)) => read_one(bytes, form, &source, &mut send),
        };
        if !goes_on {
            return;
        }
    }
}

/// Sends the steps of one file. Returns false where the run is over.
fn read_one(
    bytes: Box<dyn Read>,
    form: Option<Form>,
    source: &Arc<Source>,
    send: &mut impl FnMut(&Arc<Source>, Step) -> bool,
) -> bool {
    let mut pieces = Pieces::of(bytes, input::form_to_read(&source.path, form));
    for piece in pieces.by_ref() {
        if source.ended.load(Ordering::Relaxed) {
            break;
        }
        if !send(source, piece.map_or_else(Step::Fault, Step::Piece)) {
            return false;
        }
    }
    send(source, Step::End(End::File(pieces.nothing())))
}

/// A worker: makes a result of each step that it gets hold of.
fn work_on<T>(
    waiting: &Mutex<Receiver<Task>>,
    results: &Sender<(u64, Done<(T, bool)>)>,
    work: &impl Fn(&Source, &Piece) -> Result<T>,
) {
    loop {
        let next = waiting.lock().expect("nobody panics while it is locked").recv();
        let Ok((number, source, step)) = next else {
            return;
        };
        let (made, fault, end) = match step {
            Step::Piece(piece) => {
                // A panic has been told by now. Nobody must wait for this result.
                let worked = catch_unwind(AssertUnwindSafe(|| work(&source, &piece)));
                let Result { made, ended } = worked.unwrap_or_else(|_| process::exit(101));
                if ended {
                    source.ended.store(true, Ordering::Relaxed);
                }
                (Some((made, ended)), None, None)
            }
            Step::Fault(fault) => (None, Some(fault), None),
            Step::End(end) => (None, None, Some(end)),
        };
        if results.send((number, Done { source, made, fault, end })).is_err() {
            return;
        }
    }
}

/// Gives the results to the sink in the order of their numbers. What comes after a file's fault, but for its end, is dropped.
fn in_order<T, E>(
    done: &Receiver<(u64, Done<(T, bool)>)>,
    window: &Window,
    sink: &mut impl FnMut(Done<T>) -> std::result::Result<(), E>,
) -> std::result::Result<(), E> {
    let mut early = BTreeMap::new();
    let (mut next, mut faulty) = (0, false);
    for (number, result) in done {
        early.insert(number, result);
        while let Some(result) = early.remove(&next) {
            next += 1;
            let Done { source, made, fault, end } = result;
            let ends = fault.is_some() || made.as_ref().is_some_and(|(_, ended)| *ended);
            let at_end = end.is_some();
            if !faulty || at_end {
                sink(Done { source, made: made.map(|(made, _)| made), fault, end })?;
            }
            faulty = (faulty || ends) && !at_end;
            window.leave();
        }
    }
    Ok(())
}

/// A path as it is shown.
fn shown(path: &Path) -> Arc<str> {
    match path.to_str() {
        Some("-") => "standard input".into(),
        _ => crate::paths::shown(path).into(),
    }
}

#[cfg(test)]
mod tests {
    use super::*;
    use std::sync::atomic::AtomicUsize;
    use std::time::Duration;

    /// Files that are not there, each of which gives a fault and an end.
    fn missing(count: usize) -> impl Iterator<Item = Found> + Send {
        (0..count).map(|number| Found::File(PathBuf::from(format!("/no/such/file/{number}"))))
    }

    /// The files of the crate itself, of which every piece takes another time.
    #[test]
    fn results_come_in_the_order_of_the_files() {
        let own = Path::new(env!("CARGO_MANIFEST_DIR")).join("specimens.txt");
        let files = (0..60).map(|_| Found::File(own.clone()));
        let worked = AtomicUsize::new(0);
        let work = |_: &Source, piece: &Piece| {
            let turn = worked.fetch_add(1, Ordering::Relaxed);
            thread::sleep(Duration::from_micros((turn as u64 * 7919) % 500));
            Result { made: piece.entries().count(), ended: false }
        };
        let (mut outlines, mut ends) = (Vec::new(), 0);
        let done: std::result::Result<(), ()> = run(files, None, work, |done| {
            outlines.extend(done.made);
            if done.end.is_some() {
                ends += 1;
                assert_eq!(outlines.len(), ends);
            }
            Ok(())
        });
        assert!(done.is_ok() && outlines.iter().all(|count| *count == 16) && ends == 60);
    }

    /// An error of the sink ends the run, though thousands of files are left, and what could not be read comes in order too.
    #[test]
    fn an_error_of_the_sink_ends_the_run() {
        let mut names = Vec::new();
        let ended = run(
            missing(100_000),
            None,
            |_, _| Result { made: (), ended: false },
            |done| {
                if done.fault.is_some() {
                    names.push(done.source.name.to_string());
                }
                if names.len() < 100 {
                    Ok(())
                } else {
                    Err("enough")
                }
            },
        );
        assert_eq!(ended, Err("enough"));
        assert!(names.iter().enumerate().all(|(i, name)| *name == format!("/no/such/file/{i}")));
    }

    /// What follows the end of a file's work is dropped, but for the file's end.
    #[test]
    fn a_worker_can_end_a_file() {
        let long = std::env::temp_dir().join(format!("robequarry-{}-long.txt", process::id()));
        std::fs::write(&long, "0 0 1032\n".repeat(200_000)).unwrap();
        let (mut pieces, mut ends) = (0, 0);
        let files = [Found::File(long.clone()), Found::File(long.clone())].into_iter();
        let done: std::result::Result<(), ()> = run(
            files,
            None,
            |_, _| Result { made: (), ended: true },
            |done| {
                pieces += usize::from(done.made.is_some());
                ends += usize::from(done.end.is_some());
                Ok(())
            },
        );
        std::fs::remove_file(&long).unwrap();
        assert_eq!((done, pieces, ends), (Ok(()), 2, 2));
    }
}
