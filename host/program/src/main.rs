//! The program `robequarry`; `robequarry --help` says what it does.

use std::env;
use std::process::ExitCode;

extern "C" {
    fn signal(number: i32, action: usize) -> usize;
}

/// A pipe that nobody reads any more ends the process, as it ends other programs. Rust would have it ignored.
fn end_with_the_pipe() {
    const PIPE: i32 = 13;
    const DEFAULT: usize = 0;
    // SAFETY: this is C's function, called before there is another thread. The default action runs no code of ours.
    unsafe { signal(PIPE, DEFAULT) };
}

fn main() -> ExitCode {
    end_with_the_pipe();
    ExitCode::from(robequarry_program::run(env::args_os().skip(1).collect()))
}
