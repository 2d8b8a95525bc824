use super::{Command, Console, Failure, Status, COMMANDS, FILES, INTRODUCTION, STATUSES};
use crate::arguments::Arguments;
use crate::manual;

pub const COMMAND: Command = Command {
    name: "manual",
    usage: "manual",
    summary: "the manual page, for man",
    help: "\
Writes the manual page in the form that man reads.

    robequarry manual > robequarry.1
    man ./robequarry.1",
    statuses: &[(0, "it was written"), (2, "something is wrong with the call")],
    options: &[],
    run,
};

fn run(arguments: &Arguments, console: &mut Console) -> Result<Status, Failure> {
    if !arguments.plain.is_empty() {
        return Err(Failure::Call("manual takes no file".to_string()));
    }
    console.bytes(manual::page(COMMANDS, INTRODUCTION, FILES, STATUSES).as_bytes())?;
    Ok(Status::Taken)
}
