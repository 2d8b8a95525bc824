use robequarry::limits::LAST_CELL;

use super::{at_work, number, refused, Command, Console, Failure, Status};
use crate::arguments::Arguments;

pub const COMMAND: Command = Command {
    name: "row",
    usage: "row FILE [ROW] [--outline N]",
    summary: "the first and last marked column of a row, or of every row",
    help: "\
Writes the first and the last column of a taken outline's block in a row, or `none` where the row has no marked cell. Without a
row it writes every row that has one. Of a refused outline it writes the refusal.",
    statuses: &[
        (0, "the row is answered"),
        (1, "the outline or the row is refused"),
        (2, "something is wrong with the call, or with the file"),
    ],
    options: &["--outline", "--text", "--fitting"],
    run,
};

fn run(arguments: &Arguments, console: &mut Console) -> Result<Status, Failure> {
    let (path, wanted) = match &arguments.plain[..] {
        [path] => (path, None),
        [path, row] => (path, Some(number(row, "a row")?)),
        _ => return Err(Failure::Call("row takes a file and, if only one row is wanted, its number".to_string())),
    };
    let Some(at_work) = at_work(path.as_ref(), arguments, console)? else {
        return Ok(Status::Refused);
    };
    // The wanted row or, where none is wanted, all that have a cell.
    for row in wanted.map_or(0..=LAST_CELL, |row| row..=row) {
        match at_work.row(row) {
            Ok(Some((first, last))) => console.line(format_args!("row {row}: columns {first} to {last}"))?,
            Ok(None) if wanted.is_some() => console.line(format_args!("row {row}: none"))?,
            Ok(None) => {}
            Err(refusal) => return refused(refusal, console),
        }
    }
    Ok(Status::Taken)
}
