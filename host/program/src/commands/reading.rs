use robequarry::Located;

use super::{at_work, number, refused, Command, Console, Failure, Status};
use crate::arguments::Arguments;

pub const COMMAND: Command = Command {
    name: "reading",
    usage: "reading FILE ANGLE LOAD [--outline N]",
    summary: "where a reading of the two sensors lies to the hull",
    help: "\
Says where a reading lies to the hull of a taken outline's block: inside, outside, or undecided, where it is too near an edge to
tell in arithmetic of 32 bits. Angle and load are in chart units, in which the centre of a cell is at its whole column and row, and
are read as the nearest floats of 32 bits. Of a refused outline, and of a reading that is off the chart, it writes the refusal.",
    statuses: &[
        (0, "the reading is answered, whichever the word"),
        (1, "the outline or the reading is refused"),
        (2, "something is wrong with the call, or with the file"),
    ],
    options: &["--outline", "--text", "--fitting"],
    run,
};

fn run(arguments: &Arguments, console: &mut Console) -> Result<Status, Failure> {
    let [path, angle, load] = &arguments.plain[..] else {
        return Err(Failure::Call("reading takes a file and two numbers, ANGLE LOAD".to_string()));
    };
    let (angle, load): (f32, f32) = (number(angle, "an angle")?, number(load, "a load")?);
    let Some(at_work) = at_work(path.as_ref(), arguments, console)? else {
        return Ok(Status::Refused);
    };
    let (word, meaning) = match at_work.reading(angle, load) {
        Ok(Located::Inside) => ("inside", "within the hull"),
        Ok(Located::Outside) => ("outside", "not within the hull"),
        Ok(Located::Undecided) => ("undecided", "too near an edge of the hull to tell"),
        Err(refusal) => return refused(refusal, console),
    };
    console.line(format_args!("angle {angle}, load {load}: {word} - {meaning}"))?;
    Ok(Status::Taken)
}
