use super::{answer, faulty, form_to_write, guard, plain, put, read, say_empty, written, Command, Console, Failure, Status};
use crate::arguments::Arguments;
use crate::input::Form;
use crate::output::Sink;
use crate::verdict::count;

pub const COMMAND: Command = Command {
    name: "convert",
    usage: "convert FILE [-o OUT] [--to FORM]",
    summary: "write a text as a fitting file, and either as the other or as an image",
    help: "\
Writes the outlines of a file in another form, as they are: nothing is tested. The form is that of --to, or that of OUT's name, .fit,
.txt or .img; else it is the other one: a text is written as a fitting file, and a fitting file or an image as text. Names and comments
stand only in a text, and from text to text they stay. A start above 255 has no record, a byte above 9 has no digit, and a fitting file
has at most 65,536 bytes: what cannot be written is told, and then no file is written.

An image holds one outline, the first or that of --outline, which must be taken: it is what a controller saves of it.

    robequarry convert drawn.txt -o drawn.fit
    robequarry convert drawn.fit --to text
    robequarry convert drawn.txt -n 2 -o 4713.img",
    statuses: &[(0, "every outline was written"), (2, "something is wrong with the call or the file, or cannot be written")],
    options: &["--out", "--to", "--outline", "--force", "--text", "--fitting"],
    run,
};

fn run(arguments: &Arguments, console: &mut Console) -> Result<Status, Failure> {
    let [path] = plain(arguments, "convert takes one file")?;
    let out = arguments.path("--out");
    if let Some(out) = out {
        guard(out, &[path], arguments)?;
    }
    let mut reader = read(path, arguments)?;
    let first = reader.next();
    let form = match form_to_write(arguments)? {
        Some(form) => form,
        None => match reader.form() {
            Some(Form::Text) => Form::Fitting,
            _ => Form::Text,
        },
    };
    let wanted = arguments.number("--outline").or((form == Form::Image).then_some(0));
    let mut sink = Sink::to(out, form);
    let mut number = 0;
    let mut next = first;
    while let Some(entry) = next {
        let entry = entry.map_err(|fault| faulty(path, fault))?;
        put(sink.comments(&reader.comments(), console), path, number)?;
        if wanted.is_none_or(|wanted| wanted == number) {
            put(sink.outline(&entry.outline, entry.name.as_deref().unwrap_or(""), console), path, number)?;
        }
        answer(path, console)?;
        number += 1;
        console.progress(|| count(number, "outline"))?;
        next = reader.next();
    }
    put(sink.comments(&reader.comments(), console), path, number)?;
    say_empty(path, &reader, console)?;
    if let Some(wanted) = wanted.filter(|wanted| *wanted >= number) {
        return Err(Failure::File(
            path.to_path_buf(),
            format!("there is no outline {wanted}: it holds {}", count(number, "outline")),
        ));
    }
    written(sink, path, console)?;
    Ok(Status::Taken)
}
