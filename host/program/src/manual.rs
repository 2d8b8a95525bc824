//! The manual page, from the table of commands and that of options.

use std::fmt::Write;

use crate::commands::{statuses as statuses_of, Command};
use crate::options;

/// The page in roff, for section 1.
pub fn page(commands: &[&Command], introduction: &str, files: &str, statuses: &str) -> String {
    let mut page = format!(
        ".TH ROBEQUARRY 1 \"\" \"Robequarry {}\" \"User Commands\"\n\
         .SH NAME\nrobequarry \\- say whether blocks of cells are convex, and why if not\n\
         .SH SYNOPSIS\n.B robequarry\n.I COMMAND\n.RI [ FILE \"... | \" OPTION ...]\n",
        env!("CARGO_PKG_VERSION")
    );
    section(&mut page, "DESCRIPTION", introduction);
    page += ".SH COMMANDS\n";
    for command in commands {
        writeln!(page, ".SS robequarry {}", roff(command.usage)).expect(ROOM);
        paragraphs(&mut page, command.help);
        for name in command.options {
            let choice = options::named(name).expect("a command takes options of the table");
            write!(page, ".TP\n.B {}\n{}\n", roff(&options::usage(choice)), roff(choice.summary)).expect(ROOM);
        }
        paragraphs(&mut page, &statuses_of(command));
    }
    section(&mut page, "FILES", files);
    section(&mut page, "EXIT STATUS", statuses);
    page += ".SH SEE ALSO\ndocs/PROGRAM.md in the repository describes the fields of JSON and CSV.\n";
    page
}

const ROOM: &str = "a string has room";

fn section(page: &mut String, name: &str, text: &str) {
    writeln!(page, ".SH {name}").expect(ROOM);
    paragraphs(page, text);
}

/// Paragraphs, set apart by empty lines; lines that are indented stay as they are.
fn paragraphs(page: &mut String, text: &str) {
    for paragraph in text.split("\n\n") {
        if paragraph.lines().any(|line| line.starts_with("  ")) {
            writeln!(page, ".PP\n.nf\n{}\n.fi", roff(paragraph)).expect(ROOM);
        } else {
            writeln!(page, ".PP\n{}", roff(paragraph)).expect(ROOM);
        }
    }
}

/// Text in which nothing is a command of roff: backslashes, dashes, and a point or a quote that begins a line.
fn roff(text: &str) -> String {
    let escaped = text.replace('\\', "\\e").replace('-', "\\-");
    let line = |line: &str| if line.starts_with(['.', '\'']) { format!("\\&{line}") } else { line.to_string() };
    escaped.lines().map(line).collect::<Vec<_>>().join("\n")
}
