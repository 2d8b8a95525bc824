//! The program, run as a user runs it: what it writes and how it ends.

mod support;

use std::fs;
use std::path::PathBuf;

use support::call::{err, fed, file, out, program, record, status, DENTED, PLUS, SPECIMENS};
use support::xml;

#[test]
fn check_says_each_verdict_in_words() {
    let checked = program(&["check", SPECIMENS]);
    assert_eq!(out(&checked).replace(SPECIMENS, "SPECIMENS"), include_str!("check.txt"));
    assert_eq!((status(&checked), err(&checked).as_str()), (1, ""));
}

#[test]
fn explain_tells_a_story() {
    for (number, story, expected) in [
        ("2", include_str!("explain-H3.txt"), 0),
        ("5", include_str!("explain-H6.txt"), 1),
        ("6", include_str!("explain-H7.txt"), 1),
        ("11", include_str!("explain-H12.txt"), 1),
    ] {
        let told = program(&["explain", SPECIMENS, "--outline", number]);
        assert_eq!((out(&told).as_str(), status(&told)), (story, expected));
    }
}

#[test]
fn a_fitting_file_is_read_as_well() {
    let both = file("both.fit", &[record((0, 1), &PLUS), record((0, 0), &DENTED)].concat());
    let checked = program(&["check", &both]);
    let lines = "outline 0: taken - 4 edges, anchor (0, 1)\n\
                 outline 1: refused, 9: a dent - cell (1, 1) is missing; 4 letters from place 4 in piece 2 (N to E: down and right)\n\
                 2 outlines in 1 file: 1 taken, 1 refused\n";
    assert!(out(&checked).starts_with(lines));
    assert_eq!(status(&checked), 1);
    let plus = file("plus.fit", &record((0, 1), &PLUS));
    assert_eq!(status(&program(&["check", &plus])), 0);
    let path = file("empty.fit", &[]);
    let empty = program(&["check", &path]);
    let said = "no outline in 1 file: 0 taken, 0 refused\n  1 file without an outline\n  nothing was checked\n";
    assert_eq!((out(&empty).as_str(), status(&empty)), (said, 3));
    assert_eq!(err(&empty), format!("robequarry: {path}: the file is empty: it holds no outline\n"));
}

#[test]
fn the_lines_before_a_fault_stand() {
    let plus = record((0, 1), &PLUS);
    for (name, bytes, fault) in [
        ("mark.fit", [&plus[..], b"KX"].concat(), "fault 23: the record does not begin with its mark (outline 1, byte 18)"),
        ("cut.fit", [&plus[..], &plus[..17]].concat(), "fault 24: the record is cut short (outline 1, its mark at byte 18)"),
        (
            "text.txt",
            b"0 1 101030323212\n0 0 abc\n".to_vec(),
            "line 2: letters are 0 right, 1 up, 2 left and 3 down, not `a`",
        ),
    ] {
        let path = file(name, &bytes);
        let checked = program(&["check", &path]);
        assert!(out(&checked).starts_with("outline 0: taken - 4 edges, anchor (0, 1)\n1 outline in 1 file: 1 taken"));
        assert_eq!(err(&checked), format!("robequarry: {path}: {fault}\n"));
        assert_eq!(status(&checked), 2);
    }
    let large = file("large.fit", &plus.repeat(4000));
    let checked = program(&["check", &large]);
    assert_eq!(status(&checked), 2);
    assert!(err(&checked).ends_with("fault 25: the file has more than 65,536 bytes\n"));
}

#[test]
fn standard_input_is_a_file_too() {
    let checked = fed(&["check", "-", "--fitting"], &record((9, 9), &PLUS));
    assert!(out(&checked).starts_with("outline 0: taken - 4 edges, anchor (9, 9)\n"));
}

#[test]
fn faults_of_a_call() {
    for (arguments, message) in [
        (&[][..], "no command is given"),
        (&["chekc"], "there is no command `chekc`; is it `check`?"),
        (&["check"], "check takes files and folders; nothing is given"),
        (&["explain"], "explain takes one file; nothing is given"),
        (&["explain", "a", "b"], "explain takes one file; `b` is one too many"),
        (&["check", "--colour", "a"], "there is no option --colour here"),
        (&["check", "--text", "--fitting", "a"], "--text and --fitting contradict each other: give one of them"),
        (
            &["check", "--summary", "--format=csv", "a"],
            "--summary and --format csv contradict each other: a summary is no table",
        ),
        (&["explain", "\u{1b}[2J", "b", "c"], "explain takes one file; `b` is one too many"),
        (&["explain", SPECIMENS, "--outline", "x"], "--outline needs a number, not `x`"),
    ] {
        let called = program(arguments);
        let command = arguments.first().filter(|name| **name != "chekc").map_or(String::new(), |name| format!("{name} "));
        assert_eq!(err(&called), format!("robequarry: {message}\nTry `robequarry {command}--help`.\n"));
        assert_eq!((out(&called).as_str(), status(&called)), ("", 2));
    }
    let none = program(&["explain", SPECIMENS, "-n", "16"]);
    assert_eq!(err(&none), format!("robequarry: {SPECIMENS}: there is no outline 16: its outlines are numbered 0 to 15\n"));
    assert_eq!(status(&none), 2);
    let missing = program(&["check", "no/such/file"]);
    assert!(err(&missing).starts_with("robequarry: no/such/file: cannot be read: "));
    assert_eq!(status(&missing), 2);
}

#[test]
fn help_names_every_command() {
    let help = program(&["--help"]);
    assert_eq!((status(&help), err(&help).as_str()), (0, ""));
    let commands = out(&help);
    for command in commands.lines().skip_while(|line| *line != "Commands:").skip(1).take_while(|line| !line.is_empty()) {
        let name = command.split_whitespace().next().expect("a command has a name");
        let more = program(&[name, "--help"]);
        assert!(out(&more).starts_with(&format!("robequarry {name}")), "{name}");
        assert_eq!(out(&program(&["help", name])), out(&more));
        // Its own statuses, and a line for each of its options.
        assert!(out(&more).contains("\nExit status:\n  0   ") && out(&more).contains("\n  2   "), "{name}");
    }
}

#[test]
fn draw_writes_a_picture_of_any_outline() {
    let path = file("drawn.svg", b"");
    for (number, expected) in [("2", 0), ("5", 1), ("9", 1)] {
        let drawn = program(&["draw", SPECIMENS, "-n", number, "-o", &path]);
        assert_eq!((status(&drawn), out(&drawn), err(&drawn)), (expected, String::new(), String::new()));
        let svg = fs::read_to_string(&path).expect("it was written");
        xml::parse(&svg);
        let shown = program(&["draw", SPECIMENS, "-n", number, "-o", "-"]);
        assert_eq!(out(&shown), svg);
    }
    // With its completion beside it, where a cell is missing; else by itself.
    for (number, expected, plots) in [("5", 1, 2), ("6", 1, 2), ("2", 0, 1), ("9", 1, 1)] {
        let drawn = program(&["draw", SPECIMENS, "-n", number, "--complete", "-o", "-"]);
        let picture = xml::parse(&out(&drawn));
        assert_eq!((picture.of_class("plot").len(), status(&drawn)), (plots, expected), "{number}");
    }
    let nowhere = program(&["draw", SPECIMENS, "-o", "no/such/folder/a.svg"]);
    assert!(err(&nowhere).starts_with("robequarry: no/such/folder/a.svg: cannot be written: "));
    assert_eq!(status(&nowhere), 2);
    let nameless = program(&["draw", SPECIMENS]);
    assert!(err(&nameless).starts_with("robequarry: draw needs a name for its picture: -o OUT.svg\n"));
}

#[test]
fn gallery_fills_a_folder() {
    let folder = PathBuf::from(env!("CARGO_TARGET_TMPDIR")).join("gallery");
    let filled = program(&["gallery", folder.to_str().expect("the folder's name is text")]);
    assert_eq!(out(&filled), format!("24 pictures in {}\n", folder.display()));
    assert!(folder.join("H3.svg").is_file() && folder.join("specimens.svg").is_file());
}

#[test]
fn rows_of_a_block() {
    let rows = program(&["row", SPECIMENS, "-n", "2"]);
    assert_eq!(out(&rows), "row 0: columns 1 to 1\nrow 1: columns 0 to 2\nrow 2: columns 1 to 1\n");
    assert_eq!(out(&program(&["row", SPECIMENS, "1", "-n", "2"])), "row 1: columns 0 to 2\n");
    assert_eq!(out(&program(&["row", SPECIMENS, "3", "-n", "2"])), "row 3: none\n");
    let off = program(&["row", SPECIMENS, "255"]);
    assert_eq!((out(&off).as_str(), status(&off)), ("refused, 11: the cell, the reading or the hull is off the chart\n", 1));
    let dented = program(&["row", SPECIMENS, "0", "-n", "5"]);
    assert!(out(&dented).starts_with("outline 5 (H6: a dent): refused, 9: "));
    assert_eq!(status(&dented), 1);
    let wrong = program(&["row", SPECIMENS, "-1"]);
    assert_eq!(err(&wrong), "robequarry: `-1` is not a row\nTry `robequarry row --help`.\n");
}

#[test]
fn readings_in_words() {
    let plus = |angle: &str, load: &str| {
        let said = program(&["reading", SPECIMENS, angle, load, "-n", "2"]);
        (out(&said), status(&said))
    };
    assert_eq!(plus("1.25", "0.75"), ("angle 1.25, load 0.75: inside - within the hull\n".to_string(), 0));
    assert_eq!(plus("0", "2"), ("angle 0, load 2: outside - not within the hull\n".to_string(), 0));
    let near = "angle 0.5, load 1.5: undecided - too near an edge of the hull to tell\n";
    assert_eq!(plus("5e-1", "1.5"), (near.to_string(), 0));
    for (angle, load) in [("-0.5", "1"), ("1", "254.001"), ("nan", "1"), ("1", "-inf"), ("1e99", "1")] {
        let refused = "refused, 11: the cell, the reading or the hull is off the chart\n";
        assert_eq!(plus(angle, load), (refused.to_string(), 1), "{angle} {load}");
    }
    let dented = program(&["reading", SPECIMENS, "1", "1", "-n", "5"]);
    assert!(out(&dented).starts_with("outline 5 (H6: a dent): refused, 9: "));
    assert_eq!(status(&dented), 1);
    let wrong = program(&["reading", SPECIMENS, "1", "x"]);
    assert_eq!(err(&wrong), "robequarry: `x` is not a load\nTry `robequarry reading --help`.\n");
    assert_eq!(status(&program(&["reading", SPECIMENS, "1"])), 2);
}

#[test]
fn bench_times_each_outline() {
    let timed = program(&["bench", &file("bench.fit", &[record((0, 1), &PLUS), record((0, 0), &DENTED)].concat())]);
    let lines = out(&timed);
    let lines: Vec<Vec<&str>> = lines.lines().map(|line| line.split_whitespace().collect()).collect();
    assert_eq!(lines.len(), 3);
    assert!(lines[1][1].parse::<f64>().unwrap() > 0.0 && lines[1][2].parse::<f64>().unwrap() > 0.0);
    assert_eq!((lines[2][0], lines[2][2], status(&timed)), ("12", "-", 1));
}

#[test]
fn border_writes_an_outline_back() {
    let plus = program(&["border", "0", "1", "1", "1", "1", "-1", "-1", "-1", "-1", "1"]);
    assert_eq!((out(&plus).as_str(), status(&plus)), ("0 1 101030323212\n", 0));
    assert_eq!(out(&program(&["border", "7", "9"])), "7 9 1032\n");
    for (edges, number) in [(&["1", "1", "-1", "-1"][..], 17), (&["1", "0"], 16), (&["1"], 10)] {
        let refused = program(&[&["border", "0", "0"], edges].concat());
        assert!(out(&refused).starts_with(&format!("refused, {number}: ")), "{edges:?}");
        assert_eq!(status(&refused), 1);
    }
    for wrong in [&["border"][..], &["border", "0"], &["border", "0", "x"], &["border", "0", "0", "40000", "0"]] {
        assert_eq!(status(&program(wrong)), 2, "{wrong:?}");
    }
}

/// Whatever `check` takes, `border` writes back from its edges: the same block.
#[test]
fn border_of_every_taken_specimen() {
    for entry in robequarry_program::input::entries(robequarry_program::gallery::SPECIMENS) {
        let Ok(edges) = entry.outline.test() else {
            continue;
        };
        let mut words = vec!["border".to_string(), edges.anchor().col.to_string(), edges.anchor().row.to_string()];
        words.extend(edges.numbers().iter().map(i16::to_string));
        let line = out(&program(&words.iter().map(String::as_str).collect::<Vec<_>>()));
        let again: robequarry::Outline = line.parse().expect("it is an outline");
        assert_eq!(again.test(), Ok(edges));
    }
}

#[test]
fn complete_writes_what_to_draw_instead() {
    let text = b"0 0 111033003222 # H6: a dent\n0 0 110301033222\n1 1 210103032321 # H4\n0 1 1033 # H12\n";
    let completed = program(&["complete", &file("drawn.txt", text)]);
    let lines = "0 0 111030303222  # H6: a dent\n\
                 0 0 1100033222\n\
                 0 1 101030323212  # H4\n\
                 # outline 3 (H12): refused, 5: the walk does not end where it started - it starts at corner (0, 1) and ends at (1, 0)\n";
    assert_eq!((out(&completed).as_str(), err(&completed).as_str(), status(&completed)), (lines, "", 1));

    // What it writes is read again: every outline is taken, and is its own completion.
    let again = file("completed.txt", lines.as_bytes());
    let checked = program(&["check", &again]);
    assert!(out(&checked).contains("3 outlines in 1 file: 3 taken, 0 refused\n"), "{}", out(&checked));
    let twice = program(&["complete", &again]);
    assert_eq!((out(&twice).as_str(), status(&twice)), (lines, 0));

    // A fitting file has no names; the test's refusal by 9 is none of the completion's.
    let dented = program(&["complete", &file("dented.fit", &record((7, 3), &DENTED))]);
    assert_eq!((out(&dented).as_str(), status(&dented)), ("7 3 111030303222\n", 0));
    let fault = program(&["complete", &file("fault.txt", b"0 0 1032\n0 0 abc\n")]);
    assert_eq!((out(&fault).as_str(), status(&fault)), ("0 0 1032\n", 2));
    assert_eq!(status(&program(&["complete"])), 2);
    assert_eq!(status(&program(&["complete", SPECIMENS, "--outline", "0"])), 2);
}

#[test]
fn compare_says_which_lies_within() {
    let file = file("blocks.txt", b"5 5 1032\n5 5 11003322\n7 5 1032\n6 5 10003222\n0 0 103\n");
    for (first, second, word, inner) in [
        ("0", "0", "equal", Some("inner: anchor (5, 5), edges none")),
        ("0", "1", "first within second", Some("inner: anchor (5, 5), edges none")),
        ("1", "0", "second within first", Some("inner: anchor (5, 5), edges none")),
        ("1", "2", "no common cell", None),
        ("1", "3", "crossing", None),
    ] {
        let compared = program(&["compare", &file, &file, "--first", first, "--second", second]);
        let said = out(&compared);
        let lines: Vec<&str> = said.lines().collect();
        assert!(
            lines[0].starts_with(&format!("first: outline {first}: taken"))
                && lines[1].starts_with(&format!("second: outline {second}"))
        );
        assert!(lines[2].starts_with(&format!("{word} - ")), "{said}");
        assert_eq!((lines.get(3).copied(), status(&compared)), (inner, 0));
    }
    let refused = program(&["compare", &file, &file, "--second", "4"]);
    assert!(out(&refused)
        .ends_with("second: outline 4: refused, 1: too few or too many letters - 3 letters; an outline has 4 to 612\n"));
    assert_eq!(status(&refused), 1);
    assert_eq!(status(&program(&["compare", &file])), 2);
}
