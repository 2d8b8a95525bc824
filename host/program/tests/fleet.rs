//! Many files at once: order, formats, the summary, faults on the way, and memory that does not grow.

mod support;

use std::fs;
use std::io::{BufRead, BufReader, Read, Write};
use std::process::{Command, Stdio};

use support::call::{err, fed, file, out, path, program, record, status, DENTED, PLUS, PROGRAM, SPECIMENS};

/// A folder with files in folders, one of them with a fault and one that is no file of outlines. Each test has its own, since they run at
/// the same time.
fn fleet(name: &str) -> String {
    let folder = path(name);
    let _ = fs::remove_dir_all(&folder);
    let put = |at: &str, bytes: &[u8]| file(&format!("{name}/{at}"), bytes);
    put("b.txt", b"0 0 1032 # one cell\n0 0 111033003222\n");
    put("a/z.fit", &record((0, 1), &PLUS));
    put("a/y.fit", &[&record((3, 4), &DENTED)[..], b"KX"].concat());
    put("c.fit", &record((7, 7), &PLUS));
    put("notes.md", b"# not outlines\n");
    folder
}

#[test]
fn folders_are_read_in_order_and_past_faults() {
    let folder = fleet("fleet-in-order");
    let checked = program(&["check", &folder]);
    let dent = "refused, 9: a dent - cell";
    let piece = "4 letters from place 4 in piece 2 (N to E: down and right)";
    let lines = format!(
        "{folder}/a/y.fit: outline 0: {dent} (4, 5) is missing; {piece}\n\
         {folder}/a/z.fit: outline 0: taken - 4 edges, anchor (0, 1)\n\
         {folder}/b.txt: outline 0 (one cell): taken - no edge, anchor (0, 0)\n\
         {folder}/b.txt: outline 1: {dent} (1, 1) is missing; {piece}\n\
         {folder}/c.fit: outline 0: taken - 4 edges, anchor (7, 7)\n\
         5 outlines in 4 files: 3 taken, 2 refused\n  \
         refused by 9, a dent: 2\n  \
         longest outline: 12 letters, in outline 0 of {folder}/a/y.fit\n  \
         most edges: 4 edges, in outline 0 of {folder}/a/z.fit\n  \
         1 file with a fault\n  \
         1 passed over: the name ends in none of .fit, .txt and .img\n"
    );
    assert_eq!(out(&checked), lines);
    let fault = "fault 23: the record does not begin with its mark (outline 1, byte 18)";
    assert_eq!(err(&checked), format!("robequarry: {folder}/a/y.fit: {fault}\n"));
    assert_eq!(status(&checked), 2);

    // Files that are named are read whatever they are called, and so is every file where that is wished.
    let every = program(&["check", &folder, "--every-file", "--summary"]);
    assert!(out(&every).starts_with("5 outlines in 5 files: 3 taken, 2 refused\n"), "{}", out(&every));
    let named = program(&["check", &format!("{folder}/notes.md"), &format!("{folder}/c.fit")]);
    assert!(out(&named).ends_with("c.fit\n  1 file without an outline\n") && status(&named) == 0, "{}", out(&named));
    let none = program(&["check", &format!("{folder}/none"), &format!("{folder}/c.fit")]);
    assert!(err(&none).contains("none: cannot be read: ") && out(&none).contains("1 outline in 2 files"));
    assert_eq!(status(&none), 2);
}

#[test]
fn a_json_object_a_line() {
    let folder = fleet("fleet-in-json");
    let checked = program(&["check", &folder, "--format", "json"]);
    let text = out(&checked);
    let mut lines: Vec<&str> = text.lines().collect();
    let origin = lines.remove(0);
    assert!(origin.starts_with("{\"type\":\"origin\",\"program\":") && origin.contains(robequarry::ARCHIVE), "{origin}");
    assert!(origin.ends_with(&format!("\"call\":\"robequarry check {folder} --format json\"}}")), "{origin}");
    let dent = format!(
        "{{\"type\":\"outline\",\"file\":\"{folder}/a/y.fit\",\"outline\":0,\"name\":null,\"letters\":12,\"number\":9,\
         \"meaning\":\"a dent\",\"place\":4,\"piece\":2,\"length\":4,\"cell\":[4,5],\"anchor\":null,\"edges\":null,\
         \"missing\":[4,5],\"witness\":[[5,4],[3,6],[3,5]]}}"
    );
    assert_eq!(lines[0], dent);
    let fault = format!("{{\"type\":\"fault\",\"file\":\"{folder}/a/y.fit\",\"outline\":1,\"number\":23,\"meaning\":");
    assert!(lines[1].starts_with(&fault) && lines[1].ends_with("\"line\":null,\"byte\":18}"), "{}", lines[1]);
    let taken = "\"anchor\":[0,1],\"edges\":[[1,1],[1,-1],[-1,-1],[-1,1]],\"missing\":null,\"witness\":null}";
    assert!(lines[2].ends_with(taken), "{}", lines[2]);
    assert!(lines[6]
        .starts_with("{\"type\":\"summary\",\"files\":4,\"empty\":0,\"faults\":1,\"faulty_lines\":0,\"passed_over\":1,"));
    assert_eq!((lines.len(), status(&checked)), (7, 2));
    // Of a back-step the reply names no cell, and the witness does.
    let back_step = fed(&["check", "-", "--format=json"], b"0 0 110301033222\n");
    assert!(out(&back_step).contains("\"number\":8,") && out(&back_step).contains("\"cell\":null"));
    assert!(out(&back_step).contains("\"missing\":[1,1],\"witness\":[[0,1],[2,1],[2,1]]}"));
}

#[test]
fn csv_is_a_table() {
    let checked = fed(&["check", "-", "--format", "csv"], b"0 1 101030323212 # a, \"b\"\n0 0 103\n0 0 x\n");
    let text = out(&checked);
    let (origin, table) = text.split_once('\n').expect("there are lines");
    assert!(origin.starts_with("# robequarry ") && origin.ends_with("Z: robequarry check - --format csv"), "{origin}");
    let lines =
        "type,file,outline,name,letters,number,meaning,place,piece,length,cell,anchor,edges,missing,witness,line,byte\n\
                 outline,standard input,0,\"a, \"\"b\"\"\",12,0,taken,4,,,,0 1,1 1 1 -1 -1 -1 -1 1,,,,\n\
                 outline,standard input,1,,3,1,too few or too many letters,,,,,,,,,,\n\
                 fault,standard input,2,,,,\"line 3: letters are 0 right, 1 up, 2 left and 3 down, not `x`\",,,,,,,,,3,\n";
    assert_eq!((table, status(&checked)), (lines, 2));
    assert!(err(&checked).contains("robequarry: 2 outlines in 1 file: 1 taken, 1 refused\n"));
}

/// A text that is cut in many pieces has the same numbers, lines and counts as a small one; what follows a fault is not read.
#[test]
fn long_texts_in_pieces() {
    let specimens = fs::read_to_string(SPECIMENS).expect("it is there");
    let (times, outlines) = (400, 16);
    let checked = program(&["check", &file("long.txt", specimens.repeat(times).as_bytes())]);
    let text = out(&checked);
    for (number, line) in text.lines().take(times * outlines).enumerate() {
        assert!(line.starts_with(&format!("outline {number} (")), "{line}");
    }
    assert!(text.contains(&format!("\n{} outlines in 1 file: {} taken", times * outlines, 7 * times)));
    let faulty = [&specimens.repeat(times), "0 0 x\n", &specimens.repeat(times)].concat();
    let checked = program(&["check", &file("faulty.txt", faulty.as_bytes()), "--summary"]);
    assert!(out(&checked).starts_with(&format!("{} outlines in 1 file", times * outlines)));
    assert!(err(&checked).contains(&format!("line {}: letters are", times * specimens.lines().count() + 1)));
}

/// Each line of standard input is answered before the next is written.
#[test]
fn standard_input_is_answered_line_by_line() {
    let mut child = Command::new(PROGRAM)
        .args(["check", "-"])
        .stdin(Stdio::piped())
        .stdout(Stdio::piped())
        .spawn()
        .expect("cargo has built it");
    let mut input = child.stdin.take().expect("it is piped");
    let mut answers = BufReader::new(child.stdout.take().expect("it is piped"));
    for number in 0..3 {
        writeln!(input, "{number} 0 1032").expect("it is read");
        let mut line = String::new();
        answers.read_line(&mut line).expect("it answers");
        assert_eq!(line, format!("outline {number}: taken - no edge, anchor ({number}, 0)\n"));
    }
    drop(input);
    let mut rest = String::new();
    answers.read_to_string(&mut rest).expect("it ends");
    assert!(rest.starts_with("3 outlines in 1 file"));
    assert!(child.wait().expect("it ends").success());
}

/// What has no end, and what is far too large, ends with fault 25; the process is kept to little memory meanwhile.
#[test]
fn endless_input_ends_with_fault_25() {
    for (input, form) in [("/dev/zero", ""), ("/dev/zero", "--fitting"), ("/dev/zero", "--text")] {
        let limited = format!("ulimit -d 150000; exec \"$0\" check {form} {input}");
        let checked = Command::new("sh").args(["-c", &limited, PROGRAM]).output().expect("there is a shell");
        assert!(err(&checked).contains("fault 25: "), "{form} {}", err(&checked));
        assert_eq!(status(&checked), 2);
    }
    let large = path("large.bin");
    let sparse = fs::File::create(&large).expect("the folder for tests can be written");
    sparse.set_len(300 << 20).expect("a file may have holes");
    let limited = "ulimit -d 150000; exec \"$0\" check \"$1\"";
    let checked = Command::new("sh").args(["-c", limited, PROGRAM, &large]).output().expect("there is a shell");
    fs::remove_file(&large).expect("it was created");
    assert!(err(&checked).ends_with("fault 25: the file has more than 65,536 bytes\n"), "{}", err(&checked));
}

/// A reader that goes away ends the program by the signal that ends others, without a word.
#[test]
fn a_closed_pipe_ends_it() {
    let specimens = fs::read_to_string(SPECIMENS).expect("it is there").repeat(2000);
    let path = file("much.txt", specimens.as_bytes());
    let script = "\"$0\" check \"$1\" | head -n 1; echo \"${PIPESTATUS[0]}\"";
    let piped = Command::new("bash").args(["-c", script, PROGRAM, &path]).output().expect("there is a shell");
    assert_eq!(out(&piped), "outline 0 (H1: one cell): taken - no edge, anchor (0, 0)\n141\n");
    assert_eq!(err(&piped), "");
}

#[test]
fn what_is_neither_form_is_said() {
    for bytes in [&b"\x89PNG\r\n\x1a\n"[..], b"hello\n", b"0 0\0", b"\xEF\xBB\xBFKO"] {
        let checked = fed(&["check", "-"], bytes);
        assert!(
            err(&checked).starts_with("robequarry: standard input: neither text nor a fitting file: "),
            "{}",
            err(&checked)
        );
        assert_eq!(status(&checked), 2);
    }
    let marked = fed(&["check", "-"], b"\xEF\xBB\xBF0 0 1032 # \x1b[31mred\n");
    assert!(out(&marked).starts_with("outline 0 (\\u{1b}[31mred): taken"), "{}", out(&marked));
    let broken = fed(&["check", "-"], b"0 0 1\x1b32\n");
    assert!(err(&broken).ends_with("not `\\u{1b}`\n"), "{}", err(&broken));
}
