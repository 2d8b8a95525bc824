//! Never "all well" about something that was not looked at: what is passed over, what is empty, what is not compared, where it came from.

mod support;

use std::fs;
use std::os::unix::ffi::OsStrExt;
use std::os::unix::fs::symlink;
use std::path::Path;
use std::process::Command;

use support::call::{err, fed, file, out, path, program, record, status, DENTED, PLUS};
use support::room::Room;

/// A fresh folder.
fn folder(name: &str) -> String {
    let folder = path(name);
    let _ = fs::remove_dir_all(&folder);
    fs::create_dir_all(&folder).expect("the folder for tests can be written");
    folder
}

#[test]
fn names_in_capitals_are_read() {
    let stick = folder("silence/stick");
    file("silence/stick/A.FIT", &record((0, 0), &DENTED));
    file("silence/stick/b.Txt", b"0 0 1032\n");
    let checked = program(&["check", &stick]);
    assert!(out(&checked).contains("2 outlines in 2 files: 1 taken, 1 refused\n"), "{}", out(&checked));
    assert_eq!(status(&checked), 1);
}

#[test]
fn nothing_checked_is_a_status_of_its_own() {
    let empty = folder("silence/empty");
    for arguments in [&["check", &empty][..], &["check", &file("silence/blank.txt", b"# only words\n")]] {
        let checked = program(arguments);
        assert!(out(&checked).ends_with("  nothing was checked\n"), "{}", out(&checked));
        assert_eq!(status(&checked), 3, "{arguments:?}");
    }
    let other = folder("silence/other");
    file("silence/other/notes.md", b"0 0 1032\n");
    let checked = program(&["check", &other]);
    let passed_over = "1 passed over: the name ends in none of .fit, .txt and .img\n  nothing was checked\n";
    assert!(out(&checked).ends_with(passed_over) && status(&checked) == 3, "{}", out(&checked));
    assert_eq!(status(&program(&["check", &other, "--every-file"])), 0);
    assert_eq!(status(&fed(&["check", "-"], b"")), 3);
    assert_eq!(status(&program(&["complete", &file("silence/blank.txt", b"# only words\n")])), 3);
}

/// A pipe in a folder does not hold the run up, and a link to a folder is said to be one.
#[test]
fn only_regular_files_of_a_folder_are_read() {
    let room = Room::new("odd");
    let odd = room.path().display().to_string();
    fs::write(room.path().join("a.txt"), b"0 0 1032\n").expect("it can be written");
    assert!(Command::new("mkfifo").arg(format!("{odd}/pipe.txt")).status().expect("there is one").success());
    symlink(&odd, format!("{odd}/round")).expect("it is new");
    symlink("nowhere", format!("{odd}/broken.fit")).expect("it is new");
    let checked = program(&["check", &odd, "--verbose"]);
    let said = err(&checked);
    assert!(said.contains(&format!("{odd}/pipe.txt: passed over: not a regular file")), "{said}");
    assert!(said.contains(&format!("{odd}/round: passed over: a link to a folder")), "{said}");
    assert!(said.contains(&format!("{odd}/broken.fit: cannot be read: ")), "{said}");
    assert!(out(&checked).starts_with(&format!("{odd}/a.txt: outline 0: taken")) && status(&checked) == 2);
    assert!(!err(&program(&["check", &odd])).contains("passed over"));
}

#[test]
fn every_fault_and_every_empty_file_is_a_row() {
    let faulty = folder("silence/faulty");
    file("silence/faulty/a.txt", b"0 0 1032\n0 0 x\n1 1 1032\n7\n2 2 1032\n");
    file("silence/faulty/b.txt", b"");
    file("silence/faulty/c.fit", b"KX");
    let first = out(&program(&["check", &faulty, "--format=csv"]));
    let kinds =
        |csv: &str| csv.lines().skip(2).map(|line| line.split(',').next().unwrap_or("").to_string()).collect::<Vec<_>>();
    assert_eq!(kinds(&first), ["outline", "fault", "empty", "fault"]);
    let going = program(&["check", &faulty, "--format=csv", "--keep-going"]);
    assert_eq!(kinds(&out(&going)), ["outline", "fault", "outline", "fault", "outline", "empty", "fault"]);
    // A faulty line keeps its number, so that those after it have theirs.
    assert!(out(&going).contains(&format!("outline,{faulty}/a.txt,4,,4,0,taken,")), "{}", out(&going));
    assert!(out(&going).contains(&format!("fault,{faulty}/a.txt,3,,,,")) && status(&going) == 2);
    let json = out(&program(&["check", &faulty, "--format=json", "--keep-going"]));
    assert_eq!(json.matches("\"type\":\"fault\"").count(), 3);
    assert!(json.contains("{\"type\":\"empty\",") && json.contains("\"faults\":1,\"faulty_lines\":2,"), "{json}");
    let text = program(&["check", &faulty, "--keep-going", "--summary"]);
    assert!(err(&text).contains("a.txt: line 2: ") && err(&text).contains("a.txt: line 4: "));
    assert!(out(&text).contains("  2 lines with a fault, which is no outline\n"), "{}", out(&text));
}

#[test]
fn only_what_is_refused() {
    let both = file("silence/both.txt", b"0 0 1032 # a\n0 0 111033003222 # b\n");
    let refused = program(&["check", &both, "--refused"]);
    assert!(out(&refused).starts_with("outline 1 (b): refused, 9: ") && status(&refused) == 1);
    assert!(out(&refused).contains("2 outlines in 1 file: 1 taken, 1 refused\n"));
}

/// Whatever the names are, of files and of outlines: a fleet agrees with its own table.
#[test]
fn a_fleet_agrees_with_its_own_table() {
    let odd = folder("silence/names");
    let names: [&[u8]; 6] = [b"a\x1b[31m.txt", b"a\\u{1b}[31m.txt", b"kn\xe9e.txt", b"x, \"y\";z.txt", b" b .txt", b"C.TXT"];
    for name in names {
        let text = b"0 0 1032 # \x1b[2J\n0 1 101030323212 # \\u{1b}[2J, twice\n0 0 111033003222 # a; \"b\", c\n1 1 1032 # a; \"b\", c\n2 2 1032\n";
        fs::write(Path::new(&odd).join(std::ffi::OsStr::from_bytes(name)), text).expect("it can be written");
    }
    file("silence/names/sub/d.fit", &[record((0, 0), &PLUS), record((0, 0), &DENTED)].concat());
    let table = file("silence/own.csv", &program(&["check", &odd, "--format=csv"]).stdout);
    let agrees = "32 outlines: 32 agree, 0 differ, 0 unsafe, 0 not compared\n";
    for _ in 0..2 {
        let audited = program(&["audit", &table, &odd, "--differences"]);
        assert_eq!((out(&audited).as_str(), err(&audited).as_str(), status(&audited)), (agrees, "", 0));
    }
    let itself = program(&["audit", &table, &table, "--differences"]);
    assert_eq!((out(&itself).as_str(), status(&itself)), (agrees, 0));
    // A table of many files is not held to a single one of another name.
    let one = program(&["audit", &table, &file("silence/one.txt", b"0 0 1032\n")]);
    assert!(out(&one).ends_with("33 outlines: 0 agree, 0 differ, 0 unsafe, 33 not compared\n") && status(&one) == 3);
}

/// One controller that was not read shifts none of the others.
#[test]
fn controllers_are_paired_by_serial_number_or_name() {
    let outlines =
        "0 1 101030323212 # wearer 1, serial=4711\n0 0 111033003222 # wearer 2, serial=4712\n0 0 11030322 # wearer 3\n";
    let outlines = file("silence/drawn.txt", outlines.as_bytes());
    let plus = "0 1  1 1  1 -1  -1 -1  -1 1";
    let audited = |list: &str, more: &[&str]| {
        let list = file("silence/list.edges", list.as_bytes());
        let audited = program(&[&["audit", &list, &outlines], more].concat());
        (out(&audited), err(&audited), status(&audited))
    };
    let whole = format!("0 0  0 1  1 -1  -1 0 # wearer 3, serial=4713\n{plus} # serial=4711\n");
    let (said, _, status) = audited(&whole, &[]);
    assert!(
        said.starts_with("outline 2 (wearer 3, serial=4713): agrees - ") && said.contains("outline 0 (serial=4711): agrees")
    );
    assert!(said.contains("outline 1 (wearer 2, serial=4712): NOT COMPARED: nothing was said of it then"), "{said}");
    assert!(said.ends_with("3 outlines: 2 agree, 0 differ, 0 unsafe, 1 not compared\n") && status == 3, "{said}");
    // By position the same list would name another controller unsafe.
    assert!(audited(&whole, &["--by-position"]).0.contains("UNSAFE"));
    let (said, _, status) = audited(&format!("{plus}\n"), &[]);
    assert!(said.starts_with("a line without a name: NOT COMPARED: it has no name and no serial number"), "{said}");
    assert!(said.ends_with("0 agree, 0 differ, 0 unsafe, 4 not compared\n") && status == 3, "{said}");
    // A line that cannot be read is told, and the others are compared.
    let (said, told, status) = audited(&format!("0 0 x # serial=4712\n{plus} # serial=4711\n"), &[]);
    assert!(told.contains("line 1: a number of an edge is") && said.starts_with("outline 0 (serial=4711): agrees"));
    assert_eq!(status, 2);
    // Rows are audited by themselves.
    let (said, _, status) = audited(&format!("{plus} # serial=4711\nrows 0  1 1  0 3  1 1 # serial=4711\n"), &[]);
    assert!(said.contains("UNSAFE: the rows let the unmarked cell (3, 1) in - then 3 rows; now taken, 4 edges"), "{said}");
    assert_eq!(status, 1);
    assert!(audited("rows 0  1\n", &[]).1.contains("line 1: rows are the lowest row and then"));
}

/// A report needs nothing outside of it, and says where it came from.
#[test]
fn a_report_stands_alone() {
    let reported = folder("silence/reported");
    file("silence/reported/a.txt", b"0 0 1032 # fine\n0 0 111033003222 # <b> & \"c\"\n0 1 1033\n0 0 x\n");
    let page = path("silence/report.html");
    let checked = program(&["check", &reported, "--report", &page, "--summary"]);
    assert_eq!(status(&checked), 2);
    let html = fs::read_to_string(&page).expect("it was written");
    for part in [
        "3 outlines in 1 file: 1 taken, 2 refused",
        "line 4: letters are",
        "&lt;b&gt; &amp; &quot;c&quot;",
        "Draw this instead:",
    ] {
        assert!(html.contains(part), "{part}");
    }
    assert_eq!((html.matches("<section>").count(), html.matches("src=\"data:image/svg+xml").count()), (2, 2));
    assert!(html.contains(robequarry::ARCHIVE) && html.contains("robequarry check "));
    assert!(html.find("<h2>Faults").expect("it has them") < html.find("<h2>Refused").expect("it has them"));
}

#[test]
fn what_is_read_is_not_written_over() {
    let text = file("silence/over.txt", b"# kept\n0 0 1032 # a\n");
    let refused = program(&["convert", &text, "--to=text", "-o", &text]);
    assert!(
        err(&refused).contains("is read, and would be written over: give another name, or --force"),
        "{}",
        err(&refused)
    );
    assert_eq!(status(&refused), 2);
    assert_eq!(fs::read(&text).expect("it stays"), b"# kept\n0 0 1032 # a\n");
    assert_eq!(status(&program(&["complete", &text, "-o", &text, "--force"])), 0);
    assert_eq!(fs::read(&text).expect("it was written"), b"# kept\n0 0 1032  # a\n");
    // A fault leaves what was there.
    let target = file("silence/target.txt", b"old\n");
    assert_eq!(status(&program(&["complete", &file("silence/half.txt", b"0 0 1032\n0 0 x\n"), "-o", &target])), 2);
    assert_eq!(fs::read(&target).expect("it stays"), b"old\n");
    let left = fs::read_dir(path("silence"))
        .expect("it is there")
        .filter(|entry| entry.as_ref().is_ok_and(|entry| entry.file_name().to_string_lossy().ends_with(".part")));
    assert_eq!(left.count(), 0);
}

/// A folder without a file of outlines is named, also beside others, and is no reason to be at ease.
#[test]
fn an_empty_folder_beside_others_is_told() {
    let (full, bare) = (folder("silence/full"), folder("silence/bare"));
    file("silence/full/a.txt", b"0 0 1032\n");
    let checked = program(&["check", &full, &bare]);
    assert!(err(&checked).contains(&format!("{bare}: there is no file of outlines in this folder")), "{}", err(&checked));
    assert_eq!(status(&checked), 3);
    assert_eq!(status(&program(&["check", &full])), 0);
}

/// Nothing that is read is written over: by its name below a folder, by another name of it, or as what is compared.
#[test]
fn nor_below_a_folder_by_a_link_or_by_compare() {
    let fleet = folder("silence/fleet");
    let drawn = file("silence/fleet/a.txt", b"0 0 1032\n");
    let other = path("silence/another_name.html");
    let _ = fs::remove_file(&other);
    fs::hard_link(&drawn, &other).expect("it is new");
    let page = |page: &str| program(&["check", &fleet, "--report", page]);
    for over in [page(&drawn), page(&other), program(&["draw", &drawn, "--compare", &drawn, "-o", &drawn])] {
        assert_eq!(status(&over), 2, "{}", err(&over));
    }
    assert_eq!(fs::read(&drawn).expect("it is there"), b"0 0 1032\n");
    assert_eq!(status(&page(&path("silence/new.html"))), 0);
}

/// A fault that was told then, and a row that was cut, are faults of the audit; two files of one name are not taken for each other.
#[test]
fn an_audit_passes_over_no_row() {
    let fleet = folder("silence/then");
    file("silence/then/a/x.fit", &record((0, 1), &PLUS));
    file("silence/then/b/x.fit", &record((0, 0), &[1, 0, 3, 2]));
    let table = out(&program(&["check", &fleet, "--format", "csv"]));
    let whole = file("silence/then.csv", table.as_bytes());
    assert_eq!(status(&program(&["audit", &whole, &fleet])), 0);
    let one = folder("silence/one");
    file("silence/one/x.fit", &record((0, 1), &PLUS));
    let audited = program(&["audit", &whole, &one]);
    assert!(out(&audited).contains("1 agree, 0 differ, 0 unsafe, 1 not compared"), "{}", out(&audited));
    assert_eq!(status(&audited), 3);
    let end = table.trim_end().len() - 30;
    let cut = program(&["audit", &file("silence/cut.csv", &table.as_bytes()[..end]), &fleet]);
    assert!(err(&cut).contains("fields, and the table has 17 columns") && status(&cut) == 2, "{}", err(&cut));
    file("silence/then/c.txt", b"0 0 1032\nx\n");
    let faulty = out(&program(&["check", &fleet, "--format", "csv"]));
    fs::remove_file(format!("{fleet}/c.txt")).expect("it was made");
    let audited = program(&["audit", &file("silence/faulty.csv", faulty.as_bytes()), &fleet]);
    assert!(err(&audited).contains("was not read, or not to its end, when this was written"), "{}", err(&audited));
    assert_eq!(status(&audited), 2);
}

/// An image comes from standard input too; a text that begins with a faulty line is read where that is asked.
#[test]
fn standard_input_and_a_faulty_first_line() {
    let image = path("silence/plus.img");
    let text = file("silence/plus.txt", b"0 1 101030323212\n");
    assert_eq!(status(&program(&["convert", &text, "--to", "image", "-o", &image])), 0);
    let read = fed(&["image", "-"], &fs::read(&image).expect("it was written"));
    assert!(out(&read).contains("12 letters: taken") && status(&read) == 0, "{}", err(&read));
    assert_eq!(status(&fed(&["image", "-"], &[0; 700])), 2);
    assert_eq!(status(&fed(&["image", "-", "--drawn", &text], b"")), 2);
    let faulty = b"x is no outline\n0 0 1032\n";
    assert!(err(&fed(&["check", "-"], faulty)).contains("--text reads it as a text"));
    let kept = fed(&["check", "-", "--text", "--keep-going"], faulty);
    assert!(out(&kept).contains("1 taken") && status(&kept) == 2, "{}", out(&kept));
}
