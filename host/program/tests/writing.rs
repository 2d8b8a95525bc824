//! What the program writes: outlines in both forms, borders from edges, piles and pictures of several things.

mod support;

use std::fs;

use support::call::{err, fed, file, out, path, program, record, status, PLUS, SPECIMENS};
use support::xml;

#[test]
fn text_to_fitting_file_and_back() {
    let text = file("writing/both.txt", b"# two\n0 1 101030323212 # a plus\n\n7 7 00\n");
    let fitting = path("writing/both.fit");
    let written = program(&["convert", &text, "-o", &fitting]);
    assert_eq!((status(&written), out(&written), err(&written)), (0, String::new(), String::new()));
    let bytes = fs::read(&fitting).expect("it was written");
    assert_eq!(bytes, [record((0, 1), &PLUS), record((7, 7), &[0, 0])].concat());
    let back = program(&["convert", &fitting, "--to", "text"]);
    assert_eq!((out(&back).as_str(), status(&back)), ("0 1 101030323212\n7 7 00\n", 0));
    assert_eq!(program(&["convert", &text, "--to=fitting"]).stdout, bytes);
    // Names and all, from text to text.
    assert_eq!(out(&program(&["convert", &text, "--to=text"])), "# two\n0 1 101030323212  # a plus\n7 7 00\n");
    // Where nothing says the form, it is the other one.
    assert_eq!(program(&["convert", &text]).stdout, bytes);
    assert_eq!(out(&program(&["convert", &fitting])), out(&back));
    let both = program(&["convert", &text, "--to=fitting", "-o", "a.txt"]);
    assert!(err(&both).starts_with("robequarry: --to fitting and the name a.txt contradict each other\n"));
    let start = fed(&["convert", "-", "--to=fitting"], b"0 0 1032\n256 0 1032\n");
    assert!(err(&start).starts_with("robequarry: -: outline 1: a record has a byte for each number"), "{}", err(&start));
    assert_eq!((status(&start), start.stdout.len()), (2, 0));
    let byte = fed(&["convert", "-", "--to=text"], &record((0, 0), &[1, 0, 200, 2]));
    assert!(err(&byte).ends_with("outline 0: the text form has digits alone, and the byte at place 2 is 200\n"));
    let large = fed(&["convert", "-", "--to=fitting"], "0 0 1032\n".repeat(7000).as_bytes());
    assert!(err(&large).ends_with("a fitting file has at most 65536 bytes: write several files\n"), "{}", err(&large));
    let empty = program(&["convert", &file("writing/empty.txt", b""), "-o", &fitting]);
    assert!(err(&empty).ends_with("the file is empty: it holds no outline\n") && status(&empty) == 0);
    assert_eq!(fs::read(&fitting).expect("it was written"), []);
}

/// Every shipped fitting file without a fault comes back byte for byte, where its bytes are digits.
#[test]
fn shipped_files_there_and_back() {
    let folder = concat!(env!("CARGO_MANIFEST_DIR"), "/../../files");
    for name in ["h3", "specimens", "258_letters", "613_letters", "no_letters", "letter_above_3"] {
        let fitting = format!("{folder}/{name}.fit");
        let text = path(&format!("writing/{name}.txt"));
        assert_eq!(status(&program(&["convert", &fitting, "-o", &text])), 0, "{name}");
        assert_eq!(program(&["convert", &text, "--to=fitting"]).stdout, fs::read(&fitting).expect("it ships"), "{name}");
    }
}

#[test]
fn completions_as_a_fitting_file() {
    let out = path("writing/completed.fit");
    let text = file("writing/drawn.txt", b"0 0 111033003222 # H6\n0 1 1033\n");
    let completed = program(&["complete", &text, "-o", &out]);
    assert!(err(&completed).starts_with("robequarry: outline 1: refused, 5: "), "{}", err(&completed));
    assert_eq!(status(&completed), 1);
    let bytes = fs::read(&out).expect("it was written");
    assert_eq!(bytes, record((0, 0), &[1, 1, 1, 0, 3, 0, 3, 0, 3, 2, 2, 2]));
}

#[test]
fn borders_from_a_file_of_edges() {
    let lists = b"# controllers\n0 1  1 1  1 -1  -1 -1  -1 1  # 4711\n0 0  1 1  -1 -1\n7 9\n";
    let written = program(&["border", "--edges", &file("writing/edges.txt", lists)]);
    let lines = "0 1 101030323212  # 4711\n\
                 # 0 0  1 1  -1 -1: refused, 17: no outline that the test takes has this anchor and these edges\n\
                 7 9 1032\n";
    assert_eq!((out(&written).as_str(), err(&written).as_str(), status(&written)), (lines, "", 1));
    // What `check` writes as a table holds the edges of what is taken, and these are the same blocks.
    let table = file("writing/specimens.csv", &program(&["check", SPECIMENS, "--format=csv"]).stdout);
    let outlines = path("writing/again.txt");
    assert_eq!(status(&program(&["border", "--edges", &table, "-o", &outlines])), 0);
    let checked = program(&["check", &outlines, "--summary"]);
    assert!(out(&checked).starts_with("7 outlines in 1 file: 7 taken, 0 refused\n"), "{}", out(&checked));
    let both = program(&["border", "0", "0", "--edges", &table]);
    assert!(err(&both).starts_with("robequarry: --edges and numbers contradict each other"));
}

#[test]
fn sixteen_layers_from_a_file() {
    let pile = |text: &str| {
        let checked = fed(&["pile", "-"], text.as_bytes());
        assert_eq!(err(&checked), "");
        (out(&checked), status(&checked))
    };
    let (said, status) = pile("9 1 1032 # slow\n9 2 1032\n9 0 1032\n");
    let lines = "layer 0 (slow): taken - no edge, anchor (9, 1)\n\
                 layer 1: taken - no edge, anchor (9, 2)\n\
                 layer 2: taken - no edge, anchor (9, 0)\n\
                 refused, 21: a section of the pile is dented (column 9) - layer 1 lacks row 1\n";
    assert_eq!((said.as_str(), status), (lines, 1));
    let (said, status) = pile("9 1 1032\n0 0\n");
    assert_eq!((said.lines().nth(1), said.lines().nth(2)), (Some("layer 1: empty"), Some("passed - no section is dented")));
    assert_eq!(status, 0);
    assert_eq!(pile(&"9 1 1032\n".repeat(16)).1, 0);
    let empty = fed(&["pile", "-"], b"");
    assert!(err(&empty).ends_with("the file is empty: it holds no outline\n") && support::call::status(&empty) == 3);
    assert_eq!(out(&empty), "nothing was checked: there is no layer\n");
    let (said, status) = pile(&"9 1 1032\n".repeat(17));
    assert!(
        said.starts_with("refused, 22: there is no such layer: it is above 15 - the file has 17 outlines") && status == 1
    );
    let (said, status) = pile("9 1 1032\n0 0 111033003222\n");
    assert!(said.ends_with("refused, 9: layer 1 is not set\n") && status == 1);
}

/// The plots of a picture, and the status.
fn drawn(arguments: &[&str]) -> (usize, i32) {
    let call = program(&[&["draw"], arguments, &["-o", "-"]].concat());
    let picture = xml::parse(&out(&call));
    (picture.of_class("plot").len(), status(&call))
}

#[test]
fn pictures_of_several_things() {
    assert_eq!(drawn(&[SPECIMENS, "--all"]), (16, 1));
    assert_eq!(drawn(&[SPECIMENS, "-n5", "--witness"]), (1, 1));
    assert_eq!(drawn(&[SPECIMENS, "-n2", "--compare", SPECIMENS, "--second=4"]), (1, 0));
    let dented = file("writing/pile.txt", b"9 1 1032\n9 2 1032\n9 0 1032\n");
    assert_eq!(drawn(&[&dented, "--pile"]), (1, 1));
    assert_eq!(drawn(&[&dented, "--pile", "--row", "2"]), (1, 1));
    let passes = file("writing/passes.txt", b"9 1 1032\n9 1 1032\n");
    assert_eq!(drawn(&[&passes, "--pile"]), (2, 0));

    let none = program(&["draw", SPECIMENS, "--witness", "-o", "-"]);
    assert!(out(&none).starts_with("outline 0 (H1: one cell): no cell is missing, so there is no witness: taken"));
    let refused = program(&["draw", SPECIMENS, "--compare", SPECIMENS, "--second=5", "-o", "-"]);
    assert!(out(&refused).starts_with("second: outline 5 (H6: a dent): refused, 9: ") && status(&refused) == 1);
    let many = file("writing/many.txt", "0 0 1032\n".repeat(401).as_bytes());
    let sheet = program(&["draw", &many, "--all", "-o", "-"]);
    assert!(err(&sheet).ends_with("a sheet has space for 400 outlines, and these are 401: draw parts of the file\n"));
}

#[test]
fn a_png_is_refused_with_what_to_do() {
    let refused = program(&["draw", SPECIMENS, "-o", "plus.png"]);
    let sentence = "robequarry: plus.png: pictures are SVG, not PNG: draw plus.svg, and a browser or \
                    `rsvg-convert plus.svg -o plus.png` makes the PNG\n";
    assert_eq!((err(&refused).as_str(), status(&refused)), (sentence, 2));
    assert!(!std::path::Path::new("plus.png").exists());
}

#[test]
fn contradictions_in_a_picture() {
    for (arguments, message) in [
        (&["--all", "--outline=1"][..], "--all and --outline contradict each other: give one of them"),
        (&["--complete", "--witness"], "--complete and --witness contradict each other: give one of them"),
        (&["--pile", "--column=1", "--row=1"], "--column and --row contradict each other: give one of them"),
        (&["--column=1"], "--column goes with --pile"),
        (&["--second=1"], "--second goes with --compare"),
        (&["--pile", "--row=255"], "--row is a number from 0 to 254"),
    ] {
        let called = program(&[&["draw", &file("writing/one.txt", b"0 0 1032\n"), "-o", "x.svg"], arguments].concat());
        assert_eq!(err(&called), format!("robequarry: {message}\nTry `robequarry draw --help`.\n"));
        assert_eq!(status(&called), 2);
    }
}
