//! Images out of controllers, and commands over folders.

mod support;

use std::fs;

use robequarry::image::Image;
use robequarry::Outline;
use support::call::{err, file, out, path, program, status};
use support::xml;

fn folder(name: &str) -> String {
    let folder = path(name);
    let _ = fs::remove_dir_all(&folder);
    folder
}

fn image(outline: &str) -> Vec<u8> {
    let outline: Outline = outline.parse().expect("it is an outline");
    Image::of(&outline).expect("it has few letters").bytes().to_vec()
}

#[test]
fn images_are_read_told_and_audited() {
    let images = folder("images/read");
    file("images/read/4711.img", &image("0 1 101030323212"));
    file("images/read/4712.IMG", &image("0 0 111033003222"));
    file("images/read/empty.img", &Image::empty().bytes());
    file("images/read/notes.txt", b"# none\n");
    let told = program(&["image", &images]);
    let lines = format!(
        "{images}/4711.img: 12 letters: taken - 4 edges, anchor (0, 1)\n  0 1 101030323212\n\
         {images}/4712.IMG: 12 letters: refused, 9: a dent - cell (1, 1) is missing; \
         4 letters from place 4 in piece 2 (N to E: down and right)\n  0 0 111033003222\n\
         {images}/empty.img: an empty place\n"
    );
    assert_eq!((out(&told), status(&told)), (lines, 1));
    assert_eq!(err(&told), "robequarry: 1 passed over: the name does not end in .img\n");
    let read = path("images/read-out.txt");
    assert_eq!(status(&program(&["image", &images, "-o", &read])), 1);
    assert_eq!(fs::read_to_string(&read).expect("it was written"), "0 1 101030323212  # 4711\n0 0 111033003222  # 4712\n");

    let drawn = "0 1 101030323212 # wearer 1, serial=4711\n0 0 1032 # empty\n0 0 1032 # wearer 3, serial=4713\n";
    let drawn = file("images/drawn.txt", drawn.as_bytes());
    let audited = program(&["image", &images, "--drawn", &drawn]);
    let said = out(&audited);
    assert!(said.starts_with("outline 0 (4711): agrees - "), "{said}");
    assert!(said.contains("4712: NOT COMPARED: no outline has its serial number or its name"), "{said}");
    assert!(said.contains("outline 1 (empty): the rows leave the marked cell (0, 0) out - then an empty place"), "{said}");
    assert!(said.ends_with("4 outlines: 1 agree, 1 differ, 0 unsafe, 2 not compared\n") && status(&audited) == 1, "{said}");
    assert_eq!(out(&program(&["audit", &images, &drawn])), said);
}

#[test]
fn damaged_images_are_refused() {
    let mut bytes = image("0 1 101030323212");
    bytes[300] ^= 1;
    let damaged = file("images/damaged.img", &bytes);
    for arguments in [&["image", &damaged][..], &["check", &damaged], &["convert", &damaged], &["audit", &damaged, &damaged]]
    {
        let told = program(arguments);
        assert!(
            err(&told).contains("refusal 26, no image: its checksum is not that of its bytes"),
            "{arguments:?} {}",
            err(&told)
        );
        assert_eq!(status(&told), 2, "{arguments:?}");
    }
    let none = program(&["image", &file("images/none.img", b"")]);
    assert!(err(&none).contains("an image has 622 bytes, and these are 0"), "{}", err(&none));
    let empty = program(&["image", &file("images/place.img", &Image::empty().bytes())]);
    assert_eq!((out(&empty).ends_with(": an empty place\n"), status(&empty)), (true, 3));
}

#[test]
fn images_are_written_of_taken_outlines() {
    let text = file("images/two.txt", b"1 1 210103032321 # H4\n0 0 111033003222 # H6\n");
    let target = path("images/H4.img");
    assert_eq!(status(&program(&["convert", &text, "-o", &target])), 0);
    // The border from W, as a controller saves it.
    assert_eq!(fs::read(&target).expect("it was written"), image("0 1 101030323212"));
    assert_eq!(out(&program(&["convert", &target])), "0 1 101030323212\n");
    let refused = program(&["convert", &text, "-n1", "--to=image"]);
    assert!(
        err(&refused).ends_with("outline 1: refused by 9: an image is written of a taken outline\n"),
        "{}",
        err(&refused)
    );
    assert_eq!((status(&refused), refused.stdout.len()), (2, 0));
    let none = program(&["convert", &text, "-n7", "--to=image"]);
    assert!(err(&none).ends_with("there is no outline 7: it holds 2 outlines\n") && status(&none) == 2, "{}", err(&none));
}

#[test]
fn year_against_year() {
    let (then, now) = (folder("images/then"), folder("images/now"));
    file("images/then/a.txt", b"5 5 1032 # knee\n5 5 11003322 # ankle\n0 0 111033003222 # bad\n");
    file("images/now/a.txt", b"7 5 1032 # ankle\n5 5 11003322 # knee\n0 0 1032 # bad\n0 0 1032 # new\n");
    file("images/then/old.txt", b"0 0 1032\n");
    file("images/now/new.txt", b"0 0 1032\n");
    let compared = program(&["compare", &then, &now]);
    let said = out(&compared);
    let lines: Vec<&str> = said.lines().collect();
    assert!(lines[0].starts_with("a.txt: outline 0 (knee): first within second - "), "{said}");
    assert!(lines[1].starts_with("a.txt: outline 1 (ankle): no common cell - "), "{said}");
    assert!(lines[2].starts_with("a.txt: first: outline 2 (bad): refused, 9: "), "{said}");
    assert_eq!(lines[3], "a.txt: NOT COMPARED: outline 3 (new) of the second has no other");
    assert_eq!(lines[4], "old.txt: NOT COMPARED: only the first folder has this file");
    assert_eq!((lines[5], status(&compared)), ("new.txt: NOT COMPARED: only the second folder has this file", 1));
    let json = out(&program(&["compare", &then, &now, "--format=json"]));
    assert!(
        json.contains("\"first_name\":\"knee\",\"first_number\":0,\"second\":1,") && json.lines().count() == 7,
        "{json}"
    );

    let pictures = folder("images/pictures");
    let drawn = program(&["draw", &then, "--compare", &now, "-o", &pictures]);
    assert!(
        out(&drawn).contains("new.txt: NOT COMPARED: ") && out(&drawn).ends_with(&format!("2 pictures in {pictures}\n"))
    );
    for name in ["a.txt-0.svg", "a.txt-1.svg"] {
        xml::parse(&fs::read_to_string(format!("{pictures}/{name}")).expect("it was written"));
    }
    let refused = program(&["draw", &then, "--refused", "-o", &pictures]);
    assert_eq!((out(&refused), status(&refused)), (format!("1 picture in {pictures}\n"), 1));
    assert!(fs::metadata(format!("{pictures}/a.txt-2.svg")).is_ok());
    assert_eq!(status(&program(&["draw", &then, "-o", &pictures])), 1);
    xml::parse(&fs::read_to_string(format!("{pictures}/a.txt.svg")).expect("it was written"));

    let completed = folder("images/completed");
    assert_eq!(status(&program(&["complete", &then, "-o", &completed])), 0);
    assert_eq!(
        out(&program(&["check", &completed, "--summary"])).lines().next(),
        Some("4 outlines in 2 files: 4 taken, 0 refused")
    );
}

#[test]
fn stories_piles_and_completions_for_machines() {
    let text = file("images/dent.txt", b"0 0 111033003222 # H6\n");
    let story = out(&program(&["explain", &text, "--format=json"]));
    let object = story.lines().nth(1).expect("after where it came from");
    assert!(object.starts_with("{\"type\":\"story\",") && object.contains("\"number\":9,"), "{object}");
    assert!(object.contains("\"factors\":[{\"letters\":\"3300\",\"times\":1,\"christoffel\":0,"), "{object}");
    assert!(object.ends_with("\"instead\":\"0 0 111030303222\"}"), "{object}");
    // A line of units, as the page writes it, is read.
    let line = b"# units party=knee angle=0..127 angle-unit=deg load=0..1270 load-unit=N\n0 0 111033003222 # H6\n";
    let told = out(&program(&["explain", &file("images/units.txt", line)]));
    assert!(told.ends_with("in the file's units, the missing cell: knee 0.5 deg, 5 N\n"), "{told}");
    let completed = out(&program(&["complete", &text, "--format=json"]));
    assert!(
        completed.ends_with("\"number\":0,\"meaning\":null,\"start\":[0,0],\"letters\":\"111030303222\"}\n"),
        "{completed}"
    );
    let pile = program(&["pile", &file("images/pile.txt", b"9 1 1032\n0 0\n9 0 1032\n"), "--format=json"]);
    let lines = out(&pile);
    assert!(
        lines.contains("{\"type\":\"layer\"") && lines.contains("\"layer\":1,\"name\":null,\"meaning\":\"empty\"}"),
        "{lines}"
    );
    assert!(lines.lines().last().is_some_and(|line| line.starts_with("{\"type\":\"pile\",\"number\":")), "{lines}");
    let csv = program(&["explain", &text, "--format=csv"]);
    assert!(err(&csv).starts_with("robequarry: explain writes text or json, not csv\nTry `robequarry explain --help`."));
}
