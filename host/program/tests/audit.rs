//! The audit: edges from controllers and verdicts of other dates and engines, held to the outlines.

mod support;

use std::fs;

use robequarry::{text, Corner, Outline};
use robequarry_checks::draw::Shape;
use robequarry_checks::random::Random;
use robequarry_checks::reference::cells::Enclosed;
use robequarry_checks::Point;
use support::call::{err, file, out, path, program, record, status, DENTED, PLUS, SPECIMENS};

/// Edges are audited against outlines: what the first line says, and the status.
fn audited(edges: &str, outlines: &str) -> (String, i32) {
    let (old, new) = (file("audit/edges.txt", edges.as_bytes()), file("audit/outlines.txt", outlines.as_bytes()));
    let audited = program(&["audit", &old, &new, "--by-position"]);
    assert_eq!(err(&audited), "");
    (out(&audited).lines().next().unwrap_or_default().to_string(), status(&audited))
}

#[test]
fn a_controller_that_lets_a_cell_in_is_named() {
    let dented = "0 0 111033003222 # H6\n";
    let (line, status) = audited("0 0  0 2  2 -2  -2 0  # controller 4711\n", dented);
    let expected = "outline 0 (controller 4711): UNSAFE: the edges let the unmarked cell (1, 1) in - then taken, 3 edges; \
                    now refused by 9, a dent";
    assert_eq!((line.as_str(), status), (expected, 1));
    let plus = "0 1 101030323212\n";
    let (line, status) = audited("0 0  0 2  2 0  0 -2  -2 0  # knee 5\n", plus);
    let let_in =
        "outline 0 (knee 5): UNSAFE: the edges let the unmarked cell (0, 0) in, and (2, 0) (0, 2) (2, 2) - then taken";
    assert!(line.starts_with(let_in) && status == 1, "{line}");
    let (line, status) = audited("1 1\n", plus);
    let left_out =
        "outline 0: the edges leave the marked cell (1, 0) out, and (0, 1) (2, 1) (1, 2) - then taken, no edge; now taken";
    assert!(line.starts_with(left_out) && status == 1, "{line}");
    let (line, _) = audited("0 1  1 1  -1 -1  1 -1  -1 1\n", plus);
    assert!(line.starts_with("outline 0: the edges answer for no cell: refusal 16, "), "{line}");
    assert_eq!(audited("0 1  1 1  1 -1  -1 -1  -1 1\n", plus).1, 0);
    // Letters that go round no block mark no cell, and a controller with edges for them is unsafe.
    assert!(audited("0 0\n", "0 1 1033\n").0.starts_with("outline 0: UNSAFE: the edges let the unmarked cell (0, 0) in"));
}

/// What `check` writes as a table agrees with the same files; other verdicts, other fields and outlines of one side alone are told.
#[test]
fn tables_of_another_date() {
    let then = program(&["check", SPECIMENS, "--format", "csv"]).stdout;
    let table = file("audit/then.csv", &then);
    let same = program(&["audit", &table, SPECIMENS]);
    assert!(out(&same).ends_with("16 outlines: 16 agree, 0 differ, 0 unsafe, 0 not compared\n"), "{}", out(&same));
    assert_eq!((status(&same), out(&same).lines().count()), (0, 17));
    assert_eq!(out(&program(&["audit", &table, &table])), out(&same));
    let quiet = program(&["audit", &table, SPECIMENS, "--differences"]);
    assert_eq!(out(&quiet), "16 outlines: 16 agree, 0 differ, 0 unsafe, 0 not compared\n");

    // An engine that takes the dent, one that refuses a plus, one that names another place, and one outline more than there is.
    let other = "outline,number,place,anchor,edges\n5,0,,0 0,0 2 2 -2 -2 0\n2,9,,,\n6,8,4,,\n99,0,,0 0,\n";
    let told = program(&["audit", &file("audit/other.csv", other.as_bytes()), SPECIMENS, "--format=json", "--differences"]);
    let text = out(&told);
    let lines: Vec<&str> = text.lines().skip(1).collect();
    let start = "{\"type\":\"audit\",\"file\":null,\"outline\":5,\"name\":\"H6: a dent\",\"finding\":\"unsafe\",\"then\":0,\"now\":9,";
    assert_eq!(lines[0], format!("{start}\"let_in\":[[1,1]],\"left_out\":[]}}"));
    assert!(lines[1].contains("\"outline\":2,") && lines[1].contains("\"finding\":\"verdict\",\"then\":9,\"now\":0"));
    assert!(lines[2].contains("\"outline\":6,") && lines[2].contains("\"finding\":\"field\""));
    assert!(lines[3].contains("\"outline\":99,") && lines[3].contains("\"finding\":\"only then\""));
    assert!(lines[4].contains("\"outline\":0,") && lines[4].contains("\"finding\":\"only now\""));
    assert_eq!(
        lines[17],
        "{\"type\":\"summary\",\"outlines\":17,\"agree\":0,\"differ\":3,\"unsafe\":1,\"not_compared\":14,\"faults\":0}"
    );
    assert_eq!(status(&told), 1);
    let csv = out(&program(&["audit", &table, SPECIMENS, "--format=csv"]));
    assert!(csv.contains("\nfile,outline,name,finding,then,now,let_in,left_out\n") && csv.contains(",agrees,0,0,,\n"));
}

/// A table of a whole folder, held to the folder where it was and to a copy elsewhere.
#[test]
fn a_fleet_of_another_date() {
    let folder = path("audit-fleet");
    let _ = fs::remove_dir_all(&folder);
    for (name, outlines) in [("a/one.fit", vec![PLUS, DENTED]), ("two.fit", vec![DENTED]), ("b/three.fit", vec![PLUS])] {
        let records: Vec<u8> = outlines.iter().flat_map(|letters| record((0, 1), letters)).collect();
        file(&format!("audit-fleet/then/{name}"), &records);
        file(&format!("audit-fleet/now/{name}"), &records);
    }
    let (then, now) = (format!("{folder}/then"), format!("{folder}/now"));
    let table = file("audit/fleet.csv", &program(&["check", &then, "--format", "csv"]).stdout);
    for place in [&then, &now] {
        let same = program(&["audit", &table, place]);
        assert!(out(&same).ends_with("4 outlines: 4 agree, 0 differ, 0 unsafe, 0 not compared\n"), "{}", out(&same));
        assert_eq!(status(&same), 0);
    }
    // One file is changed, one is new, and one has gone.
    file("audit-fleet/now/two.fit", &record((0, 1), &PLUS));
    file("audit-fleet/now/four.fit", &record((0, 1), &PLUS));
    fs::remove_file(format!("{now}/b/three.fit")).expect("it was written");
    let told = out(&program(&["audit", &table, &now, "--differences"]));
    let lines: Vec<&str> = told.lines().collect();
    assert!(
        lines[0]
            .starts_with(&format!("{then}/b/three.fit: outline 0: NOT COMPARED: there is no such outline now - then taken")),
        "{told}"
    );
    let two = format!("{then}/two.fit: outline 0: the verdict is another - then refused by 9, a dent; now taken, 4 edges");
    assert_eq!(lines[1], two);
    let four =
        format!("{now}/four.fit: outline 0: NOT COMPARED: nothing was said of it then - then nothing; now taken, 4 edges");
    assert_eq!((lines[2], lines[3]), (four.as_str(), "5 outlines: 2 agree, 1 differ, 0 unsafe, 2 not compared"));
}

#[test]
fn faults_of_an_audit() {
    let bad = |name: &str, text: &str| {
        let told = program(&["audit", &file(name, text.as_bytes()), SPECIMENS]);
        (err(&told), status(&told))
    };
    assert!(bad("audit/no-outline.csv", "file,number\na,0\n")
        .0
        .ends_with("line 1: a table of verdicts needs a column `outline`\n"));
    assert!(bad("audit/no-number.csv", "file,outline\na,0\n")
        .0
        .ends_with("line 1: a table of verdicts needs a column `number`\n"));
    let (said, status) = bad("audit/field.csv", "outline,number\n0,0\nx,0\n");
    assert!(said.ends_with("line 3: `x` is not what the column `outline` holds\n") && status == 2, "{said}");
    assert!(bad("audit/edges.bad", "0 0 x\n").0.ends_with("line 1: a number of an edge is from -32768 to 32767, not `x`\n"));
    assert!(bad("audit/quote.csv", "outline,number\n0,\"0\n").0.ends_with("line 2: a quote has no end\n"));
    let none = program(&["audit", "no/such/file", SPECIMENS]);
    assert!(err(&none).starts_with("robequarry: no/such/file: cannot be read: "));
    let fault = program(&[
        "audit",
        &file("audit/one.edges", b"0 0\n"),
        &file("audit/fault.txt", b"0 0 1032\n0 0 x\n"),
        "--by-position",
    ]);
    assert!(err(&fault).contains("line 2: letters are") && fault.status.code() == Some(2));
    assert!(out(&fault).ends_with("1 outline: 1 agree, 0 differ, 0 unsafe, 0 not compared\n"), "{}", out(&fault));
}

/// Whatever the outline and whatever the edges: let in and left out are what plain counting of cells says.
#[test]
fn drawn_outlines_against_edges_of_others() {
    let mut random = Random::new(42);
    let mut outlines = String::new();
    let mut edges = String::new();
    let mut expected = Vec::new();
    for shape in Shape::ALL.into_iter().cycle().take(40) {
        let drawn = shape.draw_in(&mut random, 12);
        let other = robequarry_checks::draw::any_taken(&mut random);
        let outline = Outline::new(Corner::new(drawn.start.col, drawn.start.row), drawn.letters.clone());
        let foreign = Outline::new(Corner::new(other.start.col, other.start.row), other.letters.clone());
        let Ok(list) = foreign.test() else { continue };
        outlines += &format!("{}\n", text::line(&outline).expect("letters are digits"));
        edges += &format!("{}\n", text::edge_line(&list));
        let cells = |start: Point, letters: &[u8]| Enclosed::of(start, letters).cells().collect::<Vec<_>>();
        let in_list = cells(other.start, &other.letters);
        let block = outline.witness().is_ok();
        let marked = if block { cells(drawn.start, &drawn.letters) } else { Vec::new() };
        let apart = |a: &[(i32, i32)], b: &[(i32, i32)]| a.iter().filter(|cell| !b.contains(cell)).count();
        expected.push((apart(&in_list, &marked), apart(&marked, &in_list)));
    }
    let (old, new) = (file("audit/drawn-edges.txt", edges.as_bytes()), file("audit/drawn.txt", outlines.as_bytes()));
    let csv = out(&program(&["audit", &old, &new, "--format=csv", "--by-position"]));
    let count = |field: &str| field.split(' ').filter(|number| !number.is_empty()).count() / 2;
    let found: Vec<(usize, usize)> = csv
        .lines()
        .skip(2)
        .map(|line| {
            let fields: Vec<&str> = line.split(',').collect();
            (count(fields[6]), count(fields[7]))
        })
        .collect();
    assert!(expected.len() > 20);
    assert_eq!(found, expected);
}
