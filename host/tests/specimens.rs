//! The specimens of contract 9, through the safe interface.

use robequarry::{Cell, Corner, Outline, Refusal, Witness};

/// An outline from a start and its letters as digits.
fn outline(start: (u16, u16), letters: &str) -> Outline {
    let letters: Vec<u8> = letters.bytes().map(|digit| digit - b'0').collect();
    Outline::new(Corner::new(start.0, start.1), letters)
}

fn taken(start: (u16, u16), letters: &str, anchor: (u16, u16), steps: &[(i16, i16)]) {
    let edges = outline(start, letters).test().unwrap();
    assert_eq!(edges.anchor(), Cell::new(anchor.0, anchor.1), "{letters}");
    assert!(edges.steps().eq(steps.iter().copied()), "{letters}: {edges:?}");
}

fn refused(start: (u16, u16), letters: &str, refusal: Refusal, number: u16) {
    assert_eq!(outline(start, letters).test(), Err(refusal), "{letters}");
    assert_eq!(refusal.number(), number);
}

#[test]
fn taken_specimens() {
    let round = [(1, 1), (1, -1), (-1, -1), (-1, 1)];
    taken((0, 0), "1032", (0, 0), &[]);
    taken((0, 0), "10003222", (0, 0), &[(2, 0), (-2, 0)]);
    taken((0, 1), "101030323212", (0, 1), &round);
    taken((1, 1), "210103032321", (0, 1), &round);
    taken((0, 0), "11030322", (0, 0), &[(0, 1), (1, -1), (-1, 0)]);
    taken((0, 0), "0123", (0, 0), &[]);
}

#[test]
fn drawn_backward() {
    let round = [(1, 1), (1, -1), (-1, -1), (-1, 1)];
    taken((0, 1), "030101212323", (0, 1), &round);
    taken((1, 1), "301012123230", (0, 1), &round);
    let dent = Refusal::Dent { piece: 2, place: 7, length: 4, missing: Cell::new(1, 1) };
    refused((0, 0), "000122112333", dent, 9);
    refused((0, 0), "000112321233", Refusal::BackStep { piece: 2, place: 6 }, 8);
}

#[test]
fn refused_specimens() {
    let dent = Refusal::Dent { piece: 2, place: 4, length: 4, missing: Cell::new(1, 1) };
    refused((0, 0), "111033003222", dent, 9);
    refused((0, 0), "110301033222", Refusal::BackStep { piece: 2, place: 5 }, 8);
    refused((0, 0), "1023", Refusal::Touches { place: 2 }, 6);
    refused((0, 0), "103", Refusal::Length, 1);
    refused((255, 0), "1032", Refusal::OffChart { place: 1 }, 4);
    refused((0, 1), "1033", Refusal::NotClosed, 5);
    refused((256, 0), "7777", Refusal::Start, 2);
    refused((255, 0), "1037", Refusal::Letter { place: 3 }, 3);
    refused((0, 0), &"1".repeat(612), Refusal::OffChart { place: 255 }, 4);
    refused((0, 0), &"1".repeat(613), Refusal::Length, 1);
    refused((0, 0), &"1".repeat(2048), Refusal::Length, 1);
    refused((0, 0), &"1".repeat(2049), Refusal::Length, 1);
    refused((0, 0), &"1".repeat(2049), Refusal::Length, 1);
}

/// Contract 9, the last of its lists: H6 and H7 with their witnesses, forward and backward; and H3, which needs none.
#[test]
fn help() {
    let cells = |cells: [(u16, u16); 3]| cells.map(|(col, row)| Cell::new(col, row));
    let (h6, h7) = (cells([(2, 0), (0, 2), (0, 1)]), cells([(0, 1), (2, 1), (2, 1)]));
    for (letters, three, completed) in [
        ("111033003222", h6, "111030303222"),
        ("000122112333", h6, "111030303222"),
        ("110301033222", h7, "1100033222"),
        ("000112321233", h7, "1100033222"),
    ] {
        let drawn = outline((0, 0), letters);
        let expected = Witness { missing: Cell::new(1, 1), cells: three };
        assert_eq!(drawn.witness(), Ok(Some(expected)), "{letters}");
        assert!(expected.holds());
        assert_eq!(drawn.complete(), Ok(outline((0, 0), completed)), "{letters}");
    }
    for (start, letters) in [((0, 1), "101030323212"), ((1, 1), "210103032321"), ((0, 1), "030101212323")] {
        let plus = outline(start, letters);
        assert_eq!((plus.witness(), plus.complete()), (Ok(None), Ok(outline((0, 1), "101030323212"))));
    }
}

#[test]
fn short_cuts_are_not_taken() {
    // 001101 is Lyndon and a palindrome between its end letters, yet no Christoffel word.
    let dent = Refusal::Dent { piece: 1, place: 1, length: 6, missing: Cell::new(1, 1) };
    refused((0, 0), "1001101033332222", dent, 9);
    // The half planes of H2 reach across the chart; its lowest and highest rows do not.
    let bar = outline((0, 0), "10003222").test().unwrap();
    assert_eq!(bar.contains(Cell::new(2, 0)), Ok(true));
    assert_eq!(bar.contains(Cell::new(3, 0)), Ok(false));
    assert_eq!(bar.contains(Cell::new(254, 0)), Ok(false));
}

#[test]
fn buffers() {
    let bar = outline((0, 0), "10003222");
    let mut buffer = [7; 6];
    let taken = bar.test_into(&mut buffer).unwrap();
    assert_eq!((taken.edges, buffer), (2, [2, 0, -2, 0, 7, 7]));

    let mut short = [7; 3];
    assert_eq!(bar.test_into(&mut short), Err(Refusal::EdgeList { edges: Some(2) }));
    assert_eq!(short, [7; 3]);
}
