//! The stack that the library's functions need, as painted, is held to what include/robequarry.h states.

use robequarry_checks::stack;

/// The most bytes of stack that a function may need.
fn bound(function: &str) -> usize {
    match function {
        // A few numbers are read or written where they stand.
        "rq_fresh" | "rq_begin" | "rq_add" | "rq_draft" | "rq_drop" | "rq_clear" | "rq_query" | "rq_row" => 200,
        "rq_reading" | "rq_piece" | "rq_pile_fresh" | "rq_pile_empty" | "rq_pile_query" | "rq_loose_query" => 200,
        "rq_loose_reading" => 200,
        // As bytes every call but a close stays small: a close must not become a part of the function that reads the bytes.
        "rq_call" => 300,
        // A byte for the first column and one for the end of each row of two polygons.
        "rq_compare" => 1_700,
        "rq_pile_check" | "rq_pile_check_step" => 600,
        // What tests an outline has one bit for each corner, 8,192 bytes.
        "rq_test" => 8_600,
        // The rows of the outline come to that.
        "rq_pile_set" | "rq_pile_restore" => 9_200,
        // A close has the edges of the outline as well, until it knows whether they are those at work.
        "rq_close" | "rq_restore" => 9_700,
        "rq_call, a close" => 9_800,
        "rq_border" => 9_700,
        // The sides of every row and its hull, too, on either side of the block.
        "rq_witness" | "rq_complete" => 13_000,
        // The border of what is at work is found and tested: its letters, and its rows.
        "rq_check" | "rq_save" | "rq_pile_save" => 11_200,
        "rq_checksum" | "rq_frame" | "rq_unframe" | "rq_version" => 200,
        // A replay has a holder of its own as well.
        "rq_replay" => 20_300,
        _ => unreachable!("{function} has no bound"),
    }
}

#[test]
fn no_function_needs_more_stack_than_is_stated() {
    let mut missed = Vec::new();
    for (function, bytes) in stack::needs() {
        println!("stack {function} {bytes}");
        if bytes == 0 || bytes > bound(function) {
            missed.push(format!("{function} needs {bytes} bytes of stack, and may need {}", bound(function)));
        }
    }
    assert!(missed.is_empty(), "{missed:#?}");
}

/// The table of include/robequarry.h has these bounds.
#[test]
fn the_header_states_the_bounds() {
    let header = include_str!("../../../include/robequarry.h");
    let (_, section) = header.split_once(" * STACK\n").expect("the header has that section");
    let (section, _) = section.split_once("*/").expect("a comment ends");
    let stated = |name: &str| {
        let line = section
            .lines()
            .find(|line| line.split([',', ';']).any(|part| part.split("  ").any(|word| word.trim() == name)))?;
        line.split_whitespace().last()?.replace(',', "").parse::<usize>().ok()
    };
    for (function, _) in stack::needs() {
        let name = match function {
            "rq_call" => "any other call by rq_call",
            "rq_call, a close" => "a close by rq_call",
            other => other,
        };
        let bytes = stated(name).or(stated("every other function"));
        assert_eq!(bytes, Some(bound(function)), "{function}");
    }
}
