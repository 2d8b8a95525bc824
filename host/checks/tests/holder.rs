//! The Rust holder, by its own calls and by calls as bytes, against the plain book; and two holders against each other.

use robequarry::limits::REPLY;
use robequarry::{Call, Holder};
use robequarry_checks::case::Case;
use robequarry_checks::engine::{Engine, Live};
use robequarry_checks::live::replay_mixed;
use robequarry_checks::random::Random;
use robequarry_checks::reference::book::replay;
use robequarry_checks::scripts::script;
use robequarry_checks::typed::{answered, holder_call};
use robequarry_checks::Fields;

/// The calls of a drawn script, and the line by which they can be run again.
fn calls(random: &mut Random) -> (Vec<Call>, Case) {
    let case = script(random);
    let Case::Script { bytes, .. } = &case else { unreachable!("a script is asked for") };
    (Call::each(bytes).collect(), case)
}

/// What the book replies.
fn booked(calls: &[Call]) -> Vec<Fields> {
    let mut replies = vec![0; REPLY * calls.len()];
    assert_eq!(replay(&Call::script(calls.iter().copied()), &mut replies), calls.len());
    Fields::each(&replies).collect()
}

#[test]
fn each_call_is_answered_as_the_book_does() {
    let mut random = Random::new(7);
    for _ in 0..400 {
        let (calls, case) = calls(&mut random);
        let (mut by_bytes, mut by_arguments) = (Holder::new(), Holder::new());
        for (&call, expected) in calls.iter().zip(booked(&calls)) {
            assert_eq!(answered(by_bytes.call(call)), expected, "{call:?}: {case}");
            assert_eq!(holder_call(&mut by_arguments, call), expected, "{call:?}: {case}");
            assert!(by_bytes == by_arguments, "memory differs after {call:?}: {case}");
        }
    }
}

/// Calls as bytes and by arguments, mixed on one holder: their replies are the book's, and memory is what calls as bytes leave.
#[test]
fn calls_of_both_kinds_are_mixed() {
    let mut random = Random::new(9);
    for _ in 0..400 {
        let (calls, case) = calls(&mut random);
        let expected = booked(&calls);
        let mut replies = vec![0; REPLY * calls.len()];
        assert_eq!(replay_mixed(&Call::script(calls.iter().copied()), &mut replies), calls.len());
        assert!(Fields::each(&replies).eq(expected), "{}: {case}", Live.name());
    }
}

/// What a party is replied does not depend on the other's calls (contract 8.6).
#[test]
fn a_party_is_answered_by_its_own_calls() {
    let mut random = Random::new(8);
    for _ in 0..400 {
        let (calls, _) = calls(&mut random);
        let run = |calls: &[Call]| {
            let mut holder = Holder::new();
            calls.iter().map(|&call| (call.party, holder_call(&mut holder, call))).collect::<Vec<_>>()
        };
        let both = run(&calls);
        for party in [0, 1, 2, 255] {
            let own: Vec<Call> = calls.iter().copied().filter(|call| call.party == party).collect();
            assert!(run(&own).into_iter().eq(both.iter().copied().filter(|&(of, _)| of == party)));
        }
    }
}
