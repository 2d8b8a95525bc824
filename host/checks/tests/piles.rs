//! A pile of the library, call by call, against the contract as written.

use robequarry::PileCall;
use robequarry_checks::random::Random;
use robequarry_checks::{piles, plain, reference};

#[test]
fn each_call_on_a_pile_is_answered_as_the_contract_says() {
    let mut random = Random::new(13);
    let (mut passed, mut dented) = (0, 0);
    for i in 0..12 {
        let (mut library, mut plain, mut reference) =
            (piles::Mixed::new(i), plain::Pile::default(), reference::pile::Pile::default());
        for call in piles::calls(&mut random) {
            let expected = reference.call(&call);
            assert_eq!(library.call(&call), expected, "library: {call:?}");
            assert_eq!(plain.call(&call), expected, "plain: {call:?}");
            passed += u32::from(call == PileCall::Check && expected.number == 0);
            dented += u32::from(expected.number == 21);
        }
    }
    assert!(passed > 0 && dented > 0, "{passed} checks passed, {dented} named a section");
}
