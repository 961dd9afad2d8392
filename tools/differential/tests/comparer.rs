//! The comparer against the stand-ins and the reference machine, and what the generator reaches.

use differential::compare::{compare_all, Closeness};
use differential::machine::Reference;
use differential::stand_in::{StandIn, Wrong};
use differential::statistics::statistics;

#[test]
fn the_meaning_keeps_the_guarantee() {
    let result = compare_all(|| StandIn::new(Wrong::Nothing), 0..3000, Closeness::Guarantee);
    assert!(result.is_ok(), "{}", result.unwrap_err());
}

#[test]
fn the_machine_of_the_reference_keeps_it_too() {
    let result = compare_all(Reference::default, 0..3000, Closeness::Steps);
    assert!(result.is_ok(), "{}", result.unwrap_err());
}

#[test]
fn every_wrong_stand_in_is_caught() {
    for wrong in Wrong::ALL {
        let result = compare_all(|| StandIn::new(wrong), 0..5000, Closeness::Guarantee);
        assert!(result.is_err(), "{wrong:?} was not caught");
    }
}

#[test]
fn the_generator_reaches_everything() {
    let missing = statistics(0, 5000).missing();
    assert!(missing.is_empty(), "{missing:?}");
}
