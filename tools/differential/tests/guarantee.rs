//! The guarantee of a run against replies and sights written by hand, right ones and wrong ones.

mod common;

use common::main_only;
use differential::chain::{Line, Outcome, TurnAnswer};
use differential::expect::{beside, call_rules, guarantee, Logged, Observed};
use differential::tree::Program;
use std::rc::Rc;

/// x := read char; write char: x; x := 1 / 0
fn gate() -> Rc<Program> {
    let nodes =
        [(41, 0, 3), (33, 0, 0), (16, 2, 0), (42, 2, 0), (2, 0, 0), (33, 0, 0), (9, 0, 0), (1, 1, 1), (1, 1, 0)];
    main_only("b", &nodes)
}

fn tape(waiting: &[u8]) -> Line {
    Line::Tape { waiting: waiting.to_vec(), hold_total: 2, room: 9 }
}

fn turn(budget: u32, outcome: Outcome, steps: u32) -> Logged {
    Logged::Turn { budget, answer: TurnAnswer::Answered { outcome, steps } }
}

fn fed(byte: u8) -> Logged {
    Logged::Feed { byte, answer: Ok(()), waiting_before: 0 }
}

fn seen(waiting: &[u8], sent: &[u8], x: i16) -> Observed {
    Observed { waiting: waiting.to_vec(), sent: sent.to_vec(), variables: vec![x, 0, 0] }
}

fn keeps(waiting: &[u8], log: &[Logged], seen: &Observed) -> bool {
    let (gate, line) = (gate(), tape(waiting));
    guarantee(&gate, &line, log, seen).is_ok_and(|happened| beside(&gate, &line, log, happened).is_ok())
}

const FAULT: Outcome = Outcome::Fault { cause: 61, node: 6 };

#[test]
fn right_runs() {
    assert!(keeps(b"", &[], &seen(b"", b"", 0)));
    assert!(keeps(b"", &[turn(9, Outcome::Waits, 0)], &seen(b"", b"", 0)));
    assert!(keeps(b"", &[turn(9, Outcome::Waits, 0), fed(b'a')], &seen(b"a", b"", 0)));
    assert!(keeps(b"a", &[turn(1, Outcome::Runs, 1)], &seen(b"", b"", 0)));
    assert!(keeps(b"a", &[turn(1, Outcome::Runs, 1)], &seen(b"a", b"", 0)));
    assert!(keeps(b"ab", &[turn(9, FAULT, 7)], &seen(b"b", b"a", 97)));
    // The machine may be ahead of the entries.
    assert!(keeps(b"a", &[turn(4, Outcome::Runs, 4)], &seen(b"", b"a", 97)));
    // After a feed the grants are counted anew.
    assert!(keeps(b"a", &[turn(4, Outcome::Runs, 4), fed(b'b'), turn(2, Outcome::Runs, 2)], &seen(b"b", b"a", 97)));
}

#[test]
fn bytes_out_of_order_or_lost() {
    assert!(!keeps(b"ab", &[turn(9, FAULT, 7)], &seen(b"a", b"a", 97)));
    assert!(!keeps(b"ab", &[turn(9, FAULT, 7)], &seen(b"b", b"b", 97)));
    assert!(!keeps(b"a", &[turn(4, Outcome::Runs, 4)], &seen(b"a", b"a", 97)));
    assert!(!keeps(b"", &[fed(b'a')], &seen(b"", b"", 0)));
}

#[test]
fn too_little_within_the_grant() {
    // The take comes with the third entry, the send with the fifth, the fault with the ninth.
    assert!(keeps(b"a", &[turn(2, Outcome::Runs, 2)], &seen(b"a", b"", 0)));
    assert!(!keeps(b"a", &[turn(3, Outcome::Runs, 3)], &seen(b"a", b"", 0)));
    assert!(keeps(b"a", &[turn(4, Outcome::Runs, 4)], &seen(b"", b"", 97)));
    assert!(!keeps(b"a", &[turn(2, Outcome::Runs, 2), turn(3, Outcome::Runs, 3)], &seen(b"", b"", 97)));
    assert!(keeps(b"a", &[turn(8, Outcome::Runs, 8)], &seen(b"", b"a", 97)));
    assert!(!keeps(b"a", &[turn(9, Outcome::Runs, 9)], &seen(b"", b"a", 97)));
    assert!(!keeps(b"", &[turn(3, Outcome::Runs, 3)], &seen(b"", b"", 0)));
}

#[test]
fn wrong_answers() {
    let other = |outcome| keeps(b"a", &[turn(9, outcome, 7)], &seen(b"", b"a", 97));
    assert!(other(FAULT));
    assert!(!other(Outcome::Ended));
    assert!(!other(Outcome::Waits));
    assert!(!other(Outcome::Fault { cause: 61, node: 5 }));
    assert!(!other(Outcome::Fault { cause: 63, node: 6 }));
    assert!(!keeps(b"a", &[turn(9, FAULT, 7)], &seen(b"", b"a", 98)));
    assert!(!keeps(b"a", &[turn(2, FAULT, 2)], &seen(b"", b"", 97)));
    assert!(!keeps(b"a", &[turn(2, Outcome::Waits, 2)], &seen(b"", b"", 97)));
}

#[test]
fn rules_of_the_calls() {
    let rules = |waiting: &[u8], log: &[Logged]| call_rules(&tape(waiting), log).is_ok();
    let refused = |budget, number, place| Logged::Turn { budget, answer: TurnAnswer::Refused { number, place } };
    assert!(rules(b"", &[refused(0, 40, 0), refused(1_000_001, 40, 0)]));
    assert!(!rules(b"", &[refused(1_000_000, 40, 0)]));
    assert!(!rules(b"", &[refused(1, 40, 0)]));
    assert!(!rules(b"", &[refused(0, 41, 0)]));
    assert!(!rules(b"", &[refused(0, 40, 1)]));
    assert!(!rules(b"", &[turn(0, Outcome::Runs, 0)]));
    assert!(!rules(b"", &[turn(5, Outcome::Runs, 4)]));
    assert!(!rules(b"", &[turn(5, Outcome::Waits, 6)]));
    assert!(rules(b"", &[turn(5, FAULT, 5), turn(5, FAULT, 0)]));
    assert!(!rules(b"", &[turn(5, FAULT, 5), turn(5, FAULT, 1)]));
    assert!(!rules(b"", &[turn(5, FAULT, 5), turn(5, Outcome::Ended, 0)]));
    let no_hold = |answer| Logged::Feed { byte: 0, answer, waiting_before: 1 };
    assert!(rules(b"a", &[no_hold(Ok(())), no_hold(Err((50, 0)))]));
    assert!(!rules(b"a", &[no_hold(Err((50, 0)))]));
    assert!(!rules(b"ab", &[no_hold(Ok(()))]));
    assert!(!rules(b"ab", &[no_hold(Err((50, 1)))]));
}
