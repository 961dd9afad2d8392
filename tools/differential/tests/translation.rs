//! The example of the documents, translated; and that every code has as many words as the check counts.

mod common;

use common::{function, main_only, program};
use differential::generate::{program as generated, KEPT};
use differential::rng::Rng;
use differential::table::check;
use differential::translate::translate;

fn word(op: u64, aux: u64, node: u64, operand: u64) -> u64 {
    op << 56 | aux << 48 | node << 32 | operand
}

#[test]
fn the_gate() {
    let gate = main_only(
        "ii",
        &[
            (41, 0, 4),
            (33, 0, 0),
            (16, 0, 0),
            (33, 0, 1),
            (16, 0, 0),
            (35, 0, 0),
            (26, 0, 0),
            (28, 0, 0),
            (22, 0, 0),
            (2, 0, 0),
            (1, 0, 300),
            (20, 0, 0),
            (2, 0, 1),
            (1, 0, 0),
            (41, 0, 1),
            (33, 0, 1),
            (7, 0, 0),
            (1, 0, 100),
            (2, 0, 1),
            (42, 0, 0),
            (2, 0, 1),
        ],
    );
    let expected = [
        word(0, 0, 0, 2 << 20 | 1),
        word(16, 0, 2, 0),
        word(33, 0, 1, 0),
        word(16, 0, 4, 0),
        word(33, 0, 3, 1),
        word(2, 0, 9, 0),
        word(1, 0, 10, 300),
        word(22, 2, 8, 15),
        word(2, 0, 12, 1),
        word(1, 0, 13, 0),
        word(20, 2, 11, 15),
        word(1, 0, 17, 100),
        word(2, 0, 18, 1),
        word(7, 0, 16, 0),
        word(33, 0, 15, 1),
        word(2, 0, 20, 1),
        word(42, 0, 19, 0),
        word(41, 0, 0, 0),
    ];
    assert_eq!(translate(&gate), expected);
    assert_eq!((gate.nodes.len(), gate.words()), (21, 18));
}

#[test]
fn entries_loops_and_else() {
    // main: loop 7: if byte: break 7 else: continue; f(int) byte: return 0
    let functions = [function('n', 0, "b"), function('b', 1, "ib")];
    let main = [
        (41, 0, 1),
        (36, 0, 7),
        (41, 0, 1),
        (35, 1, 0),
        (29, 0, 0),
        (2, 0, 0),
        (41, 0, 1),
        (37, 0, 7),
        (41, 0, 1),
        (38, 0, 0),
    ];
    let f = [(41, 0, 1), (40, 0, 0), (1, 1, 0)];
    let expected = [
        word(0, 0, 0, 1 << 20 | 2),
        word(0, 0, 0, 2 << 30 | 1 << 26 | 2 << 20 | 9),
        word(2, 0, 5, 0),
        word(29, 0, 4, 6),
        word(37, 0, 7, 8),
        word(35, 0, 3, 7),
        word(38, 0, 9, 2),
        word(36, 0, 1, 2),
        word(41, 0, 0, 0),
        word(1, 1, 12, 0),
        word(40, 0, 11, 0),
        word(41, 0, 10, 0),
    ];
    assert_eq!(translate(&program(&functions, &[&main[..], &f].concat())), expected);
}

#[test]
fn words_are_counted() {
    for seed in 0..2000 {
        let checked = check(&generated(&mut Rng::new(seed), KEPT).table()).expect("it passes");
        assert_eq!(translate(&checked).len(), checked.words(), "seed {seed}");
    }
}
