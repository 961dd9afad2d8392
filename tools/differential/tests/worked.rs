//! The worked cases of the documents, by the reference meaning.

mod common;

use common::{function, main_only, program, refused};
use differential::meaning::{meaning, Happening, Stands};
use differential::tree::Program;
use std::rc::Rc;

fn sent(text: &str) -> Vec<Happening> {
    vec![Happening::Sent(text.as_bytes().to_vec())]
}

fn ended(variables: &[i32]) -> Stands {
    Stands::Ended { variables: variables.to_vec() }
}

fn fault(cause: u16, node: usize, variables: &[i32]) -> Stands {
    Stands::Fault { cause, node, variables: variables.to_vec() }
}

/// It stands so within the entries, and within one fewer it is still running.
fn stands(program: &Rc<Program>, fed: &[u8], room: usize, entries: u64, happenings: &[Happening], stands: Stands) {
    let run = meaning(program, fed, room, entries);
    assert_eq!((run.happenings(), run.stands()), (happenings, &stands));
    assert_eq!(run.entries(), entries);
    let less = meaning(program, fed, room, entries - 1);
    assert_eq!(*less.stands(), Stands::Running);
    let more = meaning(program, fed, room, 1_000_000);
    assert_eq!((more.happenings(), more.stands()), (happenings, &stands));
}

#[test]
fn a_skip() {
    stands(&main_only("", &[(41, 0, 1), (32, 0, 0)]), b"", 0, 2, &[], ended(&[]));
}

#[test]
fn a_write() {
    let minus_seven = main_only("", &[(41, 0, 1), (42, 0, 0), (4, 0, 0), (1, 0, 7)]);
    stands(&minus_seven, b"", 2, 4, &sent("-7"), ended(&[]));
    stands(&minus_seven, b"", 1, 4, &[], fault(65, 1, &[]));
}

#[test]
fn the_right_side() {
    let nodes = |op: u8| {
        let zero = (1, 0, 0);
        let left = [(20, 0, 0), zero, zero];
        let right = [(20, 0, 0), (9, 0, 0), (1, 0, 1), zero, (1, 0, 1)];
        let block = [(41, 0, 1), (42, 0, 0), (1, 0, 5)];
        [&[(41, 0, 1), (35, 0, 0), (op, 0, 0)][..], &left, &right, &block].concat()
    };
    stands(&main_only("", &nodes(28)), b"", 1, 9, &sent("5"), ended(&[]));
    stands(&main_only("", &nodes(27)), b"", 1, 10, &[], fault(61, 7, &[]));
}

#[test]
fn names_of_loops() {
    let nodes = |name: u16| [(41, 0, 1), (36, 0, 1), (41, 0, 1), (36, 0, 2), (41, 0, 1), (37, 0, name)];
    stands(&main_only("", &nodes(1)), b"", 0, 6, &[], ended(&[]));
    assert_eq!(refused(&[function('n', 0, "")], &nodes(3)), (17, 5));
    let endless = main_only("", &nodes(2));
    assert_eq!(*meaning(&endless, b"", 0, 100_000).stands(), Stands::Running);
}

#[test]
fn functions_without_end() {
    let functions = [function('n', 0, ""), function('n', 0, "")];
    let itself = program(&functions, &[(41, 0, 1), (34, 0, 1), (41, 0, 1), (34, 0, 1)]);
    stands(&itself, b"", 0, 64, &[], fault(62, 3, &[]));

    let functions = [function('n', 0, "i"), function('i', 0, "")];
    let no_return = program(&functions, &[(41, 0, 1), (33, 0, 0), (13, 0, 1), (41, 0, 1), (32, 0, 0)]);
    stands(&no_return, b"", 0, 5, &[], fault(63, 3, &[0]));
}

#[test]
fn arithmetic() {
    let value = |kinds: &str, nodes: &[(u8, u8, u16)]| {
        let nodes = [&[(41, 0, 1), (33, 0, 0)][..], nodes].concat();
        let run = meaning(&main_only(kinds, &nodes), b"", 0, 100);
        assert!(run.stands().over());
        run.main_variables()[0]
    };
    assert_eq!(value("i", &[(6, 0, 0), (1, 0, 32767), (1, 0, 1)]), -32768);
    assert_eq!(value("i", &[(9, 0, 0), (4, 0, 0), (1, 0, 7), (1, 0, 2)]), -3);
    assert_eq!(value("i", &[(10, 0, 0), (4, 0, 0), (1, 0, 7), (1, 0, 2)]), -1);
    assert_eq!(value("b", &[(6, 0, 0), (1, 1, 250), (1, 1, 10)]), 4);
    assert_eq!(value("b", &[(7, 0, 0), (1, 1, 3), (1, 1, 5)]), 254);
    assert_eq!(value("b", &[(15, 0, 0), (4, 0, 0), (1, 0, 1)]), 255);
}

#[test]
fn reading() {
    let reads = main_only("i", &[(41, 0, 1), (33, 0, 0), (16, 0, 0)]);
    let took = |text: &str| vec![Happening::Took(text.as_bytes().to_vec())];
    stands(&reads, b"0042\n", 0, 3, &took("0042\n"), ended(&[42]));
    stands(&reads, b"32767\n8", 0, 3, &took("32767\n"), ended(&[32767]));
    stands(&reads, b"32768\n", 0, 3, &[], fault(64, 2, &[0]));
    stands(&reads, b"\n", 0, 3, &[], fault(64, 2, &[0]));
    stands(&reads, b"1234567", 0, 3, &[], Stands::Waits);
    stands(&reads, b"12345678", 0, 3, &[], fault(64, 2, &[0]));
}

#[test]
fn an_operand_is_kept_when_it_is_read() {
    // x + f, where f sets main's x to 5 and returns 1, is 0 + 1.
    let functions = [function('n', 0, "i"), function('i', 0, "")];
    let main = [(41, 0, 1), (42, 0, 0), (6, 0, 0), (2, 0, 0), (13, 0, 1)];
    let f = [(41, 0, 2), (33, 1, 0), (1, 0, 5), (40, 0, 0), (1, 0, 1)];
    stands(&program(&functions, &[main, f].concat()), b"", 9, 10, &sent("1"), ended(&[5]));
}

#[test]
fn following_and_feeding_bit_by_bit_is_the_same() {
    // loop: write char: read char
    let echo = main_only("", &[(41, 0, 1), (36, 0, 0), (41, 0, 1), (42, 2, 0), (16, 2, 0)]);
    let mut run = meaning(&echo, b"", 9, 0);
    for (number, byte) in b"abc".iter().enumerate() {
        (0..20).for_each(|n| run.follow(n));
        assert_eq!((run.stands(), run.happenings().len()), (&Stands::Waits, 2 * number));
        run.feed(*byte);
        run.follow(run.entries());
        assert_eq!(run.happenings().len(), 2 * number + 2);
    }
    let whole = meaning(&echo, b"abc", 9, run.entries());
    assert_eq!((whole.happenings(), whole.stands()), (run.happenings(), run.stands()));
}
