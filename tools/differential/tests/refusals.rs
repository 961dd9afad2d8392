//! Each refusal of the check, and which of several comes first.

mod common;

use common::{function, refused, sketch, told};
use differential::table::check;
use differential::tree::{FunctionRecord, Sketch};

const SKIP: (u8, u8, u16) = (32, 0, 0);

fn alone() -> [FunctionRecord; 1] {
    [function('n', 0, "ib")]
}

/// Main with variables int and byte, and one statement.
fn statement(nodes: &[(u8, u8, u16)]) -> (u16, usize) {
    refused(&alone(), &[&[(41, 0, 1)], nodes].concat())
}

#[test]
fn header() {
    assert_eq!(told(&[]), (1, 0));
    assert_eq!(told(&[0x20, 0]), (1, 2));
    assert_eq!(told(&Sketch::header(2, 0, 0)), (2, 0));
    assert_eq!(told(&Sketch::header(1, 0, 1)), (3, 0));
    assert_eq!(told(&Sketch::header(1, 33, 1)), (3, 0));
    assert_eq!(told(&Sketch::header(1, 1, 0)), (3, 0));
    assert_eq!(told(&Sketch::header(1, 1, 8193)), (3, 0));
    assert_eq!(told(&Sketch::header(1, 1, 1)), (1, 3));
    let mut table = sketch(&alone(), &[(41, 0, 1), SKIP]).table();
    assert!(check(&table).is_ok());
    table.push(0);
    assert_eq!(told(&table), (1, 16));
}

#[test]
fn function_records() {
    let two = |broken: FunctionRecord| refused(&[alone()[0], broken], &[SKIP]);
    let good = function('i', 1, "ib");
    assert_eq!(two(good), (11, 0));
    assert_eq!(two(FunctionRecord { result: 3, ..good }), (4, 1));
    assert_eq!(two(FunctionRecord { parameters: 3, ..good }), (4, 1));
    assert_eq!(two(FunctionRecord { parameters: 9, variables: 10, ..good }), (4, 1));
    assert_eq!(two(FunctionRecord { variables: 33, ..good }), (4, 1));
    assert_eq!(two(FunctionRecord { spare: 1, ..good }), (4, 1));
    assert_eq!(two(FunctionRecord { kinds: 1 << 29, ..good }), (4, 1));
    assert_eq!(two(FunctionRecord { kinds: 3 << 30, ..good }), (11, 0));
    assert_eq!(two(FunctionRecord { variables: 32, kinds: u32::MAX, ..good }), (11, 0));
    assert_eq!(refused(&[function('i', 0, "")], &[SKIP]), (4, 0));
    assert_eq!(refused(&[function('n', 1, "i")], &[SKIP]), (4, 0));
}

#[test]
fn fields() {
    for broken in [
        (0, 0, 0),
        (17, 0, 0),
        (30, 0, 0),
        (63, 3, 9),
        (1, 2, 0),
        (1, 0, 32768),
        (1, 1, 256),
        (2, 2, 0),
        (3, 1, 0),
        (9, 0, 1),
        (13, 1, 1),
        (16, 3, 0),
        (16, 0, 1),
        (29, 0, 1),
        (32, 1, 0),
        (35, 2, 0),
        (36, 1, 0),
        (39, 0, 1),
        (41, 0, 0),
        (41, 0, 8193),
        (41, 1, 1),
        (42, 3, 0),
    ] {
        assert_eq!(statement(&[broken]), (10, 1), "{broken:?}");
    }
}

#[test]
fn sorts_and_counts() {
    assert_eq!(statement(&[(1, 0, 1)]), (11, 1));
    assert_eq!(statement(&[(41, 0, 1), SKIP]), (11, 1));
    assert_eq!(refused(&alone(), &[SKIP]), (11, 0));
    assert_eq!(statement(&[(33, 0, 0), (20, 0, 0)]), (11, 2));
    assert_eq!(statement(&[(35, 0, 0), (1, 1, 1)]), (11, 2));
    assert_eq!(refused(&alone(), &[(41, 0, 1)]), (12, 1));
    assert_eq!(statement(&[(33, 0, 0)]), (12, 2));
    assert_eq!(statement(&[SKIP, SKIP]), (12, 2));
    assert_eq!(refused(&[alone()[0], alone()[0]], &[(41, 0, 1), SKIP]), (12, 2));
}

#[test]
fn levels() {
    let signs = |count: usize| {
        let chain: Vec<_> = (0..count).map(|_| (4, 0, 0)).collect();
        sketch(&alone(), &[&[(41, 0, 1), (33, 0, 0)][..], &chain, &[(1, 0, 1)]].concat()).table()
    };
    assert!(check(&signs(125)).is_ok());
    assert_eq!(told(&signs(126)), (13, 128));
    // The level comes before the kind, and a missing node before the level.
    let mut broken = signs(126);
    let end = broken.len() - 3;
    broken[end] = 0xff;
    assert_eq!(told(&broken), (13, 128));
    let signs: Vec<_> = (0..126).map(|_| (4, 0, 0)).collect();
    assert_eq!(refused(&alone(), &[&[(41, 0, 1), (33, 0, 0)][..], &signs].concat()), (12, 128));
}

#[test]
fn variables() {
    assert_eq!(statement(&[(33, 0, 2), (1, 0, 0)]), (14, 1));
    assert_eq!(statement(&[(33, 1, 0), (1, 0, 0)]), (14, 1));
    assert_eq!(statement(&[(42, 0, 0), (2, 1, 0)]), (14, 2));
    assert_eq!(statement(&[(42, 0, 0), (2, 0, 65535)]), (14, 2));
}

#[test]
fn kinds() {
    assert_eq!(statement(&[(33, 0, 0), (1, 1, 0)]), (15, 1));
    assert_eq!(statement(&[(33, 0, 1), (1, 0, 0)]), (15, 1));
    assert_eq!(statement(&[(42, 1, 0), (16, 0, 0)]), (15, 1));
    assert_eq!(statement(&[(42, 0, 0), (16, 2, 0)]), (15, 1));
    assert_eq!(statement(&[(42, 0, 0), (6, 0, 0), (1, 0, 0), (1, 1, 0)]), (15, 2));
    assert_eq!(statement(&[(42, 1, 0), (11, 0, 0), (1, 0, 0), (1, 0, 0)]), (15, 2));
    // A kind is told behind the children: what a later child breaks comes first.
    assert_eq!(statement(&[(42, 0, 0), (6, 0, 0), (3, 0, 0), (1, 1, 0), (63, 0, 0)]), (15, 3));
    assert_eq!(statement(&[(42, 0, 0), (6, 0, 0), (1, 1, 0), (63, 0, 0)]), (10, 4));
    // Arguments.
    let functions = [alone()[0], function('n', 2, "ib")];
    let call =
        |a: u8, b: u8| sketch(&functions, &[(41, 0, 1), (34, 0, 1), (1, a, 0), (1, b, 0), (41, 0, 1), SKIP]).table();
    assert!(check(&call(0, 1)).is_ok());
    assert_eq!(told(&call(1, 1)), (15, 1));
    assert_eq!(told(&call(0, 0)), (15, 1));
    // The result.
    let functions = [alone()[0], function('b', 0, "")];
    assert_eq!(refused(&functions, &[(41, 0, 1), SKIP, (41, 0, 1), (40, 0, 0), (1, 0, 0)]), (15, 3));
}

#[test]
fn calls() {
    assert_eq!(statement(&[(34, 0, 0)]), (16, 1));
    assert_eq!(statement(&[(34, 0, 1)]), (16, 1));
    assert_eq!(statement(&[(34, 0, 65535)]), (16, 1));
    let functions = [alone()[0], function('i', 0, ""), function('n', 0, "")];
    assert_eq!(refused(&functions, &[(41, 0, 1), (34, 0, 1)]), (16, 1));
    assert_eq!(refused(&functions, &[(41, 0, 1), (33, 0, 0), (13, 0, 2)]), (16, 2));
}

#[test]
fn loops() {
    let nest = |count: usize| {
        let loops: Vec<_> = (0..count).flat_map(|_| [(36, 0, 0), (41, 0, 1)]).collect();
        sketch(&alone(), &[&[(41, 0, 1)][..], &loops, &[(37, 0, 0)]].concat()).table()
    };
    assert!(check(&nest(16)).is_ok());
    assert_eq!(told(&nest(17)), (17, 33));
    assert_eq!(statement(&[(37, 0, 0)]), (17, 1));
    assert_eq!(statement(&[(38, 0, 4)]), (17, 1));
    // An unnamed loop is not meant by a name, and a loop is open only in its own block.
    assert_eq!(statement(&[(36, 0, 0), (41, 0, 1), (37, 0, 1)]), (17, 3));
    assert_eq!(refused(&alone(), &[(41, 0, 2), (36, 0, 1), (41, 0, 1), SKIP, (37, 0, 1)]), (17, 4));
    let functions = [alone()[0], function('n', 0, "")];
    let body = [(41, 0, 1), (36, 0, 1), (41, 0, 1), SKIP];
    assert_eq!(refused(&functions, &[&body[..], &[(41, 0, 1), (37, 0, 1)]].concat()), (17, 5));
}

#[test]
fn exit_and_return() {
    assert_eq!(statement(&[(40, 0, 0), (63, 0, 0)]), (18, 1));
    let functions = [alone()[0], function('i', 0, "")];
    assert_eq!(refused(&functions, &[(41, 0, 1), SKIP, (41, 0, 1), (39, 0, 0)]), (18, 3));
}

#[test]
fn cells() {
    // write: 1 + (1 + (... + 1)) with so many signs has one more cell than signs.
    let tall = |signs: usize, variables: usize| {
        let sums: Vec<_> = (0..signs).flat_map(|_| [(6, 0, 0), (1, 0, 1)]).collect();
        let main = [function('n', 0, &"i".repeat(variables))];
        sketch(&main, &[&[(41, 0, 1), (42, 0, 0)][..], &sums, &[(1, 0, 1)]].concat()).table()
    };
    assert!(check(&tall(63, 0)).is_ok());
    assert_eq!(told(&tall(64, 0)), (19, 0));
    assert!(check(&tall(31, 32)).is_ok());
    assert_eq!(told(&tall(32, 32)), (19, 0));
    // Cells are told behind the body, before nodes that are left over and before the next body.
    let mut over = sketch(&[function('n', 0, "")], &[]);
    over.records = (0..64).flat_map(|_| [(6, 0, 0), (1, 0, 1)]).chain([(1, 0, 1), (63, 0, 0)]).map(record).collect();
    over.records.splice(0..0, [(41, 0, 1), (42, 0, 0)].map(record));
    assert_eq!(told(&over.table()), (19, 0));
}

fn record((op, aux, operand): (u8, u8, u16)) -> differential::tree::Record {
    differential::tree::Record::new(op, aux, operand)
}
