//! Damaged tables: well-formed ones with bytes, fields or nodes changed, programs beyond the limits, and random bytes.

use crate::generate::{self, Limits, Shape, KEPT};
use crate::rng::Rng;
use crate::tree::{op, Record, Sketch};

/// A table with some damage done to it. It may by chance still pass.
pub fn damaged(rng: &mut Rng) -> Vec<u8> {
    match rng.below(20) {
        0 => (0..rng.below(40)).map(|_| rng.byte()).collect(),
        1 | 2 => beyond_limits(rng),
        3..=8 => bytes(rng),
        _ => {
            let mut sketch = generate::program(rng, KEPT);
            for _ in 0..rng.pick(&[1, 1, 1, 2, 3]) {
                fields(rng, &mut sketch);
            }
            sketch.table()
        }
    }
}

/// A program that is well-formed but for a limit, which it may break.
fn beyond_limits(rng: &mut Rng) -> Vec<u8> {
    let (limits, shape) = match rng.below(4) {
        0 => (Limits { level: rng.between(129, 140), ..KEPT }, Shape::Deep),
        1 => (Limits { level: rng.between(129, 140), ..KEPT }, Shape::Nested),
        2 => (Limits { loops: rng.between(17, 19), ..KEPT }, Shape::Looped),
        _ => (Limits { cells: rng.between(65, 90), ..KEPT }, Shape::Tall),
    };
    generate::shaped(rng, limits, shape).table()
}

/// Damage to the bytes, whatever they stand for.
fn bytes(rng: &mut Rng) -> Vec<u8> {
    let mut table = generate::program(rng, KEPT).table();
    match rng.below(6) {
        0 => table.truncate(rng.below(table.len() + 1)),
        1 => table.extend((0..rng.between(1, 9)).map(|_| 0)),
        2 if rng.chance(90) => table.truncate(rng.below(8)),
        2 => table.resize(65_536 + rng.below(4), 0),
        3 => header(rng, &mut table),
        _ => {
            for _ in 0..rng.between(1, 3) {
                let at = rng.below(table.len());
                table[at] = if rng.chance(50) { table[at] ^ 1 << rng.below(8) } else { rng.byte() };
            }
        }
    }
    table
}

/// Another header before the same records, some with the length that it asks for.
fn header(rng: &mut Rng, table: &mut Vec<u8>) {
    let all = u32::from_be_bytes([0, table[0], table[1], table[2]]);
    let (mut version, mut functions, mut nodes) = (1, (all >> 14 & 63) as usize, (all & 0x3fff) as usize);
    match rng.below(5) {
        0 => version = rng.below(16) as u8,
        1 => functions = rng.pick(&[0, 1, 2, 32, 33, 63]),
        2 => nodes = rng.pick(&[0, 1, 8192, 8193, 16383]),
        3 => functions = (functions + rng.below(3)).saturating_sub(1),
        _ => nodes = (nodes + rng.below(3)).saturating_sub(1),
    }
    table.splice(..3, Sketch::header(version, functions, nodes));
    if rng.chance(60) {
        table.resize(3 + 6 * functions + 3 * nodes, 0);
    }
}

/// Damage to a field or a node, with the table's length as it asks for.
fn fields(rng: &mut Rng, sketch: &mut Sketch) {
    let node = rng.below(sketch.records.len());
    let small = rng.pick(&[0, 1, 2, 3, 8, 9, 31, 32, 33, 255, 256, 8192, 8193, 32767, 32768, 65535]);
    match rng.below(15) {
        0 => function(rng, sketch),
        1 => sketch.records[node].op = rng.below(64) as u8,
        2 => sketch.records[node].op = rng.pick(&op::ALL).0,
        3 => sketch.records[node].aux = rng.below(4) as u8,
        4 => sketch.records[node].operand = small as u16,
        5 => drop(sketch.records.remove(node)),
        6 if sketch.records.len() < 8192 => sketch.records.insert(node, record(rng)),
        7 if sketch.records.len() < 8192 => sketch.records.push(record(rng)),
        8 => drop(sketch.records.pop()),
        9 => {
            let other = rng.below(sketch.records.len());
            sketch.records.swap(node, other);
        }
        _ => named(rng, sketch),
    }
    if sketch.records.is_empty() {
        sketch.records.push(record(rng));
    }
}

/// Any listed node with small fields.
fn record(rng: &mut Rng) -> Record {
    Record::new(rng.pick(&op::ALL).0, rng.pick(&[0, 0, 0, 1, 2]), rng.pick(&[0, 0, 0, 1, 2, 3]))
}

fn function(rng: &mut Rng, sketch: &mut Sketch) {
    let number = rng.below(sketch.functions.len());
    let function = &mut sketch.functions[number];
    match rng.below(6) {
        0 => function.result = rng.below(4) as u8,
        1 => function.parameters = rng.below(16) as u8,
        2 => function.variables = rng.pick(&[0, 1, 2, 8, 31, 32, 33, 63]),
        3 => function.spare = rng.below(16) as u8,
        4 => function.kinds ^= 1 << rng.below(32),
        _ => function.parameters = (function.parameters + 1).min(15),
    }
}

/// A change of what a node names: a slot, a scope, a function, a loop, a kind or a format.
fn named(rng: &mut Rng, sketch: &mut Sketch) {
    let naming: Vec<usize> = (0..sketch.records.len())
        .filter(|at| {
            let op = sketch.records[*at].op;
            matches!(op, op::CONSTANT | op::VARIABLE | op::CALL | op::READ | op::ASSIGN | op::PERFORM | 36..=42)
        })
        .collect();
    let Some(at) = (!naming.is_empty()).then(|| rng.pick(&naming)) else {
        return;
    };
    let changed = &mut sketch.records[at];
    match changed.op {
        op::CONSTANT | op::READ | op::WRITE => changed.aux = rng.below(3) as u8,
        op::VARIABLE | op::ASSIGN if rng.chance(40) => changed.aux ^= 1,
        op::EXIT => *changed = Record::new(op::RETURN, 0, 0),
        op::RETURN => *changed = Record::new(op::EXIT, 0, 0),
        op::BLOCK if rng.chance(50) => changed.operand = changed.operand.saturating_add(1),
        op::CALL if rng.chance(20) => changed.op = op::PERFORM,
        op::PERFORM if rng.chance(20) => changed.op = op::CALL,
        _ => changed.operand = rng.below(33) as u16,
    }
}
