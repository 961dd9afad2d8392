//! A seeded generator of well-formed programs, of many sizes and shapes.

mod expressions;
mod statements;

use crate::rng::Rng;
use crate::tree::{op, FunctionRecord, Kind, Record, Sketch};

/// How far a program may go. With the check's own limits every program passes.
#[derive(Clone, Copy)]
pub struct Limits {
    pub level: usize,
    pub loops: usize,
    pub cells: usize,
}

pub const KEPT: Limits = Limits { level: 128, loops: 16, cells: 64 };

/// What shape a program takes.
#[derive(Clone, Copy, PartialEq, Eq, Debug)]
pub enum Shape {
    Ordinary,
    /// Long chains of signs and of conditions.
    Deep,
    /// If in if.
    Nested,
    /// Operators that lean to the right, so that many cells are used.
    Tall,
    /// Loop in loop.
    Looped,
    /// One block with very many statements.
    Flat,
}

/// How likely, in percent, some things are in one program.
struct Taste {
    shape: Shape,
    reads: usize,
    endless: usize,
    zero_divisors: usize,
    open_recursion: usize,
    no_return: usize,
}

struct Maker<'a> {
    rng: &'a mut Rng,
    taste: Taste,
    limits: Limits,
    functions: Vec<FunctionRecord>,
    records: Vec<Record>,
    here: usize,
    /// How many nodes the body at hand may yet have, roughly.
    left: isize,
    /// The names of the open loops, the innermost last.
    loops: Vec<u16>,
    /// Own slots that count rounds of open loops.
    counters: Vec<usize>,
    /// How many ifs are open inside the innermost loop, or in the body where none is open.
    ifs: usize,
    /// Whether the body at hand counts its first parameter down from call to call.
    guarded: bool,
}

/// A program that passes the check if the limits are the check's.
pub fn program(rng: &mut Rng, limits: Limits) -> Sketch {
    let shape = match rng.below(100) {
        0..=4 => Shape::Deep,
        5..=8 => Shape::Nested,
        9..=12 => Shape::Tall,
        13..=17 => Shape::Looped,
        18 => Shape::Flat,
        _ => Shape::Ordinary,
    };
    shaped(rng, limits, shape)
}

/// A program of one shape.
pub fn shaped(rng: &mut Rng, limits: Limits, shape: Shape) -> Sketch {
    let taste = Taste {
        shape,
        reads: rng.pick(&[0, 5, 15, 40]),
        endless: rng.pick(&[0, 0, 0, 8]),
        zero_divisors: rng.pick(&[2, 2, 10, 40]),
        open_recursion: rng.pick(&[0, 0, 10, 40]),
        no_return: rng.pick(&[0, 5, 30]),
    };
    let count = if rng.chance(3) { 32 } else { rng.pick(&[1, 1, 2, 2, 3, 4, 6, 9]) };
    let functions: Vec<FunctionRecord> = (0..count).map(|number| signature(rng, number)).collect();
    let size = match shape {
        Shape::Ordinary => rng.pick(&[4, 20, 60, 100, 150, 250, 400, 600]),
        Shape::Flat => rng.pick(&[1000, 3000, 6500]),
        _ => rng.pick(&[150, 300, 600]),
    };
    let size = rng.between(size / 2, size);
    let mut maker = Maker {
        rng,
        taste,
        limits,
        functions,
        records: Vec::new(),
        here: 0,
        left: 0,
        loops: Vec::new(),
        counters: Vec::new(),
        ifs: 0,
        guarded: false,
    };
    let mut main_end = 0;
    for number in 0..count {
        // Main has half of the nodes, and in shapes other than the ordinary nearly all.
        let part = match (number, shape) {
            (0, Shape::Ordinary) => size / 2,
            (0, _) => size,
            (_, Shape::Ordinary) => size / (2 * count),
            _ => size / (8 * count),
        };
        maker.body(number, part as isize);
        if number == 0 {
            main_end = maker.records.len();
        }
    }
    if shape == Shape::Flat && maker.rng.chance(30) {
        // Skips at the end of main, up to the most nodes that a table has.
        let more = 8192 - maker.records.len();
        maker.records.splice(main_end..main_end, vec![Record::new(op::SKIP, 0, 0); more]);
        maker.records[0].operand += more as u16;
    }
    Sketch { version: 1, functions: maker.functions, records: maker.records }
}

fn signature(rng: &mut Rng, number: usize) -> FunctionRecord {
    let (result, parameters) = if number == 0 { (0, 0) } else { (rng.below(3), rng.pick(&[0, 1, 1, 2, 3, 8])) };
    let more = rng.pick(&[0, 1, 2, 3, 5, 32]);
    let variables = (parameters + more).min(32);
    let kinds = (rng.draw() >> 32) as u32 & rng.pick(&[u32::MAX, 0x7fff_ffff, 0x5555_5555]);
    let kept = if variables == 0 { 0 } else { kinds & (u32::MAX << (32 - variables)) };
    FunctionRecord {
        result: result as u8,
        parameters: parameters as u8,
        variables: variables as u8,
        spare: 0,
        kinds: kept,
    }
}

impl Maker<'_> {
    fn put(&mut self, op: u8, aux: u8, operand: usize) {
        self.left -= 1;
        self.records.push(Record::new(op, aux, operand as u16));
    }

    /// Whether so many levels below this one are allowed.
    fn below(&self, level: usize, more: usize) -> bool {
        level + more <= self.limits.level
    }

    fn own(&self) -> FunctionRecord {
        self.functions[self.here]
    }

    /// How many cells the operands of the body at hand may take.
    fn cells(&self) -> usize {
        self.limits.cells - usize::from(self.own().variables)
    }

    fn body(&mut self, number: usize, part: isize) {
        (self.here, self.left) = (number, part);
        self.loops.clear();
        self.counters.clear();
        self.ifs = 0;
        let own = self.own();
        self.guarded = own.parameters > 0 && own.kind(0) == Kind::Int && self.rng.chance(80);
        let returns = own.result != 0 && !self.rng.chance(self.taste.no_return);
        let plain = match self.taste.shape {
            Shape::Ordinary => self.rng.between(1 + part as usize / 25, 2 + part as usize / 9),
            _ => self.block_count(part),
        };
        let count = plain + usize::from(self.guarded) + usize::from(returns);
        self.put(op::BLOCK, 0, count);
        if self.guarded {
            // if parameter 0 <= 0: leave
            self.put(op::IF, 0, 0);
            self.put(op::AT_MOST, 0, 0);
            self.put(op::VARIABLE, 0, 0);
            self.put(op::CONSTANT, 0, 0);
            self.put(op::BLOCK, 0, 1);
            self.leave(4);
        }
        (0..plain).rev().for_each(|behind| self.body_statement(behind as isize));
        if returns {
            self.leave(2);
        }
    }

    /// A statement of a body. In a flat body it leaves a node for each of the statements behind it.
    fn body_statement(&mut self, behind: isize) {
        if self.taste.shape != Shape::Flat {
            return self.statement(2);
        }
        let (left, first) = (self.left, self.records.len());
        self.left = (left - behind).clamp(0, 40);
        if self.left == 0 {
            self.put(op::SKIP, 0, 0);
        } else {
            self.statement(2);
        }
        self.left = left - (self.records.len() - first) as isize;
    }
}
