//! The generator's statements.

use super::{Maker, Shape};
use crate::tree::{kind_of_bit, op, FunctionRecord, Kind};

impl Maker<'_> {
    /// Exit or return, as the function asks.
    pub(super) fn leave(&mut self, level: usize) {
        match self.own().result {
            0 => self.put(op::EXIT, 0, 0),
            result => {
                self.put(op::RETURN, 0, 0);
                let kind = if result == 1 { Kind::Int } else { Kind::Byte };
                self.expression(kind, level + 1, self.cells(), 1);
            }
        }
    }

    pub(super) fn block_count(&mut self, part: isize) -> usize {
        match self.taste.shape {
            Shape::Flat if part > 100 => (part as usize).min(8000) / self.rng.pick(&[1, 3, 6]),
            Shape::Nested | Shape::Looped => self.rng.pick(&[1, 1, 1, 1, 1, 2]),
            _ if part < 6 => 1,
            _ => self.rng.between(1, 5),
        }
    }

    pub(super) fn block(&mut self, level: usize) {
        let count = self.block_count(self.left.min(90));
        self.put(op::BLOCK, 0, count);
        (0..count).for_each(|_| self.statement(level + 1));
    }

    pub(super) fn statement(&mut self, level: usize) {
        let nests = self.left > 0 && self.below(level, 5);
        let (in_loop, shape) = (!self.loops.is_empty(), self.taste.shape);
        let valued = self.below(level, 1);
        let calls = if self.here == 0 { 25 } else { 10 };
        // What stands behind a jump is dead, so most jumps are made on a condition.
        let jumps = self.ifs > 0 || self.rng.chance(4);
        let weights = [
            (op::SKIP, if self.left > 0 { 3 } else { 6 }),
            (op::ASSIGN, if valued { 25 } else { 0 }),
            (op::WRITE, if valued { 14 } else { 0 }),
            (op::PERFORM, if valued && self.left > 0 { calls } else { 0 }),
            (
                op::IF,
                if !nests {
                    0
                } else if shape == Shape::Nested {
                    300
                } else {
                    20
                },
            ),
            (
                op::LOOP,
                if !nests {
                    0
                } else if shape == Shape::Looped {
                    200
                } else {
                    14
                },
            ),
            (op::BREAK, if in_loop && jumps { 12 } else { 0 }),
            (op::CONTINUE, if in_loop && jumps { 6 } else { 0 }),
            (op::EXIT, if valued && jumps { 3 } else { 0 }),
        ];
        match self.weighed(&weights) {
            op::ASSIGN => self.assignment(level),
            op::WRITE => {
                let format = self.rng.below(3) as u8;
                self.put(op::WRITE, format, 0);
                let kind = if format == 0 { Kind::Int } else { Kind::Byte };
                self.expression(kind, level + 1, self.cells(), 0);
            }
            op::PERFORM => {
                let cells = self.cells();
                if !self.call(op::PERFORM, 0, level, cells, 0) {
                    self.put(op::SKIP, 0, 0);
                }
            }
            op::IF => {
                let otherwise = self.rng.chance(40);
                self.put(op::IF, u8::from(otherwise), 0);
                self.condition(level + 1, 0);
                self.ifs += 1;
                self.block(level + 1);
                if otherwise {
                    self.block(level + 1);
                }
                self.ifs -= 1;
            }
            op::LOOP if self.loops.len() < self.limits.loops => self.a_loop(level),
            jump @ (op::BREAK | op::CONTINUE) => self.jump(jump),
            op::EXIT => self.leave(level),
            _ => self.put(op::SKIP, 0, 0),
        }
    }

    fn weighed(&mut self, weights: &[(u8, usize)]) -> u8 {
        let mut ticket = self.rng.below(weights.iter().map(|(_, weight)| weight).sum());
        for (op, weight) in weights {
            if ticket < *weight {
                return *op;
            }
            ticket -= weight;
        }
        unreachable!("the ticket is below the sum of the weights")
    }

    /// A break or continue, by the name of an open loop or by none.
    fn jump(&mut self, op: u8) {
        let outer = self.rng.below(self.loops.len());
        let name = if self.rng.chance(35) { 0 } else { self.loops[outer] };
        self.put(op, 0, usize::from(name));
    }

    /// The jump that leaves the innermost loop at its end, often with loops around it.
    fn way_out(&mut self) {
        match self.rng.below(20) {
            0 => self.jump(op::CONTINUE),
            1..=7 => self.jump(op::BREAK),
            _ => self.put(op::BREAK, 0, 0),
        }
    }

    fn assignment(&mut self, level: usize) {
        let kind = kind_of_bit(self.rng.below(2) as u64);
        let busy = if self.rng.chance(3) { Vec::new() } else { self.counters.clone() };
        let free: Vec<_> = self.slots(kind).into_iter().filter(|(s, slot)| *s != 0 || !busy.contains(slot)).collect();
        if free.is_empty() {
            return self.put(op::SKIP, 0, 0);
        }
        let (scope, slot) = self.rng.pick(&free);
        self.put(op::ASSIGN, scope, slot);
        self.expression(kind, level + 1, self.cells(), 0);
    }

    /// The variables of a kind that can be named here, by scope and slot.
    pub(super) fn slots(&self, kind: Kind) -> Vec<(u8, usize)> {
        let of = |scope: u8, function: FunctionRecord| {
            (0..usize::from(function.variables))
                .filter(move |slot| function.kind(*slot) == kind)
                .map(move |s| (scope, s))
        };
        let main = (self.here > 0).then(|| of(1, self.functions[0]));
        of(0, self.own()).chain(main.into_iter().flatten()).collect()
    }

    /// A loop: one that counts its rounds, one that leaves on a condition, one of a single round, or an endless one.
    fn a_loop(&mut self, level: usize) {
        let name = if self.rng.chance(25) { 0 } else { self.rng.pick(&[1, 2, 3, 4, 77, 65535]) };
        let slot = self.slots(Kind::Int).into_iter().find(|(s, slot)| *s == 0 && !self.counters.contains(slot));
        self.put(op::LOOP, 0, usize::from(name));
        self.loops.push(name);
        let ifs = std::mem::take(&mut self.ifs);
        let count = self.block_count(self.left.min(90));
        match slot {
            _ if self.rng.chance(self.taste.endless) => self.block(level + 1),
            Some((_, slot)) if self.rng.chance(70) => {
                self.put(op::BLOCK, 0, count + 2);
                // if counter >= rounds: counter := 0, break
                self.put(op::IF, 0, 0);
                self.put(op::AT_LEAST, 0, 0);
                self.put(op::VARIABLE, 0, slot);
                let rounds = self.rng.pick(&[0, 1, 2, 3, 4, 10]);
                self.put(op::CONSTANT, 0, rounds);
                self.put(op::BLOCK, 0, 2);
                self.put(op::ASSIGN, 0, slot);
                self.put(op::CONSTANT, 0, 0);
                self.way_out();
                // counter := counter + 1
                self.put(op::ASSIGN, 0, slot);
                self.put(op::ADD, 0, 0);
                self.put(op::VARIABLE, 0, slot);
                self.put(op::CONSTANT, 0, 1);
                self.counters.push(slot);
                (0..count).for_each(|_| self.statement(level + 2));
                self.counters.pop();
            }
            _ => {
                self.put(op::BLOCK, 0, count + 1);
                let first = self.rng.chance(50);
                if first {
                    self.put(op::IF, 0, 0);
                    self.condition(level + 3, 0);
                    self.put(op::BLOCK, 0, 1);
                    self.way_out();
                }
                (0..count).for_each(|_| self.statement(level + 2));
                if !first {
                    self.way_out();
                }
            }
        }
        self.loops.pop();
        self.ifs = ifs;
    }
}
