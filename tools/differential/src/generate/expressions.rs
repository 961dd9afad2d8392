//! The generator's conditions and expressions.

use super::{Maker, Shape};
use crate::tree::{kind_of_bit, op, FunctionRecord, Kind};

impl Maker<'_> {
    pub(super) fn condition(&mut self, level: usize, depth: usize) {
        let ends = self.left <= 0 || !self.below(level, 3) || depth > 3 && self.taste.shape != Shape::Deep;
        match self.rng.below(if ends { 60 } else { 100 }) {
            0..=44 => {
                let comparison = self.rng.between(usize::from(op::EQUAL), usize::from(op::AT_LEAST)) as u8;
                let kind = kind_of_bit(self.rng.below(2) as u64);
                self.put(comparison, 0, 0);
                self.pair(kind, level, self.cells(), depth);
            }
            45..=59 => {
                self.put(op::HOLDS, 0, 0);
                self.expression(Kind::Byte, level + 1, self.cells(), depth);
            }
            60..=75 => {
                self.put(op::NOT, 0, 0);
                self.condition(level + 1, depth + 1);
            }
            other => {
                self.put(if other % 2 == 0 { op::AND } else { op::OR }, 0, 0);
                self.condition(level + 1, depth + 1);
                self.condition(level + 1, depth + 1);
            }
        }
    }

    /// Two operands of one kind.
    fn pair(&mut self, kind: Kind, level: usize, cells: usize, depth: usize) {
        if self.taste.shape == Shape::Tall && self.rng.chance(85) {
            self.leaf(kind);
        } else {
            self.expression(kind, level + 1, cells, depth + 1);
        }
        self.expression(kind, level + 1, cells - 1, depth + 1);
    }

    pub(super) fn expression(&mut self, kind: Kind, level: usize, cells: usize, depth: usize) {
        let stop = match self.taste.shape {
            Shape::Deep | Shape::Tall => 3,
            _ => 25 + 15 * depth,
        };
        if self.left <= 0 || !self.below(level, 1) || cells < 2 || self.rng.chance(stop.min(100)) {
            return self.leaf(kind);
        }
        let unary = if self.taste.shape == Shape::Deep { 80 } else { 20 };
        if self.rng.chance(unary) {
            let (op, operand) = match (kind, self.rng.below(4)) {
                (Kind::Int, 0) => (op::PLUS, Kind::Int),
                (Kind::Int, 1) => (op::EXTEND, Kind::Byte),
                (Kind::Int, _) => (op::MINUS, Kind::Int),
                (Kind::Byte, 0) => (op::SHRINK, Kind::Int),
                (Kind::Byte, _) => (op::BYTE_NOT, Kind::Byte),
            };
            self.put(op, 0, 0);
            return self.expression(operand, level + 1, cells, depth + 1);
        }
        let result = if kind == Kind::Int { 1 } else { 2 };
        let calls = if self.here == 0 { 30 } else { 12 };
        if self.rng.chance(calls) && self.call(op::CALL, result, level, cells, depth) {
            return;
        }
        let last = if kind == Kind::Int { op::REM } else { op::BYTE_OR };
        let operator = self.rng.between(usize::from(op::ADD), usize::from(last)) as u8;
        self.put(operator, 0, 0);
        if matches!(operator, op::DIV | op::REM) && !self.rng.chance(self.taste.zero_divisors) {
            self.expression(kind, level + 1, cells, depth + 1);
            let divisor = self.rng.pick(&[1, 2, 3, 7, 10, 100, 255]);
            self.put(op::CONSTANT, u8::from(kind == Kind::Byte), divisor);
        } else {
            self.pair(kind, level, cells, depth);
        }
    }

    /// A call of a function with this result, if there is one to call. Most calls go to later functions, so that most
    /// programs call to no great depth; guarded functions call themselves with a lower first argument.
    pub(super) fn call(&mut self, op: u8, result: u8, level: usize, cells: usize, depth: usize) -> bool {
        let back = self.guarded || self.rng.chance(self.taste.open_recursion);
        let fits = |f: &FunctionRecord| f.result == result && usize::from(f.parameters) <= cells;
        let deep_enough = self.below(level, 2);
        let called: Vec<usize> = (1..self.functions.len())
            .filter(|f| fits(&self.functions[*f]) && (*f > self.here || back))
            .filter(|f| deep_enough || self.functions[*f].parameters == 0)
            .collect();
        if called.is_empty() {
            return false;
        }
        let number = if back && called.contains(&self.here) { self.here } else { self.rng.pick(&called) };
        let function = self.functions[number];
        self.put(op, 0, number);
        for slot in 0..usize::from(function.parameters) {
            if slot == 0 && self.guarded && function.kind(0) == Kind::Int && self.below(level, 2) && cells > 1 {
                self.put(op::SUB, 0, 0);
                self.put(op::VARIABLE, 0, 0);
                self.put(op::CONSTANT, 0, 1);
            } else {
                self.expression(function.kind(slot), level + 1, cells - slot, depth + 1);
            }
        }
        true
    }

    /// A constant, a variable or a read.
    fn leaf(&mut self, kind: Kind) {
        let byte = u8::from(kind == Kind::Byte);
        if self.rng.chance(self.taste.reads) {
            let format = if kind == Kind::Int { 0 } else { self.rng.pick(&[1, 2]) };
            return self.put(op::READ, format, 0);
        }
        let slots = self.slots(kind);
        if !slots.is_empty() && self.rng.chance(55) {
            let (scope, slot) = self.rng.pick(&slots);
            return self.put(op::VARIABLE, scope, slot);
        }
        let highest = if kind == Kind::Int { 32767 } else { 255 };
        let value = match self.rng.below(6) {
            0 => self.rng.below(highest + 1),
            1 => self.rng.pick(&[highest, highest - 1, 128, 127, 10]),
            _ => self.rng.below(8),
        };
        self.put(op::CONSTANT, byte, value);
    }
}
