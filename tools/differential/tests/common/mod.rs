//! Tables written by hand, for the tests.
#![allow(dead_code)]

use differential::table::{check, Refusal};
use differential::tree::{FunctionRecord, Program, Record, Sketch};
use std::rc::Rc;

/// A function by its result (n, i or b), its parameters, and the kinds of its variables (i or b each).
pub fn function(result: char, parameters: u8, kinds: &str) -> FunctionRecord {
    let bits = kinds.chars().enumerate().map(|(slot, kind)| u32::from(kind == 'b') << (31 - slot)).sum();
    FunctionRecord {
        result: "nib".find(result).expect("a result") as u8,
        parameters,
        variables: kinds.len() as u8,
        spare: 0,
        kinds: bits,
    }
}

pub fn sketch(functions: &[FunctionRecord], nodes: &[(u8, u8, u16)]) -> Sketch {
    let records = nodes.iter().map(|(op, aux, operand)| Record::new(*op, *aux, *operand)).collect();
    Sketch { version: 1, functions: functions.to_vec(), records }
}

pub fn program(functions: &[FunctionRecord], nodes: &[(u8, u8, u16)]) -> Rc<Program> {
    Rc::new(check(&sketch(functions, nodes).table()).expect("the program passes"))
}

/// A program of main alone with these kinds of variables.
pub fn main_only(kinds: &str, nodes: &[(u8, u8, u16)]) -> Rc<Program> {
    program(&[function('n', 0, kinds)], nodes)
}

/// Number and place of the refusal of a table.
pub fn refused(functions: &[FunctionRecord], nodes: &[(u8, u8, u16)]) -> (u16, usize) {
    told(&sketch(functions, nodes).table())
}

pub fn told(table: &[u8]) -> (u16, usize) {
    let Refusal { number, place } = check(table).expect_err("the table is refused");
    (number, place)
}
