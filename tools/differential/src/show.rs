//! Tables, code and cases in a form to be read.

use crate::chain::Line;
use crate::inputs::{Call, Case};
use crate::table::check;
use crate::translate::translate;
use crate::tree::{op, Program};
use std::fmt::Write;

/// Bytes with what can be printed as such.
pub fn bytes(bytes: &[u8]) -> String {
    format!("\"{}\"", bytes.escape_ascii())
}

fn hex(bytes: &[u8]) -> String {
    bytes.iter().map(|b| format!("{b:02x}")).collect()
}

/// The listing of a program: number, level and name of each node.
pub fn program(program: &Program) -> String {
    let mut text = String::new();
    for (number, function) in program.functions.iter().enumerate() {
        let kinds = &function.kinds;
        let (parameters, result) = (function.parameters, function.result);
        let _ = writeln!(text, "function {number}: result {result:?}, {parameters} parameters, variables {kinds:?}");
        node(program, function.body, 1, &mut text);
    }
    text
}

fn node(program: &Program, at: usize, level: usize, text: &mut String) {
    let node_ = &program.nodes[at];
    let _ = write!(text, "{at:6} {}{}", "  ".repeat(level), op::name(node_.op));
    let _ = match node_.op {
        op::CONSTANT => writeln!(text, " {} {:?}", node_.operand, node_.gives),
        op::VARIABLE | op::ASSIGN => writeln!(text, " {} {}", ["own", "main's"][usize::from(node_.aux)], node_.operand),
        op::CALL | op::PERFORM | op::LOOP | op::BREAK | op::CONTINUE => writeln!(text, " {}", node_.operand),
        op::READ | op::WRITE => writeln!(text, " {}", ["integer", "byte", "char"][usize::from(node_.aux)]),
        _ => writeln!(text),
    };
    node_.children.iter().for_each(|child| node(program, *child, level + 1, text));
}

/// The words of a code.
pub fn code(words: &[u64]) -> String {
    let mut text = String::new();
    for (address, word) in words.iter().enumerate() {
        let (op, aux, node, operand) = (word >> 56, word >> 48 & 255, word >> 32 & 0xffff, word & 0xffff_ffff);
        let name = if op == 0 { "entry" } else { op::name(op as u8) };
        let _ = writeln!(text, "{address:6} {word:016x} {name} aux {aux} node {node} operand {operand}");
    }
    text
}

pub fn table(table: &[u8]) -> String {
    match check(table) {
        Ok(checked) if checked.nodes.len() <= 1000 => {
            format!("table {}\n{}{}", hex(table), program(&checked), code(&translate(&checked)))
        }
        Ok(checked) => format!("table with {} nodes, passes\n", checked.nodes.len()),
        Err(refusal) => format!("table {}\nrefused: {refusal:?}\n", hex(table)),
    }
}

fn line(line: &Line) -> String {
    match line {
        Line::Tape { waiting, hold_total, room } => {
            format!("tape with {} waiting, hold {hold_total} in all, room {room}", bytes(waiting))
        }
        Line::Ring { waiting } => format!("ring with {} waiting", bytes(waiting)),
    }
}

/// A whole case.
pub fn case(case: &Case) -> String {
    let mut text = format!("case {}\n", case.seed);
    if let Some(before) = &case.before {
        let _ = write!(text, "loaded first: {}", table(before));
    }
    let _ = write!(text, "loaded into {} words: {}", case.code_words, table(&case.table));
    for (number, plan) in case.plans.iter().enumerate() {
        let _ = writeln!(text, "run {number}: {}", line(&plan.line));
        let calls: Vec<String> = plan.calls.iter().map(call).collect();
        let _ = writeln!(text, "  {}", calls.join(", "));
    }
    text
}

pub fn call(call: &Call) -> String {
    match call {
        Call::Turn(budget) => format!("turn {budget}"),
        Call::Feed(byte) => format!("feed {}", bytes(&[*byte])),
    }
}
