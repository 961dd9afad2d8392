//! The translation: the stack code of a program, word for word.

use crate::tree::{op, Kind, Program};

/// A place in the code that is known only later, by number.
type Label = usize;

struct Writer<'a> {
    program: &'a Program,
    words: Vec<u64>,
    /// The address of each label, where it has been set.
    labels: Vec<usize>,
    /// Words whose operand is the address of a label.
    jumps: Vec<(usize, Label)>,
    /// The open loops: name, where a round starts, and behind the loop.
    loops: Vec<(u16, Label, Label)>,
}

/// The code of a program.
pub fn translate(program: &Program) -> Vec<u64> {
    let entries = vec![0; program.functions.len()];
    let mut writer = Writer { program, words: entries, labels: Vec::new(), jumps: Vec::new(), loops: Vec::new() };
    for (number, function) in program.functions.iter().enumerate() {
        let result = match function.result {
            None => 0,
            Some(Kind::Int) => 1,
            Some(Kind::Byte) => 2,
        };
        let (parameters, variables) = (function.parameters as u64, function.kinds.len() as u64);
        writer.words[number] = result << 30 | parameters << 26 | variables << 20 | writer.words.len() as u64;
        writer.node(function.body);
        writer.word(op::BLOCK, 0, function.body, 0);
    }
    for (word, label) in &writer.jumps {
        writer.words[*word] |= writer.labels[*label] as u64;
    }
    writer.words
}

impl Writer<'_> {
    fn word(&mut self, op: u8, aux: u8, node: usize, operand: u16) {
        self.words.push(u64::from(op) << 56 | u64::from(aux) << 48 | (node as u64) << 32 | u64::from(operand));
    }

    fn jump(&mut self, op: u8, aux: u8, node: usize, target: Label) {
        self.jumps.push((self.words.len(), target));
        self.word(op, aux, node, 0);
    }

    fn label(&mut self) -> Label {
        self.labels.push(usize::MAX);
        self.labels.len() - 1
    }

    /// The label stands before the next word.
    fn set(&mut self, label: Label) {
        self.labels[label] = self.words.len();
    }

    /// The words of an expression, a statement or a block.
    fn node(&mut self, at: usize) {
        let program = self.program;
        let node = &program.nodes[at];
        let (op, children) = (node.op, &node.children);
        match op {
            op::IF => {
                let (otherwise, behind) = (self.label(), self.label());
                self.condition(children[0], false, otherwise);
                self.node(children[1]);
                if node.aux == 1 {
                    self.jump(op::IF, 0, at, behind);
                }
                self.set(otherwise);
                if node.aux == 1 {
                    self.node(children[2]);
                }
                self.set(behind);
            }
            op::LOOP => {
                let (round, behind) = (self.label(), self.label());
                self.set(round);
                self.loops.push((node.operand, round, behind));
                self.node(children[0]);
                self.loops.pop();
                self.jump(op::LOOP, 0, at, round);
                self.set(behind);
            }
            op::BREAK | op::CONTINUE => {
                let meant = self.loops.iter().rev().find(|(name, ..)| node.operand == 0 || *name == node.operand);
                let (_, round, behind) = *meant.expect("the check leaves no break without its loop");
                self.jump(op, 0, at, if op == op::BREAK { behind } else { round });
            }
            _ => {
                children.iter().for_each(|child| self.node(*child));
                match op {
                    op::PLUS | op::EXTEND | op::SKIP | op::BLOCK => {}
                    op::ADD..=op::BYTE_OR => self.word(op, self.kind_bit(children[0]), at, 0),
                    _ => self.word(op, node.aux, at, node.operand),
                }
            }
        }
    }

    /// The words of a condition: they jump to the target if it comes to the sense, and else run on behind themselves.
    fn condition(&mut self, at: usize, sense: bool, target: Label) {
        let program = self.program;
        let node = &program.nodes[at];
        let (op, children) = (node.op, &node.children);
        match op {
            op::NOT => self.condition(children[0], !sense, target),
            op::AND | op::OR => {
                // The left side decides alone when an `and` fails or an `or` holds.
                let decides = op == op::OR;
                if sense == decides {
                    self.condition(children[0], sense, target);
                    self.condition(children[1], sense, target);
                } else {
                    let behind = self.label();
                    self.condition(children[0], decides, behind);
                    self.condition(children[1], sense, target);
                    self.set(behind);
                }
            }
            op::HOLDS => {
                self.node(children[0]);
                self.jump(op, u8::from(sense), at, target);
            }
            _ => {
                self.node(children[0]);
                self.node(children[1]);
                self.jump(op, self.kind_bit(children[0]) + 2 * u8::from(sense), at, target);
            }
        }
    }

    fn kind_bit(&self, operand: usize) -> u8 {
        u8::from(self.program.nodes[operand].gives == Some(Kind::Byte))
    }
}
