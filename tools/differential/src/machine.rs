//! The machine over translated code, and a chain of reference made of check, translation and machine.

use crate::chain::{Chain, CheckAnswer, FeedAnswer, Line, Outcome, TurnAnswer};
use crate::expect::MOST_BUDGET;
use crate::meaning::MOST_ACTIVATIONS;
use crate::numbers::{compares, fold, operate, reading, written, Reading};
use crate::table::{check, Refusal};
use crate::translate::translate;
use crate::tree::{kind_of_bit, op, Kind};
use std::collections::VecDeque;

/// What a step answers.
#[derive(Clone, Copy, PartialEq, Eq, Debug)]
pub enum Step {
    Went,
    Waits,
    Ended,
    Failed { cause: u16, node: usize },
}

/// A line as the machine uses it.
#[derive(Clone)]
pub struct Ends {
    pub waiting: VecDeque<u8>,
    pub sent: Vec<u8>,
    pub hold: usize,
    pub room: usize,
    pub regains: bool,
}

impl Ends {
    pub fn new(line: &Line) -> Ends {
        let waiting: VecDeque<u8> = line.waiting().iter().copied().collect();
        let hold = line.hold_total() - waiting.len();
        Ends { waiting, sent: Vec::new(), hold, room: line.room(), regains: line.regains() }
    }

    pub fn feed(&mut self, byte: u8) -> FeedAnswer {
        self.hold = self.hold.checked_sub(1).ok_or((50, 0))?;
        self.waiting.push_back(byte);
        Ok(())
    }
}

struct Activation {
    variables: Vec<i32>,
    operands: Vec<i32>,
    result: bool,
    back: usize,
}

/// A machine that runs the translation of a checked program. Other code is no part of this reference.
pub struct Machine {
    code: Vec<u64>,
    activations: Vec<Activation>,
    next: usize,
    over: Option<Step>,
}

impl Machine {
    pub fn new(code: Vec<u64>) -> Machine {
        Machine { code, activations: Vec::new(), next: 0, over: None }
    }

    pub fn main_variable(&self, slot: usize) -> i32 {
        self.activations.first().and_then(|main| main.variables.get(slot)).copied().unwrap_or(0)
    }

    pub fn step(&mut self, line: &mut Ends) -> Step {
        if let Some(over) = self.over {
            return over;
        }
        if self.activations.is_empty() {
            self.open(0, Vec::new(), 0);
        }
        let answer = self.act(line);
        if matches!(answer, Step::Ended | Step::Failed { .. }) {
            self.over = Some(answer);
        }
        answer
    }

    /// Open an activation of a function with its arguments, and go to its first word.
    fn open(&mut self, function: usize, arguments: Vec<i32>, back: usize) {
        let entry = self.code[function];
        let mut variables = arguments;
        variables.resize((entry >> 20 & 63) as usize, 0);
        self.activations.push(Activation { variables, operands: Vec::new(), result: entry >> 30 & 3 != 0, back });
        self.next = (entry & 0xffff) as usize;
    }

    /// Close the last activation; its caller goes on, with a result if there is one.
    fn close(&mut self, result: Option<i32>) -> Step {
        if self.activations.len() == 1 {
            return Step::Ended;
        }
        let closed = self.activations.pop().expect("an activation is open");
        self.next = closed.back;
        self.last().operands.extend(result);
        Step::Went
    }

    fn last(&mut self) -> &mut Activation {
        self.activations.last_mut().expect("an activation is open")
    }

    fn pop(&mut self) -> i32 {
        self.last().operands.pop().expect("the operand is there")
    }

    fn pop_two(&mut self) -> (i32, i32) {
        let right = self.pop();
        (self.pop(), right)
    }

    fn scope(&mut self, scope: u8) -> &mut Vec<i32> {
        let index = if scope == 0 { self.activations.len() - 1 } else { 0 };
        &mut self.activations[index].variables
    }

    /// The word at the next address, and what it does.
    fn act(&mut self, line: &mut Ends) -> Step {
        let word = self.code[self.next];
        let (op, aux) = ((word >> 56) as u8, (word >> 48) as u8);
        let (node, operand) = ((word >> 32 & 0xffff) as usize, (word & 0xffff_ffff) as usize);
        let behind = self.next + 1;
        let mut next = behind;
        let pushed = match op {
            op::CONSTANT => Some(operand as i32),
            op::VARIABLE => Some(self.scope(aux)[operand]),
            op::MINUS => Some(fold(Kind::Int, -self.pop())),
            op::BYTE_NOT => Some(i32::from(self.pop() == 0)),
            op::SHRINK => Some(fold(Kind::Byte, self.pop())),
            op::ADD..=op::BYTE_OR => {
                let (left, right) = self.pop_two();
                match operate(op, kind_of_bit(u64::from(aux)), left, right) {
                    Some(value) => Some(value),
                    None => return Step::Failed { cause: 61, node },
                }
            }
            op::READ => {
                let window: Vec<u8> = line.waiting.iter().take(8).copied().collect();
                match reading(aux, &window) {
                    Reading::Took { value, count } => {
                        line.waiting.drain(..count);
                        line.hold += if line.regains { count } else { 0 };
                        Some(value)
                    }
                    Reading::Waits => return Step::Waits,
                    Reading::Refused => return Step::Failed { cause: 64, node },
                }
            }
            op::EQUAL..=op::AT_LEAST => {
                let (left, right) = self.pop_two();
                if compares(op, left, right) == (aux >= 2) {
                    next = operand;
                }
                None
            }
            op::HOLDS => {
                if (self.pop() != 0) == (aux == 1) {
                    next = operand;
                }
                None
            }
            op::ASSIGN => {
                let value = self.pop();
                self.scope(aux)[operand] = value;
                None
            }
            op::IF | op::LOOP | op::BREAK | op::CONTINUE => {
                next = operand;
                None
            }
            op::WRITE => {
                let text = written(aux, self.pop());
                if text.len() > line.room {
                    return Step::Failed { cause: 65, node };
                }
                line.room -= text.len();
                line.sent.extend(text);
                None
            }
            op::CALL | op::PERFORM => {
                if self.activations.len() >= MOST_ACTIVATIONS {
                    return Step::Failed { cause: 62, node };
                }
                let operands = &mut self.activations.last_mut().expect("an activation is open").operands;
                let parameters = (self.code[operand] >> 26 & 15) as usize;
                let arguments = operands.split_off(operands.len() - parameters);
                self.open(operand, arguments, behind);
                return Step::Went;
            }
            op::BLOCK if self.last().result => return Step::Failed { cause: 63, node },
            op::EXIT | op::BLOCK => return self.close(None),
            op::RETURN => {
                let value = self.pop();
                return self.close(Some(value));
            }
            other => unreachable!("no translation has a word of op {other}"),
        };
        self.last().operands.extend(pushed);
        self.next = next;
        Step::Went
    }
}

/// A chain made of the check, the translation and the machine of this reference.
pub struct Reference {
    code: Vec<u64>,
    machine: Machine,
    line: Ends,
}

impl Default for Reference {
    fn default() -> Reference {
        let line = Line::Tape { waiting: Vec::new(), hold_total: 0, room: 0 };
        Reference { code: Vec::new(), machine: Machine::new(Vec::new()), line: Ends::new(&line) }
    }
}

/// What the reference check answers.
pub fn check_answer(table: &[u8]) -> CheckAnswer {
    match check(table) {
        Ok(program) => CheckAnswer::Passed {
            functions: program.functions.len(),
            nodes: program.nodes.len(),
            words: program.words(),
        },
        Err(Refusal { number, place }) => CheckAnswer::Refused { number, place },
    }
}

/// What the reference answers to a load: the code, or number and place of the refusal.
pub fn load_answer(table: &[u8], code_words: usize) -> Result<Vec<u64>, (u16, usize)> {
    let program = check(table).map_err(|refusal| (refusal.number, refusal.place))?;
    let words = program.words();
    if code_words < words {
        return Err((30, words));
    }
    Ok(translate(&program))
}

impl Chain for Reference {
    fn check(&mut self, table: &[u8]) -> CheckAnswer {
        check_answer(table)
    }

    fn load(&mut self, table: &[u8], code_words: usize) -> Result<usize, (u16, usize)> {
        self.code = load_answer(table, code_words)?;
        Ok(self.code.len())
    }

    fn code(&self) -> Vec<u64> {
        self.code.clone()
    }

    fn arm(&mut self, line: &Line) {
        self.machine = Machine::new(self.code.clone());
        self.line = Ends::new(line);
    }

    fn turn(&mut self, budget: u32) -> TurnAnswer {
        if budget == 0 || budget > MOST_BUDGET {
            return TurnAnswer::Refused { number: 40, place: 0 };
        }
        let before = self.machine.over;
        let mut steps = 0;
        let outcome = loop {
            if steps == budget {
                break Outcome::Runs;
            }
            let step = self.machine.step(&mut self.line);
            steps += u32::from(step != Step::Waits && before.is_none());
            match step {
                Step::Went => {}
                Step::Waits => break Outcome::Waits,
                Step::Ended => break Outcome::Ended,
                Step::Failed { cause, node } => break Outcome::Fault { cause, node },
            }
        };
        TurnAnswer::Answered { outcome, steps }
    }

    fn feed(&mut self, byte: u8) -> FeedAnswer {
        self.line.feed(byte)
    }

    fn waiting(&self) -> Vec<u8> {
        self.line.waiting.iter().copied().collect()
    }

    fn sent(&self) -> Vec<u8> {
        self.line.sent.clone()
    }

    fn variable(&self, slot: usize) -> i16 {
        self.machine.main_variable(slot) as i16
    }
}
