//! The tree meaning as an interpreter: what happens within so many node entries, and how the run then stands.

use crate::numbers::{compares, fold, operate, reading, written, Reading};
use crate::tree::{op, Kind, Program};
use std::collections::VecDeque;
use std::rc::Rc;

pub const MOST_ACTIVATIONS: usize = 32;

/// One take of bytes, or what one write sends.
#[derive(Clone, PartialEq, Eq, Debug)]
pub enum Happening {
    Took(Vec<u8>),
    Sent(Vec<u8>),
}

/// How a run stands.
#[derive(Clone, PartialEq, Eq, Debug)]
pub enum Stands {
    Running,
    Waits,
    Ended { variables: Vec<i32> },
    Fault { cause: u16, node: usize, variables: Vec<i32> },
}

impl Stands {
    /// Whether nothing can come any more, whatever is fed.
    pub fn over(&self) -> bool {
        matches!(self, Stands::Ended { .. } | Stands::Fault { .. })
    }
}

/// What is left to do, the next task last. Only `Enter` counts as a node entry; the others belong to the entry before.
#[derive(Clone, Copy)]
enum Task {
    /// Enter the node.
    Enter(usize),
    /// Do what the node does once its operands are worked out.
    Finish(usize),
    /// Go on in a block with its statement of this number.
    Statement(usize, usize),
    /// Behind the condition of an if.
    Choose(usize),
    /// Behind the left side of an and or an or.
    Right(usize),
    /// Behind the condition of a not.
    Turn,
    /// Start a round of the loop.
    Round(usize),
    /// Behind the body of this function.
    Close(usize),
}

/// A run that can be followed further and further, and fed while it is followed.
#[derive(Clone)]
pub struct Run {
    program: Rc<Program>,
    waiting: VecDeque<u8>,
    room: usize,
    /// The variables of the open activations, main's first.
    activations: Vec<Vec<i32>>,
    tasks: Vec<Task>,
    values: Vec<i32>,
    truth: bool,
    entries: u64,
    happenings: Vec<Happening>,
    stands: Stands,
    /// How often nodes of each kind were entered.
    pub entered: [u64; 64],
}

impl Run {
    pub fn new(program: &Rc<Program>, fed: &[u8], room: usize) -> Run {
        let main = &program.functions[0];
        Run {
            program: Rc::clone(program),
            waiting: fed.iter().copied().collect(),
            room,
            activations: vec![vec![0; main.kinds.len()]],
            tasks: vec![Task::Close(0), Task::Enter(main.body)],
            values: Vec::new(),
            truth: false,
            entries: 0,
            happenings: Vec::new(),
            stands: Stands::Running,
            entered: [0; 64],
        }
    }

    pub fn stands(&self) -> &Stands {
        &self.stands
    }

    pub fn happenings(&self) -> &[Happening] {
        &self.happenings
    }

    pub fn entries(&self) -> u64 {
        self.entries
    }

    pub fn waiting(&self) -> Vec<u8> {
        self.waiting.iter().copied().collect()
    }

    /// The format of the read at which the run waits.
    pub fn awaits(&self) -> Option<u8> {
        match (&self.stands, self.tasks.last()) {
            (Stands::Waits, Some(Task::Finish(read))) => Some(self.program.nodes[*read].aux),
            _ => None,
        }
    }

    pub fn main_variables(&self) -> &[i32] {
        &self.activations[0]
    }

    pub fn feed(&mut self, byte: u8) {
        self.waiting.push_back(byte);
    }

    /// Follow the run up to `limit` node entries from its start: all that comes before entry `limit` + 1.
    pub fn follow(&mut self, limit: u64) {
        if self.stands.over() {
            return;
        }
        self.stands = Stands::Running;
        let program = Rc::clone(&self.program);
        while self.stands == Stands::Running {
            let task = self.tasks.pop().expect("main's close is the last task");
            match task {
                Task::Enter(_) if self.entries >= limit => {
                    self.tasks.push(task);
                    return;
                }
                Task::Enter(node) => {
                    self.entries += 1;
                    self.entered[usize::from(program.nodes[node].op)] += 1;
                    self.enter(&program, node);
                }
                _ => self.go_on(&program, task),
            }
        }
    }

    fn enter(&mut self, program: &Program, at: usize) {
        let node = &program.nodes[at];
        match node.op {
            op::CONSTANT => self.values.push(i32::from(node.operand)),
            op::VARIABLE => {
                let value = self.scope(node.aux)[usize::from(node.operand)];
                self.values.push(value);
            }
            op::NOT => self.tasks.extend([Task::Turn, Task::Enter(node.children[0])]),
            op::AND | op::OR => self.tasks.extend([Task::Right(at), Task::Enter(node.children[0])]),
            op::SKIP => {}
            op::IF => self.tasks.extend([Task::Choose(at), Task::Enter(node.children[0])]),
            op::LOOP => self.tasks.push(Task::Round(at)),
            op::BREAK => {
                self.leave_to_round(program, node.operand);
            }
            op::CONTINUE => {
                let round = self.leave_to_round(program, node.operand);
                self.tasks.push(round);
            }
            op::EXIT => self.close(),
            op::BLOCK => self.tasks.push(Task::Statement(at, 0)),
            _ => {
                self.tasks.push(Task::Finish(at));
                self.tasks.extend(node.children.iter().rev().map(|child| Task::Enter(*child)));
            }
        }
    }

    fn go_on(&mut self, program: &Program, task: Task) {
        match task {
            Task::Enter(_) => unreachable!("an entry is counted where it is made"),
            Task::Finish(at) => self.finish(program, at),
            Task::Statement(block, number) => {
                if let Some(statement) = program.nodes[block].children.get(number) {
                    self.tasks.extend([Task::Statement(block, number + 1), Task::Enter(*statement)]);
                }
            }
            Task::Choose(at) => {
                let chosen = if self.truth { 1 } else { 2 };
                if let Some(block) = program.nodes[at].children.get(chosen) {
                    self.tasks.push(Task::Enter(*block));
                }
            }
            Task::Right(at) => {
                let node = &program.nodes[at];
                if self.truth == (node.op == op::AND) {
                    self.tasks.push(Task::Enter(node.children[1]));
                }
            }
            Task::Turn => self.truth = !self.truth,
            Task::Round(at) => self.tasks.extend([task, Task::Enter(program.nodes[at].children[0])]),
            Task::Close(function) => {
                let function = &program.functions[function];
                self.tasks.push(task);
                if function.result.is_some() {
                    self.fault(63, function.body);
                } else {
                    self.close();
                }
            }
        }
    }

    /// What a node does behind its operands.
    fn finish(&mut self, program: &Program, at: usize) {
        let node = &program.nodes[at];
        match node.op {
            op::PLUS | op::EXTEND => {}
            op::MINUS => {
                let value = self.pop();
                self.values.push(fold(Kind::Int, -value));
            }
            op::BYTE_NOT => {
                let value = self.pop();
                self.values.push(i32::from(value == 0));
            }
            op::SHRINK => {
                let value = self.pop();
                self.values.push(fold(Kind::Byte, value));
            }
            op::ADD..=op::BYTE_OR => {
                let (right, left) = (self.pop(), self.pop());
                let kind = node.gives.expect("an operator gives a value");
                match operate(node.op, kind, left, right) {
                    Some(value) => self.values.push(value),
                    None => self.fault(61, at),
                }
            }
            op::EQUAL..=op::AT_LEAST => {
                let (right, left) = (self.pop(), self.pop());
                self.truth = compares(node.op, left, right);
            }
            op::HOLDS => self.truth = self.pop() != 0,
            op::CALL | op::PERFORM => self.call(program, at),
            op::READ => self.read(node.aux, at),
            op::ASSIGN => {
                let value = self.pop();
                self.scope(node.aux)[usize::from(node.operand)] = value;
            }
            op::RETURN => self.close(),
            op::WRITE => {
                let text = written(node.aux, self.pop());
                if text.len() > self.room {
                    self.fault(65, at);
                } else {
                    self.room -= text.len();
                    self.happenings.push(Happening::Sent(text));
                }
            }
            other => unreachable!("a node of kind {other} has nothing to finish"),
        }
    }

    fn call(&mut self, program: &Program, at: usize) {
        let number = usize::from(program.nodes[at].operand);
        let function = &program.functions[number];
        if self.activations.len() >= MOST_ACTIVATIONS {
            return self.fault(62, at);
        }
        let mut variables = self.values.split_off(self.values.len() - function.parameters);
        variables.resize(function.kinds.len(), 0);
        self.activations.push(variables);
        self.tasks.extend([Task::Close(number), Task::Enter(function.body)]);
    }

    fn read(&mut self, format: u8, at: usize) {
        let window: Vec<u8> = self.waiting.iter().take(8).copied().collect();
        match reading(format, &window) {
            Reading::Took { value, count } => {
                self.values.push(value);
                self.happenings.push(Happening::Took(self.waiting.drain(..count).collect()));
            }
            Reading::Waits => {
                self.tasks.push(Task::Finish(at));
                self.stands = Stands::Waits;
            }
            Reading::Refused => self.fault(64, at),
        }
    }

    /// Close the last activation: drop what is left to do in it. A value to return stays on top of the values.
    fn close(&mut self) {
        while !matches!(self.tasks.pop().expect("each activation has its close"), Task::Close(_)) {}
        if self.activations.len() == 1 {
            self.stands = Stands::Ended { variables: self.activations[0].clone() };
        } else {
            self.activations.pop();
        }
    }

    /// Leave everything inside the innermost loop that the name means, and give its next round.
    fn leave_to_round(&mut self, program: &Program, name: u16) -> Task {
        loop {
            let task = self.tasks.pop().expect("the loop is open");
            match task {
                Task::Round(at) if name == 0 || program.nodes[at].operand == name => return task,
                Task::Close(_) => unreachable!("the loop is open in the same activation"),
                _ => {}
            }
        }
    }

    fn fault(&mut self, cause: u16, node: usize) {
        self.stands = Stands::Fault { cause, node, variables: self.activations[0].clone() };
    }

    fn pop(&mut self) -> i32 {
        self.values.pop().expect("the operand was worked out")
    }

    /// The variables of a scope: 0 the last activation's, 1 main's.
    fn scope(&mut self, scope: u8) -> &mut Vec<i32> {
        let index = if scope == 0 { self.activations.len() - 1 } else { 0 };
        &mut self.activations[index]
    }
}

/// The run of a program with these bytes fed and this room, followed for `limit` node entries.
pub fn meaning(program: &Rc<Program>, fed: &[u8], room: usize, limit: u64) -> Run {
    let mut run = Run::new(program, fed, room);
    run.follow(limit);
    run
}
