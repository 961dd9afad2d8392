//! Chains on the reference meaning itself, one right and several wrong on purpose. They only test the comparer.

use crate::chain::{Chain, CheckAnswer, FeedAnswer, Line, Outcome, TurnAnswer};
use crate::expect::MOST_BUDGET;
use crate::machine::{check_answer, load_answer};
use crate::meaning::{Happening, Run, Stands};
use crate::table::check;
use crate::tree::{op, Node, Program};
use std::rc::Rc;

/// What a stand-in does wrong.
#[derive(Clone, Copy, PartialEq, Eq, Debug)]
pub enum Wrong {
    Nothing,
    /// The check tells the place behind the right one.
    CheckPlace,
    /// A refused load forgets the code that was held.
    RefusedLoad,
    /// The last word of the code has another node.
    CodeWord,
    /// The last of several bytes sent is lost.
    SentByte,
    /// A byte is taken away at a wait.
    TakenAtWait,
    /// A turn makes one step less than it says.
    LateByOne,
    /// A fault is told one node too far.
    FaultNode,
    /// A body that ends without return ends the program.
    FaultAsEnd,
    /// A run that goes on with nothing waiting is said to wait.
    FalseWait,
    /// Main's first variable is one too high once the run is over.
    Variable,
    /// A budget of 1,000,000 is refused.
    Budget,
    /// A feed is refused at hold 1.
    Hold,
    /// A turn after the end makes a step.
    StepAfterEnd,
    /// What was sent in an earlier run is still there.
    SentBefore,
    /// `and` for `or`.
    AndForOr,
    /// A break leaves only the innermost loop.
    BreakInnermost,
    /// `<=` for `<`.
    AtMostForLess,
    /// A comparison of a condition under `not` is not turned.
    NotIgnored,
}

impl Wrong {
    pub const ALL: [Wrong; 18] = [
        Wrong::CheckPlace,
        Wrong::RefusedLoad,
        Wrong::CodeWord,
        Wrong::SentByte,
        Wrong::TakenAtWait,
        Wrong::LateByOne,
        Wrong::FaultNode,
        Wrong::FaultAsEnd,
        Wrong::FalseWait,
        Wrong::Variable,
        Wrong::Budget,
        Wrong::Hold,
        Wrong::StepAfterEnd,
        Wrong::SentBefore,
        Wrong::AndForOr,
        Wrong::BreakInnermost,
        Wrong::AtMostForLess,
        Wrong::NotIgnored,
    ];

    /// What is wrong in the tree that is run.
    fn in_tree(self, node: &mut Node) {
        match (self, node.op) {
            (Wrong::AndForOr, op::OR) => node.op = op::AND,
            (Wrong::BreakInnermost, op::BREAK) => node.operand = 0,
            (Wrong::AtMostForLess, op::LESS) => node.op = op::AT_MOST,
            // An `and` of a condition with itself.
            (Wrong::NotIgnored, op::NOT) => (node.op, node.children) = (op::AND, vec![node.children[0]; 2]),
            _ => {}
        }
    }
}

/// A chain whose turns follow the meaning by as many node entries as they are granted steps.
pub struct StandIn {
    wrong: Wrong,
    code: Vec<u64>,
    program: Option<Rc<Program>>,
    run: Option<Run>,
    line: Line,
    fed: usize,
    sent_before: Vec<u8>,
}

impl StandIn {
    pub fn new(wrong: Wrong) -> StandIn {
        let line = Line::Ring { waiting: Vec::new() };
        StandIn { wrong, code: Vec::new(), program: None, run: None, line, fed: 0, sent_before: Vec::new() }
    }

    fn run(&self) -> &Run {
        self.run.as_ref().expect("armed")
    }

    fn outcome(&self) -> Outcome {
        match *self.run().stands() {
            Stands::Running if self.wrong == Wrong::FalseWait && self.run().waiting().is_empty() => Outcome::Waits,
            Stands::Running => Outcome::Runs,
            Stands::Waits => Outcome::Waits,
            Stands::Ended { .. } => Outcome::Ended,
            Stands::Fault { cause: 63, .. } if self.wrong == Wrong::FaultAsEnd => Outcome::Ended,
            Stands::Fault { cause, node, .. } => {
                Outcome::Fault { cause, node: node + usize::from(self.wrong == Wrong::FaultNode) }
            }
        }
    }
}

impl Chain for StandIn {
    fn check(&mut self, table: &[u8]) -> CheckAnswer {
        match check_answer(table) {
            CheckAnswer::Refused { number, place } if self.wrong == Wrong::CheckPlace => {
                CheckAnswer::Refused { number, place: place + 1 }
            }
            answer => answer,
        }
    }

    fn load(&mut self, table: &[u8], code_words: usize) -> Result<usize, (u16, usize)> {
        match load_answer(table, code_words) {
            Ok(code) => {
                let mut program = check(table).expect("it was loaded");
                program.nodes.iter_mut().for_each(|node| self.wrong.in_tree(node));
                (self.code, self.program) = (code, Some(Rc::new(program)));
                if self.wrong == Wrong::CodeWord {
                    *self.code.last_mut().expect("code has words") ^= 1 << 32;
                }
                Ok(self.code.len())
            }
            Err(told) => {
                if self.wrong == Wrong::RefusedLoad {
                    self.code.clear();
                }
                Err(told)
            }
        }
    }

    fn code(&self) -> Vec<u64> {
        self.code.clone()
    }

    fn arm(&mut self, line: &Line) {
        if self.wrong == Wrong::SentBefore && self.run.is_some() {
            self.sent_before = self.sent();
        }
        let program = self.program.as_ref().expect("loaded");
        self.run = Some(Run::new(program, line.waiting(), line.room()));
        (self.line, self.fed) = (line.clone(), line.waiting().len());
    }

    fn turn(&mut self, budget: u32) -> TurnAnswer {
        if budget == 0 || budget > MOST_BUDGET || (self.wrong == Wrong::Budget && budget == MOST_BUDGET) {
            return TurnAnswer::Refused { number: 40, place: 0 };
        }
        if self.run().stands().over() {
            let steps = u32::from(self.wrong == Wrong::StepAfterEnd);
            return TurnAnswer::Answered { outcome: self.outcome(), steps };
        }
        let late = u64::from(self.wrong == Wrong::LateByOne);
        let run = self.run.as_mut().expect("armed");
        let before = run.entries();
        run.follow(before + u64::from(budget) - late);
        let made = (run.entries() - before) as u32;
        let steps = if *run.stands() == Stands::Running { budget } else { made };
        TurnAnswer::Answered { outcome: self.outcome(), steps }
    }

    fn feed(&mut self, byte: u8) -> FeedAnswer {
        let used = if self.line.regains() { self.run().waiting().len() } else { self.fed };
        let needed = if self.wrong == Wrong::Hold { 2 } else { 1 };
        if self.line.hold_total() - used < needed {
            return Err((50, 0));
        }
        self.fed += 1;
        self.run.as_mut().expect("armed").feed(byte);
        Ok(())
    }

    fn waiting(&self) -> Vec<u8> {
        let mut waiting = self.run().waiting();
        if self.wrong == Wrong::TakenAtWait && *self.run().stands() == Stands::Waits && !waiting.is_empty() {
            waiting.remove(0);
        }
        waiting
    }

    fn sent(&self) -> Vec<u8> {
        let mut sent = self.sent_before.clone();
        for happening in self.run().happenings() {
            if let Happening::Sent(bytes) = happening {
                sent.extend(bytes);
            }
        }
        if self.wrong == Wrong::SentByte && sent.len() > 2 {
            sent.pop();
        }
        sent
    }

    fn variable(&self, slot: usize) -> i16 {
        let value = self.run().main_variables().get(slot).copied().unwrap_or(0) as i16;
        let wrong = self.wrong == Wrong::Variable && slot == 0 && self.run().stands().over();
        value.wrapping_add(i16::from(wrong))
    }
}
