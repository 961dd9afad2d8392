//! The guarantee of a run, checked by the reference meaning: from the calls made, their replies and what is then seen.

use crate::chain::{FeedAnswer, Line, Outcome, TurnAnswer};
use crate::meaning::{Happening, Run, Stands};
use crate::tree::Program;
use std::rc::Rc;

pub const MOST_BUDGET: u32 = 1_000_000;

/// How many node entries the meaning is followed at most to find what a chain was seen to do.
const FARTHEST: u64 = 200_000_000;

/// A call with its reply.
#[derive(Clone, Copy, PartialEq, Eq, Debug)]
pub enum Logged {
    Turn {
        budget: u32,
        answer: TurnAnswer,
    },
    /// With how many bytes waited before the feed.
    Feed {
        byte: u8,
        answer: FeedAnswer,
        waiting_before: usize,
    },
}

/// What is seen after the calls.
#[derive(Clone, PartialEq, Eq, Debug)]
pub struct Observed {
    pub waiting: Vec<u8>,
    pub sent: Vec<u8>,
    /// Main's variables by slot, those past the last one too.
    pub variables: Vec<i16>,
}

fn demand(holds: bool, said: impl FnOnce() -> String) -> Result<(), String> {
    if holds {
        Ok(())
    } else {
        Err(said())
    }
}

/// The rules of each call by itself: which are refused, how many steps are made, and that an end or a fault stays.
pub fn call_rules(line: &Line, log: &[Logged]) -> Result<(), String> {
    let mut over: Option<Outcome> = None;
    let mut fed = line.waiting().len();
    for (number, logged) in log.iter().enumerate() {
        let said = |what: &str| format!("call {number}: {what}: {logged:?}");
        match *logged {
            Logged::Turn { budget, answer: TurnAnswer::Refused { number, place } } => {
                demand(budget == 0 || budget > MOST_BUDGET, || said("a good budget was refused"))?;
                demand((number, place) == (40, 0), || said("a turn is refused with number 40 at place 0"))?;
            }
            Logged::Turn { budget, answer: TurnAnswer::Answered { outcome, steps } } => {
                demand((1..=MOST_BUDGET).contains(&budget), || said("a budget of 0 or above 1,000,000 was accepted"))?;
                demand(steps <= budget, || said("more steps were made than granted"))?;
                demand(outcome != Outcome::Runs || steps == budget, || said("runs, but steps are left"))?;
                if let Some(before) = over {
                    demand(outcome == before && steps == 0, || said("a run that was over did not stay so"))?;
                }
                over = outcome.over().then_some(outcome);
            }
            Logged::Feed { answer, waiting_before, .. } => {
                let used = if line.regains() { waiting_before } else { fed };
                let hold = line.hold_total().checked_sub(used).ok_or_else(|| said("more bytes wait than are held"))?;
                match answer {
                    Ok(()) => {
                        demand(hold > 0, || said("a feed at hold 0 was accepted"))?;
                        fed += 1;
                    }
                    Err(told) => {
                        demand(hold == 0, || said("a feed was refused with hold left"))?;
                        demand(told == (50, 0), || said("a feed is refused with number 50 at place 0"))?;
                    }
                }
            }
        }
    }
    Ok(())
}

/// What the guarantee draws from the calls: all bytes fed, the last turn accepted, and the steps granted since the last
/// byte was fed.
pub struct Drawn {
    pub fed: Vec<u8>,
    pub last: Option<Outcome>,
    pub granted: u64,
    /// All steps made since arming.
    pub made: u64,
}

impl Drawn {
    /// How many node entries the machine can have come to with the steps made, which may be more than were granted since
    /// the last feed: between two steps lie no more entries than the program has nodes.
    fn farthest(&self, program: &Program) -> u64 {
        let ahead = (self.made + 2) * (program.nodes.len() as u64 + 1);
        self.granted.max(ahead.min(FARTHEST))
    }
}

pub fn drawn(line: &Line, log: &[Logged]) -> Drawn {
    let mut drawn = Drawn { fed: line.waiting().to_vec(), last: None, granted: 0, made: 0 };
    for logged in log {
        match *logged {
            Logged::Turn { budget, answer: TurnAnswer::Answered { outcome, steps } } => {
                drawn.last = Some(outcome);
                drawn.granted += u64::from(budget);
                drawn.made += u64::from(steps);
            }
            Logged::Feed { byte, answer: Ok(()), .. } => {
                drawn.fed.push(byte);
                drawn.granted = 0;
            }
            _ => {}
        }
    }
    drawn
}

/// Whether a turn's answer is how the meaning stands.
fn answers(outcome: Option<Outcome>, stands: &Stands) -> bool {
    match (outcome, stands) {
        (Some(Outcome::Ended), Stands::Ended { .. }) | (Some(Outcome::Waits), Stands::Waits) => true,
        (Some(Outcome::Fault { cause, node }), Stands::Fault { cause: c, node: n, .. }) => (cause, node) == (*c, *n),
        _ => false,
    }
}

/// How many happenings from the first on take `taken` bytes in all and send exactly `sent`.
enum Found {
    Exactly(usize),
    /// The happenings known so far fall short of what was seen.
    TooFew,
    Never(String),
}

fn find(happenings: &[Happening], taken: usize, sent: &[u8]) -> Found {
    let (mut took, mut send) = (0, 0);
    for (number, happening) in happenings.iter().enumerate() {
        if (took, send) == (taken, sent.len()) {
            return Found::Exactly(number);
        }
        match happening {
            Happening::Took(bytes) => took += bytes.len(),
            Happening::Sent(bytes) if sent[send..].starts_with(bytes) => send += bytes.len(),
            Happening::Sent(bytes) => {
                return Found::Never(format!("happening {number} sends {bytes:?}, but sent is {sent:?} (from {send})"));
            }
        }
        if took > taken {
            return Found::Never(format!("happening {number} takes byte {took}, but only {taken} were taken"));
        }
    }
    if (took, send) == (taken, sent.len()) {
        Found::Exactly(happenings.len())
    } else {
        Found::TooFew
    }
}

/// The guarantee itself: how many happenings there have been, or what is broken.
pub fn guarantee(program: &Rc<Program>, line: &Line, log: &[Logged], seen: &Observed) -> Result<usize, String> {
    let drawn = drawn(line, log);
    let cap = drawn.farthest(program);
    let Drawn { fed, last, granted, .. } = drawn;
    demand(fed.ends_with(&seen.waiting), || format!("the bytes waiting are not the last of those fed, {fed:?}"))?;
    let taken = fed.len() - seen.waiting.len();

    let mut run = Run::new(program, &fed, line.room());
    run.follow(granted);
    let (least, within) = (run.happenings().len(), run.stands().clone());

    // Further than what was granted the meaning is followed only as far as is needed.
    let over = last.is_some_and(Outcome::over);
    let mut limit = granted;
    let length = loop {
        match find(run.happenings(), taken, &seen.sent) {
            Found::Never(why) => return Err(format!("no first part of the happenings is what was seen: {why}")),
            Found::Exactly(length) if !over || run.stands().over() => break length,
            _ if run.stands().over() || *run.stands() == Stands::Waits || limit > cap => {
                return Err(format!(
                    "taken {taken} and sent {} bytes with {last:?}: the meaning has {:?} and {:?} after {} entries",
                    seen.sent.len(),
                    run.happenings(),
                    run.stands(),
                    run.entries()
                ));
            }
            _ => {
                limit = (2 * limit).clamp(64.min(cap + 1), cap + 1);
                run.follow(limit);
            }
        }
    };

    demand(length >= least, || {
        format!("{least} happenings come within the {granted} entries granted, but only {length} were seen")
    })?;
    if within != Stands::Running {
        demand(answers(last, &within), || format!("within {granted} entries {within:?}, but answered {last:?}"))?;
    }
    if over {
        demand(answers(last, run.stands()), || format!("answered {last:?}, but the meaning: {:?}", run.stands()))?;
        demand(length == run.happenings().len(), || format!("over, but only {length} of {:?}", run.happenings()))?;
        variables(run.stands(), &seen.variables)?;
    }
    Ok(length)
}

/// Main's variables at an end or a fault, and 0 in every slot past the last one.
fn variables(stands: &Stands, seen: &[i16]) -> Result<(), String> {
    let (Stands::Ended { variables } | Stands::Fault { variables, .. }) = stands else {
        return Ok(());
    };
    let expected = |slot: usize| variables.get(slot).copied().unwrap_or(0);
    demand(seen.len() >= variables.len(), || "not all of main's variables were looked at".to_string())?;
    let wrong = seen.iter().enumerate().find(|(slot, value)| i32::from(**value) != expected(*slot));
    demand(wrong.is_none(), || format!("main's variables are {seen:?}, and by the meaning {variables:?}"))
}

/// Two rules beside the guarantee. There are no more happenings than steps made, for a step takes or sends but once. And
/// where the last accepted turn answered that the run waits and nothing was fed since, the meaning comes to wait too,
/// with nothing more to happen before.
pub fn beside(program: &Rc<Program>, line: &Line, log: &[Logged], happened: usize) -> Result<(), String> {
    let drawn = drawn(line, log);
    let farthest = drawn.farthest(program);
    let Drawn { fed, last, granted, made } = drawn;
    demand(happened as u64 <= made, || format!("{happened} happenings in {made} steps"))?;
    if last != Some(Outcome::Waits) || granted == 0 {
        return Ok(());
    }
    let mut run = Run::new(program, &fed, line.room());
    run.follow(farthest);
    demand(*run.stands() == Stands::Waits && run.happenings().len() == happened, || {
        format!("waits after {happened} happenings, but the meaning: {:?} then {:?}", run.happenings(), run.stands())
    })
}
