//! The comparer: drives a chain through cases and tells the first difference from the reference.

use crate::chain::{Chain, CheckAnswer, TurnAnswer};
use crate::expect::{beside, call_rules, drawn, guarantee, Logged, Observed};
use crate::inputs::{case, Call, Case, Plan};
use crate::machine::{check_answer, load_answer, Reference};
use crate::show;
use crate::table::check;
use crate::tree::Program;
use std::fmt;
use std::ops::Range;
use std::rc::Rc;

/// How closely a chain is held to the reference.
#[derive(Clone, Copy, PartialEq, Eq, Debug)]
pub enum Closeness {
    /// To the guarantee of a run: the meaning, with its freedom in how far a turn comes.
    Guarantee,
    /// Besides, step by step to the reference machine.
    Steps,
}

/// The first difference that was found.
#[derive(Clone, Debug)]
pub struct Difference {
    pub seed: u64,
    pub what: String,
    pub dump: String,
}

impl fmt::Display for Difference {
    fn fmt(&self, out: &mut fmt::Formatter<'_>) -> fmt::Result {
        writeln!(out, "difference at seed {}: {}", self.seed, self.what)?;
        write!(out, "{}", self.dump)
    }
}

/// How much was compared.
#[derive(Clone, Copy, PartialEq, Eq, Debug, Default)]
pub struct Tally {
    pub cases: usize,
    pub passed: usize,
    pub refused: usize,
    pub runs: usize,
    pub turns: usize,
    pub feeds: usize,
}

/// Drive a new chain through the case of each seed.
pub fn compare_all<C: Chain>(
    mut make: impl FnMut() -> C,
    seeds: Range<u64>,
    closeness: Closeness,
) -> Result<Tally, Box<Difference>> {
    let mut tally = Tally::default();
    for seed in seeds {
        compare_case(&mut make(), &case(seed), closeness, &mut tally)?;
    }
    Ok(tally)
}

/// Drive a chain through one case.
pub fn compare_case<C: Chain>(
    chain: &mut C,
    case: &Case,
    closeness: Closeness,
    tally: &mut Tally,
) -> Result<(), Box<Difference>> {
    tally.cases += 1;
    whole_case(chain, case, closeness, tally)
        .map_err(|what| Box::new(Difference { seed: case.seed, what, dump: show::case(case) }))
}

fn same<T: PartialEq + fmt::Debug>(what: &str, chain: T, reference: T) -> Result<(), String> {
    if chain == reference {
        return Ok(());
    }
    Err(format!("{what}:\n  chain     {chain:?}\n  reference {reference:?}"))
}

fn load<C: Chain>(chain: &mut C, table: &[u8], code_words: usize) -> Result<bool, String> {
    let held = chain.code();
    let answer = chain.load(table, code_words);
    let expected = load_answer(table, code_words);
    same("load", answer, expected.as_ref().map(Vec::len).map_err(|told| *told))?;
    match expected {
        Ok(code) => same("code", show::code(&chain.code()), show::code(&code)).map(|()| true),
        Err(_) => same("code after a refused load", chain.code(), held).map(|()| false),
    }
}

fn whole_case<C: Chain>(chain: &mut C, case: &Case, closeness: Closeness, tally: &mut Tally) -> Result<(), String> {
    if let Some(before) = &case.before {
        load(chain, before, 8224)?;
    }
    let held = chain.code();
    let expected = check_answer(&case.table);
    same("check", chain.check(&case.table), expected)?;
    same("code after a check", chain.code(), held)?;
    let passes = matches!(expected, CheckAnswer::Passed { .. });
    tally.passed += usize::from(passes);
    tally.refused += usize::from(!passes);
    if !load(chain, &case.table, case.code_words)? && passes {
        load(chain, &case.table, 8224)?;
    }
    let runs = if passes { Some(&case.table) } else { case.before.as_ref() };
    if let Some(table) = runs {
        let program = check(table).expect("the reference passed it");
        for (number, plan) in case.plans.iter().enumerate() {
            run(chain, &Rc::new(program.clone()), table, plan, closeness, tally)
                .map_err(|what| format!("run {number}: {what}"))?;
        }
    }
    Ok(())
}

/// How many slots are looked at, more than main can have.
const SLOTS: usize = 36;

fn observe<C: Chain>(chain: &C) -> Observed {
    Observed {
        waiting: chain.waiting(),
        sent: chain.sent(),
        variables: (0..SLOTS).map(|slot| chain.variable(slot)).collect(),
    }
}

/// Beyond this many entries granted the guarantee is checked only at the end of the run.
const OFTEN: u64 = 20_000;

fn run<C: Chain>(
    chain: &mut C,
    program: &Rc<Program>,
    table: &[u8],
    plan: &Plan,
    closeness: Closeness,
    tally: &mut Tally,
) -> Result<(), String> {
    let line = &plan.line;
    chain.arm(line);
    let mut reference = Reference::default();
    reference.load(table, 8224).expect("the reference passed it");
    reference.arm(line);
    tally.runs += 1;

    let armed = Observed { waiting: line.waiting().to_vec(), sent: Vec::new(), variables: vec![0; SLOTS] };
    let mut seen = observe(chain);
    same("at arming", &seen, &armed)?;
    let mut log: Vec<Logged> = Vec::new();
    for (number, call) in plan.calls.iter().enumerate() {
        let before = seen;
        let logged = make(chain, *call, before.waiting.len());
        log.push(logged);
        tally.turns += usize::from(matches!(call, Call::Turn(_)));
        tally.feeds += usize::from(matches!(call, Call::Feed(_)));
        seen = observe(chain);
        let judged = judge(program, plan, &log, &before, &seen, number + 1 == plan.calls.len());
        let stepped = match closeness {
            Closeness::Guarantee => Ok(()),
            Closeness::Steps => as_the_reference(&mut reference, *call, &logged, &seen),
        };
        judged.and(stepped).map_err(|what| format!("call {number}: {what}\n{}", shown(&log, &seen)))?;
    }
    Ok(())
}

fn make<C: Chain>(chain: &mut C, call: Call, waiting_before: usize) -> Logged {
    match call {
        Call::Turn(budget) => Logged::Turn { budget, answer: chain.turn(budget) },
        Call::Feed(byte) => Logged::Feed { byte, answer: chain.feed(byte), waiting_before },
    }
}

/// Whether the log and what is seen keep the guarantee and the rules of the calls.
fn judge(
    program: &Rc<Program>,
    plan: &Plan,
    log: &[Logged],
    before: &Observed,
    seen: &Observed,
    last: bool,
) -> Result<(), String> {
    call_rules(&plan.line, log)?;
    match log.last() {
        Some(Logged::Turn { answer: TurnAnswer::Refused { .. }, .. } | Logged::Feed { answer: Err(_), .. }) => {
            same("a refused call changed something", seen, before)?;
        }
        Some(Logged::Feed { byte, answer: Ok(()), .. }) => {
            let mut fed = before.clone();
            fed.waiting.push(*byte);
            same("a feed", seen, &fed)?;
        }
        _ => {}
    }
    if last || drawn(&plan.line, log).granted <= OFTEN {
        let happened = guarantee(program, &plan.line, log, seen)?;
        beside(program, &plan.line, log, happened)?;
    }
    Ok(())
}

/// The same call on the reference machine. Whether the step that comes to an end or a fault is counted is left open.
fn as_the_reference(reference: &mut Reference, call: Call, logged: &Logged, seen: &Observed) -> Result<(), String> {
    let expected = make(reference, call, 0);
    match (logged, expected) {
        (Logged::Turn { answer, .. }, Logged::Turn { answer: expected, .. }) => {
            let last_uncounted = match expected {
                TurnAnswer::Answered { outcome, steps } if outcome.over() && steps > 0 => {
                    TurnAnswer::Answered { outcome, steps: steps - 1 }
                }
                other => other,
            };
            if *answer != last_uncounted {
                same("beside the reference machine, turn", *answer, expected)?;
            }
        }
        (Logged::Feed { answer, .. }, Logged::Feed { answer: expected, .. }) => {
            same("beside the reference machine, feed", *answer, expected)?;
        }
        _ => unreachable!("the same call was made"),
    }
    same("beside the reference machine, seen", seen, &observe(reference))
}

fn shown(log: &[Logged], seen: &Observed) -> String {
    let calls: Vec<String> = log.iter().map(|logged| format!("  {logged:?}")).collect();
    let (waiting, sent) = (show::bytes(&seen.waiting), show::bytes(&seen.sent));
    format!("{}\n  waiting {waiting}\n  sent {sent}\n  variables {:?}", calls.join("\n"), seen.variables)
}
