//! What the generator reaches: node kinds, ends and faults of runs, and refusals of the check.

use crate::damage::damaged;
use crate::generate::{program, KEPT};
use crate::inputs::{bytes, fitting, line};
use crate::meaning::{Happening, Run, Stands};
use crate::rng::Rng;
use crate::table::{check, MOST_CELLS, MOST_LEVELS, MOST_LOOPS};
use crate::tree::{op, Program};
use std::collections::BTreeMap;
use std::fmt;
use std::rc::Rc;

/// How many node entries each run is followed.
const FOLLOWED: u64 = 100_000;

#[derive(Default)]
pub struct Statistics {
    pub programs: usize,
    /// Well-formed programs that the check refused. There should be none.
    pub not_passed: Vec<u64>,
    /// Node counts, each with how many programs have at most so many.
    pub sizes: BTreeMap<usize, usize>,
    /// Programs that stand exactly at a limit: of levels, of open loops, of cells.
    pub at_limit: [usize; 3],
    /// Nodes of each kind in the programs, and entries of each kind in the runs.
    pub nodes: BTreeMap<u8, u64>,
    pub entered: BTreeMap<u8, u64>,
    pub ended: usize,
    pub waits: usize,
    pub runs: usize,
    pub faults: BTreeMap<u16, usize>,
    /// Entries until a run came to rest, each with how many runs needed at most so many.
    pub entries: BTreeMap<u64, usize>,
    pub takes: u64,
    pub sends: u64,
    pub damaged: usize,
    pub damaged_passed: usize,
    pub refusals: BTreeMap<u16, usize>,
}

/// For each seed a well-formed program with a run, and a damaged table.
pub fn statistics(first_seed: u64, count: u64) -> Statistics {
    let mut all = Statistics::default();
    for seed in first_seed..first_seed + count {
        let mut rng = Rng::new(seed);
        all.one_program(seed, &mut rng);
        all.damaged += 1;
        match check(&damaged(&mut rng)) {
            Ok(_) => all.damaged_passed += 1,
            Err(refusal) => *all.refusals.entry(refusal.number).or_default() += 1,
        }
    }
    all
}

/// The deepest level of a subtree, and how many loops are open at most in it.
fn reach(program: &Program, at: usize, level: usize, loops: usize) -> (usize, usize) {
    let node = &program.nodes[at];
    let open = loops + usize::from(node.op == op::LOOP);
    node.children
        .iter()
        .map(|child| reach(program, *child, level + 1, open))
        .fold((level, open), |a, b| (a.0.max(b.0), a.1.max(b.1)))
}

impl Statistics {
    fn one_program(&mut self, seed: u64, rng: &mut Rng) {
        self.programs += 1;
        let Ok(program) = check(&program(rng, KEPT).table()) else {
            return self.not_passed.push(seed);
        };
        let size = [2, 5, 10, 20, 50, 100, 200, 500, 1000, 8191, 8192].into_iter().find(|s| program.nodes.len() <= *s);
        *self.sizes.entry(size.unwrap_or(0)).or_default() += 1;
        let mut at_limit = [false; 3];
        for function in &program.functions {
            let (level, loops) = reach(&program, function.body, 1, 0);
            at_limit[0] |= level == MOST_LEVELS;
            at_limit[1] |= loops == MOST_LOOPS;
            at_limit[2] |= function.kinds.len() + function.height == MOST_CELLS;
        }
        (0..3).for_each(|limit| self.at_limit[limit] += usize::from(at_limit[limit]));
        program.nodes.iter().for_each(|node| *self.nodes.entry(node.op).or_default() += 1);

        let pieces = rng.pick(&[0, 2, 5, 10, 30]);
        let program = Rc::new(program);
        let fed = if rng.chance(60) { fitting(rng, &program, pieces) } else { bytes(rng, pieces) };
        let room = line(rng, Vec::new()).room();
        let mut run = Run::new(&program, &fed, room);
        run.follow(FOLLOWED);
        for (op, count) in run.entered.iter().enumerate().filter(|(_, count)| **count > 0) {
            *self.entered.entry(op as u8).or_default() += count;
        }
        let takes = run.happenings().iter().filter(|h| matches!(h, Happening::Took(_))).count();
        self.takes += takes as u64;
        self.sends += (run.happenings().len() - takes) as u64;
        match run.stands() {
            Stands::Running => return self.runs += 1,
            Stands::Waits => self.waits += 1,
            Stands::Ended { .. } => self.ended += 1,
            Stands::Fault { cause, .. } => *self.faults.entry(*cause).or_default() += 1,
        }
        let within = [10, 100, 1000, 5000].into_iter().find(|n| run.entries() <= *n).unwrap_or(FOLLOWED);
        *self.entries.entry(within).or_default() += 1;
    }

    /// What should be reached and was not.
    pub fn missing(&self) -> Vec<String> {
        let mut missing = Vec::new();
        for (number, name) in op::ALL {
            if !self.entered.contains_key(&number) {
                missing.push(format!("no entry of a node of kind {number}, {name}"));
            }
        }
        for cause in 61..=65 {
            if !self.faults.contains_key(&cause) {
                missing.push(format!("no fault {cause}"));
            }
        }
        for (limit, count) in ["levels", "open loops", "cells"].iter().zip(self.at_limit) {
            if count == 0 {
                missing.push(format!("no program at the limit of {limit}"));
            }
        }
        for number in (1..=4).chain(10..=19) {
            if !self.refusals.contains_key(&number) {
                missing.push(format!("no refusal {number}"));
            }
        }
        missing.extend(self.not_passed.iter().map(|seed| format!("the program of seed {seed} does not pass")));
        missing
    }
}

impl fmt::Display for Statistics {
    fn fmt(&self, out: &mut fmt::Formatter<'_>) -> fmt::Result {
        let share = |part: usize, whole: usize| 100.0 * part as f64 / whole.max(1) as f64;
        writeln!(out, "programs {}, not passed {}", self.programs, self.not_passed.len())?;
        writeln!(out, "nodes, at most -> programs: {:?}", self.sizes)?;
        let [levels, loops, cells] = self.at_limit;
        writeln!(out, "programs at a limit: {levels} of levels, {loops} of open loops, {cells} of cells")?;
        writeln!(out, "runs, each followed for {FOLLOWED} entries:")?;
        for (name, part) in [("ended", self.ended), ("waits", self.waits), ("running", self.runs)] {
            writeln!(out, "  {name:8} {part:7} {:5.1} %", share(part, self.programs))?;
        }
        for (cause, part) in &self.faults {
            writeln!(out, "  fault {cause} {part:7} {:5.1} %", share(*part, self.programs))?;
        }
        writeln!(out, "entries to rest, at most -> runs: {:?}", self.entries)?;
        writeln!(out, "takes {}, sends {}", self.takes, self.sends)?;
        writeln!(out, "kind, nodes, entries:")?;
        for (number, name) in op::ALL {
            let of = |counts: &BTreeMap<u8, u64>| counts.get(&number).copied().unwrap_or(0);
            writeln!(out, "  {number:2} {name:20} {:9} {:11}", of(&self.nodes), of(&self.entered))?;
        }
        writeln!(out, "damaged tables {}, passed {}", self.damaged, self.damaged_passed)?;
        for (number, part) in &self.refusals {
            writeln!(out, "  refusal {number:2} {part:7} {:5.1} %", share(*part, self.damaged))?;
        }
        Ok(())
    }
}
