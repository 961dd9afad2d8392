//! What a program is given: bytes fed, lines and call lists; and whole cases of the comparison.

use crate::chain::{Line, RING_HOLD, RING_ROOM};
use crate::damage::damaged;
use crate::generate::{program, KEPT};
use crate::meaning::{meaning, Run, Stands};
use crate::rng::Rng;
use crate::table::check;
use crate::tree::Program;
use std::rc::Rc;

/// A call of a run.
#[derive(Clone, Copy, PartialEq, Eq, Debug)]
pub enum Call {
    Turn(u32),
    Feed(u8),
}

/// A run: the line that the program is armed with, and the calls then made.
#[derive(Clone, Debug)]
pub struct Plan {
    pub line: Line,
    pub calls: Vec<Call>,
}

/// One case of the comparison.
#[derive(Clone, Debug)]
pub struct Case {
    pub seed: u64,
    /// A table that passes and is loaded first.
    pub before: Option<Vec<u8>>,
    pub table: Vec<u8>,
    /// How many words of memory the load is given.
    pub code_words: usize,
    /// The runs, of the table's program if it passes and else of the program loaded first.
    pub plans: Vec<Plan>,
}

/// Bytes to be read: good lines, bad lines, lines without end, and random bytes.
pub fn bytes(rng: &mut Rng, pieces: usize) -> Vec<u8> {
    let mut bytes = Vec::new();
    let mild = rng.chance(60);
    for _ in 0..pieces {
        match rng.below(if mild { 12 } else { 20 }) {
            0..=4 => bytes.extend(format!("{}\n", rng.below(12)).bytes()),
            5 | 6 => bytes.extend(format!("{}\n", rng.below(256)).bytes()),
            7 => bytes.extend(format!("{}\n", rng.below(32768)).bytes()),
            8 => bytes.extend(format!("{:05}\n", rng.below(256)).bytes()),
            9 | 10 => bytes.extend(rng.pick(&[&b"255\n"[..], b"32767\n", b"0000000\n", b"0\n", b"0032767\n"])),
            11 => bytes.push(rng.pick(b"0123456789")),
            12 => bytes.extend(rng.pick(&[&b"256\n"[..], b"32768\n", b"99999\n", b"65536\n", b"9999999\n"])),
            13 => bytes.extend(rng.pick(&[&b"\n"[..], b"-1\n", b"+1\n", b" 1\n", b"1 \n", b"1\r\n", b"a\n", b"/:\n"])),
            14 => bytes.extend(rng.pick(&[&b"1234567"[..], b"12345678", b"00000001\n", b"xyz", b"123456789012\n"])),
            15 => bytes.push(b'\n'),
            _ => bytes.extend((0..rng.between(1, 9)).map(|_| rng.byte())),
        }
    }
    bytes
}

/// Bytes that mostly fit the reads to which a program comes, one text after the other.
pub fn fitting(rng: &mut Rng, program: &Rc<Program>, pieces: usize) -> Vec<u8> {
    let mut all = Vec::new();
    let mut run = Run::new(program, b"", RING_ROOM);
    for _ in 0..pieces {
        run.follow(run.entries() + 2000);
        let Some(format) = run.awaits() else {
            break;
        };
        let highest = rng.pick(&[1, 4, 12, [32767, 255, 255][usize::from(format)]]);
        let text = match format {
            _ if rng.chance(3) => bytes(rng, 1),
            2 => vec![if rng.chance(50) { rng.byte() } else { rng.below(4) as u8 }],
            _ => format!("{}\n", rng.below(highest + 1)).into_bytes(),
        };
        text.iter().for_each(|byte| run.feed(*byte));
        all.extend(text);
    }
    all
}

/// A call list that feeds these bytes among turns. Few of its budgets are large.
pub fn calls(rng: &mut Rng, bytes: &[u8], most_large: usize) -> Vec<Call> {
    let mut calls = Vec::new();
    let (mut large, mut next) = (0, 0);
    let turns = rng.pick(&[0, 1, 2, 4, 8, 20]);
    let feed_share = rng.pick(&[20, 50, 80]);
    while next < bytes.len() || calls.iter().filter(|c| matches!(c, Call::Turn(_))).count() < turns {
        if next < bytes.len() && rng.chance(feed_share) {
            calls.push(Call::Feed(bytes[next]));
            next += 1;
            continue;
        }
        let budget = match rng.below(24) {
            0 => 0,
            1..=4 => 1,
            5..=7 => 2,
            8 | 9 => 3,
            10..=12 => 10,
            13 | 14 => rng.between(1, 60) as u32,
            15..=18 => 1000,
            19 => rng.pick(&[1_000_001, 1_000_002, u32::MAX, 0x8000_0000, 1 << 20]),
            20 if large < most_large => 1_000_000,
            21 if large < most_large => rng.pick(&[999_999, 65_536, 65_535, 131_072]),
            _ => rng.between(20, 400) as u32,
        };
        large += usize::from((50_000..=1_000_000).contains(&budget));
        calls.push(Call::Turn(budget));
    }
    if rng.chance(60) {
        calls.push(Call::Turn(1000));
    }
    calls
}

/// A line with these bytes waiting. Some tapes have no hold beyond them.
pub fn line(rng: &mut Rng, waiting: Vec<u8>) -> Line {
    if rng.chance(20) && waiting.len() <= RING_HOLD {
        return Line::Ring { waiting };
    }
    let hold_total = waiting.len() + rng.pick(&[0, 1, 3, 10, 40, 300]);
    let room = if rng.chance(70) { rng.between(20, 500) } else { rng.pick(&[0, 1, 2, 3, 5, 8]) };
    Line::Tape { waiting, hold_total, room }
}

fn plan(rng: &mut Rng, program: Option<&Rc<Program>>) -> Plan {
    let pieces = rng.pick(&[0, 1, 2, 5, 10, 30]);
    let mut first = match program {
        Some(program) if rng.chance(60) => fitting(rng, program, pieces),
        _ => bytes(rng, pieces),
    };
    let cut = if rng.chance(30) { 0 } else { rng.below(first.len() + 1) };
    let more = first.split_off(cut);
    let line = line(rng, first);
    // A run that does not come to rest soon has at most one long turn.
    let endless = program.is_some_and(|program| {
        let all = [line.waiting(), &more].concat();
        *meaning(program, &all, line.room(), 20_000).stands() == Stands::Running
    });
    let most_large = if !endless { 9 } else { usize::from(rng.chance(10)) };
    let mut calls = calls(rng, &more, most_large);
    if line.regains() && rng.chance(25) {
        // Until the ring is full, and on.
        let flood = (0..rng.between(250, 300)).map(|_| Call::Feed(rng.byte()));
        let flood: Vec<Call> = flood.collect();
        calls.splice(0..0, flood);
    }
    Plan { line, calls }
}

/// The case of a seed.
pub fn case(seed: u64) -> Case {
    let mut rng = Rng::new(seed);
    let rng = &mut rng;
    let damage = rng.chance(35);
    let before = (damage || rng.chance(10)).then(|| program(rng, KEPT).table());
    let table = if damage { damaged(rng) } else { program(rng, KEPT).table() };
    let checked = check(&table);
    let words = checked.as_ref().map_or(0, |program| program.words());
    let held = checked.ok().or_else(|| check(before.as_ref()?).ok()).map(Rc::new);
    let code_words = match rng.below(8) {
        0 => words.saturating_sub(1),
        1 => rng.below(words + 1),
        2 => words + rng.below(3),
        3 => words,
        _ => 8224,
    };
    let plans = (0..rng.pick(&[1, 1, 2])).map(|_| plan(rng, held.as_ref())).collect();
    Case { seed, before, table, code_words, plans }
}
