//! An example host in Rust: host TABLE FEED EXPECT
//!
//! Loads a table, runs it in turns, feeds it a few bytes between turns, and prints what it sends. The status is 0
//! exactly if all bytes sent are those of EXPECT and the program is at no fault. The rules of the calls are those of
//! include/dana.h.
use std::io::Write;
use std::process::ExitCode;

use dana::{Controller, Line, Standing};

/// The library's calls, wrapped in safe functions: references and slices keep every rule that dana.h has of pointers,
/// lengths and overlap, and the fields are private, so that only the calls change them.
mod dana {
    pub const CODE_MAX: usize = 8224;

    #[repr(C)]
    struct Outcome {
        number: u16,
        place: usize,
        words: usize,
    }

    #[repr(C)]
    struct Answer {
        kind: u8,
        number: u8,
        place: usize,
        steps: u32,
    }

    #[repr(C)]
    struct Activation {
        cells: [i16; 64],
        variables: usize,
        count: usize,
        gives: bool,
        back: usize,
    }

    #[repr(C)]
    pub struct Controller {
        activations: [Activation; 32],
        depth: usize,
        at: usize,
        latch: u8,
        cause: u8,
        node: u16,
    }

    #[repr(C)]
    pub struct Line {
        inbox: [u8; 256],
        first: usize,
        count: usize,
        outbox: [u8; 1024],
        written: usize,
    }

    const _: () = assert!(size_of::<Outcome>() == 24 && size_of::<Answer>() == 24);
    const _: () = assert!(size_of::<Controller>() == 5144 && size_of::<Line>() == 1304);

    unsafe extern "C" {
        fn dana_load(table: *const u8, length: usize, code: *mut u64, capacity: usize) -> Outcome;
        safe fn dana_line() -> Line;
        safe fn dana_arm() -> Controller;
        fn dana_turn(
            controller: &mut Controller,
            code: *const u64,
            length: usize,
            budget: u32,
            line: &mut Line,
        ) -> Answer;
        safe fn dana_feed(line: &mut Line, byte: u8) -> Outcome;
        safe fn dana_variable(controller: &Controller, slot: usize) -> i16;
    }

    pub struct Refusal {
        number: u16,
        place: usize,
    }

    impl std::fmt::Display for Refusal {
        fn fmt(&self, f: &mut std::fmt::Formatter) -> std::fmt::Result {
            write!(f, "{} at {}", self.number, self.place)
        }
    }

    fn done(outcome: Outcome) -> Result<usize, Refusal> {
        match outcome.number {
            0 => Ok(outcome.words),
            number => Err(Refusal { number, place: outcome.place }),
        }
    }

    /// How a program stands after a turn.
    #[derive(Debug, PartialEq)]
    pub enum Standing {
        Runs,
        Waits,
        Ended,
        Fault { cause: u8, node: usize },
    }

    /// Checks a table and writes its code: the words of it.
    pub fn load(table: &[u8], code: &mut [u64]) -> Result<usize, Refusal> {
        done(unsafe { dana_load(table.as_ptr(), table.len(), code.as_mut_ptr(), code.len()) })
    }

    impl Line {
        pub fn new() -> Line {
            dana_line()
        }

        pub fn feed(&mut self, byte: u8) -> Result<(), Refusal> {
            done(dana_feed(self, byte)).map(|_| ())
        }

        pub fn sent(&self) -> &[u8] {
            &self.outbox[..self.written]
        }
    }

    impl Controller {
        pub fn armed() -> Controller {
            dana_arm()
        }

        /// One turn: how the program stands then, and the steps made.
        pub fn turn(&mut self, code: &[u64], budget: u32, line: &mut Line) -> Result<(Standing, u32), Refusal> {
            let answer = unsafe { dana_turn(self, code.as_ptr(), code.len(), budget, line) };
            let standing = match answer.kind {
                0 => Standing::Runs,
                1 => Standing::Waits,
                2 => Standing::Ended,
                3 => Standing::Fault { cause: answer.number, node: answer.place },
                _ => return Err(Refusal { number: u16::from(answer.number), place: answer.place }),
            };
            Ok((standing, answer.steps))
        }

        pub fn variable(&self, slot: usize) -> i16 {
            dana_variable(self, slot)
        }
    }
}

const PIECE: usize = 10;
const BUDGET: u32 = 100;

/// Feeds the next bytes, at most PIECE, as long as the line has hold for them: the bytes that are left.
fn feed_piece<'a>(line: &mut Line, mut feed: &'a [u8]) -> &'a [u8] {
    for _ in 0..PIECE {
        match feed {
            [byte, rest @ ..] if line.feed(*byte).is_ok() => feed = rest,
            _ => break,
        }
    }
    feed
}

/// Runs a table over a feed: all that it sent, and how it stands then.
fn run(table: &[u8], mut feed: &[u8]) -> Result<(Vec<u8>, Standing), String> {
    let mut code = vec![0; dana::CODE_MAX];
    let words = dana::load(table, &mut code).map_err(|refusal| format!("table refused: {refusal}"))?;
    println!("loaded: {words} words");
    let mut controller = Controller::armed();
    let mut line = Line::new();
    let mut steps = 0;
    loop {
        let left = feed_piece(&mut line, feed);
        let fed = left.len() < feed.len();
        feed = left;
        let told = line.sent().len();
        let (standing, made) = controller
            .turn(&code[..words], BUDGET, &mut line)
            .map_err(|refusal| format!("turn refused: {refusal}"))?;
        steps += u64::from(made);
        std::io::stdout().write_all(&line.sent()[told..]).map_err(|error| error.to_string())?;
        if standing == Standing::Runs || (standing == Standing::Waits && fed) {
            continue;
        }
        println!("after {steps} steps, {} bytes not fed: {standing:?}", feed.len());
        let variables: Vec<i16> = (0..4).map(|slot| controller.variable(slot)).collect();
        println!("main's first variables: {variables:?}");
        return Ok((line.sent().to_vec(), standing));
    }
}

fn host() -> Result<bool, String> {
    let paths: Vec<String> = std::env::args().skip(1).collect();
    let [table, feed, expect] = &paths[..] else {
        return Err("usage: host TABLE FEED EXPECT".into());
    };
    let read = |path: &String| std::fs::read(path).map_err(|error| format!("{path}: {error}"));
    let (sent, standing) = run(&read(table)?, &read(feed)?)?;
    let as_expected = sent == read(expect)?;
    println!("{} bytes sent, {}", sent.len(), if as_expected { "as expected" } else { "NOT as expected" });
    Ok(as_expected && matches!(standing, Standing::Waits | Standing::Ended))
}

fn main() -> ExitCode {
    match host() {
        Ok(true) => ExitCode::SUCCESS,
        Ok(false) => ExitCode::FAILURE,
        Err(message) => {
            eprintln!("{message}");
            ExitCode::FAILURE
        }
    }
}
