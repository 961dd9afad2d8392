//! The commands of the self test.

use differential::compare::{compare_all, Closeness};
use differential::inputs::case;
use differential::machine::Reference;
use differential::show;
use differential::stand_in::{StandIn, Wrong};
use differential::statistics::statistics;
use std::process::ExitCode;

const USAGE: &str = "\
differential statistics [count] [seed]   what the generator reaches
differential meaning [count] [seed]      compare the stand-in on the meaning with the reference
differential machine [count] [seed]      compare the reference machine with the reference meaning
differential wrong [count] [seed]        each wrong stand-in must be caught within so many cases
differential show <seed>                 the case of a seed";

fn main() -> ExitCode {
    let arguments: Vec<String> = std::env::args().skip(1).collect();
    let number = |at: usize, otherwise: u64| match arguments.get(at) {
        Some(text) => text.parse().ok(),
        None => Some(otherwise),
    };
    let (Some(count), Some(seed)) = (number(1, 10_000), number(2, 1)) else {
        return usage();
    };
    let seeds = seed..seed + count;
    match arguments.first().map(String::as_str) {
        Some("statistics") => {
            let all = statistics(seed, count);
            print!("{all}");
            tell(all.missing())
        }
        Some("meaning") => compared(compare_all(|| StandIn::new(Wrong::Nothing), seeds, Closeness::Guarantee)),
        Some("machine") => compared(compare_all(Reference::default, seeds, Closeness::Steps)),
        Some("wrong") => {
            let mut missed = Vec::new();
            for wrong in Wrong::ALL {
                match compare_all(|| StandIn::new(wrong), seeds.clone(), Closeness::Guarantee) {
                    Ok(_) => missed.push(format!("{wrong:?} was not caught")),
                    Err(difference) => {
                        let what = difference.what.lines().next().unwrap_or("");
                        println!("{wrong:?} caught at case {}: {what}", difference.seed - seed + 1);
                    }
                }
            }
            tell(missed)
        }
        Some("show") if arguments.len() == 2 => {
            print!("{}", show::case(&case(count)));
            ExitCode::SUCCESS
        }
        _ => usage(),
    }
}

fn usage() -> ExitCode {
    eprintln!("{USAGE}");
    ExitCode::FAILURE
}

fn tell(faults: Vec<String>) -> ExitCode {
    faults.iter().for_each(|fault| println!("{fault}"));
    if faults.is_empty() {
        ExitCode::SUCCESS
    } else {
        ExitCode::FAILURE
    }
}

fn compared(result: Result<differential::compare::Tally, Box<differential::compare::Difference>>) -> ExitCode {
    match result {
        Ok(tally) => {
            println!("no difference: {tally:?}");
            ExitCode::SUCCESS
        }
        Err(difference) => {
            print!("{difference}");
            ExitCode::FAILURE
        }
    }
}
