//! The longer comparison: `compare [ROUNDS [FIRST]]` makes ROUNDS rounds of calls of every entry
//! point and of runs of the program, 10 if not given, each from a seed of its own, from round FIRST
//! on, 1 if not given. A difference names its round, which can so be made again alone.

#![forbid(unsafe_code)]

use std::env;
use std::ops::Range;
use std::process::ExitCode;
use std::time::Instant;

use compare::programs::{self, Program};
use compare::{Difference, Tally, ENTRY_POINTS};

/// The random calls of each entry point in a round.
const CALLS: usize = 20_000;
/// The random inputs of small codes of the program in a round.
const INPUTS: usize = 2_000;

fn main() -> ExitCode {
    let rounds = match arguments() {
        Ok(rounds) => rounds,
        Err(words) => {
            eprintln!("{words}\nusage: compare [ROUNDS [FIRST]]");
            return ExitCode::from(2);
        }
    };
    match compare(rounds) {
        Ok(()) => {
            println!("no difference");
            ExitCode::SUCCESS
        }
        Err(words) => {
            println!("{words}");
            ExitCode::FAILURE
        }
    }
}

/// The rounds to make.
fn arguments() -> Result<Range<u64>, String> {
    let [mut rounds, mut first] = [10, 1];
    let mut arguments = env::args().skip(1);
    for number in [&mut rounds, &mut first] {
        if let Some(argument) = arguments.next() {
            let parsed = argument.parse();
            *number = parsed.map_err(|_| format!("'{argument}' is not a number"))?;
        }
    }
    if arguments.next().is_some() {
        return Err("too many arguments".into());
    }
    let end = u64::checked_add(first, rounds).ok_or("too many rounds")?;
    Ok(first..end)
}

/// Makes the rounds and prints the counts.
fn compare(rounds: Range<u64>) -> Result<(), String> {
    let start = Instant::now();
    let progress = |what: &str| eprintln!("{:>7} s  {what}", start.elapsed().as_secs());
    let program = Program::find()?;
    let mut of_program = programs::tally();
    let mut tallies = ENTRY_POINTS.map(|entry_point| (entry_point.tally(), entry_point));

    progress("before the rounds: what is compared whole");
    for (tally, entry_point) in &mut tallies {
        entry_point.compare_every(tally).map_err(words)?;
    }
    if let Some(program) = &program {
        programs::compare_chosen(program, &mut of_program).map_err(words)?;
        programs::compare_input_limit(program, &mut of_program).map_err(words)?;
    }
    let last = rounds.end.saturating_sub(1);
    for round in rounds {
        progress(&format!("round {round}, the last is {last}"));
        let in_round = |difference| format!("round {round}: {difference}");
        for (tally, entry_point) in &mut tallies {
            let compared = entry_point.compare_random(round, CALLS, tally);
            compared.map_err(in_round)?;
        }
        if let Some(program) = &program {
            let compared = programs::compare_random(program, round, INPUTS, &mut of_program);
            compared.map_err(in_round)?;
        }
    }
    progress("done");

    let tallies = tallies.iter().map(|(tally, _)| tally);
    let of_program = program.is_some().then_some(&of_program);
    let tallies: Vec<&Tally> = tallies.chain(of_program).collect();
    for tally in &tallies {
        println!("{tally}");
    }
    if program.is_none() {
        println!("the program decode: NOT COMPARED, it is not built");
    }
    tallies.iter().try_for_each(|tally| tally.complete())
}

fn words(difference: Difference) -> String {
    difference.to_string()
}
