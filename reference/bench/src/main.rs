//! `bench [--quick] [--out DIR]`: measures, prints the tables and writes them with charts to
//! `docs/bench`. With `--quick` there are few rounds, and nothing is written unless a directory is
//! given.

use std::path::{Path, PathBuf};
use std::process::ExitCode;
use std::{env, fs, io};

use bench::checks;
use bench::inputs::{self, Costs, Job};
use bench::report::Report;
use bench::targets::targets;
use bench::{channels, charts, combining, decoding, early, encoding};

/// Where the documents of this project stand.
const DOCUMENTS: &str = concat!(env!("CARGO_MANIFEST_DIR"), "/../../docs/bench");

/// What the arguments ask for.
struct Options {
    rounds: usize,
    out: Option<PathBuf>,
}

fn main() -> ExitCode {
    let Some(options) = options(env::args().skip(1)) else {
        eprintln!("usage: bench [--quick] [--out DIR]");
        return ExitCode::from(2);
    };
    match run(options.rounds, options.out.as_deref()) {
        Ok(()) => ExitCode::SUCCESS,
        Err(error) => {
            eprintln!("bench: {error}");
            ExitCode::FAILURE
        }
    }
}

/// The options, or none where an argument is not understood.
fn options(mut arguments: impl Iterator<Item = String>) -> Option<Options> {
    let mut options = Options {
        rounds: 20,
        out: Some(PathBuf::from(DOCUMENTS)),
    };
    while let Some(argument) = arguments.next() {
        match argument.as_str() {
            "--quick" => (options.rounds, options.out) = (2, None),
            "--out" => options.out = Some(PathBuf::from(arguments.next()?)),
            _ => return None,
        }
    }
    Some(options)
}

/// Measures, prints and writes.
fn run(rounds: usize, out: Option<&Path>) -> io::Result<()> {
    let kinds = [Costs::Channel, Costs::Uniform];
    let [channel, uniform] = kinds.map(|costs| checks::table(costs, rounds));
    let swept = checks::swept::table(rounds);
    eprintln!("check, growth from d = 16 to d = 32 at p = 6");
    let growth = kinds.map(|costs| checks::growth(costs, rounds));
    let jobs = inputs::jobs();
    let codes = measured("decoding", &jobs, rounds, decoding::measure);
    let window_jobs = inputs::window_jobs();
    let through_window = decoding::measure_window;
    let windows = measured("register window", &window_jobs, rounds, through_window);
    let channel_jobs = inputs::channel_jobs();
    let channels = measured("eight channels", &channel_jobs, rounds, channels::measure);
    let early_jobs = inputs::early_jobs();
    let early = measured("early stops", &early_jobs, rounds, early::measure);
    let combining = measured("combining", &jobs, rounds, combining::measure);
    eprintln!("encoding");
    let encoding = encoding::measure(inputs::encodable(), rounds);
    let all: Vec<_> = channel.iter().chain(&uniform).collect();
    let report = Report {
        channel: &channel,
        uniform: &uniform,
        swept: &swept,
        growth,
        codes: &codes,
        windows: &windows,
        channels: &channels,
        early: &early,
        combining: &combining,
        encoding: &encoding,
        targets: &targets(&all, &codes, &windows, &channels, &early),
        rounds,
    };
    let text = report.markdown();
    print!("{text}");
    match out {
        Some(directory) => write(directory, &text, &channel),
        None => Ok(()),
    }
}

/// Measures each of some codes, and says which.
fn measured<'a, R>(
    what: &str,
    jobs: &'a [Job],
    rounds: usize,
    measure: fn(&'a Job, usize) -> R,
) -> Vec<R> {
    let each = |job: &'a Job| {
        eprintln!("{what}, {}", job.name);
        measure(job, rounds)
    };
    jobs.iter().map(each).collect()
}

/// Writes the document and the charts.
fn write(directory: &Path, text: &str, channel: &[checks::Row]) -> io::Result<()> {
    fs::create_dir_all(directory)?;
    fs::write(directory.join("README.md"), text)?;
    let charts = [
        ("time-per-check.svg", charts::time_per_check(channel)),
        ("ratio-to-rust.svg", charts::ratio_to_rust(channel)),
        ("ratio-to-c.svg", charts::ratio_to_c(channel)),
        ("three-by-two.svg", charts::three_by_two(channel)),
        ("min-max-by-sum.svg", charts::min_max_by_sum(channel)),
    ];
    for (name, chart) in charts {
        fs::write(directory.join(name), chart.svg())?;
    }
    Ok(())
}
