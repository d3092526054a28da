//! `simulate [--quick] [--size S] [--seed N] [--out DIR]`: counts errors, prints the tables and writes
//! them with charts to `docs/simulation`. The size scales the frames of every trial; `--quick` takes
//! a small one, and then nothing is written unless a directory is given.

use std::path::{Path, PathBuf};
use std::process::ExitCode;
use std::{env, fs, io};

use simulate::plan::{Plan, LIMIT};
use simulate::progress::Progress;
use simulate::trial::Scene;
use simulate::{array, report};

/// Where the documents of this project stand.
const DOCUMENTS: &str = concat!(env!("CARGO_MANIFEST_DIR"), "/../../docs/simulation");

/// What the arguments ask for.
struct Options {
    size: f64,
    seed: u64,
    out: Option<PathBuf>,
}

fn main() -> ExitCode {
    let Some(options) = options(env::args().skip(1)) else {
        eprintln!("usage: simulate [--quick] [--size S] [--seed N] [--out DIR]");
        return ExitCode::from(2);
    };
    let plan = Plan::sized(options.size, options.seed);
    match run(&plan, options.out.as_deref()) {
        Ok(()) => ExitCode::SUCCESS,
        Err(error) => {
            eprintln!("simulate: {error}");
            ExitCode::FAILURE
        }
    }
}

/// The options, or none where an argument is not understood.
fn options(mut arguments: impl Iterator<Item = String>) -> Option<Options> {
    let mut options = Options {
        size: 1.0,
        seed: 1,
        out: Some(PathBuf::from(DOCUMENTS)),
    };
    while let Some(argument) = arguments.next() {
        match argument.as_str() {
            "--quick" => (options.size, options.out) = (0.02, None),
            "--size" => options.size = arguments.next()?.parse().ok()?,
            "--seed" => options.seed = arguments.next()?.parse().ok()?,
            "--out" => options.out = Some(PathBuf::from(arguments.next()?)),
            _ => return None,
        }
    }
    Some(options)
}

/// Simulates, prints and writes.
fn run(plan: &Plan, out: Option<&Path>) -> io::Result<()> {
    let mut progress = Progress::start();
    let scene = Scene::new(array::code(), LIMIT);
    let results = plan.run(&scene, &mut progress);
    let text = report::markdown(plan, &scene.encoder, &results);
    print!("{text}");
    eprintln!("{} s", progress.elapsed().as_secs());
    if let Some(directory) = out {
        fs::create_dir_all(directory)?;
        fs::write(directory.join("README.md"), text)?;
        let charts = [
            ("frame-error-rate.svg", report::chart(&results.curve)),
            (
                "long-checks.svg",
                report::chart_of_long_checks(&results.long_checks),
            ),
            ("margins.svg", report::chart_of_margins(&results.margins)),
            (
                "one-allowance.svg",
                report::chart_of_sharing(&results.sharing),
            ),
            ("two-blows.svg", report::chart_of_blows(&results.blows)),
            ("updates-saved.svg", report::chart_of_early(&results.early)),
        ];
        for (name, chart) in charts {
            fs::write(directory.join(name), chart.svg())?;
        }
    }
    Ok(())
}
