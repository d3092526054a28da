//! The Markdown document that a run writes.

mod beside;
mod combining;
mod deviations;
mod early;
mod editions;
mod older;
mod swept;

use crate::checks::swept::Swept;
use crate::checks::Row;
use crate::decoding::{self, LIMIT, SCALE};
use crate::encoding;
use crate::engines::{Engine, Results};
use crate::targets::Target;

/// The measurements of a run.
pub struct Report<'a> {
    /// The checks with costs from the channel.
    pub channel: &'a [Row],
    /// The checks with uniform costs.
    pub uniform: &'a [Row],
    /// The proved library's sweep.
    pub swept: &'a [Swept],
    /// How many times as long d = 32 takes as d = 16 at p = 6, with costs from the channel and uniform.
    pub growth: [f64; 2],
    /// The codes.
    pub codes: &'a [decoding::Row<'a>],
    /// The codes of the register window.
    pub windows: &'a [decoding::Row<'a>],
    /// The codes of eight channels.
    pub channels: &'a [decoding::Row<'a>],
    /// The codes of stopping inside an iteration.
    pub early: &'a [crate::early::Row<'a>],
    /// The codes of combining, which are those of decoding.
    pub combining: &'a [crate::combining::Row<'a>],
    /// The encoding.
    pub encoding: &'a encoding::Row,
    /// The targets.
    pub targets: &'a [Target],
    /// The rounds.
    pub rounds: usize,
}

impl Report<'_> {
    /// The document.
    pub fn markdown(&self) -> String {
        let parts = [
            self.head(),
            targets(self.targets),
            self.checks(),
            deviations::section(self.channel, self.uniform),
            editions::section(self.channel, self.uniform),
            swept::section(self.swept),
            self.expansions(),
            self.decodings(),
            beside::window(self.windows),
            beside::channels(self.channels),
            early::section(self.early),
            combining::section(self.combining, self.codes),
            self.encodings(),
            older::section(self),
        ];
        parts.concat().trim_end().to_string() + "\n"
    }

    /// What was measured and how.
    fn head(&self) -> String {
        format!(
            "# Benchmark\n\nWritten by `make bench`; every run rewrites it.\n\n\
             The proved library, called through the static library, beside others that write the same \
             bytes:\n\n\
             | name | what it is |\n|---|---|\n\
             | Rust | the same algorithm in Rust without unsafe code, built with -O |\n\
             | search | for a check: a search over kept entries in Rust, whose time hardly grows with d |\n\
             | C, SSE2 and AVX2 | for a check: the same algorithm by hand with intrinsics, gcc -O3 |\n\
             | sweeps | the textbook forward and backward sweeps in Rust; the proved library's own sweep, \
             `petsivola_sweep`, has a section further down |\n\n\
             The library is compiled for x86-64-v2, which has SSE4.2; the others, all but AVX2, use what \
             every x86-64 processor has. They run in turn, in one process and in short stretches; a time \
             is the median over all stretches of {} rounds, and a ratio the median of the ratios within \
             each stretch. Each round has checks of its own, and none is taken twice in a race: a \
             processor that sees the same checks again learns to foretell their jumps. No lent buffer is \
             cleared first: before each stretch, and outside its time, all are filled with A5, and after \
             each round the results are compared byte for byte. A \
             difference stops the run.\n\n",
            self.rounds
        )
    }

    /// The times of checks.
    fn checks(&self) -> String {
        let [channel, uniform] = self.growth;
        format!(
            "## Time per check\n\nWith k = 2 and the sum. Costs are quantised symbols of a noisy channel, as a decoder's first \
             iteration brings them. Times in microseconds, then ratios.\n\n{}{}\
             ![Time per check](time-per-check.svg)\n\n![Ratio to Rust](ratio-to-rust.svg)\n\n\
             ![Ratio to C](ratio-to-c.svg)\n\n\
             The same with uniform costs from 0 to 255.\n\n{}{}\
             At p = 6 the proved library takes {channel:.2} times as long for a check of degree 32 as for \
             one of degree 16, with uniform costs {uniform:.2} times; the two run in turn as well.\n\n",
            check_times(self.channel),
            check_ratios(self.channel),
            check_times(self.uniform),
            check_ratios(self.uniform),
        )
    }

    /// The times of expansions, and the sizes.
    fn expansions(&self) -> String {
        let head = ["p", "d", "proved, µs", "Rust, µs", "proved / Rust"];
        let sizes = ["record, bytes", "plain, bytes", "record / plain"];
        let rows = self.channel.iter().map(|row| {
            let (record, plain) = (row.record_length(2), row.plain_length());
            vec![
                row.p.to_string(),
                row.degree.to_string(),
                micros(row.expand.median(Engine::Proved)),
                micros(row.expand.median(Engine::Rust)),
                quotient(&row.expand, Engine::Proved, Engine::Rust),
                record.to_string(),
                plain.to_string(),
                format!("{:.2}", record as f64 / plain as f64),
            ]
        });
        format!(
            "## Expansion, and record sizes\n\nWith k = 2 a record has d + 5(q - 1) bytes; plain messages \
             have d·q. The expansion tests the form of the record first.\n\n{}",
            table(&[&head[..], &sizes].concat(), rows)
        )
    }

    /// The times of decoding.
    fn decodings(&self) -> String {
        let head = [
            "code",
            "Eb/N0, dB",
            "mean iterations",
            "proved, µs an iteration",
            "Rust, µs",
            "sweeps, µs",
            "proved / Rust",
            "coded bits a second",
            "store, bytes",
            "plain, bytes",
        ];
        format!(
            "## Decoding\n\nNoisy random words over BPSK and white noise, k = 2, g = {SCALE}, I = {LIMIT}. \
             The time of an iteration is the time of a whole call, with the reading of the code \
             line and the first test, divided by its iterations; coded bits per second count N·p \
             bits a frame at the mean iterations beside them. Sweeps: the layered decoder with \
             plain messages and the sweeps for each check.\n\n{}",
            table(&head, self.codes.iter().map(decoding_cells))
        )
    }

    /// The times of encoding.
    fn encodings(&self) -> String {
        let head = [
            "code",
            "proved, µs a message",
            "Rust, µs",
            "proved / Rust",
            "symbols a second",
        ];
        let row = self.encoding;
        let cells = vec![
            row.code.name.to_string(),
            micros(row.of_message(Engine::Proved)),
            micros(row.of_message(Engine::Rust)),
            quotient(&row.encode, Engine::Proved, Engine::Rust),
            format!("{:.0}", row.symbols_per_second()),
        ];
        format!(
            "## Encoding\n\nRandom messages of N - M symbols. The time is that of a whole call, with the \
             reading of the code line and all tests; symbols per second count the N that it writes.\n\n{}",
            table(&head, [cells].into_iter())
        )
    }
}

/// The targets and whether they are met.
fn targets(targets: &[Target]) -> String {
    let mut table = String::from(
        "## Targets\n\n| target | worst | where | met | missed by |\n|---|---:|---|---|---|\n",
    );
    for target in targets {
        let (number, place) = &target.worst;
        let met = if target.missed == 0 { "yes" } else { "**no**" };
        table += &format!(
            "| {} | {number:.2} | {place} | {met} | {} of {} |\n",
            target.text, target.missed, target.measured
        );
    }
    table + "\n"
}

/// The engines of the checks that every run has, without an older library.
fn shown(rows: &[Row]) -> Vec<Engine> {
    let engines = rows[0].check.engines();
    engines.filter(|&engine| engine != Engine::Old).collect()
}

/// The times of checks.
fn check_times(rows: &[Row]) -> String {
    let engines = shown(rows);
    let names = engines.iter().map(|engine| engine.name());
    let head: Vec<_> = ["p", "d"].into_iter().chain(names).collect();
    let cells = rows.iter().map(|row| {
        let times = engines.iter().map(|&engine| row.check.median(engine));
        let size = [row.p.to_string(), row.degree.to_string()];
        size.into_iter().chain(times.map(micros)).collect()
    });
    table(&head, cells)
}

/// The proved library's time for a check by each of the others, and the sweeps' by the proved library's.
fn check_ratios(rows: &[Row]) -> String {
    let pair = |engine| match engine {
        Engine::Sweeps => (engine, Engine::Proved),
        _ => (Engine::Proved, engine),
    };
    let others = shown(rows).into_iter();
    let others = others.filter(|&engine| engine != Engine::Proved);
    let pairs: Vec<_> = others.map(pair).collect();
    let names = pairs
        .iter()
        .map(|(one, other)| format!("{} / {}", one.name(), other.name()));
    let head: Vec<_> = ["p", "d"]
        .map(String::from)
        .into_iter()
        .chain(names)
        .collect();
    let cells = rows.iter().map(|row| {
        let ratios = pairs
            .iter()
            .map(|&(one, other)| quotient(&row.check, one, other));
        let size = [row.p.to_string(), row.degree.to_string()];
        size.into_iter().chain(ratios).collect()
    });
    table(&head, cells)
}

/// The cells of one code.
fn decoding_cells(row: &decoding::Row) -> Vec<String> {
    let code = &row.job.code;
    vec![
        row.job.name.to_string(),
        format!("{:.1}", row.job.decibels),
        format!("{:.1}", row.mean_iterations),
        micros(row.decode.median(Engine::Proved)),
        micros(row.decode.median(Engine::Rust)),
        micros(row.decode.median(Engine::Sweeps)),
        quotient(&row.decode, Engine::Proved, Engine::Rust),
        format!("{:.0}", row.bits_per_second()),
        code.store_length(2).to_string(),
        (code.edges() * code.field.size()).to_string(),
    ]
}

/// A table; all but a column of codes is aligned to the right.
fn table<S: AsRef<str>>(head: &[S], rows: impl Iterator<Item = Vec<String>>) -> String {
    let head: Vec<&str> = head.iter().map(AsRef::as_ref).collect();
    let align = |name: &&str| if *name == "code" { "---" } else { "---:" };
    let rule: Vec<&str> = head.iter().map(align).collect();
    let mut text = format!("| {} |\n|{}|\n", head.join(" | "), rule.join("|"));
    for cells in rows {
        text += &format!("| {} |\n", cells.join(" | "));
    }
    text + "\n"
}

/// A ratio with two digits after the point.
fn quotient(results: &Results, one: Engine, other: Engine) -> String {
    format!("{:.2}", results.ratio(one, other))
}

/// Seconds as microseconds, with three digits.
fn micros(seconds: f64) -> String {
    let micros = seconds * 1e6;
    if micros < 10.0 {
        format!("{micros:.2}")
    } else if micros < 100.0 {
        format!("{micros:.1}")
    } else {
        format!("{micros:.0}")
    }
}
