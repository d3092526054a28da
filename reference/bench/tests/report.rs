//! The document of a run: every measured size is in it, with both k and in both editions.

use bench::checks::swept::Swept;
use bench::checks::Row;
use bench::inputs::{self, Costs, Job};
use bench::report::Report;
use bench::{channels, charts, combining, decoding, early, encoding, targets};

/// A size, measured on a few checks.
fn row(p: u8, degree: usize) -> Row {
    let mut row = Row::new(p, degree);
    row.measure(Costs::Channel, [0, 1, 2, 3], 8);
    row
}

/// A report of these sizes and an encoding alone.
fn report<'a>(rows: &'a [Row], encoding: &'a encoding::Row) -> Report<'a> {
    Report {
        channel: rows,
        uniform: rows,
        swept: &[],
        growth: [1.0, 1.0],
        codes: &[],
        windows: &[],
        channels: &[],
        early: &[],
        combining: &[],
        encoding,
        targets: &[],
        rounds: 1,
    }
}

/// The document of these sizes, and of two of the proved sweep.
fn markdown(rows: &[Row]) -> String {
    let mut swept = [Swept::new(2, 3), Swept::new(3, 8)];
    swept.iter_mut().for_each(|size| size.measure([4, 5], 4));
    let encoding = encoding::measure(inputs::encodable(), 1);
    let report = Report {
        swept: &swept,
        ..report(rows, &encoding)
    };
    report.markdown()
}

#[test]
fn every_size_stands_in_it_with_both_k() {
    let rows = [row(2, 3), row(3, 4)];
    let text = markdown(&rows);
    let (_, section) = text.split_once("## Three deviations").expect("the section");
    let (section, _) = section.split_once("\n## ").expect("another section");
    for size in ["| 2 | 3 | ", "| 3 | 4 | "] {
        let of_size = section.lines().filter(|line| line.starts_with(size));
        let cells = of_size.map(|line| line.matches(" | ").count() + 1);
        // Times and ratios, with costs from the channel and uniform.
        assert_eq!(cells.collect::<Vec<_>>(), [7, 6, 7, 6]);
    }
    assert!(section.contains("| k = 3, sweeps / proved |"));
    let svg = charts::three_by_two(&rows).svg();
    assert!(svg.contains("target: at most 2.0"));
}

#[test]
fn every_size_stands_in_it_in_both_editions() {
    let rows = [row(2, 3), row(3, 4)];
    let text = markdown(&rows);
    let (_, section) = text
        .split_once("## Min-Max beside the sum")
        .expect("the section");
    let (section, _) = section.split_once("\n## ").expect("another section");
    for size in ["| 2 | 3 | ", "| 3 | 4 | "] {
        let of_size = section.lines().filter(|line| line.starts_with(size));
        let cells = of_size.map(|line| line.matches(" | ").count() + 1);
        // With k = 2 and with k = 3, costs from the channel and uniform.
        assert_eq!(cells.collect::<Vec<_>>(), [9; 4]);
    }
    assert!(section.contains("| proved, Min-Max / sum |"));
    let chart = charts::min_max_by_sum(&rows);
    assert_eq!(chart.series.len(), 10);
    assert!(chart.svg().contains("target: at most 1.1"));
}

#[test]
fn the_proved_sweep_stands_beside_the_proved_check_with_both_k() {
    let text = markdown(&[row(2, 3)]);
    let (_, section) = text
        .split_once("## The proved sweep beside the proved check")
        .expect("the section");
    let (section, _) = section.split_once("\n## ").expect("another section");
    let (of_two, of_three) = section.split_once("With k = 3.").expect("both k");
    for of_k in [of_two, of_three] {
        for size in ["| 2 | 3 | ", "| 3 | 8 | "] {
            let of_size = of_k.lines().filter(|line| line.starts_with(size));
            let cells = of_size.map(|line| line.matches(" | ").count() + 1);
            assert_eq!(cells.collect::<Vec<_>>(), [7]);
        }
        assert!(of_k.contains("| proved sweep / proved check | proved sweep / sweeps (Rust) |"));
    }
    assert!(of_two.contains("The proved sweep takes "));
}

/// Holds a section against its codes: a line of so many cells for each.
fn codes_stand_in_it(text: &str, (title, count): (&str, usize), jobs: &[Job]) {
    let (_, section) = text.split_once(title).expect("the section");
    let (section, _) = section.split_once("\n## ").expect("another section");
    for job in jobs {
        let of_code = section
            .lines()
            .filter(|line| line.starts_with(&format!("| {} | ", job.name)));
        let cells = of_code.map(|line| line.matches(" | ").count() + 1);
        assert_eq!(cells.collect::<Vec<_>>(), [count]);
    }
}

/// The other calls that decode leave what `decode` does, or their races would stop.
#[test]
fn the_register_window_and_eight_channels_stand_beside_decode() {
    let (window_jobs, channel_jobs) = (inputs::window_jobs(), inputs::channel_jobs());
    let windows = window_jobs.iter();
    let windows: Vec<_> = windows
        .map(|job| decoding::measure_window(job, 1))
        .collect();
    let in_channels = channel_jobs.iter();
    let in_channels: Vec<_> = in_channels.map(|job| channels::measure(job, 1)).collect();
    let targets = [
        targets::of_window(&windows),
        targets::of_channels(&in_channels),
    ];
    let (rows, encoding) = ([row(2, 3)], encoding::measure(inputs::encodable(), 1));
    let report = Report {
        windows: &windows,
        channels: &in_channels,
        targets: &targets,
        ..report(&rows, &encoding)
    };
    let text = report.markdown();
    codes_stand_in_it(
        &text,
        ("## Decoding through the register window", 6),
        &window_jobs,
    );
    codes_stand_in_it(
        &text,
        ("## Eight channels with one allowance", 6),
        &channel_jobs,
    );
    assert_eq!(targets.each_ref().map(|target| target.measured), [1, 4]);
    assert_eq!(targets[0].worst.1, inputs::SIMULATED);
    assert!(text.contains("at most 1.15 times one `decode`"));
    assert!(text.contains("at most 1.05 times eight `decode`"));
}

/// A stop that is not that of the same algorithm in Rust, or behind that of `decode`, would end the race.
#[test]
fn stopping_inside_an_iteration_stands_beside_decode() {
    let jobs = inputs::early_jobs();
    let early: Vec<_> = jobs.iter().map(|job| early::measure(job, 1)).collect();
    let targets = [targets::of_early(&early)];
    let (rows, encoding) = ([row(2, 3)], encoding::measure(inputs::encodable(), 1));
    let report = Report {
        early: &early,
        targets: &targets,
        ..report(&rows, &encoding)
    };
    let text = report.markdown();
    codes_stand_in_it(&text, ("## Stopping inside an iteration", 11), &jobs);
    assert_eq!(targets[0].measured, 2);
    assert!(text.contains("an update at most 1.1 times one of `decode`"));
    for row in &early {
        assert!(0.0 < row.early_updates && row.early_updates < row.decode_updates);
        assert!(0.0 < row.of_frames() && row.of_frames().is_finite());
    }
}

/// A combined frame that is not the reference decoder's would stop the measurement.
#[test]
fn combining_stands_beside_decode() {
    let jobs = inputs::jobs();
    let codes: Vec<_> = jobs.iter().map(|job| decoding::measure(job, 1)).collect();
    let combining: Vec<_> = jobs.iter().map(|job| combining::measure(job, 1)).collect();
    let (rows, encoding) = ([row(2, 3)], encoding::measure(inputs::encodable(), 1));
    let report = Report {
        codes: &codes,
        combining: &combining,
        ..report(&rows, &encoding)
    };
    codes_stand_in_it(&report.markdown(), ("## Combining two frames", 4), &jobs);
    for (row, code) in combining.iter().zip(&codes) {
        assert!(0.0 < row.of_call() && row.of_call() < code.of_frame());
    }
}

#[test]
fn eight_frames_make_a_call() {
    for job in inputs::channel_jobs() {
        let frames = job.frames.iter();
        assert!(frames
            .map(Vec::len)
            .eq(job.frames.iter().map(|_| 8 * job.code.frame_length())));
        assert_eq!(job.frame_count(), 8 * job.frames.len());
    }
}

#[test]
fn the_target_of_min_max_is_over_both_k() {
    let rows = [row(2, 3), row(3, 4)];
    let rows: Vec<&Row> = rows.iter().collect();
    let found = targets::of_min_max(&rows);
    assert_eq!(found.measured, 4);
    assert!(found.worst.1.starts_with("k = "));
}

#[test]
fn the_length_of_a_record_is_that_of_its_k() {
    let row = Row::new(6, 32);
    assert_eq!([2, 3].map(|k| row.record_length(k)), [347, 473]);
}
