//! `benchmark [FILE]`: times of the proved library beside a fast judge in Rust. Prints a table
//! in Markdown and writes a plot to FILE (`docs/judge-time.svg` of the repository).

mod lines;
mod rows;
mod subject;

use lsc_compare::charts;
use lsc_compare::fast::WORTH_A_PLAN as WORTH;
use lsc_compare::plot::Plot;
use lsc_reference::examples::CHART_U;
use std::path::PathBuf;
use std::process::ExitCode;
use subject::{Subject, FED, LONG, MIDWAY, PREVIEWS, ROUNDS};

fn explain(subjects: &[Subject]) {
    println!("Charts:");
    println!("- chart U: 3 regions, 4 lines, 1 clock, two hot conditions of one term");
    println!("- large chart: {}", charts::LARGE);
    println!("\nLogs of {LONG} records: {}.", charts::LOG);
    for subject in subjects {
        let (kept, dropped) = subject.rounds();
        println!(
            "- {}: chart of {} bytes, log of {} bytes, {kept} rounds kept, {dropped} dropped",
            subject.name,
            subject.chart.len(),
            subject.log.len()
        );
    }
    println!(
        "
What the rows are:
- judging: from the chart's bytes and the log's bytes to the verdict; both sides read the chart.
- judging, raw stamps: the same records with raw stamps, which return to 0 on the way.
- judging, broken early: the chart breaks within the first records; all {LONG} are checked, the \
rest are not taken.
- checking, beside the scan: the log checked (record bytes, lengths, times, count), no record taken.
- judging, beside the scan: the second column is a bare walk over the records that adds their \
times, the limit of every judge.
- feeding values: {FED} records one by one, refusals 20 to 23 tested at each; both sides read the \
chart's image of 1,348 bytes and the monitor's at each, and write the monitor's.
- feeding live: the same records through live bytes; both sides read the chart's bytes and the \
monitor's image at each, and write the image.
- feeding a log by 1, 10, 1,000: the same records as bytes of a log through live bytes, so many in \
each call; both sides read the chart's bytes, the monitor's image and the log's kind once a call, \
and write the image and the kind. The fast one compiles the chart if the call has {WORTH} bytes \
or more. Times are for a record, the call's share with it.
- the same, raw stamps: the records with raw stamps, 1,000 in each call.
- the same, beside judging: the second column is the proved judge of all {FED} records in one call.
- yes or no, breaks first, midway, nowhere: from the chart's bytes and the log's bytes to yes or \
no, in a log that breaks as early as it can, in one that breaks about record {MIDWAY}, and in \
one that keeps its rounds; both sides read the chart and stop at the break. Times are for a whole \
call: behind the break no record is read.
- the same, beside judging: the second column is the proved judge of the same log.
- preview: a byte for each region of a live monitor, at the moment of its next record; {PREVIEWS} \
monitors, from a fresh one on, each after one record more. Both sides read the chart's bytes and \
the monitor's image once, and feed each message to a copy.
- the same, beside one feed: the second column is the proved feed of that next record to a copy of \
the same live bytes.

Both sides run in one process, in turn, {ROUNDS} rounds, the one that goes first changing. One \
round before is not counted, so charts, logs and code were touched; nothing is cleared between. \
Times are medians; the ratio is the median of the rounds' ratios.
"
    );
}

/// The plot's path: the argument, or the repository's `docs`.
fn target() -> PathBuf {
    if let Some(path) = std::env::args().nth(1) {
        return PathBuf::from(path);
    }
    let docs = "docs/judge-time.svg";
    match std::env::var_os("CARGO_MANIFEST_DIR") {
        Some(package) => PathBuf::from(package).join("../..").join(docs),
        None => PathBuf::from("..").join(docs),
    }
}

fn main() -> ExitCode {
    let subjects = [
        Subject::of("chart U", CHART_U.to_vec()),
        Subject::of("large chart", charts::large()),
    ];
    explain(&subjects);
    rows::heading("ns a record");
    for subject in &subjects {
        rows::judging(subject);
        rows::checking(subject);
        rows::feeding_values(subject);
        rows::feeding_live(subject);
        rows::feeding_logs(subject);
    }
    println!();
    rows::heading("µs a call");
    for subject in &subjects {
        rows::yes_or_no(subject);
    }
    for subject in &subjects {
        rows::previews(subject);
    }
    let plot = Plot {
        title: "Judging a log: time against its length".into(),
        across: "records in the log".into(),
        up: "milliseconds".into(),
        lines: subjects.iter().flat_map(lines::of).collect(),
    };
    let path = target();
    if let Err(fault) = std::fs::write(&path, plot.to_svg()) {
        eprintln!("{}: {fault}", path.display());
        return ExitCode::FAILURE;
    }
    println!("\nThe plot is written.");
    ExitCode::SUCCESS
}
