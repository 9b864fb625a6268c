//! `differential [COUNT] [SEED] [FIRST]`: compares COUNT inputs drawn from SEED, from input
//! FIRST on, and prints what was reached. Ends with status 1 at a difference, or if something
//! that `Seen` names was not reached: a refusal, an answer, a standing, a term, a second offer, a
//! monitor at the limits of what is fit, what a plain or a raw log or a single record comes to,
//! whether a log breaks its chart, what a preview comes to, what feeding from a log's bytes comes
//! to, what saving a chart comes to, and what marks to rest on come to (asked only when FIRST is
//! not given).

use lsc_compare::seen::Seen;
use lsc_compare::{limits, run, Span};
use std::process::ExitCode;
use std::time::{Duration, Instant};

const USAGE: &str = "usage: differential [COUNT] [SEED] [FIRST]";

fn main() -> ExitCode {
    let numbers: Result<Vec<u64>, _> = std::env::args().skip(1).map(|arg| arg.parse()).collect();
    let numbers = match numbers {
        Ok(numbers) if numbers.len() <= 3 => numbers,
        _ => {
            eprintln!("{USAGE}");
            return ExitCode::from(2);
        }
    };
    let number = |place: usize, otherwise| numbers.get(place).copied().unwrap_or(otherwise);
    let span = Span {
        count: number(0, 1_000_000),
        seed: number(1, 1),
        first: number(2, 0),
    };
    let whole = numbers.len() < 3;
    match compare(span, whole) {
        Ok(seen) => finish(&seen, whole),
        Err(text) => {
            println!("{text}");
            ExitCode::FAILURE
        }
    }
}

fn compare(span: Span, whole: bool) -> Result<Seen, String> {
    let mut seen = Seen::default();
    if whole {
        limits::run(&mut seen).map_err(|difference| difference.to_string())?;
    }
    let start = Instant::now();
    let mut shown = start;
    let mut progress = |done: u64, seen: &Seen| {
        let now = Instant::now();
        if now - shown >= Duration::from_secs(3) {
            shown = now;
            let rate = done as f64 / (now - start).as_secs_f64();
            let (reached, all) = seen.reached();
            let total = span.count;
            eprintln!("{done} of {total} inputs, {rate:.0} a second, {reached} of {all} reached");
        }
    };
    run(span, &mut seen, &mut progress).map_err(|difference| difference.to_string())?;
    let seconds = start.elapsed().as_secs_f64();
    println!(
        "{} inputs from seed {} in {seconds:.1} s, no difference\n",
        span.count, span.seed
    );
    Ok(seen)
}

fn finish(seen: &Seen, whole: bool) -> ExitCode {
    print!("{seen}");
    let missing = seen.missing();
    if whole && !missing.is_empty() {
        println!("\nnot reached: {}", missing.join(", "));
        return ExitCode::FAILURE;
    }
    ExitCode::SUCCESS
}
