//! The reference's modules against each other and against the fast judge, on seeded random
//! inputs, with counts of what was reached.

use lsc_compare::charts;
use lsc_compare::coverage::{Coverage, ANSWERS};
use lsc_compare::fast;
use lsc_compare::image::Image;
use lsc_compare::outcomes::OUTCOMES;
use lsc_compare::random::{self, Rng, Size};
use lsc_compare::rested::{MARKED_IMAGES, MISPLACED, STANDS};
use lsc_reference::command::Command;
use lsc_reference::declarative::Rows;
use lsc_reference::feed_log::{feed_log, Feeding, LogKind};
use lsc_reference::live::{held, live_bytes};
use lsc_reference::log::{breaks, judge, read_log, read_record, verdict, write_log, Next};
use lsc_reference::print::respond;
use lsc_reference::reader::read_chart;
use lsc_reference::record::LogRecord;
use lsc_reference::value::*;
use lsc_reference::{monitor, well_formed, writer};

/// What a check reaches in so many turns.
fn reached(seed: u64, turns: usize, check: fn(&mut Rng, &mut Coverage)) -> Coverage {
    let mut rng = Rng::new(seed);
    let mut seen = Coverage::default();
    for _ in 0..turns {
        check(&mut rng, &mut seen);
    }
    seen
}

/// Lists of feeds over a small chart: the steps against all rows.
fn steps_against_rows(rng: &mut Rng, seen: &mut Coverage) {
    let (bytes, chart) = charts::some_small(rng);
    let rows = Rows::of(&chart);
    for _ in 0..4 {
        let count = rng.below(11);
        let feeds = random::feeds(rng, &chart, count);
        let meaning = rows.meaning(&feeds);
        let mut monitor = monitor::new(&chart).unwrap();
        for (record, expected) in feeds.iter().zip(&meaning.answers) {
            let (answer, after) = monitor::feed(&chart, monitor, *record);
            assert_eq!(answer, *expected, "{bytes:02X?} {feeds:?}");
            if matches!(answer, Answer::Refused(_)) {
                assert_eq!(after, monitor);
            }
            seen.fed("rows", &chart, &monitor, &answer, &after);
            monitor = after;
        }
        assert_eq!(meaning.answers.len(), feeds.len());
        assert_eq!(monitor, meaning.monitor(), "{bytes:02X?} {feeds:?}");
        assert_eq!(verdict(&chart, &monitor), meaning.verdict(), "{bytes:02X?}");
        seen.stood("rows", &chart, &monitor);
        assert!(monitor::is_fit(&chart, &monitor));
    }
}

/// Whole logs, good and bad, over a chart of any size: the naive judge against the fast one.
fn judges(rng: &mut Rng, seen: &mut Coverage) {
    let size = random::some_size(rng);
    let (bytes, chart) = random::chart(rng, size);
    let written = writer::chart_bytes(&chart).unwrap();
    assert_eq!(read_chart(&written), Ok(chart));
    let plan = fast::Plan::of(&chart).unwrap();
    for _ in 0..20 {
        let log = if rng.chance(60) {
            let count = rng.below(if size == Size::Large { 150 } else { 40 });
            random::log_bytes(rng, &chart, count)
        } else {
            random::hostile_log_bytes(rng, &chart)
        };
        let verdict = judge(&chart, &log);
        assert_eq!(verdict, plan.judge(&log), "{bytes:02X?} {log:02X?}");
        seen.judged("judge", &log, &verdict);
        match verdict {
            Ok(verdict) => {
                seen.standing(verdict.standing);
                let after = seen.taken("judge", &chart, &read_log(&log).unwrap());
                seen.stood("judge", &chart, &after);
            }
            Err((code, _)) => seen.refusal(code),
        }
        check_scan(&log);
    }
}

/// The bare scan counts what the log reader hands out of a plain log.
fn check_scan(log: &[u8]) {
    let mut place = 0;
    let mut records = 0;
    let mut sum = 0;
    let whole = loop {
        match read_record(log, place) {
            Next::End => break true,
            Next::Refused(_) | Next::Taken(LogRecord::Raw(_), _) => break false,
            Next::Taken(LogRecord::Plain(record), after) => {
                records += 1;
                sum += u64::from(record.time());
                place = after;
            }
        }
    };
    assert_eq!(fast::scan(log), whole.then_some((records, sum)));
}

/// Single feeds of any chart, monitor and record values.
fn feeds_of_values(rng: &mut Rng, seen: &mut Coverage) {
    let chart = random::chart_value(rng);
    let given = well_formed::is_given(&chart);
    assert_eq!(given, fast::is_given(&chart), "{chart:?}");
    assert_eq!(ChartValue::from_image(&chart.to_image()), Some(chart));
    seen.marked_image("values", &chart.to_image());
    if monitor::new(&chart).is_err() {
        assert!(!given);
        seen.refusal(20);
    }
    if !given {
        assert_eq!(fast::judge(&chart, &[]), Err((20, 0)));
        assert_eq!(judge(&chart, &[0]), Err((20, 0)));
    }
    for _ in 0..12 {
        let monitor = random::monitor_value(rng, &chart);
        assert_eq!(MonitorValue::from_image(&monitor.to_image()), Some(monitor));
        let record = random::record_value(rng, &chart, &monitor);
        assert_eq!(RecordValue::from_bytes(&record.to_bytes()), Some(record));
        let (answer, after) = monitor::feed(&chart, monitor, record);
        assert_eq!(
            fast::feed(&chart, monitor, record),
            (answer, after),
            "{chart:?} {monitor:?} {record:?}"
        );
        match answer {
            Answer::Refused(_) => assert_eq!(after, monitor),
            _ => assert!(monitor::is_fit(&chart, &after)),
        }
        seen.fed("values", &chart, &monitor, &answer, &after);
    }
}

/// Chart bytes of every kind: the reader's charts are given, and reading is a function of
/// the commands alone.
fn hostile_charts(rng: &mut Rng, seen: &mut Coverage) {
    let bytes = random::hostile_chart_bytes(rng);
    match read_chart(&bytes) {
        Ok(chart) => {
            assert!(well_formed::is_given(&chart), "{bytes:02X?}");
            assert!(fast::is_given(&chart), "{bytes:02X?}");
        }
        Err((code, offset)) => {
            seen.refusal(code);
            seen.refused_chart("hostile", &bytes, (code, offset));
            assert!(offset <= bytes.len());
            // No fault depends on what stands after its command, 6 and 7 aside.
            if !matches!(code, 1 | 6 | 7 | 11) {
                let length = Command::of(bytes[offset]).map_or(0, Command::operands);
                let cut = &bytes[..offset + 1 + length];
                assert_eq!(read_chart(cut), Err((code, offset)), "{bytes:02X?}");
            }
        }
    }
}

/// The printing program's text against the fast judge's.
fn programs(rng: &mut Rng, seen: &mut Coverage) {
    let input = random::hostile_input(rng);
    let text = respond(&input);
    seen.printed(&text);
    assert_eq!(text, fast_text(&input) + "\n");
}

/// What the printing program says, by the fast judge.
fn fast_text(input: &[u8]) -> String {
    if input.len() > 65_536 {
        return "refused input 40 at 0".to_string();
    }
    let parts = input
        .split_first_chunk::<2>()
        .and_then(|(length, rest)| rest.split_at_checked(usize::from(u16::from_be_bytes(*length))));
    let Some((chart, log)) = parts else {
        return "refused input 41 at 0".to_string();
    };
    let chart = match read_chart(chart) {
        Ok(chart) => chart,
        Err((code, offset)) => return format!("refused chart {code} at {offset}"),
    };
    match fast::judge(&chart, log) {
        Err((code, offset)) => format!("refused log {code} at {offset}"),
        Ok(verdict) => {
            let [standing, kept, dropped, records, record, reason, region, term] =
                verdict.numbers();
            format!(
                "STANDING KEPT DROPPED RECORDS BREAK REASON REGION TERM\n\
                 {standing} {kept} {dropped} {records} {record} {reason} {region} {term}"
            )
        }
    }
}

#[test]
fn steps_and_rows_agree() {
    let seen = reached(1, 2_500, steps_against_rows);
    println!("steps against rows: {seen:?}");
    assert!(ANSWERS.iter().all(|name| seen.answers.contains_key(name)));
    assert_eq!(seen.missing_terms(), Vec::<String>::new());
    assert_eq!(seen.missing_offers(&["rows"]), Vec::<String>::new());
    assert_eq!(seen.missing_marks("rows", &STANDS), Vec::<String>::new());
}

#[test]
fn everything_is_reached() {
    let mut seen = reached(2, 3_000, judges);
    println!("judges: {seen:?}");
    for more in [
        reached(3, 12_000, feeds_of_values),
        reached(4, 100_000, hostile_charts),
        reached(5, 20_000, programs),
    ] {
        println!("more: {more:?}");
        seen.add(&more);
    }
    println!("all: {seen:?}");
    assert_eq!(seen.missing(), Vec::<String>::new());
    let kinds = ["judge", "values"];
    assert_eq!(seen.missing_offers(&kinds), Vec::<String>::new());
    assert_eq!(seen.missing_logs("judge", &OUTCOMES), Vec::<String>::new());
    let none = Vec::<String>::new();
    assert_eq!(seen.missing_marks("judge", &STANDS), none);
    assert_eq!(seen.missing_marks("hostile", &MISPLACED), none);
    // A value has no bytes that are no image.
    let [early, spare, .., chart] = MARKED_IMAGES;
    assert_eq!(seen.missing_marks("values", &[early, spare, chart]), none);
}

#[test]
fn a_list_of_feeds_is_the_judge_s_verdict() {
    let mut rng = Rng::new(7);
    for _ in 0..300 {
        let (_, chart) = random::chart(&mut rng, Size::Small);
        let records = random::records(&mut rng, &chart, 30);
        let mut naive = MonitorValue::ZERO;
        let mut quick = MonitorValue::ZERO;
        for record in &records {
            let (answer, after) = monitor::feed(&chart, naive, *record);
            let fast_answer;
            (fast_answer, quick) = fast::feed(&chart, quick, *record);
            assert_eq!((answer, after), (fast_answer, quick));
            naive = after;
        }
        let log = write_log(&records);
        assert_eq!(read_log(&log), Ok(records));
        assert_eq!(judge(&chart, &log), Ok(verdict(&chart, &naive)));
    }
}

#[test]
fn judging_a_log_is_what_the_rows_of_its_records_give() {
    let mut rng = Rng::new(9);
    let mut judged = 0;
    for _ in 0..3_000 {
        let (bytes, chart) = charts::some_small(&mut rng);
        let count = rng.below(11);
        let log = random::log_bytes(&mut rng, &chart, count);
        let Ok(records) = read_log(&log) else {
            continue;
        };
        let expected = Ok(Rows::of(&chart).meaning(&records).verdict());
        assert_eq!(judge(&chart, &log), expected, "{bytes:02X?} {log:02X?}");
        judged += usize::from(matches!(log.first(), Some(3 | 4)));
    }
    assert!(judged > 1_000, "only {judged} raw logs without a fault");
}

/// Feeds a log's bytes to live bytes and a kind: the number, how many records, the place, and the
/// answers counted.
fn fed(live: &mut [u8], kind: &mut [u8; 5], log: &[u8]) -> (u8, u64, usize, [u64; 6]) {
    let mut out = [0; 9];
    let number = feed_log(live, kind, log, &mut out);
    let [taken, place, _, answered @ ..] = out;
    (number, taken, place as usize, answered)
}

#[test]
fn feeding_a_log_is_what_the_rows_of_its_records_give() {
    let mut rng = Rng::new(17);
    let mut stops = [0; 33];
    for _ in 0..4_000 {
        let (bytes, chart) = charts::some_small(&mut rng);
        let count = rng.below(11);
        let log = random::faulty_log_bytes(&mut rng, &chart, count);
        let (mut live, mut kind) = (live_bytes(&bytes, &MonitorValue::ZERO), [0; 5]);
        let (number, taken, place, answered) = fed(&mut live, &mut kind, &log);
        stops[usize::from(number)] += 1;
        // As asking says.
        let asked = match number {
            0 | 1 => Ok(number == 1),
            refused => Err((refused, place)),
        };
        assert_eq!(asked, breaks(&chart, &log), "{bytes:02X?} {log:02X?}");
        // The records taken are those before the place, and their rows give the monitor.
        let records = read_log(&log[..place]).unwrap();
        let meaning = Rows::of(&chart).meaning(&records);
        let (.., monitor) = held(&live).unwrap();
        assert_eq!(monitor, meaning.monitor(), "{bytes:02X?} {log:02X?}");
        let mut counted = [0; 6];
        for answer in &meaning.answers {
            counted[usize::from(answer.number()) - 1] += 1;
        }
        assert_eq!((taken, answered), (records.len() as u64, counted));
        // The same in two parts.
        let (first, second) = log.split_at(rng.below(log.len() + 1));
        let (mut again, mut same) = (live_bytes(&bytes, &MonitorValue::ZERO), [0; 5]);
        let (stop, _, reached, _) = fed(&mut again, &mut same, first);
        if matches!(stop, 0 | 30) {
            let rest = [&first[reached..], second].concat();
            let (stop, _, more, _) = fed(&mut again, &mut same, &rest);
            assert_eq!((stop, reached + more), (number, place));
        } else {
            assert_eq!((stop, reached), (number, place));
        }
        assert_eq!((again, same), (live, kind));
    }
    for number in [0, 1, 22, 24, 30, 31, 32] {
        assert!(stops[number] > 20, "{number}: {stops:?}");
    }
}

#[test]
fn feeding_a_log_goes_on_from_any_fit_monitor() {
    let mut rng = Rng::new(18);
    let mut taken = 0;
    for _ in 0..20_000 {
        let (_, chart) = charts::some_small(&mut rng);
        let monitor = random::monitor_value(&mut rng, &chart);
        if !monitor::is_fit(&chart, &monitor) {
            continue;
        }
        let Some(kind) = LogKind::from_bytes(random::kind_bytes(&mut rng)) else {
            continue;
        };
        let count = rng.below(8);
        let log = random::log_after(&mut rng, &chart, &monitor, kind, count);
        let mut feeding = Feeding::of(&chart, monitor, kind, &log);
        let (mut before, mut now) = (monitor, monitor.now);
        while let Ok((record, answer)) = feeding.take() {
            // Fed alone, with every refusal tested.
            let alone = monitor::feed(&chart, before, record);
            assert_eq!(alone, (answer, feeding.monitor));
            assert!(monitor::is_fit(&chart, &feeding.monitor));
            assert!(record.time() >= now);
            (before, now) = (feeding.monitor, record.time());
            taken += 1;
        }
        assert_eq!((feeding.monitor, feeding.monitor.now), (before, now));
    }
    assert!(taken > 10_000, "only {taken} records were taken");
}
