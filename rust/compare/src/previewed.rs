//! Names for what a preview came to.

use lsc_reference::monitor::in_prechart;
use lsc_reference::value::*;
use std::fmt;

/// Where a monitor is.
#[derive(Clone, Copy, Debug, PartialEq, Eq, PartialOrd, Ord)]
pub enum Phase {
    /// Nothing of a prechart is fired.
    Opening,
    /// A prechart is under way.
    Prechart,
    Main,
    Broken,
}

impl Phase {
    /// Where a fit monitor is.
    pub fn of(chart: &ChartValue, monitor: &MonitorValue) -> Phase {
        if monitor.broken().is_some() {
            Broken
        } else if !in_prechart(chart, monitor.fired) {
            Main
        } else if monitor.fired == 0 {
            Opening
        } else {
            Prechart
        }
    }
}

/// What a preview came to.
#[derive(Clone, Copy, Debug, PartialEq, Eq, PartialOrd, Ord)]
pub enum Previewed {
    /// Refused, 12 aside.
    Refused(u8),
    /// Refused with 22, after 1,000,000 records.
    FallsFull,
    /// Refused with 12: a buffer of so many bytes.
    Short(usize),
    /// Refused with 12, where a longer buffer is refused with this.
    ShortBefore(u8),
    /// Refused with 12, where a longer buffer shows a broken monitor.
    ShortBroken,
    /// Some region shows this number.
    Shows(Phase, u8),
    /// A fired message region shows this number.
    Fired(Phase, u8),
    /// Two regions with one message, of a monitor without a break, show this number.
    Twice(u8),
    /// A monitor that is broken, at a moment before now.
    BrokenBefore,
    /// The same with 1,000,000 records, at any moment.
    BrokenFull,
    /// One more record can be taken.
    LastRecord,
}

use Phase::*;
use Previewed::*;

/// What previews must come to, beside [`shorts`].
pub const PREVIEWED: [Previewed; 45] = [
    Refused(20),
    Refused(21),
    Refused(22),
    Refused(23),
    FallsFull,
    ShortBefore(22),
    ShortBefore(23),
    ShortBroken,
    Shows(Opening, 0),
    Shows(Opening, 1),
    Shows(Opening, 2),
    Shows(Opening, 3),
    Shows(Opening, 4),
    Shows(Opening, 5),
    Shows(Prechart, 0),
    Shows(Prechart, 1),
    Shows(Prechart, 2),
    Shows(Prechart, 3),
    Shows(Prechart, 4),
    Shows(Prechart, 5),
    Shows(Main, 0),
    Shows(Main, 1),
    Shows(Main, 2),
    Shows(Main, 3),
    Shows(Main, 5),
    Shows(Broken, 0),
    Shows(Broken, 1),
    Fired(Prechart, 1),
    Fired(Prechart, 2),
    Fired(Prechart, 3),
    Fired(Prechart, 4),
    Fired(Prechart, 5),
    Fired(Main, 1),
    Fired(Main, 2),
    Fired(Main, 3),
    Fired(Main, 5),
    Fired(Broken, 1),
    Twice(1),
    Twice(2),
    Twice(3),
    Twice(4),
    Twice(5),
    BrokenBefore,
    BrokenFull,
    LastRecord,
];

/// Buffers that are too short, of every length below the most regions.
pub fn shorts() -> [Previewed; MAX_REGIONS] {
    std::array::from_fn(Short)
}

/// What a preview of a fit monitor in a buffer that is long enough came to.
pub fn names(
    chart: &ChartValue,
    monitor: &MonitorValue,
    time: u32,
    shown: Result<&[u8], u8>,
) -> Vec<Previewed> {
    let full = monitor.records == MAX_RECORDS;
    let bytes = match shown {
        Err(22) if full => return vec![Refused(22), FallsFull],
        Err(number) => return vec![Refused(number)],
        Ok(bytes) => bytes,
    };
    let phase = Phase::of(chart, monitor);
    let mut found = Vec::new();
    for (place, (byte, region)) in bytes.iter().zip(&chart.regions).enumerate() {
        found.push(Shows(phase, *byte));
        let Some(message) = region.message() else {
            continue;
        };
        if (monitor.fired >> place) & 1 == 1 {
            found.push(Fired(phase, *byte));
        }
        let mut before = chart.regions[..place].iter();
        if phase != Broken && before.any(|other| other.message() == Some(message)) {
            found.push(Twice(*byte));
        }
    }
    match phase {
        Broken => {
            found.extend((time < monitor.now).then_some(BrokenBefore));
            found.extend(full.then_some(BrokenFull));
        }
        _ => found.extend((monitor.records + 1 == MAX_RECORDS).then_some(LastRecord)),
    }
    found
}

/// What one in a buffer of so few bytes came to, where a longer buffer gives this.
pub fn short_names(
    chart: &ChartValue,
    monitor: &MonitorValue,
    room: usize,
    longer: Result<&[u8], u8>,
) -> Vec<Previewed> {
    let mut found = vec![Short(room)];
    match longer {
        Err(number) => found.push(ShortBefore(number)),
        Ok(_) if Phase::of(chart, monitor) == Broken => found.push(ShortBroken),
        Ok(_) => {}
    }
    found
}

impl fmt::Display for Phase {
    fn fmt(&self, f: &mut fmt::Formatter<'_>) -> fmt::Result {
        f.write_str(match self {
            Opening => "at the opening",
            Prechart => "in the prechart",
            Main => "in the main chart",
            Broken => "broken",
        })
    }
}

impl fmt::Display for Previewed {
    fn fmt(&self, f: &mut fmt::Formatter<'_>) -> fmt::Result {
        match self {
            Refused(number) => write!(f, "refusal {number}"),
            FallsFull => write!(f, "refusal 22 before 23"),
            Short(1) => write!(f, "refusal 12, 1 byte"),
            Short(room) => write!(f, "refusal 12, {room} bytes"),
            ShortBefore(number) => write!(f, "refusal 12 before {number}"),
            ShortBroken => write!(f, "refusal 12, broken"),
            Shows(phase, byte) => write!(f, "{byte} {phase}"),
            Fired(phase, byte) => write!(f, "{byte} {phase}, a fired region's"),
            Twice(byte) => write!(f, "{byte} for two regions with one message"),
            BrokenBefore => write!(f, "broken, before now"),
            BrokenFull => write!(f, "broken, 1,000,000 records"),
            LastRecord => write!(f, "999,999 records"),
        }
    }
}

#[cfg(test)]
mod tests {
    use super::*;
    use lsc_reference::examples::{undo, CHART_U};
    use lsc_reference::monitor::feed;
    use lsc_reference::reader::read_chart;

    #[test]
    fn previews_are_named() {
        let chart = read_chart(&CHART_U).unwrap();
        let fresh = MonitorValue::ZERO;
        let expected = [4, 3, 3].map(|byte| Shows(Opening, byte));
        assert_eq!(names(&chart, &fresh, 0, Ok(&[4, 3, 3])), expected);
        let (_, owed) = feed(&chart, fresh, undo(9));
        let expected = [
            Shows(Main, 1),
            Fired(Main, 1),
            Shows(Main, 5),
            Shows(Main, 5),
        ];
        assert_eq!(names(&chart, &owed, 9, Ok(&[1, 5, 5])), expected);
        assert_eq!(names(&chart, &owed, 8, Err(22)), [Refused(22)]);
        let (_, broken) = feed(&chart, owed, undo(9));
        let found = names(&chart, &broken, 8, Ok(&[1, 1, 1]));
        assert!(found.ends_with(&[Shows(Broken, 1), BrokenBefore]));
        let short = |monitor, longer| short_names(&chart, monitor, 2, longer);
        assert_eq!(short(&owed, Ok(&[])), [Short(2)]);
        assert_eq!(short(&owed, Err(22)), [Short(2), ShortBefore(22)]);
        assert_eq!(short(&broken, Ok(&[])), [Short(2), ShortBroken]);
    }

    #[test]
    fn limits_and_one_message_in_two_regions_are_named() {
        let bytes = [
            0x10, 2, 0, 0x20, 0, 1, 0, 1, 0x50, 0x20, 0, 1, 0, 1, 0x20, 1, 0, 0, 1, 0x7F,
        ];
        let chart = read_chart(&bytes).unwrap();
        let full = MonitorValue {
            records: MAX_RECORDS,
            now: 9,
            ..MonitorValue::ZERO
        };
        assert_eq!(names(&chart, &full, 8, Err(22)), [Refused(22), FallsFull]);
        assert_eq!(names(&chart, &full, 9, Err(23)), [Refused(23)]);
        let last = MonitorValue {
            records: MAX_RECORDS - 1,
            ..full
        };
        let [entered, dropped] = [Shows(Opening, 4), Shows(Opening, 3)];
        let expected = [entered, entered, Twice(4), dropped, LastRecord];
        assert_eq!(names(&chart, &last, 9, Ok(&[4, 4, 3])), expected);
        let broken = MonitorValue {
            break_record: 1,
            reason: 1,
            ..full
        };
        let found = names(&chart, &broken, 9, Ok(&[1, 1, 1]));
        assert_eq!(found[2..], [Shows(Broken, 1), BrokenFull]);
    }
}
