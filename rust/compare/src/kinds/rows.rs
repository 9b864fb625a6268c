//! Small charts against the declared meaning: every row of regions is tried, no step of the
//! monitor is used.

use super::live::{check_standing, feed_why, records, why};
use crate::charts;
use crate::difference::{same, Both, Hex};
use crate::image::{live_bytes, Image, LIVE_HEAD, MONITOR_IMAGE};
use crate::random::{self, Rng};
use crate::seen::Seen;
use lsc::call;
use lsc_reference::declarative::Rows;
use lsc_reference::log::write_log;
use lsc_reference::reader::read_chart;
use lsc_reference::value::*;

/// The kind's name.
pub const NAME: &str = "rows";

/// Charts with more regions have too many rows.
const MOST_REGIONS: u8 = 5;

pub fn make(rng: &mut Rng) -> (Vec<u8>, Vec<u8>) {
    let (bytes, chart) = charts::some_small(rng);
    let count = rng.below(11);
    let feeds = random::feeds(rng, &chart, count);
    (bytes, write_log(&feeds))
}

pub fn compare(chart: &[u8], log: &[u8], seen: &mut Seen) -> Result<(), Both> {
    let value = match read_chart(chart) {
        Ok(value) if value.count <= MOST_REGIONS => value,
        _ => return Ok(()),
    };
    let feeds = records(log);
    let meaning = Rows::of(&value).meaning(&feeds);
    let mut live = vec![0; LIVE_HEAD + chart.len()];
    call::open(chart, &mut live, &mut 0);
    let mut again = false;
    for (record, answer) in feeds.iter().zip(&meaning.answers) {
        match *record {
            RecordValue::Message { message, time } => {
                let said = feed_why(&mut live, message, time);
                same("an answer and why", said, why(answer))?;
            }
            RecordValue::Time(time) => {
                let said = call::feed_time(&mut live, time);
                same("an answer", said, answer.number())?;
            }
        }
        seen.coverage.told(again, answer);
        again |= matches!(answer, Answer::Broken(_));
    }
    let after = seen.coverage.taken(NAME, &value, &feeds);
    seen.coverage.stood(NAME, &value, &after);
    let numbers = meaning.verdict().numbers().map(u64::from);
    check_standing(&live, Ok(numbers), seen)?;
    let monitor = MonitorValue::from_image(&live[..MONITOR_IMAGE]);
    same("the monitor after", monitor, Some(meaning.monitor()))?;
    let wanted = live_bytes(chart, &meaning.monitor());
    same("live bytes", Hex(&live), Hex(&wanted))
}
