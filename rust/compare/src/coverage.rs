//! Counts of what a run of tests has reached.

use crate::asked::{self, Asked};
use crate::fitness::{self, FIT, UNFIT};
use crate::followed::Followed;
use crate::outcomes::{outcomes, Outcome};
use crate::previewed::Previewed;
use crate::rested;
use crate::saved::Saved;
use lsc_reference::log::Verdict;
use lsc_reference::monitor::{feed_fit, Order};
use lsc_reference::value::*;
use std::collections::BTreeMap;
use std::fmt::Display;

/// The refusals of N9 except 12.
pub const REFUSALS: [u8; 22] = [
    1, 2, 3, 4, 5, 6, 7, 8, 9, 10, 11, 13, 20, 21, 22, 23, 24, 30, 31, 32, 40, 41,
];

/// The standings of J8.
pub const STANDINGS: [u8; 5] = [0, 1, 2, 3, 4];

/// How often each name was seen.
pub type Counts<K> = BTreeMap<K, u64>;

/// How often each of what tests must reach was seen.
#[derive(Clone, Debug, Default)]
pub struct Coverage {
    pub refusals: Counts<u8>,
    pub answers: Counts<&'static str>,
    pub standings: Counts<u8>,
    /// What ended a round and the term that decided, 0 where no condition did.
    pub terms: Counts<(&'static str, u8)>,
    /// Kinds of comparison, and what second offers came to in them.
    pub offers: Counts<(&'static str, &'static str)>,
    /// Counts above the records in fit monitors.
    pub fit: Counts<&'static str>,
    /// What alone made a monitor unfit.
    pub unfit: Counts<&'static str>,
    /// Kinds of comparison, and what logs came to in them.
    pub logs: Counts<(&'static str, Outcome)>,
    /// What reading one record came to.
    pub reads: Counts<&'static str>,
    /// Kinds of comparison, and what asking whether a log breaks a chart came to in them.
    pub asked: Counts<(&'static str, Asked)>,
    /// Kinds of comparison, and what previews came to in them.
    pub previewed: Counts<(&'static str, Previewed)>,
    /// Kinds of comparison, and what feeding from the bytes of a log came to in them.
    pub followed: Counts<(&'static str, Followed)>,
    /// Kinds of comparison, and what saving a chart came to in them.
    pub saved: Counts<(&'static str, Saved)>,
    /// Kinds of comparison, and what marks to rest on came to in them.
    pub marks: Counts<(&'static str, &'static str)>,
}

/// The answers' names, broken once for each reason.
pub const ANSWERS: [&str; 7] = [
    "broken 1", "broken 2", "kept", "dropped", "entered", "moved", "quiet",
];

/// What comes with a region and a term.
pub const DECIDED: [&str; 3] = ["break", "broken again", "drop"];

/// The terms to be reached with each: none, and each place of a region.
const TERMS: std::ops::RangeInclusive<u8> = 0..=MAX_TERMS as u8;

/// How many pairs of the two there are.
pub const DECIDED_TERMS: usize = DECIDED.len() * (MAX_TERMS + 1);

/// What a second offer comes to (T33, T34).
pub const OFFERS: [&str; 4] = [
    "moves",
    "drops twice by a message region",
    "drops twice by a plain region",
    "does not fit",
];

/// What the second offer came to of a record that led from one monitor to the other; none if it
/// was offered once. Only a second offer leaves a dropped round behind it and moves, or drops a
/// round more; and a drop without a cause, where something was fired, had one that did not fit.
fn second_offer(
    chart: &ChartValue,
    before: &MonitorValue,
    answer: &Answer,
    after: &MonitorValue,
) -> Option<&'static str> {
    match (answer, after.dropped - before.dropped) {
        (Answer::Moved, 1) => Some("moves"),
        (Answer::Dropped(cause), 2) => {
            let failed = &chart.regions[usize::from(cause.region) - 1];
            Some(match failed.message() {
                Some(_) => "drops twice by a message region",
                None => "drops twice by a plain region",
            })
        }
        (Answer::Dropped(Cause::NONE), 1) if before.fired != 0 => Some("does not fit"),
        _ => None,
    }
}

/// Counts a name, if there is one.
fn count<K: Ord>(counts: &mut Counts<K>, name: Option<K>) {
    if let Some(name) = name {
        *counts.entry(name).or_default() += 1;
    }
}

/// Adds counts to others.
fn add<K: Ord + Copy>(counts: &mut Counts<K>, more: &Counts<K>) {
    for (name, times) in more {
        *counts.entry(*name).or_default() += times;
    }
}

/// The names that were not counted, after a word for what they are.
fn uncounted(what: &str, counts: &Counts<&'static str>, names: &[&'static str]) -> Vec<String> {
    names
        .iter()
        .filter(|name| !counts.contains_key(*name))
        .map(|name| format!("{what} {name}"))
        .collect()
}

/// The names that were not counted in a kind of comparison.
fn uncounted_in<K: Ord + Copy + Display>(
    kind: &'static str,
    counts: &Counts<(&'static str, K)>,
    names: &[K],
) -> Vec<String> {
    names
        .iter()
        .filter(|name| !counts.contains_key(&(kind, **name)))
        .map(|name| format!("{name}: {kind}"))
        .collect()
}

impl Coverage {
    pub fn refusal(&mut self, code: u8) {
        count(&mut self.refusals, Some(code));
    }

    pub fn standing(&mut self, standing: u8) {
        count(&mut self.standings, Some(standing));
    }

    /// The answer to a record that a monitor of the chart was fed, and the monitor after it, in a
    /// comparison of this kind.
    pub fn fed(
        &mut self,
        kind: &'static str,
        chart: &ChartValue,
        before: &MonitorValue,
        answer: &Answer,
        after: &MonitorValue,
    ) {
        self.told(before.broken().is_some(), answer);
        self.offered(kind, second_offer(chart, before, answer, after));
        match answer {
            Answer::Refused(20) => {}
            Answer::Refused(21) => count(&mut self.unfit, fitness::unfit(chart, before)),
            _ => count(&mut self.fit, fitness::fit(before)),
        }
    }

    /// The second offers of records that a fresh monitor takes, in a comparison of this kind. Gives
    /// the monitor after them.
    pub fn taken(
        &mut self,
        kind: &'static str,
        chart: &ChartValue,
        records: &[RecordValue],
    ) -> MonitorValue {
        let order = Order::of(chart);
        let mut before = MonitorValue::ZERO;
        for record in records {
            let (answer, after) = feed_fit(chart, &order, before, *record);
            self.offered(kind, second_offer(chart, &before, &answer, &after));
            before = after;
        }
        before
    }

    fn offered(&mut self, kind: &'static str, offer: Option<&'static str>) {
        count(&mut self.offers, offer.map(|offer| (kind, offer)));
    }

    /// What a log came to that was judged so, in a comparison of this kind.
    pub fn judged(
        &mut self,
        kind: &'static str,
        log: &[u8],
        judged: &Result<Verdict, (u8, usize)>,
    ) {
        for name in outcomes(log, judged) {
            count(&mut self.logs, Some((kind, name)));
        }
    }

    /// What reading one record came to.
    pub fn read(&mut self, name: &'static str) {
        count(&mut self.reads, Some(name));
    }

    /// What asking came to, in a comparison of this kind.
    pub fn asked(&mut self, kind: &'static str, name: Asked) {
        count(&mut self.asked, Some((kind, name)));
    }

    /// The same for a log to which asking and judging answer so.
    pub fn answered(
        &mut self,
        kind: &'static str,
        chart: &ChartValue,
        log: &[u8],
        answer: &Result<bool, (u8, usize)>,
        judged: &Result<Verdict, (u8, usize)>,
    ) {
        for name in asked::names(chart, log, answer, judged) {
            self.asked(kind, name);
        }
    }

    /// What a preview came to, in a comparison of this kind.
    pub fn previewed(&mut self, kind: &'static str, name: Previewed) {
        count(&mut self.previewed, Some((kind, name)));
    }

    /// What feeding from the bytes of a log came to, in a comparison of this kind.
    pub fn followed(&mut self, kind: &'static str, name: Followed) {
        count(&mut self.followed, Some((kind, name)));
    }

    /// What saving a chart came to, in a comparison of this kind.
    pub fn saved(&mut self, kind: &'static str, name: Saved) {
        count(&mut self.saved, Some((kind, name)));
    }

    /// What marks came to, if there is a name for it, in a comparison of this kind.
    pub fn marked(&mut self, kind: &'static str, name: Option<&'static str>) {
        count(&mut self.marks, name.map(|name| (kind, name)));
    }

    /// Why a fit monitor of a chart stands as it does, in a comparison of this kind.
    pub fn stood(&mut self, kind: &'static str, chart: &ChartValue, monitor: &MonitorValue) {
        for name in rested::stand_names(chart, monitor) {
            self.marked(kind, Some(name));
        }
    }

    /// What the marks of an image came to, in a comparison of this kind.
    pub fn marked_image(&mut self, kind: &'static str, image: &[u8]) {
        for name in rested::image_names(image) {
            self.marked(kind, Some(name));
        }
    }

    /// What marks have to do with the refusal of a chart's bytes, in a comparison of this kind.
    pub fn refused_chart(&mut self, kind: &'static str, chart: &[u8], fault: (u8, usize)) {
        self.marked(kind, rested::refused_name(chart, fault));
    }

    /// An answer, to a round that was broken before or not.
    pub fn told(&mut self, again: bool, answer: &Answer) {
        self.answer(answer);
        let name = match answer {
            Answer::Broken(_) if again => "broken again",
            Answer::Broken(_) => "break",
            Answer::Dropped(_) => "drop",
            _ => return,
        };
        count(&mut self.terms, Some((name, answer.cause().term)));
    }

    fn answer(&mut self, answer: &Answer) {
        let name = match answer {
            Answer::Refused(code) => return self.refusal(*code),
            Answer::Broken(known) => match known.reason {
                Reason::NoReadyRegion => "broken 1",
                Reason::ConditionFails => "broken 2",
            },
            Answer::Kept => "kept",
            Answer::Dropped(_) => "dropped",
            Answer::Entered => "entered",
            Answer::Moved => "moved",
            Answer::Quiet => "quiet",
        };
        count(&mut self.answers, Some(name));
    }

    /// A printed text: its refusal, or its standing.
    pub fn printed(&mut self, text: &str) {
        let mut words = text.split_whitespace();
        if words.next() == Some("refused") {
            if let Some(code) = words.nth(1).and_then(|word| word.parse().ok()) {
                self.refusal(code);
            }
        } else if let Some(standing) = words.nth(7).and_then(|word| word.parse().ok()) {
            self.standing(standing);
        }
    }

    /// Adds another count to this one.
    pub fn add(&mut self, other: &Coverage) {
        add(&mut self.refusals, &other.refusals);
        add(&mut self.answers, &other.answers);
        add(&mut self.standings, &other.standings);
        add(&mut self.terms, &other.terms);
        add(&mut self.offers, &other.offers);
        add(&mut self.fit, &other.fit);
        add(&mut self.unfit, &other.unfit);
        add(&mut self.logs, &other.logs);
        add(&mut self.reads, &other.reads);
        add(&mut self.asked, &other.asked);
        add(&mut self.previewed, &other.previewed);
        add(&mut self.followed, &other.followed);
        add(&mut self.saved, &other.saved);
        add(&mut self.marks, &other.marks);
    }

    /// What was never reached; second offers, logs, single records, yes or no, previews, logs that
    /// are followed, saved charts and marks aside.
    pub fn missing(&self) -> Vec<String> {
        let mut missing = Vec::new();
        for code in REFUSALS {
            if !self.refusals.contains_key(&code) {
                missing.push(format!("refusal {code}"));
            }
        }
        missing.extend(uncounted("answer", &self.answers, &ANSWERS));
        for standing in STANDINGS {
            if !self.standings.contains_key(&standing) {
                missing.push(format!("standing {standing}"));
            }
        }
        missing.extend(self.missing_terms());
        missing.extend(uncounted("fit:", &self.fit, &FIT));
        missing.extend(uncounted("unfit:", &self.unfit, &UNFIT));
        missing
    }

    /// The terms that never decided.
    pub fn missing_terms(&self) -> Vec<String> {
        let all = DECIDED
            .into_iter()
            .flat_map(|name| TERMS.map(move |term| (name, term)));
        all.filter(|decided| !self.terms.contains_key(decided))
            .map(|(name, term)| format!("{name} by term {term}"))
            .collect()
    }

    /// What no second offer came to, in these kinds of comparison.
    pub fn missing_offers(&self, kinds: &[&'static str]) -> Vec<String> {
        let all = kinds
            .iter()
            .flat_map(|kind| OFFERS.map(|offer| (*kind, offer)));
        all.filter(|name| !self.offers.contains_key(name))
            .map(|(kind, offer)| format!("second offer {offer}: {kind}"))
            .collect()
    }

    /// What no log came to, in a kind of comparison.
    pub fn missing_logs(&self, kind: &'static str, names: &[Outcome]) -> Vec<String> {
        uncounted_in(kind, &self.logs, names)
    }

    /// What reading one record never came to.
    pub fn missing_reads(&self, names: &[&'static str]) -> Vec<String> {
        uncounted("read:", &self.reads, names)
    }

    /// What asking never came to, in a kind of comparison.
    pub fn missing_asked(&self, kind: &'static str, names: &[Asked]) -> Vec<String> {
        uncounted_in(kind, &self.asked, names)
    }

    /// What no preview came to, in a kind of comparison.
    pub fn missing_previewed(&self, kind: &'static str, names: &[Previewed]) -> Vec<String> {
        uncounted_in(kind, &self.previewed, names)
    }

    /// What feeding from the bytes of a log never came to, in a kind of comparison.
    pub fn missing_followed(&self, kind: &'static str, names: &[Followed]) -> Vec<String> {
        uncounted_in(kind, &self.followed, names)
    }

    /// What marks never came to, in a kind of comparison.
    pub fn missing_marks(&self, kind: &'static str, names: &[&'static str]) -> Vec<String> {
        uncounted_in(kind, &self.marks, names)
    }

    /// What saving a chart never came to, in a kind of comparison.
    pub fn missing_saved(&self, kind: &'static str, names: &[Saved]) -> Vec<String> {
        uncounted_in(kind, &self.saved, names)
    }
}
