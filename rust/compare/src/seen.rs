//! What a run has reached: refusals, answers, standings and terms that the library gave, second
//! offers in each kind of comparison, monitors at the limits of M10, what plain and raw logs came
//! to, single records, whether logs break their charts, what previews came to, logs that are
//! followed, saved charts, and marks to rest on.

use crate::asked::{ASKED, ASKED_BYTES, ASKED_VALUES};
use crate::coverage::{Counts, Coverage, ANSWERS, DECIDED_TERMS, OFFERS, REFUSALS, STANDINGS};
use crate::fitness::{FIT, UNFIT};
use crate::followed::{self, FOLLOWED, PARTED, REFUSED, STOPPED};
use crate::kinds::{taking, LIVE, LIVE_BYTES, MARKS, READS, ROWS, VALUES};
use crate::kinds::{BREAKS, BREAKS_IMAGE, JUDGE, PREVIEW, PRINT, SAVE, SAVE_IMAGE};
use crate::kinds::{FEED_LOG, FEED_LOG_PARTS};
use crate::outcomes::{FULL_OUTCOMES, OUTCOMES};
use crate::previewed::{shorts, PREVIEWED};
use crate::rested::{MARKED_IMAGES, MISPLACED, STANDS, WITHOUT};
use crate::saved::{SAVED, SAVED_BYTES, SAVED_VALUES};
use std::fmt;

/// A buffer too short (N9); `REFUSALS` has all the others.
pub const SHORT: u8 = 12;

/// What marks to rest on must come to, in these kinds of comparison.
const MARKED: [(&[&str], &[&str]); 4] = [
    (&[JUDGE, PRINT, LIVE, LIVE_BYTES, ROWS], &STANDS),
    (&[JUDGE, PRINT, LIVE, BREAKS, SAVE], &MISPLACED),
    (&[VALUES, BREAKS_IMAGE, SAVE_IMAGE], &MARKED_IMAGES),
    (&[MARKS], &WITHOUT),
];

/// Counts of what the library answered.
#[derive(Clone, Debug, Default)]
pub struct Seen {
    pub coverage: Coverage,
    inputs: Counts<&'static str>,
}

impl Seen {
    /// Counts an input of a kind.
    pub fn input(&mut self, kind: &'static str) {
        *self.inputs.entry(kind).or_default() += 1;
    }

    /// How many inputs were compared.
    pub fn inputs(&self) -> u64 {
        self.inputs.values().sum()
    }

    /// What must be reached and was not.
    pub fn missing(&self) -> Vec<String> {
        let mut missing = self.coverage.missing();
        if !self.coverage.refusals.contains_key(&SHORT) {
            missing.push(format!("refusal {SHORT}"));
        }
        missing.extend(self.coverage.missing_offers(&taking()));
        for kind in [JUDGE, PRINT] {
            missing.extend(self.coverage.missing_logs(kind, &OUTCOMES));
        }
        missing.extend(self.coverage.missing_logs(JUDGE, &FULL_OUTCOMES));
        missing.extend(self.coverage.missing_reads(&READS));
        for kind in [BREAKS, BREAKS_IMAGE] {
            missing.extend(self.coverage.missing_asked(kind, &ASKED));
        }
        missing.extend(self.coverage.missing_asked(BREAKS, &ASKED_BYTES));
        missing.extend(self.coverage.missing_asked(BREAKS_IMAGE, &ASKED_VALUES));
        missing.extend(self.coverage.missing_previewed(PREVIEW, &PREVIEWED));
        missing.extend(self.coverage.missing_previewed(PREVIEW, &shorts()));
        for names in [&STOPPED[..], &FOLLOWED, &REFUSED, &followed::shorts()] {
            missing.extend(self.coverage.missing_followed(FEED_LOG, names));
        }
        missing.extend(self.coverage.missing_followed(FEED_LOG_PARTS, &PARTED));
        for kind in [SAVE, SAVE_IMAGE] {
            missing.extend(self.coverage.missing_saved(kind, &SAVED));
        }
        missing.extend(self.coverage.missing_saved(SAVE, &SAVED_BYTES));
        missing.extend(self.coverage.missing_saved(SAVE_IMAGE, &SAVED_VALUES));
        for (kinds, names) in MARKED {
            for kind in kinds {
                missing.extend(self.coverage.missing_marks(kind, names));
            }
        }
        missing
    }

    /// How much of what must be reached was reached, and how much there is.
    pub fn reached(&self) -> (usize, usize) {
        let all = REFUSALS.len()
            + 1
            + ANSWERS.len()
            + STANDINGS.len()
            + DECIDED_TERMS
            + taking().len() * OFFERS.len()
            + FIT.len()
            + UNFIT.len()
            + 2 * OUTCOMES.len()
            + FULL_OUTCOMES.len()
            + READS.len()
            + 2 * ASKED.len()
            + ASKED_BYTES.len()
            + ASKED_VALUES.len()
            + PREVIEWED.len()
            + shorts().len()
            + STOPPED.len()
            + FOLLOWED.len()
            + REFUSED.len()
            + followed::shorts().len()
            + PARTED.len()
            + 2 * SAVED.len()
            + SAVED_BYTES.len()
            + SAVED_VALUES.len()
            + MARKED
                .map(|(kinds, names)| kinds.len() * names.len())
                .iter()
                .sum::<usize>();
        (all - self.missing().len(), all)
    }
}

/// A table in Markdown.
impl fmt::Display for Seen {
    fn fmt(&self, f: &mut fmt::Formatter<'_>) -> fmt::Result {
        writeln!(f, "| reached | times |\n|---|---:|")?;
        for (kind, times) in &self.inputs {
            writeln!(f, "| inputs: {kind} | {times} |")?;
        }
        for (number, times) in &self.coverage.refusals {
            writeln!(f, "| refusal {number} | {times} |")?;
        }
        for (answer, times) in &self.coverage.answers {
            writeln!(f, "| answer {answer} | {times} |")?;
        }
        for (standing, times) in &self.coverage.standings {
            writeln!(f, "| standing {standing} | {times} |")?;
        }
        for ((decided, term), times) in &self.coverage.terms {
            writeln!(f, "| {decided} by term {term} | {times} |")?;
        }
        for ((kind, offer), times) in &self.coverage.offers {
            writeln!(f, "| second offer {offer}: {kind} | {times} |")?;
        }
        for (name, times) in &self.coverage.fit {
            writeln!(f, "| fit: {name} | {times} |")?;
        }
        for (name, times) in &self.coverage.unfit {
            writeln!(f, "| unfit: {name} | {times} |")?;
        }
        for ((kind, name), times) in &self.coverage.logs {
            writeln!(f, "| {name}: {kind} | {times} |")?;
        }
        for (name, times) in &self.coverage.reads {
            writeln!(f, "| read: {name} | {times} |")?;
        }
        for ((kind, name), times) in &self.coverage.asked {
            writeln!(f, "| {name}: {kind} | {times} |")?;
        }
        for ((kind, name), times) in &self.coverage.previewed {
            writeln!(f, "| {name}: {kind} | {times} |")?;
        }
        for ((kind, name), times) in &self.coverage.followed {
            writeln!(f, "| {name}: {kind} | {times} |")?;
        }
        for ((kind, name), times) in &self.coverage.saved {
            writeln!(f, "| {name}: {kind} | {times} |")?;
        }
        for ((kind, name), times) in &self.coverage.marks {
            writeln!(f, "| {name}: {kind} | {times} |")?;
        }
        Ok(())
    }
}
