//! A list of feeds (W10) as stretches: where each one ends (W14), how (W17 to W20), and which
//! record two of them share (W31).

use super::rows::{Rows, Stretch};
use crate::log::Verdict;
use crate::value::*;
use std::collections::BTreeSet;

/// A stretch that ended.
#[derive(Clone, Copy, Debug, PartialEq, Eq)]
pub struct Ended {
    pub opening: u32,
    /// Its first and its last record, counted from 1 among the accepted ones.
    pub records: (u32, u32),
    /// Kept, dropped or broken.
    pub how: Answer,
}

/// What a list of feeds means.
#[derive(Clone, Debug, PartialEq, Eq)]
pub struct Meaning {
    /// The answer of every feed, refused ones included.
    pub answers: Vec<Answer>,
    pub accepted: u32,
    /// The stretches that ended, from the left. Two may share a record (W31).
    pub ended: Vec<Ended>,
    /// How many of them were kept and dropped (W26).
    pub kept: u32,
    pub dropped: u32,
    pub broken: Option<Break>,
    /// The last accepted record's time, or 0.
    pub now: u32,
    /// The cut: the regions (from 0) in the row of a last stretch that has no end (W28), or
    /// those left by the broken one (T24, T25).
    pub cut: BTreeSet<usize>,
    /// Each clock's last reset in that cut, or the opening.
    pub resets: Vec<u32>,
    /// How the chart stands after the list (J8, J13), by that row.
    pub standing: u8,
}

impl Meaning {
    /// The verdict after the list.
    pub fn verdict(&self) -> Verdict {
        Verdict {
            standing: self.standing,
            kept: self.kept,
            dropped: self.dropped,
            records: self.accepted,
            broken: self.broken,
        }
    }

    /// The monitor after the list.
    pub fn monitor(&self) -> MonitorValue {
        let mut resets = [0; MAX_CLOCKS];
        resets[..self.resets.len()].copy_from_slice(&self.resets);
        let (break_record, reason, cause) = Break::numbers(self.broken);
        MonitorValue {
            fired: self.cut.iter().map(|region| 1 << region).sum(),
            resets,
            now: self.now,
            records: self.accepted,
            kept: self.kept,
            dropped: self.dropped,
            break_record,
            reason,
            cause,
        }
    }
}

/// The cutting of a list, so far.
struct Cutting<'a> {
    rows: &'a Rows<'a>,
    accepted: u32,
    ended: Vec<Ended>,
    broken: Option<Break>,
    now: u32,
    /// The last stretch: its opening, its records, and its row up to the last of them.
    opening: u32,
    records: Vec<RecordValue>,
    row: Vec<usize>,
}

impl Rows<'_> {
    /// The meaning of a list of feeds, the first with a fresh monitor.
    pub fn meaning(&self, feeds: &[RecordValue]) -> Meaning {
        let mut cutting = Cutting::of(self);
        let answers = feeds.iter().map(|record| cutting.feed(*record)).collect();
        Meaning {
            answers,
            accepted: cutting.accepted,
            kept: cutting.count(|how| *how == Answer::Kept),
            dropped: cutting.count(|how| matches!(how, Answer::Dropped(_))),
            broken: cutting.broken,
            now: cutting.now,
            resets: cutting.resets(),
            standing: cutting.standing(),
            ended: cutting.ended,
            cut: cutting.row.into_iter().collect(),
        }
    }
}

impl<'a> Cutting<'a> {
    /// The first stretch, without a record so far (W13).
    fn of(rows: &'a Rows<'a>) -> Cutting<'a> {
        let cutting = Cutting {
            rows,
            accepted: 0,
            ended: Vec::new(),
            broken: None,
            now: 0,
            opening: 0,
            records: Vec::new(),
            row: Vec::new(),
        };
        let row = rows.lawful_row(cutting.stretch(), false);
        assert_eq!(row, Some(&[][..]), "the empty stretch's row is empty");
        cutting
    }

    fn stretch(&self) -> Stretch<'_> {
        Stretch {
            records: &self.records,
            opening: self.opening,
        }
    }

    /// The answer for the next record.
    fn feed(&mut self, record: RecordValue) -> Answer {
        // W25 for a record that W11 and W12 do not accept.
        if let Some(known) = self.broken {
            return Answer::Broken(known);
        }
        if record.time() < self.now {
            return Answer::Refused(22);
        }
        if self.accepted == MAX_RECORDS {
            return Answer::Refused(23);
        }
        self.accepted += 1;
        self.now = record.time();
        // W31: the stretch ends dropped, and the next one starts with the same record.
        if self.is_missed(record) && self.fits(record) {
            self.records.push(record);
            self.close(Answer::Dropped(Cause::NONE));
        }
        self.grow(record)
    }

    /// Whether the record finds no region in a prechart under way (W31): the row so far has some
    /// region and lacks one of the prechart, and no row has the record too, even if conditions at
    /// the record are waived.
    fn is_missed(&self, record: RecordValue) -> bool {
        let mut records = self.records.clone();
        records.push(record);
        let longer = Stretch {
            records: &records,
            opening: self.opening,
        };
        !self.row.is_empty()
            && !self.rows.has_prechart(&self.row)
            && self.rows.lawful_row(longer, true).is_none()
    }

    /// Whether a new stretch can start with the record (W31): for that record alone, opened at
    /// its time, there is a row if its conditions are waived.
    fn fits(&self, record: RecordValue) -> bool {
        let alone = Stretch {
            records: &[record],
            opening: record.time(),
        };
        self.rows.is_chart_message(&record) && self.rows.lawful_row(alone, true).is_some()
    }

    /// The answer for an accepted record that the last stretch takes.
    fn grow(&mut self, record: RecordValue) -> Answer {
        self.records.push(record);
        // W14.
        let rows = self.rows;
        match rows.lawful_row(self.stretch(), false) {
            Some(row) if row.len() < rows.count() => self.run_on(row),
            // W17.
            Some(_) => self.close(Answer::Kept),
            None => self.end_without_row(),
        }
    }

    /// W23: the stretch does not end here.
    fn run_on(&mut self, row: &[usize]) -> Answer {
        let before = std::mem::replace(&mut self.row, row.to_vec());
        if self.rows.has_prechart(row) && !self.rows.has_prechart(&before) {
            Answer::Entered
        } else if row != before {
            Answer::Moved
        } else {
            Answer::Quiet
        }
    }

    /// W18: a row is looked for once more.
    fn end_without_row(&mut self) -> Answer {
        let rows = self.rows;
        let Some(row) = rows.lawful_row(self.stretch(), true) else {
            // W19: the row without the last record decides.
            return if rows.has_prechart(&self.row) {
                self.break_off(self.row.clone(), Reason::NoReadyRegion, Cause::NONE)
            } else {
                self.close(Answer::Dropped(Cause::NONE))
            };
        };
        // W20.
        let laid = rows.lay(row, self.stretch()).expect("a lawful row");
        let (failing, term) = (0..row.len())
            .find_map(|place| Some((place, laid.failing_term(place)?)))
            .expect("the row is not lawful without sparing");
        let cause = Cause::at(row[failing], term);
        if laid.region(failing).hot {
            self.break_off(row[..failing].to_vec(), Reason::ConditionFails, cause)
        } else {
            self.close(Answer::Dropped(cause))
        }
    }

    /// The last stretch is kept or dropped, and another opens (W15).
    fn close(&mut self, how: Answer) -> Answer {
        self.end(how);
        self.opening = self.now;
        self.records.clear();
        self.row.clear();
        how
    }

    /// The last stretch ends, with the record accepted last.
    fn end(&mut self, how: Answer) {
        let before = self.accepted - self.records.len() as u32;
        self.ended.push(Ended {
            opening: self.opening,
            records: (before + 1, self.accepted),
            how,
        });
    }

    /// How many stretches ended in such a way.
    fn count(&self, how: impl Fn(&Answer) -> bool) -> u32 {
        self.ended.iter().filter(|ended| how(&ended.how)).count() as u32
    }

    /// W27. The row is what stays fired: T24 for reason 1, T25 for reason 2.
    fn break_off(&mut self, row: Vec<usize>, reason: Reason, cause: Cause) -> Answer {
        let known = Break {
            record: self.accepted,
            reason,
            cause,
        };
        self.end(Answer::Broken(known));
        self.broken = Some(known);
        self.row = row;
        Answer::Broken(known)
    }

    /// J8: without a break, what the last stretch's row has decides.
    fn standing(&self) -> u8 {
        match self.broken {
            Some(_) => 3,
            None if self.row.is_empty() => 0,
            None if !self.rows.has_prechart(&self.row) => 1,
            None if self.rows.may_rest(&self.row) => 4,
            None => 2,
        }
    }

    /// The reset moments that the last stretch's row leaves.
    fn resets(&self) -> Vec<u32> {
        let laid = self.rows.lay(&self.row, self.stretch());
        let laid = laid.expect("a lawful row, or the first part of one");
        (0..self.rows.clocks())
            .map(|clock| laid.last_reset(self.row.len(), clock))
            .collect()
    }
}
