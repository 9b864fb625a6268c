//! A monitor that takes one record at a time.

use crate::call::{self, LOG_PLACES, PREVIEW_ROOM, VERDICT_PLACES};
use crate::following::{FedLog, LogKind};
use crate::values::{Answer, Cause, FeedRefusal, Foreseen, Reason, Refusal, Verdict};

/// A monitor with its chart, in bytes of its own that can be stored and taken up again.
///
/// The bytes always hold a live monitor that is fit: [`open`](LiveMonitor::open) makes
/// one, [`from_bytes`](LiveMonitor::from_bytes) lets in no other, and feeding keeps it so.
#[derive(Clone, Debug, PartialEq, Eq)]
pub struct LiveMonitor {
    bytes: Vec<u8>,
}

impl LiveMonitor {
    /// A fresh monitor of the chart, or the chart's refusal.
    pub fn open(chart: &[u8]) -> Result<LiveMonitor, Refusal> {
        let mut bytes = vec![0; call::live_size(chart.len())];
        let mut at = 0;
        match call::open(chart, &mut bytes, &mut at) {
            0 => Ok(LiveMonitor { bytes }),
            number => Err(Refusal::of_chart(number, at)),
        }
    }

    /// Takes up a monitor from the bytes of an earlier one. Refused with 20 or 21 if they
    /// hold no live monitor, or an unfit one. Bytes after the chart are kept and not read.
    pub fn from_bytes(bytes: Vec<u8>) -> Result<LiveMonitor, FeedRefusal> {
        match call::standing(&bytes, &mut [0; VERDICT_PLACES]) {
            0 => Ok(LiveMonitor { bytes }),
            number => Err(FeedRefusal::of(number)),
        }
    }

    /// The bytes: the monitor's image (59), the chart's length (8), the chart; numbers most
    /// significant byte first.
    pub fn as_bytes(&self) -> &[u8] {
        &self.bytes
    }

    /// The bytes, given away.
    pub fn into_bytes(self) -> Vec<u8> {
        self.bytes
    }

    /// Feeds a message. A refusal (22, 23) changes nothing, nor does feeding after a break: the
    /// answer is then [`Answer::Broken`] each time.
    ///
    /// A message out of order in an unfinished prechart drops the round. If a round can start
    /// with it, it is offered once more, to the round that opens then with all clocks at zero,
    /// and the answer is what it did there.
    pub fn feed_message(
        &mut self,
        source: u8,
        destination: u8,
        label: u16,
        time: u32,
    ) -> Result<Answer, FeedRefusal> {
        let number = call::feed_message(&mut self.bytes, source, destination, label, time);
        self.answer(number)
    }

    /// Feeds a message as [`feed_message`](LiveMonitor::feed_message) does. With
    /// [`Answer::Broken`] and [`Answer::Dropped`] comes the cause, if a condition decided.
    pub fn feed_message_why(
        &mut self,
        source: u8,
        destination: u8,
        label: u16,
        time: u32,
    ) -> Result<(Answer, Option<Cause>), FeedRefusal> {
        let (mut region, mut term) = (0, 0);
        let number = call::feed_message_why(
            &mut self.bytes,
            source,
            destination,
            label,
            time,
            &mut region,
            &mut term,
        );
        Ok((self.answer(number)?, Cause::of(region, term)))
    }

    /// Feeds a record of time. Refusals as for a message.
    pub fn feed_time(&mut self, time: u32) -> Result<Answer, FeedRefusal> {
        let number = call::feed_time(&mut self.bytes, time);
        self.answer(number)
    }

    /// Feeds the records that stand in some bytes of a log, from the left: up to their end, to a
    /// break, or to a record that is cut short or refused. Every record up to there is taken, and
    /// none behind. The chart is read once for all of them.
    ///
    /// A host that follows a log hands over whatever has come, cut anywhere. It keeps the bytes
    /// from the place on for the next call, and the kind, which is [`LogKind::NoRecord`] at the
    /// start. Cut so or in one piece, the same log gives the same monitor.
    ///
    /// A raw record is fed at the monitor's last moment and the difference from the stamp before,
    /// the first of a log at moment 0.
    ///
    /// ```
    /// use lsc::{LiveMonitor, LogKind, LogRefusal, Refusal, Stop};
    ///
    /// # let chart = lsc_reference::examples::CHART_U;
    /// # let log = [
    /// #     1, 0, 1, 0, 1, 0, 0, 0, 100, 1, 2, 3, 0, 3, 0, 0, 0, 120, 1, 1, 0, 0, 2, 0, 0, 0, 140,
    /// # ];
    /// // A log of three records, 9 bytes each, that comes in pieces of 4 bytes.
    /// let mut monitor = LiveMonitor::open(&chart)?;
    /// let (mut kind, mut waiting) = (LogKind::default(), Vec::new());
    /// let (mut taken, mut kept) = (0, 0);
    /// for piece in log.chunks(4) {
    ///     waiting.extend(piece);
    ///     let fed = monitor.feed_log(&mut kind, &waiting);
    ///     waiting.drain(..fed.place);
    ///     taken += fed.taken;
    ///     kept += fed.counts.kept;
    ///     match fed.stop {
    ///         Stop::End | Stop::MoreToCome => {}
    ///         Stop::Broken | Stop::Refused(_) => break,
    ///     }
    /// }
    /// assert_eq!((taken, kept, waiting.len()), (3, 1, 0));
    ///
    /// // The same bytes in one piece, and a byte that starts no record.
    /// let (mut again, mut kind) = (LiveMonitor::open(&chart)?, LogKind::default());
    /// let fed = again.feed_log(&mut kind, &[&log[..], &[9]].concat());
    /// assert_eq!((fed.taken, fed.place), (3, 27));
    /// assert_eq!(fed.stop, Stop::Refused(LogRefusal::UnknownByte));
    /// assert_eq!((again, kind), (monitor, LogKind::Plain));
    /// # Ok::<(), Refusal>(())
    /// ```
    pub fn feed_log(&mut self, kind: &mut LogKind, log: &[u8]) -> FedLog {
        let mut bytes = kind.to_bytes();
        let mut out = [0; LOG_PLACES];
        let number = call::feed_log(&mut self.bytes, &mut bytes, log, &mut out);
        debug_assert!(!matches!(number, 12 | 20 | 21), "the bytes are fit");
        *kind = LogKind::from_bytes(bytes).unwrap_or_default();
        FedLog::of(number, &out, self.answer(out[2] as u8).ok())
    }

    /// How the chart stands after the records fed so far.
    pub fn standing(&self) -> Verdict {
        Verdict::of(&self.verdict())
    }

    /// What each message of the chart would do at a moment, for instance to grey out the buttons
    /// that would break it. Nothing changes.
    ///
    /// There is one entry for each of the chart's regions, in the order of its bytes: none for a
    /// plain region, else the answer that [`feed_message`](LiveMonitor::feed_message) would give
    /// to the region's message at this time. So regions with one message have equal entries,
    /// whichever of them would fire.
    ///
    /// Refused as feeding is: with 22 if the time is less than now, with 23 after 1,000,000
    /// records. After a break nothing is refused, and each message shows [`Foreseen::Broken`].
    pub fn preview(&self, time: u32) -> Result<Vec<Option<Foreseen>>, FeedRefusal> {
        let (mut out, mut regions) = ([0; PREVIEW_ROOM], 0);
        match call::preview(&self.bytes, time, &mut out, &mut regions) {
            0 => {
                let shown = out.iter().take(regions as usize);
                Ok(shown.map(|&byte| Foreseen::of(byte)).collect())
            }
            number => Err(FeedRefusal::of(number)),
        }
    }

    /// The eight numbers of the verdict so far.
    fn verdict(&self) -> [u64; VERDICT_PLACES] {
        let mut out = [0; VERDICT_PLACES];
        let number = call::standing(&self.bytes, &mut out);
        debug_assert_eq!(number, 0, "the bytes hold a fit live monitor");
        out
    }

    /// The answer of a number; the library is asked for the break.
    fn answer(&self, number: u8) -> Result<Answer, FeedRefusal> {
        match number {
            1 => {
                let [.., record, reason, _, _] = self.verdict();
                Ok(Answer::Broken {
                    record: record as u32,
                    reason: Reason::of(reason),
                })
            }
            2 => Ok(Answer::Kept),
            3 => Ok(Answer::Dropped),
            4 => Ok(Answer::Entered),
            5 => Ok(Answer::Moved),
            6 => Ok(Answer::Quiet),
            refused => Err(FeedRefusal::of(refused)),
        }
    }
}
