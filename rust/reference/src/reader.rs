//! Reading a chart: R1 to R9.

use crate::command::Command::{self, *};
use crate::value::*;

/// A refusal's number and its offset.
type Fault = (u8, usize);

/// What has been read so far.
struct Reading {
    chart: ChartValue,
    headed: bool,
    in_main: bool,
    /// Where this half's latest region starts, until it is closed (R6).
    open: Option<usize>,
}

/// The chart the bytes give, or the refusal (1 to 11 and 13) and its offset. The chart that R3
/// hands out with a refusal is left to the caller: `ChartValue::ZERO`.
pub fn read_chart(bytes: &[u8]) -> Result<ChartValue, Fault> {
    let mut reading = Reading {
        chart: ChartValue::ZERO,
        headed: false,
        in_main: false,
        open: None,
    };
    let mut offset = 0;
    loop {
        let (command, operands) = command_at(bytes, offset)?;
        let after = offset + 1 + operands.len();
        reading.check(command, operands, offset)?;
        if command == End {
            // R4: 11, at the byte that is too many.
            return if after < bytes.len() {
                Err((11, after))
            } else {
                Ok(reading.chart)
            };
        }
        reading.apply(command, operands, offset);
        offset = after;
    }
}

/// The command at an offset, and its operands.
fn command_at(bytes: &[u8], offset: usize) -> Result<(Command, &[u8]), Fault> {
    // R4: 1, nothing is left to read.
    let byte = *bytes.get(offset).ok_or((1, offset))?;
    // R4: 2, a byte that B1 does not have.
    let command = Command::of(byte).ok_or((2, offset))?;
    // R4: 1, fewer bytes are left than the operands take.
    let operands = bytes[offset + 1..].get(..command.operands());
    Ok((command, operands.ok_or((1, offset))?))
}

impl Reading {
    /// A command's faults from 3 to 10, and 13, in the order of R4.
    fn check(&mut self, command: Command, operands: &[u8], offset: usize) -> Result<(), Fault> {
        if self.out_of_place(command) {
            return Err((3, offset));
        }
        // R6, R13: the closed region's 6 and 7 come before all that follows here.
        if matches!(command, MessageRegion | PlainRegion | MainChart | End) {
            self.close()?;
        }
        if !self.in_range(command, operands) {
            return Err((4, offset));
        }
        if self.too_many(command) {
            return Err((5, offset));
        }
        // R4: 8, the region is of the prechart.
        if command == Hot && !self.in_main {
            return Err((8, offset));
        }
        // R4: 13, no region of the prechart is rested on.
        if command == Rest && !self.in_main {
            return Err((13, offset));
        }
        if command == PlainRegion && self.none_above(&plain(operands)) {
            return Err((9, offset));
        }
        // R4: 10, no `50` or no region since.
        let no_main_region = !self.in_main || self.chart.count == self.chart.prechart;
        if command == End && no_main_region {
            return Err((10, offset));
        }
        Ok(())
    }

    /// Whether the command is out of place (R5).
    fn out_of_place(&self, command: Command) -> bool {
        if !self.headed {
            return command != Heading;
        }
        match command {
            Heading => true,
            MainChart => self.in_main,
            ClockTerm | DifferenceTerm => self.open.is_none(),
            Hot => self.open.is_none() || self.last_region().hot,
            Rest => self.open.is_none() || self.last_region().rest,
            Resets => self.open.is_none() || self.last_region().resets != 0,
            MessageRegion | PlainRegion | End => false,
        }
    }

    /// Closes the latest region, if one is open (R6): 6 or 7 at its own offset.
    fn close(&mut self) -> Result<(), Fault> {
        if let Some(offset) = self.open.take() {
            let region = self.last_region();
            let no_term = region.term_count == 0;
            if region.message().is_none() && no_term && region.resets == 0 {
                return Err((6, offset));
            }
            if region.hot && no_term {
                return Err((7, offset));
            }
        }
        Ok(())
    }

    /// Whether every operand is in range (R7).
    fn in_range(&self, command: Command, operands: &[u8]) -> bool {
        let (lines, clocks) = (self.chart.lines, self.chart.clocks);
        match (command, operands) {
            (Heading, [lines, clocks]) => {
                (2..=MAX_LINES).contains(lines) && usize::from(*clocks) <= MAX_CLOCKS
            }
            (MessageRegion, [source, destination, ..]) => {
                *source < lines && *destination < lines && source != destination
            }
            (PlainRegion, set) => is_set_of(u16_of(set), lines),
            (ClockTerm, [clock, relation, ..]) => *clock < clocks && *relation <= 4,
            (DifferenceTerm, [first, second, relation, ..]) => {
                *first < clocks && *second < clocks && first != second && *relation <= 4
            }
            (Resets, [set]) => is_set_of((*set).into(), clocks),
            _ => true,
        }
    }

    /// Whether the chart, or the region, is full already (R4: 5).
    fn too_many(&self, command: Command) -> bool {
        match command {
            MessageRegion | PlainRegion => usize::from(self.chart.count) == MAX_REGIONS,
            ClockTerm | DifferenceTerm => usize::from(self.last_region().term_count) == MAX_TERMS,
            _ => false,
        }
    }

    /// Whether a plain region here has fault 9 (R8). Something above needs something directly
    /// above, and that is an earlier region of the half on a common line.
    fn none_above(&self, event: &EventValue) -> bool {
        let opening_half = !self.in_main || self.chart.prechart == 0;
        // In the opening half every region read so far lies in the same half.
        let earlier = &self.chart.regions[..usize::from(self.chart.count)];
        opening_half
            && !earlier
                .iter()
                .any(|region| region.event.shares_line_with(event))
    }

    /// The command's effect, once nothing is wrong with it.
    fn apply(&mut self, command: Command, operands: &[u8], offset: usize) {
        match command {
            Heading => {
                self.headed = true;
                self.chart.lines = operands[0];
                self.chart.clocks = operands[1];
            }
            MessageRegion => {
                let message = Message::from_bytes(four(operands));
                self.start(EventValue::Message(message), offset);
            }
            PlainRegion => self.start(plain(operands), offset),
            ClockTerm => self.add_term(TermValue {
                left: LeftValue::Clock(operands[0]),
                relation: operands[1],
                n: i32::from_be_bytes(four(&operands[2..])),
            }),
            DifferenceTerm => self.add_term(TermValue {
                left: LeftValue::Difference(operands[0], operands[1]),
                relation: operands[2],
                n: i32::from_be_bytes(four(&operands[3..])),
            }),
            Hot => self.last_region_mut().hot = true,
            Rest => self.last_region_mut().rest = true,
            Resets => self.last_region_mut().resets = operands[0],
            MainChart => {
                self.in_main = true;
                self.chart.prechart = self.chart.count;
            }
            End => {}
        }
    }

    fn start(&mut self, event: EventValue, offset: usize) {
        self.chart.regions[usize::from(self.chart.count)].event = event;
        self.chart.count += 1;
        self.open = Some(offset);
    }

    fn last_region(&self) -> &RegionValue {
        &self.chart.regions[usize::from(self.chart.count) - 1]
    }

    fn last_region_mut(&mut self) -> &mut RegionValue {
        &mut self.chart.regions[usize::from(self.chart.count) - 1]
    }

    fn add_term(&mut self, term: TermValue) {
        let region = self.last_region_mut();
        region.terms[usize::from(region.term_count)] = term;
        region.term_count += 1;
    }
}

/// A plain region's event.
fn plain(operands: &[u8]) -> EventValue {
    EventValue::Plain(u16_of(operands))
}

/// Whether the set is not empty and has none but the first `count` places.
fn is_set_of(set: u16, count: u8) -> bool {
    set != 0 && u32::from(set) < 1 << count
}

fn u16_of(operands: &[u8]) -> u16 {
    u16::from_be_bytes([operands[0], operands[1]])
}

fn four(operands: &[u8]) -> [u8; 4] {
    [operands[0], operands[1], operands[2], operands[3]]
}
