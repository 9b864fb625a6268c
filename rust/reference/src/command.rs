//! The commands of B1.

/// A command of a chart's bytes.
#[derive(Clone, Copy, Debug, PartialEq, Eq)]
pub enum Command {
    Heading = 0x10,
    MessageRegion = 0x20,
    PlainRegion = 0x21,
    ClockTerm = 0x30,
    DifferenceTerm = 0x31,
    Hot = 0x32,
    Rest = 0x33,
    Resets = 0x40,
    MainChart = 0x50,
    End = 0x7F,
}

use Command::*;

const ALL: [Command; 10] = [
    Heading,
    MessageRegion,
    PlainRegion,
    ClockTerm,
    DifferenceTerm,
    Hot,
    Rest,
    Resets,
    MainChart,
    End,
];

impl Command {
    /// The command's byte.
    pub fn byte(self) -> u8 {
        self as u8
    }

    /// The command of a byte; none if unknown.
    pub fn of(byte: u8) -> Option<Command> {
        ALL.into_iter().find(|command| command.byte() == byte)
    }

    /// How many operand bytes stand after.
    pub fn operands(self) -> usize {
        match self {
            Heading | PlainRegion => 2,
            MessageRegion => 4,
            ClockTerm => 6,
            DifferenceTerm => 7,
            Resets => 1,
            Hot | Rest | MainChart | End => 0,
        }
    }
}
