//! An input on which the library and the reference differ.

use crate::hex;
use std::fmt;

/// Bytes of an input's part that are shown: all of a chart's image.
const SHOWN: usize = 1_349;

/// Bytes that are shown in hexadecimal.
#[derive(PartialEq, Eq)]
pub struct Hex<'a>(pub &'a [u8]);

impl fmt::Debug for Hex<'_> {
    fn fmt(&self, f: &mut fmt::Formatter<'_>) -> fmt::Result {
        write!(f, "[{}]", hex::write(self.0))
    }
}

/// One point on which both sides were asked, and what each said.
#[derive(Clone, Debug, PartialEq, Eq)]
pub struct Both {
    pub point: &'static str,
    pub proved: String,
    pub reference: String,
}

/// Both sides' answers are the same, or the difference.
pub fn same<T: PartialEq + fmt::Debug>(
    point: &'static str,
    proved: T,
    reference: T,
) -> Result<(), Both> {
    if proved == reference {
        return Ok(());
    }
    Err(Both {
        point,
        proved: format!("{proved:?}"),
        reference: format!("{reference:?}"),
    })
}

/// A shrunk input with both answers.
#[derive(Clone, Debug)]
pub struct Difference {
    pub kind: &'static str,
    /// The seed and the input's number; none for a fixed input.
    pub origin: Option<(u64, u64)>,
    /// The input's two parts, with their names.
    pub parts: [(&'static str, Vec<u8>); 2],
    pub both: Both,
}

impl Difference {
    pub fn numbered(mut self, seed: u64, input: u64) -> Difference {
        self.origin = Some((seed, input));
        self
    }
}

impl fmt::Display for Difference {
    fn fmt(&self, f: &mut fmt::Formatter<'_>) -> fmt::Result {
        write!(f, "difference in {}, {}", self.kind, self.both.point)?;
        match self.origin {
            Some((seed, input)) => writeln!(f, " (seed {seed}, input {input}, shrunk)")?,
            None => writeln!(f, " (a fixed input)")?,
        }
        for (name, bytes) in &self.parts {
            let (first, dots) = match bytes.get(..SHOWN) {
                Some(first) => (first, " .."),
                None => (&bytes[..], ""),
            };
            let length = bytes.len();
            writeln!(f, "  {name}, {length} bytes: {}{dots}", hex::write(first))?;
        }
        writeln!(f, "  proved:    {}", self.both.proved)?;
        write!(f, "  reference: {}", self.both.reference)
    }
}
