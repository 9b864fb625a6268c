//! A second implementation of the rules (`docs/RULES.md`), to be compared with the proved one:
//! it shares no code with the crates.
//!
//! `command` and `reader` read charts (B, R), `writer` saves them (D), `well_formed` has refusal
//! 20 (M4), `monitor` takes records (O, M, T), `preview` says what it would answer (F), `record`
//! has those of a log, plain and raw (L), `log` reads and judges logs (E, J) and asks whether they
//! break a chart (K), `live` has a monitor and its chart as bytes (V1), `feed_log` feeds such bytes
//! from a log (V22), `print` makes the printed text (P). `declarative` decides the same by trying
//! every row (W). `examples` has chart U and logs over it (X).
#![forbid(unsafe_code)]

pub mod command;
pub mod declarative;
pub mod examples;
pub mod feed_log;
pub mod live;
pub mod log;
pub mod monitor;
pub mod preview;
pub mod print;
pub mod reader;
pub mod record;
pub mod value;
pub mod well_formed;
pub mod writer;
