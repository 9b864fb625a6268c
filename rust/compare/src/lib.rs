//! The proved library against the reference, input by input.
//!
//! Each kind of comparison makes an input of two byte strings from a seeded generator, gives
//! it to both sides and compares every number and every byte lent. An input that differs is
//! shrunk and shown in hexadecimal with both answers, the seed and the input's number.
//!
//! `random` has the generators, `asked`, `coverage`, `fitness`, `followed`, `outcomes`,
//! `previewed`, `rested`, `saved` and `seen` name and count what was reached, `image` has values in
//! the library's form, and `testing` calls what takes them. `fast` is a judge in Rust that the
//! benchmark runs beside the proved one; the reference is its test too.
#![deny(unsafe_code)]

pub mod asked;
pub mod charts;
pub mod coverage;
pub mod difference;
pub mod fast;
pub mod fitness;
pub mod followed;
pub mod hex;
pub mod image;
pub mod kinds;
pub mod limits;
pub mod measure;
pub mod outcomes;
pub mod plot;
pub mod previewed;
pub mod random;
pub mod rested;
pub mod saved;
pub mod seen;
pub mod testing;

use difference::Difference;
use kinds::{Kind, KINDS};
use random::Rng;
use seen::Seen;

/// Which inputs a run takes: `count` of them from number `first`, all drawn from `seed`.
#[derive(Clone, Copy, Debug)]
pub struct Span {
    pub seed: u64,
    pub first: u64,
    pub count: u64,
}

/// Compares a span of inputs; stops at the first difference. `progress` gets the number
/// of inputs done and what was seen.
pub fn run(
    span: Span,
    seen: &mut Seen,
    progress: &mut dyn FnMut(u64, &Seen),
) -> Result<(), Box<Difference>> {
    for done in 0..span.count {
        let input = span.first + done;
        let mut rng = input_rng(span.seed, input);
        let kind = pick(&mut rng);
        kind.try_one(&mut rng, seen)
            .map_err(|difference| Box::new(difference.numbered(span.seed, input)))?;
        seen.input(kind.name);
        progress(done + 1, seen);
    }
    Ok(())
}

/// The generator of one input, so that it can be made again alone.
fn input_rng(seed: u64, input: u64) -> Rng {
    let start = Rng::new(seed).draw() ^ Rng::new(!input).draw();
    Rng::new(start)
}

fn pick(rng: &mut Rng) -> &'static Kind {
    let total: usize = KINDS.iter().map(|kind| kind.share).sum();
    let mut left = rng.below(total);
    for kind in &KINDS {
        if left < kind.share {
            return kind;
        }
        left -= kind.share;
    }
    &KINDS[0]
}
