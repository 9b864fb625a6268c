//! Times of several things done in turn, so that a slow moment of the machine meets all.

use std::time::Instant;

/// Something to be timed.
pub type Thing<'a> = &'a mut dyn FnMut();

/// The seconds that each thing took in each round. Every round does every thing once, and
/// each starts with another one; a first round is not counted.
pub fn interleaved(rounds: usize, things: &mut [Thing]) -> Vec<Vec<f64>> {
    let mut times = vec![Vec::new(); things.len()];
    for round in 0..=rounds {
        for turn in 0..things.len() {
            let place = (round + turn) % things.len();
            let start = Instant::now();
            things[place]();
            let seconds = start.elapsed().as_secs_f64();
            if round > 0 {
                times[place].push(seconds);
            }
        }
    }
    times
}

/// The median; the mean of the two middle ones for an even number.
pub fn median(numbers: &[f64]) -> f64 {
    let mut sorted = numbers.to_vec();
    sorted.sort_by(f64::total_cmp);
    let middle = sorted.len() / 2;
    match sorted.len() {
        0 => f64::NAN,
        count if count % 2 == 1 => sorted[middle],
        _ => (sorted[middle - 1] + sorted[middle]) / 2.0,
    }
}

/// The ratios of two things, round by round.
pub fn ratios(first: &[f64], second: &[f64]) -> Vec<f64> {
    first.iter().zip(second).map(|(a, b)| a / b).collect()
}

#[cfg(test)]
mod tests {
    use super::*;

    #[test]
    fn medians() {
        assert_eq!(median(&[3.0, 1.0, 2.0]), 2.0);
        assert_eq!(median(&[4.0, 1.0, 2.0, 3.0]), 2.5);
        assert!(median(&[]).is_nan());
        assert_eq!(ratios(&[4.0, 9.0], &[2.0, 3.0]), [2.0, 3.0]);
    }

    #[test]
    fn every_thing_is_done_in_every_round() {
        let (mut a, mut b) = (0, 0);
        let times = interleaved(4, &mut [&mut || a += 1, &mut || b += 1]);
        assert_eq!((a, b), (5, 5));
        assert!(times.iter().all(|rounds| rounds.len() == 4));
    }
}
