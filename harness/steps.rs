//! Step counts of loops of positions, as document 01 has them: how often one position follows
//! another round a loop, less how often the other follows it. Positions are one where their
//! coordinates are equal as numbers.

use std::collections::HashMap;

pub type Position = [f64; 3];

/// Of two positions, the one with the lesser bits first.
pub type Counts = HashMap<[[u64; 3]; 2], i64>;

/// The step counts round all the loops together, of the pairs that have another than zero.
pub fn step_counts(loops: &[&[Position]]) -> Counts {
    let mut counts = Counts::new();
    for positions in loops {
        let next = positions.iter().cycle().skip(1);
        for (from, to) in positions.iter().zip(next) {
            let [from, to] = [from, to].map(one_zero);
            let (pair, step) = if from < to { ([from, to], 1) } else { ([to, from], -1) };
            if from != to {
                *counts.entry(pair).or_default() += step;
            }
        }
    }
    counts.retain(|_, count| *count != 0);
    counts
}

/// The bits of the coordinates, both zeros as one.
fn one_zero(position: &Position) -> [u64; 3] {
    position.map(|x| (x + 0.0).to_bits())
}

/// Whether the counts are what they should be of a triangle, of a way there and back, of one that
/// stays for a step, of two zeros, and of two loops.
pub fn holds() -> bool {
    let [a, b, c] = [[0.0, 0.0, 0.0], [1.0, 0.0, 0.0], [1.0, 2.0, 0.0]];
    let a_again = [-0.0, 0.0, -0.0];
    let left_over = |positions: &[Position]| step_counts(&[positions]).len();
    left_over(&[a, b, c]) == 3
        && left_over(&[a, b, c, b]) == 0
        && left_over(&[a, b, b, c, b]) == 0
        && left_over(&[a, b, a_again, c]) == 0
        && left_over(&[a, b, c, a_again, b, c]) == 3
        && step_counts(&[&[a, b, c]]) == step_counts(&[&[b, c, a_again]])
        && step_counts(&[&[a, b, c]]) != step_counts(&[&[c, b, a]])
        && step_counts(&[&[a, b, c], &[c, b, a]]).is_empty()
}
