//! The leaf functions on one loop against the Rust.

use crate::compared;
use crate::items::H;
use crate::original::{
    Domain, Interval, Vec2, mean_v, nearest_branch, net_wrap, signed_area, span,
};
use crate::patterns::{few_edges, number};
use crate::random::Random;
use crate::report::Run;

const CASES: u64 = 400_000;
const TURN: f64 = 4.0 * H;

pub fn compare(run: &Run) {
    branches(run);
    wraps(run);
    areas(run);
    means(run);
    spans(run);
}

fn branches(run: &Run) {
    let mut check = run.check("nearest_branch");
    let edges = few_edges();
    for value in &edges {
        for reference in &edges {
            for period in [TURN, 4.0, 0.0, -1.0, f64::NAN, f64::INFINITY] {
                let given = [*value, *reference, period];
                check.edge(&given, &[branch(&given)], &[rust_branch(&given)]);
            }
        }
    }
    for _ in 0..run.times * CASES {
        let random = &mut check.random;
        let reference = parameter(random);
        // Often half a period away, where the rounding decides.
        let halves = random.below(41) as f64 - 20.0;
        let value = match random.below(4) {
            0 => random.near(reference + halves * 0.5 * TURN, 2),
            1 => number(random),
            _ => parameter(random),
        };
        let given = [value, reference, TURN];
        check.case(&given, &[branch(&given)], &[rust_branch(&given)]);
    }
    check.done();
}

fn branch(given: &[f64; 3]) -> f64 {
    compared::nearest_branch(given[0], given[1], given[2])
}

fn rust_branch(given: &[f64; 3]) -> f64 {
    nearest_branch(given[0], given[1], given[2])
}

fn wraps(run: &Run) {
    let mut check = run.check("net_wrap");
    for n in 0..2 {
        check.edge(&[], &[wrap(&vec![1.0; n], TURN)], &[rust_wrap(&vec![1.0; n], TURN)]);
    }
    for _ in 0..run.times * CASES {
        let random = &mut check.random;
        let period = random.choose(&[TURN, TURN, TURN, 4.0, 0.0]);
        let first = parameter(random);
        // Often about 0.15 off a whole number of turns, where a wrap ends.
        let turns = random.below(13) as f64 - 6.0;
        let off = random.choose(&[0.0, 0.15, -0.15, 0.5, -0.5]);
        let last = match random.below(4) {
            0 => number(random),
            1 => parameter(random),
            _ => random.near(first + (turns + off) * TURN, 4),
        };
        let mut u = reals(random);
        u.insert(0, first);
        u.push(last);
        check.case(&[first, last, period], &[wrap(&u, period)], &[rust_wrap(&u, period)]);
    }
    check.done();
}

fn wrap(u: &[f64], period: f64) -> f64 {
    f64::from(compared::net_wrap(&rows(u, &[]), period))
}

/// The Rust has no period where the port has the period 0.
fn rust_wrap(u: &[f64], period: f64) -> f64 {
    let any = Interval::new(0.0, 1.0);
    let u_period = (period != 0.0).then_some(period);
    f64::from(net_wrap(&pairs(u, u), &Domain { u: any, v: any, u_period, v_period: None }))
}

fn areas(run: &Run) {
    let mut check = run.check("signed_area");
    for _ in 0..run.times * CASES {
        let u = reals(&mut check.random);
        let v: Vec<f64> = u.iter().map(|_| parameter(&mut check.random)).collect();
        let rust = signed_area(&pairs(&u, &v));
        check.case(&[&u[..], &v].concat(), &[compared::signed_area(&rows(&u, &v))], &[rust]);
    }
    check.done();
}

fn means(run: &Run) {
    let mut check = run.check("mean_v");
    for _ in 0..run.times * CASES {
        let v = reals(&mut check.random);
        check.case(
            &v,
            &[compared::mean_v(&rows(&vec![f64::NAN; v.len()], &v))],
            &[mean_v(&pairs(&v, &v))],
        );
    }
    check.done();
}

/// The least and the greatest, whose first of equals shows in the sign of a zero.
fn spans(run: &Run) {
    let mut check = run.check("least and greatest");
    for _ in 0..run.times * CASES {
        let xs = reals(&mut check.random);
        let (lo, hi) = span(xs.iter().copied());
        check.case(&xs, &[compared::least(&rows(&xs, &[])), compared::greatest(&rows(&xs, &[]))], &[lo, hi]);
    }
    check.done();
}

/// A list of reals: parameters, zeros of both signs, or any patterns; at times none or many.
fn reals(random: &mut Random) -> Vec<f64> {
    let n = match random.below(64) {
        0 => random.below(600),
        _ => random.below(9),
    };
    let kind = random.below(4);
    let one = |random: &mut Random| match kind {
        0 => number(random),
        1 => random.choose(&[0.0, -0.0, 1.0, -1.0]),
        _ => parameter(random),
    };
    (0..n).map(|_| one(random)).collect()
}

/// A parameter of a face: of any size up to 10^6, and often a part of a turn.
fn parameter(random: &mut Random) -> f64 {
    let size = match random.below(4) {
        0 => random.below(33) as f64 * 0.25 * TURN,
        1 => random.scaled(1e-12, 1e6),
        _ => random.between(0.0, 64.0),
    };
    random.signed(size)
}

fn pairs(u: &[f64], v: &[f64]) -> Vec<Vec2> {
    u.iter().zip(v).map(|(u, v)| Vec2::new(*u, *v)).collect()
}

/// A table of these u, and v as far as there are any. What is not asked for is a NaN, which an answer
/// that takes it in would show, and so is what at times stands behind the last row.
fn rows(u: &[f64], v: &[f64]) -> Vec<f64> {
    let nan = f64::NAN;
    let v = v.iter().copied().chain(std::iter::repeat(nan));
    let mut out: Vec<f64> = u.iter().zip(v).flat_map(|(u, v)| [*u, v, nan, nan, nan]).collect();
    out.resize(out.len() + u.len() % 5, nan);
    out
}
