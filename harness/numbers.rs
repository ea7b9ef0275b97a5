//! The layer of numbers: each leaf against the machine's own or against items 1 to 3, and frames
//! against the Rust.

use crate::compared::{self, Placement, Point};
use crate::items::{Order, Real};
use crate::original::{Frame, Vec3};
use crate::patterns::{
    about_square, about_whole, angle, cosine, edges, few_edges, number, power_of_two,
};
use crate::random::Random;
use crate::report::Run;

const MILLION: u64 = 1_000_000;

pub fn compare(run: &Run) {
    unary(run, "round", 2 * MILLION, compared::round, f64::round, about_whole);
    unary(run, "floor", 2 * MILLION, compared::floor, f64::floor, about_whole);
    unary(run, "ceil", 2 * MILLION, compared::ceil, f64::ceil, about_whole);
    unary(run, "abs", 2 * MILLION, compared::abs, f64::abs, about_whole);
    unary(run, "sqrt", 2 * MILLION, compared::sqrt, f64::sqrt, about_square);
    unary(run, "sin", 2 * MILLION, compared::sin, Real::sine, angle);
    unary(run, "cos", 2 * MILLION, compared::cos, Real::cosine, angle);
    unary(run, "tan", 2 * MILLION, compared::tan, Real::tangent, angle);
    unary(run, "acos", MILLION, compared::acos, Real::arc_cosine, cosine);
    binary(run, "min", compared::min, Order::least);
    binary(run, "max", compared::max, Order::greatest);
    frame_new(run);
    polar(run);
}

fn unary(
    run: &Run,
    name: &'static str,
    patterns: u64,
    rattle: extern "C" fn(f64) -> f64,
    rust: fn(f64) -> f64,
    shaped: fn(&mut Random) -> f64,
) {
    let mut check = run.check(name);
    for x in edges() {
        check.edge(&[x], &[rattle(x)], &[rust(x)]);
    }
    for i in 0..run.times * patterns {
        // In turn any bits, and those about the leaf's own edges.
        let x = if i % 2 == 0 { check.random.pattern() } else { shaped(&mut check.random) };
        check.case(&[x], &[rattle(x)], &[rust(x)]);
    }
    check.done();
}

fn binary(
    run: &Run,
    name: &'static str,
    rattle: extern "C" fn(f64, f64) -> f64,
    rust: fn(f64, f64) -> f64,
) {
    let mut check = run.check(name);
    for a in few_edges() {
        for b in few_edges() {
            check.edge(&[a, b], &[rattle(a, b)], &[rust(a, b)]);
        }
    }
    for _ in 0..run.times * MILLION {
        let a = number(&mut check.random);
        let b = match check.random.below(8) {
            0 => a,
            1 => -a,
            2 => check.random.near(a, 1),
            _ => number(&mut check.random),
        };
        check.case(&[a, b], &[rattle(a, b)], &[rust(a, b)]);
    }
    check.done();
}

fn frame_new(run: &Run) {
    let mut check = run.check("Frame::new");
    let directions = edge_directions();
    for axis in &directions {
        for reference in &directions {
            let given = [[1.0, -0.0, 3.0], *axis, *reference].concat();
            let (rattle, rust) = both_frames(&given);
            check.edge(&given, &rattle, &rust);
        }
    }
    for _ in 0..run.times * MILLION {
        let given = placement(&mut check.random);
        let (rattle, rust) = both_frames(&given);
        check.case(&given, &rattle, &rust);
    }
    check.done();
}

fn both_frames(given: &[f64]) -> (Vec<f64>, Vec<f64>) {
    let rattle = compared::frame_new(point(given, 0), point(given, 3), point(given, 6));
    let rust = Frame::new(vec3(given, 0), vec3(given, 3), vec3(given, 6));
    (
        [rattle.origin, rattle.axis, rattle.reference].map(|p| [p.x, p.y, p.z]).concat(),
        [rust.origin, rust.axis, rust.ref_dir].map(|p| [p.x, p.y, p.z]).concat(),
    )
}

/// Directions along and between the axes, of no length, and of lengths about which a direction
/// is too short or too long to be made a unit.
fn edge_directions() -> Vec<[f64; 3]> {
    let mut out = Vec::new();
    let sizes = [0.0, 1e-300, power_of_two(-511), power_of_two(-537), 1.0, 1e9, 1e160, f64::MAX];
    for size in sizes {
        for signs in 0..27 {
            let sign = |n: i32| size * f64::from(signs / n % 3 - 1);
            out.push([sign(1), sign(3), sign(9)]);
        }
    }
    out.push([f64::INFINITY, 0.0, 0.0]);
    out.push([f64::NAN, 0.0, 1.0]);
    out
}

/// An origin, an axis and a reference direction.
fn placement(random: &mut Random) -> Vec<f64> {
    let origin = direction(random);
    let axis = direction(random);
    let other = direction(random);
    let reference = match random.below(4) {
        0 => axis.map(|a| a * other[0]),
        1 => [0, 1, 2].map(|i| axis[i] + other[i] * 1e-16),
        _ => other,
    };
    [origin, axis, reference].concat()
}

fn direction(random: &mut Random) -> [f64; 3] {
    let kind = random.below(8);
    [0, 1, 2].map(|_| {
        let size = match kind {
            0 => return random.pattern(),
            1 => return random.choose(&few_edges()),
            2 => random.choose(&[0.0, 1.0]),
            3 => random.scaled(power_of_two(-540), power_of_two(-500)),
            4 => random.near(power_of_two(-511), 2),
            5 => random.scaled(1e-9, 1e9),
            _ => random.unit(),
        };
        random.signed(size)
    })
}

fn polar(run: &Run) {
    let mut check = run.check("polar");
    for theta in edges() {
        let given = [1.0, 2.0, 3.0, 0.0, 0.6, 0.8, 1.0, 0.0, 0.0, 3.0, theta];
        check.edge(&given, &rattle_polar(&given), &rust_polar(&given));
    }
    for _ in 0..run.times * MILLION {
        let mut given = placement(&mut check.random);
        if !check.random.one_in(8) {
            // A frame as the faces have it, and not any nine numbers.
            given = both_frames(&given).1;
        }
        let r = if check.random.one_in(8) {
            check.random.pattern()
        } else {
            check.random.scaled(1e-6, 1e6)
        };
        given.extend([r, angle(&mut check.random)]);
        check.case(&given, &rattle_polar(&given), &rust_polar(&given));
    }
    check.done();
}

fn rattle_polar(given: &[f64]) -> [f64; 3] {
    let frame =
        Placement { origin: point(given, 0), axis: point(given, 3), reference: point(given, 6) };
    let p = compared::polar(frame, given[9], given[10]);
    [p.x, p.y, p.z]
}

fn rust_polar(given: &[f64]) -> [f64; 3] {
    let frame = Frame { origin: vec3(given, 0), axis: vec3(given, 3), ref_dir: vec3(given, 6) };
    let p = frame.polar(given[9], given[10]);
    [p.x, p.y, p.z]
}

fn point(reals: &[f64], at: usize) -> Point {
    Point { x: reals[at], y: reals[at + 1], z: reals[at + 2] }
}

fn vec3(reals: &[f64], at: usize) -> Vec3 {
    Vec3::new(reals[at], reals[at + 1], reals[at + 2])
}
