//! The whole path against the Rust: the boundary of a surface that no loop trims.

use crate::compared::{full_domain_count, full_domain_loop, rows};
use crate::original;
use crate::report::{Check, Run};
use crate::shapes::{KINDS, Kind, Shape, at_limits, shape};

const CASES: u64 = 25_000;

/// What lent places hold before a call; no corner is so far away.
const UNTOUCHED: f64 = 1e300;

pub fn compare(run: &Run) {
    let mut check = run.check("full_domain_loop");
    for shape in KINDS.into_iter().flat_map(at_limits) {
        boundary(&mut check, true, &shape);
    }
    for i in 0..run.times * CASES {
        let random = &mut check.random;
        // The other kinds have no boundary, so they are few.
        let kind = match i % 16 {
            0 => random.choose(&KINDS),
            _ => random.choose(&[Kind::Sphere, Kind::Torus]),
        };
        let shape = shape(random, kind);
        boundary(&mut check, false, &shape);
    }
    check.done();
}

/// The corners with the area and the count, and what is left of the lent places.
fn boundary(check: &mut Check, edge: bool, shape: &Shape) {
    let (area, corners) = rust_boundary(shape);
    let n = corners.len();
    let count = full_domain_count(&shape.numbered(), &shape.tolerances());
    check.see(edge, &shape.reals(), &[count as f64], &[(n / 5) as f64]);

    // Reals behind the last row, or a row more and some behind it.
    let lent = vec![UNTOUCHED; n + check.random.choose(&[0, 1, 7])];
    let expected = [&corners[..], &lent[n..]].concat();
    see_lent(check, edge, shape, lent.clone(), (area, expected));

    if n > 0 {
        let few = lent[..n - 1 - check.random.below(5) as usize].to_vec();
        see_lent(check, edge, shape, few.clone(), (0.0, few));
    }
}

/// Compares the area and all lent places, after a call that was lent `lent`.
fn see_lent(
    check: &mut Check,
    edge: bool,
    shape: &Shape,
    mut lent: Vec<f64>,
    (area, expected): (f64, Vec<f64>),
) {
    let given = [shape.reals(), vec![lent.len() as f64]].concat();
    let answer =
        full_domain_loop(&shape.numbered(), shape.placed(), &shape.tolerances(), &mut lent);
    let all = |area, list: Vec<f64>| [vec![area], list].concat();
    check.see(edge, &given, &all(answer, lent), &all(area, expected));
}

/// The area, and the corners, a row each. Where the Rust has no boundary there are none.
fn rust_boundary(shape: &Shape) -> (f64, Vec<f64>) {
    let surface = shape.surface();
    match original::full_domain_loop(&surface, &surface.domain(), &shape.resolved()) {
        Err(_) => (0.0, Vec::new()),
        Ok(outer) => (outer.area, rows(&outer.uv, &outer.xyz)),
    }
}
