//! The layer of surfaces against the Rust: points, domains, step counts and ladders, on random
//! surfaces and on all limits of document 01, "The face record".

use crate::branches::{LADDERS, all_met, face_done, forget};
use crate::compared::{self, Limits};
use crate::items::H;
use crate::original::{Axis, Vec2, direction_steps, merge_even, v_steps};
use crate::report::{Check, Run};
use crate::shapes::{KINDS, Kind, Shape, at_limits, parameter, shape, symmetric};

const CASES: u64 = 400_000;

pub fn compare(run: &Run) {
    points(run);
    domains(run);
    wall_steps(run);
    whole_steps(run);
    ladders(run);
}

/// Compares on shapes at their limits and on random ones; `one` is given whether it is an edge.
fn on_shapes(
    run: &Run,
    name: &'static str,
    kinds: &[Kind],
    one: impl Fn(&mut Check, &Shape, bool),
) {
    let mut check = run.check(name);
    for kind in kinds {
        for shape in at_limits(*kind) {
            one(&mut check, &shape, true);
        }
    }
    for i in 0..run.times * CASES {
        let kind = kinds[(i % kinds.len() as u64) as usize];
        let shape = shape(&mut check.random, kind);
        one(&mut check, &shape, false);
    }
    check.done();
}

/// The parameters to try: every pair of limits, or one random pair.
fn pairs(check: &mut Check, most: [f64; 2], edge: bool) -> Vec<[f64; 2]> {
    if !edge {
        return vec![most.map(|m| parameter(&mut check.random, m))];
    }
    let ends = |m: f64| [-m, -0.0, 0.0, m];
    ends(most[0]).iter().flat_map(|a| ends(most[1]).map(|b| [*a, b])).collect()
}

fn points(run: &Run) {
    on_shapes(run, "point_at", &KINDS, |check, shape, edge| {
        for [u, v] in pairs(check, shape.limits(), edge) {
            let rust = shape.surface().point_at(Vec2::new(u, v));
            let rattle = compared::point_at(&shape.numbered(), shape.placed(), u, v);
            let given = [shape.reals(), vec![u, v]].concat();
            check.see(edge, &given, &[rattle.x, rattle.y, rattle.z], &[rust.x, rust.y, rust.z]);
        }
    });
}

fn domains(run: &Run) {
    on_shapes(run, "domain", &KINDS, |check, shape, edge| {
        let Limits { ulo, uhi, vlo, vhi, uperiod, vperiod } = compared::domain(&shape.numbered());
        let rust = shape.surface().domain();
        // The Rust has no period where the port has the period 0.
        let rust_periods = [rust.u_period, rust.v_period].map(|p| p.unwrap_or(0.0));
        check.see(
            edge,
            &shape.reals(),
            &[ulo, uhi, vlo, vhi, uperiod, vperiod],
            &[&[rust.u.lo, rust.u.hi, rust.v.lo, rust.v.hi][..], &rust_periods].concat(),
        );
    });
}

fn wall_steps(run: &Run) {
    on_shapes(run, "v_steps", &KINDS, |check, shape, edge| {
        for [from, to] in pairs(check, [shape.limits()[1]; 2], edge) {
            // The Rust reads u for free-form kinds alone.
            let rust = v_steps(&shape.surface(), 0.0, from, to, &shape.resolved());
            let rattle = compared::v_steps(&shape.numbered(), from, to, &shape.tolerances());
            let given = [shape.reals(), vec![from, to]].concat();
            check.see(edge, &given, &[rattle as f64], &[rust as f64]);
        }
    });
}

/// Only spheres and tori are asked for them.
fn whole_steps(run: &Run) {
    on_shapes(run, "direction_steps", &[Kind::Sphere, Kind::Torus], |check, shape, edge| {
        let surface = shape.surface();
        let domain = surface.domain();
        let own = [(Axis::U, domain.u, domain.v), (Axis::V, domain.v, domain.u)];
        let mut stretches = own
            .map(|(axis, along, across)| (axis, along.lo, along.hi, 0.5 * (across.lo + across.hi)));
        if !edge {
            for (_, lo, hi, other) in &mut stretches {
                for x in [lo, hi, other] {
                    *x = parameter(&mut check.random, 64.0);
                }
            }
        }
        for (axis, lo, hi, other) in stretches {
            let rust = direction_steps(&surface, &domain, axis, lo, hi, other, &shape.resolved());
            let rattle = compared::direction_steps(
                &shape.numbered(),
                axis == Axis::U,
                [lo, hi, other],
                &shape.tolerances(),
            );
            let given = [shape.reals(), vec![lo, hi, other]].concat();
            check.see(edge, &given, &[rattle as f64], &[rust as f64]);
        }
    });
}

fn ladders(run: &Run) {
    let mut check = run.check("merge_even");
    forget();
    for (lo, hi) in [(0.0, 1.0), (3.0, 3.0), (-0.0, 0.0), (0.0, -0.0), (-1e6, 1e6), (0.0, 1e-320)] {
        for n in [0, 1, 2, 3, 64, 256, 134_300] {
            ladder(&mut check, true, lo, hi, n);
        }
    }
    // The ladders of whole surfaces.
    for n in 0..=256 {
        ladder(&mut check, true, 0.0, 4.0 * H, n);
        ladder(&mut check, true, -H, H, n);
    }
    for i in 0..run.times * CASES {
        let random = &mut check.random;
        let a = if random.one_in(2) { parameter(random, 64.0) } else { symmetric(random, 1e6) };
        let b = match random.below(8) {
            0 => a,
            1 => random.near(a, 4),
            2 => random.near(a, 1 << 24),
            3 => symmetric(random, 1e6),
            _ => parameter(random, 64.0),
        };
        let n = match i % 4096 {
            0 => random.below(134_301),
            1..2048 => random.below(8),
            _ => random.below(300),
        };
        let (lo, hi) = if a <= b { (a, b) } else { (b, a) };
        ladder(&mut check, false, lo, hi, n as usize);
    }
    check.done();
    if !all_met(LADDERS) {
        println!("comparison: the ladders leave a case of the last rung out");
        std::process::exit(1);
    }
}

/// The whole ladder, its end where the bounds differ (02, N2), and its inner rungs.
fn ladder(check: &mut Check, edge: bool, lo: f64, hi: f64, n: usize) {
    let rust = merge_even(&[], lo, hi, n);
    let mut all = vec![f64::NAN; compared::merge_even_steps(lo, hi, n) + 1];
    compared::merge_even(lo, hi, n, 0, &mut all);
    face_done();
    check.see(edge, &[lo, hi, n as f64], &all, &rust);
    if lo != hi {
        check.see(edge, &[lo, hi, n as f64], &all[all.len() - 1..], &[hi]);
    }
    let inner = &rust[1..rust.len().saturating_sub(1).max(1)];
    let mut room = vec![0.0; rust.len()];
    let count = compared::inner_into(lo, hi, n, &mut room);
    check.see(edge, &[lo, hi, n as f64], &room[..count], inner);
}
