//! Random surfaces and tolerances within the limits of document 01, "The face record", and often
//! on them.

use crate::items::H;
use crate::original::{Frame, Resolved, Surface, Vec3};
use crate::random::Random;

/// The kinds by their numbers in a face record.
#[derive(Clone, Copy, PartialEq, Debug)]
pub enum Kind {
    Plane,
    Cylinder,
    Cone,
    Sphere,
    Torus,
}

pub const KINDS: [Kind; 5] = [Kind::Plane, Kind::Cylinder, Kind::Cone, Kind::Sphere, Kind::Torus];

/// What a face record says beside its loops.
#[derive(Clone)]
pub struct Shape {
    pub kind: Kind,
    /// Origin, axis and reference direction, as they are given.
    pub placement: [f64; 9],
    /// Radius or major radius; half angle or minor radius.
    pub sizes: [f64; 2],
    pub sag: f64,
    pub angle: f64,
    pub segments: u64,
}

pub fn shape(random: &mut Random, kind: Kind) -> Shape {
    Shape {
        kind,
        placement: placement(random),
        sizes: sizes(random, kind),
        sag: limited(random, 1e-6, 1e3),
        angle: limited(random, 0.001, 1.5),
        segments: random.choose(&[1, 1, 1, 2, 3, 5, 63, 64]),
    }
}

/// Shapes at every limit of their sizes and tolerances.
pub fn at_limits(kind: Kind) -> Vec<Shape> {
    let radii: &[f64] = match kind {
        Kind::Plane => &[0.0, -0.0],
        Kind::Cone => &[0.0, -0.0, 1e6],
        _ => &[1e-6, 1e6],
    };
    let others: &[f64] = match kind {
        Kind::Cone => &[-1.5, -0.0, 0.0, 1e-12, 1.5],
        Kind::Torus => &[1e-6, 1e6],
        _ => &[0.0],
    };
    let far = 1e9;
    let placements = [
        [0.0, -0.0, 0.0, 0.0, 0.0, 1.0, 1.0, 0.0, 0.0],
        [far, -far, far, far, far, -far, -far, far, far],
        [0.0; 9],
    ];
    let mut out = Vec::new();
    for placement in placements {
        for (radius, other) in radii.iter().flat_map(|r| others.iter().map(|o| (*r, *o))) {
            for (sag, angle) in [(1e-6, 0.001), (1e-6, 1.5), (1e3, 0.001), (1e3, 1.5)] {
                let sizes = [radius, other];
                let one = |segments| Shape { kind, placement, sizes, sag, angle, segments };
                out.extend([one(1), one(64)]);
            }
        }
    }
    out
}

fn sizes(random: &mut Random, kind: Kind) -> [f64; 2] {
    let radius = limited(random, 1e-6, 1e6);
    match kind {
        Kind::Plane => [zero(random), zero(random)],
        Kind::Cylinder | Kind::Sphere => [radius, zero(random)],
        Kind::Cone if random.one_in(8) => [zero(random), half_angle(random)],
        Kind::Cone => [radius, half_angle(random)],
        Kind::Torus => [radius, limited(random, 1e-6, 1e6)],
    }
}

fn half_angle(random: &mut Random) -> f64 {
    symmetric(random, 1.5)
}

/// Either zero: the limits are numbers, so a negative zero passes where 0 is asked for.
fn zero(random: &mut Random) -> f64 {
    random.choose(&[0.0, -0.0])
}

fn placement(random: &mut Random) -> [f64; 9] {
    let mut out = [0.0; 9];
    match random.below(4) {
        // The usual: at a round place, along the axes.
        0 => {
            out[random.below(3) as usize] = random.choose(&[0.0, -0.0, 1.0, 100.0]);
            out[3 + random.below(3) as usize] = random.choose(&[1.0, -1.0]);
            out[6 + random.below(3) as usize] = random.choose(&[1.0, -1.0]);
        }
        1 => out.fill_with(|| symmetric(random, 1e9)),
        _ => {
            for (i, x) in out.iter_mut().enumerate() {
                *x = if i < 3 { symmetric(random, 1e3) } else { symmetric(random, 1.0) };
            }
        }
    }
    out
}

/// From lo to hi, neither below zero: an end, a neighbour of it, evenly, or of any size.
pub fn limited(random: &mut Random, lo: f64, hi: f64) -> f64 {
    match random.below(16) {
        0 => lo,
        1 => hi,
        2 => random.near(lo, 2).max(lo),
        3 => random.near(hi, 2).min(hi),
        4..8 => random.between(lo, hi),
        _ => random.scaled(lo, hi),
    }
}

/// From -most to most: an end, a small whole number or a fraction, evenly, or of any size.
pub fn symmetric(random: &mut Random, most: f64) -> f64 {
    let size = match random.below(8) {
        0 => most,
        1 => random.near(most, 2).min(most),
        2 => (random.below(9) as f64 * 0.25).min(most),
        3 | 4 => random.scaled(1e-12, most),
        _ => random.between(0.0, most),
    };
    random.signed(size)
}

/// A parameter: an angle up to 64 in size, often a part of a turn, or a length up to 10^6.
pub fn parameter(random: &mut Random, most: f64) -> f64 {
    if random.one_in(2) {
        let quarters = random.below(33) as f64 - 16.0;
        return random.near(quarters * 0.5 * H, 1).clamp(-most, most);
    }
    symmetric(random, most)
}

impl Shape {
    /// The largest size of u and of v that a record may give.
    pub fn limits(&self) -> [f64; 2] {
        match self.kind {
            Kind::Plane => [1e6, 1e6],
            Kind::Cylinder | Kind::Cone => [64.0, 1e6],
            Kind::Sphere | Kind::Torus => [64.0, 64.0],
        }
    }

    pub fn frame(&self) -> Frame {
        let [ox, oy, oz, ax, ay, az, rx, ry, rz] = self.placement;
        Frame::new(Vec3::new(ox, oy, oz), Vec3::new(ax, ay, az), Vec3::new(rx, ry, rz))
    }

    pub fn surface(&self) -> Surface {
        let frame = self.frame();
        let [a, b] = self.sizes;
        match self.kind {
            Kind::Plane => Surface::Plane { frame },
            Kind::Cylinder => Surface::Cylinder { frame, radius: a },
            Kind::Cone => Surface::Cone { frame, radius: a, half_angle: b },
            Kind::Sphere => Surface::Sphere { frame, radius: a },
            Kind::Torus => Surface::Torus { frame, major_radius: a, minor_radius: b },
        }
    }

    /// The Rust's settings. Those that only its triangulation reads are as good as any.
    pub fn resolved(&self) -> Resolved {
        Resolved {
            sag: self.sag,
            model: 0.0,
            relative: 0.0,
            angle: self.angle,
            min_edge_segments: self.segments as usize,
            max_depth: 1,
            interior_points: false,
        }
    }

    /// All of it as reals, for the report.
    pub fn reals(&self) -> Vec<f64> {
        let rest = [self.kind as u8 as f64, self.sag, self.angle, self.segments as f64];
        [&self.placement[..], &self.sizes, &rest].concat()
    }
}
