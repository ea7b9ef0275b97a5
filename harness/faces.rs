//! Random faces: a surface and its loops, made so that every branch of the closing is met.

use crate::items::H;
use crate::original::{Vec2, Vec3};
use crate::random::Random;
use crate::shapes::{KINDS, Kind, Shape, shape, symmetric};

const TURN: f64 = 4.0 * H;

/// A loop as a face record gives it.
#[derive(Clone)]
pub struct Loop {
    pub uv: Vec<Vec2>,
    pub xyz: Vec<Vec3>,
}

#[derive(Clone)]
pub struct Face {
    pub shape: Shape,
    pub same_sense: bool,
    pub loops: Vec<Loop>,
}

impl Face {
    /// All of it as reals, for the report.
    pub fn reals(&self) -> Vec<f64> {
        let mut out = self.shape.reals();
        out.push(f64::from(u8::from(self.same_sense)));
        for one in &self.loops {
            out.push(one.uv.len() as f64);
            for (p, q) in one.uv.iter().zip(&one.xyz) {
                out.extend([p.u, p.v, q.x, q.y, q.z]);
            }
        }
        out
    }
}

/// Corners as parallel lists: u, v, x, y, z.
pub fn columns(uv: &[Vec2], xyz: &[Vec3]) -> [Vec<f64>; 5] {
    [
        uv.iter().map(|p| p.u).collect(),
        uv.iter().map(|p| p.v).collect(),
        xyz.iter().map(|p| p.x).collect(),
        xyz.iter().map(|p| p.y).collect(),
        xyz.iter().map(|p| p.z).collect(),
    ]
}

/// A face whose loops are patches of the parameter plane, one often round all others.
pub fn patch(random: &mut Random) -> Face {
    let kind = random.choose(&KINDS);
    let shape = shape(random, kind);
    let holes = if random.one_in(8) { random.below(16) } else { random.below(5) };
    let centre = Vec2::new(symmetric(random, 8.0), symmetric(random, 8.0));
    // Now and then so small that the slack of the search is lost in the sum.
    let small = random.one_in(8);
    let size = if small {
        random.choose(&[0.0, 1e-9, 1e-8, 1e-3])
    } else {
        random.choose(&[1.0, 2.0, 3.0])
    };
    let mut loops = vec![patch_loop(random, centre, size)];
    for _ in 0..holes {
        let other = random.below(loops.len() as u64) as usize;
        loops.push(match random.below(8) {
            // The same box again, or one that is larger by about the slack of the search.
            0 => loops[other].clone(),
            1 => grown(&loops[other], random.choose(&[1e-9, 2e-9, 4e-9])),
            // Beside the first, and not within it.
            2 => {
                let away = symmetric(random, 4.0);
                let beside = Vec2::new(centre.u + away, centre.v);
                patch_loop(random, beside, size)
            }
            _ => {
                let inside = Vec2::new(centre.u + 0.1 * size, centre.v - 0.2 * size);
                patch_loop(random, inside, 0.25 * size)
            }
        });
    }
    for hole in loops.iter_mut().skip(1) {
        if random.one_in(3) {
            let turns = [0, 1].map(|_| random.choose(&[-2.0, -1.0, 0.0, 1.0, 3.0]) * TURN);
            for p in &mut hole.uv {
                *p = Vec2::new(p.u + turns[0], p.v + turns[1]);
            }
        }
    }
    let first = random.below(loops.len() as u64) as usize;
    loops.swap(0, first);
    Face { shape, same_sense: random.one_in(2), loops }
}

/// A loop about a point: a box, a line, a polygon or a scribble.
fn patch_loop(random: &mut Random, centre: Vec2, size: f64) -> Loop {
    let n = if random.one_in(16) { 3 + random.below(120) } else { 3 + random.below(8) };
    let style = random.below(5);
    let uv = (0..n).map(|i| {
        let round = Vec2::new(quarter_wave(i, n), quarter_wave(i + n / 4, n));
        let at = match style {
            0 => round,
            1 => Vec2::new(round.u, 0.0),
            2 => Vec2::new(round.u.signum(), round.v.signum()),
            _ => Vec2::new(random.between(-1.0, 1.0), random.between(-1.0, 1.0)),
        };
        Vec2::new(centre.u + size * at.u, centre.v + size * at.v)
    });
    let mut uv: Vec<Vec2> = uv.collect();
    if random.one_in(8) {
        // Both zeros, which differ in the result and nowhere else.
        for p in &mut uv {
            if random.one_in(4) {
                *p = Vec2::new(random.choose(&[0.0, -0.0]), p.v);
            }
        }
    }
    if random.one_in(2) {
        uv.reverse();
    }
    let xyz = positions(random, uv.len());
    Loop { uv, xyz }
}

/// A zigzag from -1 to 1 that comes round after n steps.
fn quarter_wave(i: u64, n: u64) -> f64 {
    let x = (i % n) as f64 / n as f64;
    1.0 - 4.0 * (x - 0.5).abs()
}

fn grown(of: &Loop, by: f64) -> Loop {
    let uv = of.uv.iter().map(|p| Vec2::new(p.u * (1.0 + by), p.v * (1.0 + by))).collect();
    Loop { uv, xyz: of.xyz.clone() }
}

/// Positions out of few, so that some are equal, or out of many.
fn positions(random: &mut Random, n: usize) -> Vec<Vec3> {
    let few = random.choose(&[1, 2, 3, 5, 1000, 1000, 1000]);
    let zeros = random.choose(&[[0.0, 0.0], [0.0, -0.0]]);
    (0..n)
        .map(|_| {
            let place = random.below(few) as f64;
            Vec3::new(place, place * 0.5 + random.choose(&zeros), random.choose(&zeros))
        })
        .collect()
}

/// A face that two of its loops wrap.
pub fn band(random: &mut Random) -> Face {
    let kind = random.choose(&KINDS[1..]);
    let mut shape = shape(random, kind);
    if matches!(kind, Kind::Sphere | Kind::Torus) && !random.one_in(64) {
        // Walls of some dozen rungs, but for a few.
        shape.angle = shape.angle.max(0.05);
        shape.sag = shape.sag.max(shape.sizes[0].max(shape.sizes[1]) * 1e-3);
    }
    let start = match random.below(8) {
        0 => 0.0,
        1..4 => (random.below(17) as f64 - 8.0) * 0.5 * H,
        _ => symmetric(random, 8.0),
    };
    let style = random.below(4);
    let mut loops = Vec::new();
    for _ in 0..2 {
        let level = random.choose(&[0.0, -0.0, 0.25, 0.5, 1.0, -1.0, 1.5]);
        let level = match random.below(16) {
            0 => symmetric(random, shape.limits()[1]),
            1..5 => symmetric(random, 2.0),
            _ => level,
        };
        loops.push(ring(random, start, level, style));
    }
    if random.one_in(16) {
        // Both rings at one height: equal means, and walls without rungs.
        let level = loops[0].uv[0].v;
        for p in loops.iter_mut().flat_map(|l| &mut l.uv) {
            *p = Vec2::new(p.u, level);
        }
    }
    for hole in band_holes(random, start) {
        let at = random.below(loops.len() as u64 + 1) as usize;
        loops.insert(at, hole);
    }
    Face { shape, same_sense: random.one_in(2), loops }
}

/// A loop that goes round u. Its last position is its first, as numbers.
fn ring(random: &mut Random, start: f64, level: f64, style: u64) -> Loop {
    let n = match random.below(16) {
        0 => 3,
        1 => 4,
        2 => 20 + random.below(60) as usize,
        _ => 4 + random.below(9) as usize,
    };
    let turns = random.choose(&[1.0, 1.0, 1.0, 1.0, 1.0, 2.0, 3.0]);
    let from = start + random.choose(&[0.0, 0.0, 0.125, 0.25, 0.5, 1.0, -1.0, -3.0]) * TURN;
    let from = if random.one_in(4) { from + random.between(-1.0, 1.0) } else { from };
    // What a ring may miss its whole turns by.
    let missing = if random.one_in(4) { random.between(-0.14, 0.14) } else { 0.0 };
    let last = (n - 1) as f64;
    let mut uv: Vec<Vec2> = (0..n)
        .map(|i| {
            let step = if style == 1 { (i / 2 * 2) as f64 } else { i as f64 };
            let u = from + (turns + missing) * TURN * (step / last);
            Vec2::new(u, level)
        })
        .collect();
    uv[n - 1] = Vec2::new(from + (turns + missing) * TURN, uv[n - 1].v);
    roughen(random, &mut uv, style);
    match random.below(16) {
        0 if n > 6 => step_by_the_seam(random, &mut uv),
        1 => uv = without_a_start(from, level),
        _ => (),
    }
    some_minus_zeros(random, &mut uv);
    let n = uv.len();
    let mut xyz = positions(random, n);
    // A zero may differ in its sign: the two are equal as numbers.
    let first = xyz[0];
    let flips = random.one_in(4);
    let closing = |x: f64| if flips && x == 0.0 { -x } else { x };
    xyz[n - 1] = Vec3::new(closing(first.x), closing(first.y), closing(first.z));
    if random.one_in(2) {
        uv.reverse();
        xyz.reverse();
    }
    Loop { uv, xyz }
}

/// Steps backward, steps of equal u and levels that vary; the ends stay.
fn roughen(random: &mut Random, uv: &mut [Vec2], style: u64) {
    let n = uv.len();
    for i in 1..n - 1 {
        let (before, here) = (uv[i - 1], uv[i]);
        let u = match style {
            0 | 1 => here.u,
            2 if random.one_in(3) => before.u,
            2 if random.one_in(4) => before.u + random.choose(&[1e-10, 1e-9, 2e-9, 1e-7]),
            _ if random.one_in(4) => before.u - random.between(0.0, 0.2),
            _ => here.u,
        };
        let v = if random.one_in(3) { here.v + random.choose(&[0.25, -0.25, 0.1]) } else { here.v };
        uv[i] = Vec2::new(u, v);
    }
}

/// A step of equal u about as near the start or the end as the search for a start lets it stand.
fn step_by_the_seam(random: &mut Random, uv: &mut [Vec2]) {
    let n = uv.len();
    let away = 1e-6 + random.choose(&[-5e-7, -2.5e-10, 0.0, 1e-6, 5e-6]);
    let step = random.choose(&[0.0, 5e-10]);
    let (at, u) = if random.one_in(2) { (1, uv[0].u + away) } else { (n - 3, uv[n - 1].u - away) };
    uv[at] = Vec2::new(u, uv[at].v);
    uv[at + 1] = Vec2::new(u + step, uv[at + 1].v);
}

/// A ring that none of its points can begin, but that would begin well at its first point if its
/// end stood a whole turn on: steps of equal u all over it, and a step backward past the end.
fn without_a_start(from: f64, level: f64) -> Vec<Vec2> {
    let end = TURN + 1e-7;
    let steps = [0.0, 1.5, 1.5, 3.0, 3.0, 4.5, 4.5, end, end];
    steps.map(|step| Vec2::new(from + step, level)).to_vec()
}

fn some_minus_zeros(random: &mut Random, uv: &mut [Vec2]) {
    for p in uv {
        if p.u == 0.0 && random.one_in(2) {
            *p = Vec2::new(-0.0, p.v);
        }
    }
}

/// Loops that do not wrap: in the strip, across its ends, or all over it.
fn band_holes(random: &mut Random, start: f64) -> Vec<Loop> {
    if random.one_in(8) {
        // Nearly all of the strip, and its end: a cut past the points of a ring that falls short.
        let most = band_hole(random, start + 0.41 * TURN, 0.41 * TURN);
        return vec![most, band_hole(random, start + TURN, 0.04 * TURN)];
    }
    if random.one_in(16) {
        // Two gaps of one width.
        return vec![band_hole(random, start + 2.5, 0.5), band_hole(random, start + 6.0, 1.0)];
    }
    if random.one_in(16) {
        // To the end of the strip, and past it by about as much as is let pass.
        let past = random.choose(&[0.0, 5e-13, 1e-12, 1e-12, 1e-12, 5e-12]);
        let end = random.near(start + TURN + past, 1);
        let mut hole = band_hole(random, end - 0.5, 0.25);
        hole.uv[0] = Vec2::new(end, 0.5);
        return vec![hole];
    }
    let count = if random.one_in(3) { 0 } else { random.below(5) };
    let one = |random: &mut Random| {
        let size = random.choose(&[0.05, 0.3, 0.3, 1.0, 2.5, 4.0]);
        let centre = match random.below(8) {
            0 => start,
            // From the strip's start on.
            1 => start + size,
            2 => start + random.between(-0.2, 0.2),
            _ => start + random.between(0.0, TURN),
        };
        let turns = random.choose(&[-2.0, -1.0, 0.0, 0.0, 0.0, 1.0, 5.0]);
        band_hole(random, centre + turns * TURN, size)
    };
    (0..count).map(|_| one(random)).collect()
}

fn band_hole(random: &mut Random, centre: f64, size: f64) -> Loop {
    let n = 3 + random.below(6);
    let across = |i: u64| Vec2::new(size * quarter_wave(i, n), 0.1 * quarter_wave(i + n / 4, n));
    let mut uv: Vec<Vec2> =
        (0..n).map(|i| Vec2::new(centre + across(i).u, 0.5 + across(i).v)).collect();
    some_minus_zeros(random, &mut uv);
    Loop { uv, xyz: positions(random, n as usize) }
}

/// A sphere or a torus without a loop.
pub fn whole(random: &mut Random) -> Face {
    let kind = random.choose(&[Kind::Sphere, Kind::Torus]);
    Face { shape: shape(random, kind), same_sense: random.one_in(2), loops: Vec::new() }
}
