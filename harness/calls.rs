//! Records for whole calls: those of generated faces, and damaged ones at the edge of each
//! refusal.

use crate::faces::{Face, Loop, band, patch, whole};
use crate::items::H;
use crate::judge::{LENT, face_record};
use crate::original::{Vec2, Vec3};
use crate::patterns::moved;
use crate::random::Random;
use crate::shapes::{KINDS, Kind, shape};

/// What a call is given: so many result bytes, and a record.
#[derive(Clone)]
pub struct Call {
    pub lent: usize,
    pub record: Vec<u8>,
}

pub fn call(random: &mut Random) -> Call {
    let lent = if random.one_in(64) {
        random.choose(&[0, 134, LENT - 1])
    } else {
        LENT + random.choose(&[0, 0, 0, 1, 3_922])
    };
    let mut face = face(random);
    if random.one_in(4) {
        change_loops(random, &mut face);
    }
    let mut record = face_record(&face);
    // Some records have several things wrong: the first in the order of checks is to be told.
    for _ in 0..random.choose(&[0, 0, 0, 1, 1, 2]) {
        damage(random, &mut record);
    }
    Call { lent, record }
}

/// A face of any path. A few have more points than a record may have.
pub fn face(random: &mut Random) -> Face {
    match random.below(16) {
        0 | 1 => whole(random),
        2 => full_strip(random),
        3 => many_points(random),
        4..8 => patch(random),
        _ => band(random),
    }
}

/// A band of a sphere or a torus whose strip has about 1,024 points.
fn full_strip(random: &mut Random) -> Face {
    let kind = random.choose(&[Kind::Sphere, Kind::Torus]);
    let mut shape = shape(random, kind);
    let curved = shape.sizes[if kind == Kind::Sphere { 0 } else { 1 }];
    shape.sag = random.scaled(1e-6, 1e-5);
    shape.angle = random.between(0.001, 0.01);
    let step = shape.resolved().angle_step_for_radius(curved);
    let counts = [0, 1].map(|_| 3 + random.below(40) as usize);
    let steps = 512.0 - (counts[0] + counts[1]) as f64 * 0.5 + random.below(7) as f64 - 3.0;
    let low = random.choose(&[0.0, -1.0, 0.25]);
    let height = random.near((steps * step).min(60.0), 2);
    let level = [low, low + height];
    let loops = [0, 1].map(|i| plain_ring(counts[i], level[i], i as f64)).to_vec();
    Face { shape, same_sense: random.one_in(2), loops }
}

fn plain_ring(n: usize, v: f64, mark: f64) -> Loop {
    let last = (n - 1) as f64;
    let uv = (0..n).map(|i| Vec2::new(4.0 * H * (i as f64 / last), v)).collect();
    let xyz = (0..n).map(|i| Vec3::new((i % (n - 1)) as f64, mark, 0.0)).collect();
    Loop { uv, xyz }
}

/// A patch or a band of about 512 points in all, in one loop or in several.
fn many_points(random: &mut Random) -> Face {
    let mut face = if random.one_in(2) { patch(random) } else { band(random) };
    let total: usize = face.loops.iter().map(|l| l.uv.len()).sum();
    let wanted = 509 + random.below(7) as usize;
    let at = random.below(face.loops.len() as u64) as usize;
    let one = &mut face.loops[at];
    let middle = one.uv.len() / 2;
    for _ in total..wanted {
        let (p, q) = (one.uv[middle], one.xyz[middle]);
        one.uv.insert(middle, Vec2::new(random.near(p.u, 9), p.v));
        one.xyz.insert(middle, q);
    }
    face
}

/// Another number of loops, or a ring that does not close.
fn change_loops(random: &mut Random, face: &mut Face) {
    let loops = &mut face.loops;
    if loops.is_empty() {
        let kind = random.choose(&KINDS);
        face.shape = shape(random, kind);
        return;
    }
    let at = random.below(loops.len() as u64) as usize;
    match random.below(4) {
        0 => {
            loops.remove(at);
        }
        1 => loops.push(loops[at].clone()),
        2 => loops.resize(15 + random.below(4) as usize, loops[at].clone()),
        _ => {
            let last = loops[at].xyz.len() - 1;
            let end = &mut loops[at].xyz[last];
            *end = Vec3::new(end.x, end.y, random.choose(&[0.0, -0.0, moved(0.0, 1), 1.0]));
        }
    }
}

/// One thing that a record may have wrong, or have at its limit.
fn damage(random: &mut Random, record: &mut Vec<u8>) {
    let loops = usize::from(record.get(2).copied().unwrap_or(0));
    let length = record.len();
    match random.below(9) {
        0 => record.truncate(random.below(6) as usize),
        1 => record.truncate(5 + random.below(2 * loops as u64 + 2) as usize),
        2 => record.truncate(length.saturating_sub(random.choose(&[1, 2, 8]))),
        3 => record.resize(length + random.choose(&[1, 8, 20_622]), 0),
        4 => {
            let byte = random.choose(&[0, 1, 2, 3, 4, 5, 16, 17, 64, 65, 255]);
            put(record, random.below(5) as usize, &[byte]);
        }
        5 if loops > 0 => {
            let count: u16 = random.choose(&[0, 2, 3, 510, 512, 513, 65_535]);
            put(record, 5 + 2 * random.below(loops as u64) as usize, &count.to_le_bytes());
        }
        6 => {
            let byte = random.bits() as u8;
            put(record, random.below(length as u64) as usize, &[byte]);
        }
        _ => {
            let reals = length.saturating_sub(5 + 2 * loops) / 8;
            let most = random.choose(&[13, reals as u64]);
            let index = random.below(most) as usize;
            put(record, 5 + 2 * loops + 8 * index, &limit(random).to_le_bytes());
        }
    }
}

/// Bytes of a record, where it has them.
pub fn put(record: &mut [u8], at: usize, bytes: &[u8]) {
    if let Some(place) = record.get_mut(at..at + bytes.len()) {
        place.copy_from_slice(bytes);
    }
}

/// A limit of some real of a record, a neighbour of it, or what is no number.
fn limit(random: &mut Random) -> f64 {
    let size = random.choose(&[0.0, 1e-6, 0.001, 1.5, 64.0, 1e3, 1e6, 1e9]);
    let near = random.near(size, 1);
    let near = random.signed(near);
    random.choose(&[near, near, near, f64::NAN, f64::INFINITY, f64::NEG_INFINITY, 1e300])
}
