//! Times the whole call on both sides: the Rattle crate `closer`, and the cut Rust behind the reading
//! and writing of records in `judge.rs`. Both are given the same faces, class by class and face by
//! face in turn, and the least of many times counts. Then it times bands and plates as points and
//! loops grow many, and the search for the outer loop alone.
//!
//!     bench [--rounds N]

// The generator's modules have more than is called here.
#![allow(dead_code)]

mod branches;
mod calls;
mod closer;
mod compared;
mod faces;
mod growth;
mod items;
mod judge;
mod patterns;
mod random;
mod reference;
mod shapes;

/// The Rust, cut out of its source by `cut.rs`.
#[allow(dead_code, unused)]
mod original {
    include!(env!("ORIGINAL"));
}

use faces::{Face, Loop, band, patch, whole};
use items::H;
use judge::{Answer, LENT, face_record, judge};
use original::{Vec2, Vec3};
use random::Random;
use shapes::{Kind, Shape};
use std::hint::black_box;
use std::time::{Duration, Instant};

/// The faces of a class.
const FACES: usize = 32;

/// Each time is that of so many calls, so that the clock's own is lost in it.
const CALLS: u32 = 4;

const CLASSES: &[(&str, fn(&mut Random) -> Face)] = &[
    ("closed, at most 4 loops", |random| patch_with(random, 1, 4)),
    ("closed, 12 to 16 loops", |random| patch_with(random, 12, 16)),
    ("band without holes", |random| band_with(random, 0, 0)),
    ("band with holes", |random| band_with(random, 1, 14)),
    ("band on a cylinder", |random| band_on(random, Kind::Cylinder)),
    ("band on a cone", |random| band_on(random, Kind::Cone)),
    ("band on a sphere", |random| band_on(random, Kind::Sphere)),
    ("band on a torus", |random| band_on(random, Kind::Torus)),
    ("whole surface", whole),
    ("band, two rings of 256 points", |random| rings(random, 256, 256, 1)),
    ("band, longest start search", |random| rings(random, 509, 3, 2)),
];

fn main() {
    let arguments: Vec<String> = std::env::args().skip(1).collect();
    let rounds = match arguments.as_slice() {
        [] => 50,
        [option, value] if option == "--rounds" && value.parse().is_ok_and(|n: u32| n > 0) => {
            value.parse().expect("a number")
        }
        _ => {
            eprintln!("usage: bench [--rounds N]");
            std::process::exit(2);
        }
    };
    println!("bench: {FACES} faces of each class, the least of {rounds} times");
    println!("bench: microseconds a call: Rattle, Rust, Rattle / Rust");
    for (name, face) in CLASSES {
        print_times(name, &records(name, *face), rounds);
    }
    println!("bench: a band of two rings, by the points of both");
    for points in [32, 64, 128, 256, 512] {
        let face = |random: &mut Random| rings(random, points / 2, points / 2, 1);
        print_times(&points.to_string(), &records("points", face), rounds);
    }
    println!("bench: a plate of loops of eight points, by the loops");
    for loops in [1, 2, 4, 8, 16] {
        print_times(&loops.to_string(), &records("loops", |_| plate(loops)), rounds);
    }
    growth::print(rounds);
}

fn print_times(name: &str, records: &[Vec<u8>], rounds: u32) {
    let calls = f64::from(CALLS) * records.len() as f64;
    let [rattle, rust] = least_times(records, rounds).map(|time| time.as_secs_f64() * 1e6 / calls);
    println!("bench: {name:32} {rattle:9.2} {rust:9.2} {:6.2}", rattle / rust);
}

/// Records of faces that are closed, to which both sides answer the same.
fn records(name: &str, face: impl Fn(&mut Random) -> Face) -> Vec<Vec<u8>> {
    let mut random = Random::new(1, name);
    let mut lent = vec![0; LENT];
    let mut out = Vec::new();
    while out.len() < FACES {
        let record = face_record(&face(&mut random));
        if let Answer::Closed(result) = judge(LENT, &record) {
            let told = closer::close_face(&record, &mut lent);
            if told != (0, result.len()) || lent[..result.len()] != result {
                println!("bench: {name}: the two sides differ");
                std::process::exit(1);
            }
            out.push(record);
        }
    }
    out
}

/// The sums over the records of the least time of each.
fn least_times(records: &[Vec<u8>], rounds: u32) -> [Duration; 2] {
    let mut lent = vec![0; LENT];
    let mut least = vec![[Duration::MAX; 2]; records.len()];
    for _ in 0..rounds {
        for (record, least) in records.iter().zip(&mut least) {
            let rattle = time(|| {
                black_box(closer::close_face(black_box(record), black_box(&mut lent)));
            });
            let rust = time(|| {
                black_box(judge(LENT, black_box(record)));
            });
            *least = [least[0].min(rattle), least[1].min(rust)];
        }
    }
    [0, 1].map(|side| least.iter().map(|times| times[side]).sum())
}

fn time(mut call: impl FnMut()) -> Duration {
    let start = Instant::now();
    for _ in 0..CALLS {
        call();
    }
    start.elapsed()
}

fn patch_with(random: &mut Random, least: usize, most: usize) -> Face {
    loop {
        let face = patch(random);
        if (least..=most).contains(&face.loops.len()) {
            return face;
        }
    }
}

fn band_with(random: &mut Random, least: usize, most: usize) -> Face {
    loop {
        let face = band(random);
        if (least..=most).contains(&(face.loops.len() - 2)) {
            return face;
        }
    }
}

fn band_on(random: &mut Random, kind: Kind) -> Face {
    loop {
        let face = band(random);
        if face.shape.kind == kind {
            return face;
        }
    }
}

/// A loop of eight points on a plane, and holes of eight points each side by side in it.
fn plate(loops: usize) -> Face {
    let placement = [0.0, 0.0, 0.0, 0.0, 0.0, 1.0, 1.0, 0.0, 0.0];
    let shape =
        Shape { kind: Kind::Plane, placement, sizes: [0.0; 2], sag: 0.1, angle: 0.5, segments: 1 };
    let outer = octagon(0.0, 4.0 * loops as f64);
    let holes = (1..loops).map(|i| octagon((4 * i) as f64 - 2.0 * loops as f64, 1.0));
    Face { shape, same_sense: true, loops: std::iter::once(outer).chain(holes).collect() }
}

fn octagon(middle: f64, radius: f64) -> Loop {
    let turns: Vec<f64> = (0..8).map(|i| f64::from(i) * H / 2.0).collect();
    let uv: Vec<Vec2> =
        turns.iter().map(|t| Vec2::new(middle + radius * t.cos(), radius * t.sin())).collect();
    let xyz = uv.iter().map(|p| Vec3::new(p.u, p.v, 0.0)).collect();
    Loop { uv, xyz }
}

/// A band of two rings. The points of the one that is begun first, which is the last in the file,
/// stand in groups of equal u: with groups of two no start serves.
fn rings(random: &mut Random, first: usize, later: usize, group: usize) -> Face {
    let kind = random.choose(&[Kind::Cylinder, Kind::Cone, Kind::Sphere, Kind::Torus]);
    let sizes = match kind {
        Kind::Cone => [10.0, 0.5],
        Kind::Torus => [20.0, 5.0],
        _ => [10.0, 0.0],
    };
    let placement = [0.0, 0.0, 0.0, 0.0, 0.0, 1.0, 1.0, 0.0, 0.0];
    let shape = Shape { kind, placement, sizes, sag: 0.1, angle: 0.5, segments: 1 };
    let v = random.between(0.5, 1.0);
    Face { shape, same_sense: true, loops: vec![ring(later, v, 1), ring(first, 0.0, group)] }
}

fn ring(n: usize, v: f64, group: usize) -> Loop {
    let open = n - 1;
    let u = |i: usize| {
        if i == open { 4.0 * H } else { 4.0 * H * (i / group * group) as f64 / open as f64 }
    };
    let uv = (0..n).map(|i| Vec2::new(u(i), v)).collect();
    let xyz = (0..n).map(|i| Vec3::new((i % open) as f64, v, 0.0)).collect();
    Loop { uv, xyz }
}
