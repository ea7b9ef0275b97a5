//! The values of document 01, "Values to hold", and of the requests of document 02 that are put into
//! the Rust, of the cut Rust and of the records made with it: they show that what is compared with is
//! what the documents mean.

use crate::faces::{Face, Loop};
use crate::items::H;
use crate::judge::{Answer, LENT, face_record, judge};
use crate::original::{
    Domain, Interval, UvLoop, Vec2, Vec3, align_cuts, closed_region, merge_even, nearest_branch,
    net_wrap, signed_area,
};
use crate::shapes::{Kind, Shape};
use crate::triangle;

pub fn hold() {
    let checks = [
        ("nearest_branch", branches()),
        ("net_wrap", wraps()),
        ("signed_area", areas()),
        ("merge_even", ladders()),
        ("align_cuts", turned_ring()),
        ("closed_region", equal_squares()),
        ("the triangle's record", triangle_closes()),
        ("the limit of points", most_points()),
        ("the limit of the strip", most_strip_points()),
        ("the refusals", each_refusal()),
    ];
    for (name, holds) in checks {
        if !holds {
            println!("comparison: the cut Rust does not give the documents' values of {name}");
            std::process::exit(1);
        }
    }
    println!("comparison: the cut Rust gives the documents' values");
}

fn branches() -> bool {
    nearest_branch(7.0, 0.0, 4.0) == -1.0
        && nearest_branch(6.0, 0.0, 4.0) == -2.0
        && nearest_branch(5.0, 0.0, 0.0) == 5.0
}

fn wraps() -> bool {
    let line = Interval::new(0.0, 4.0);
    let domain = Domain { u: line, v: line, u_period: Some(4.0), v_period: None };
    [(4.5, 1), (4.75, 0), (3.5, 1), (2.0, 0), (-8.0, -2)]
        .iter()
        .all(|(travel, wrap)| net_wrap(&corners(&[(0.0, 0.0), (*travel, 0.0)]), &domain) == *wrap)
}

fn areas() -> bool {
    let mut triangle = corners(&[(0.0, 0.0), (4.0, 0.0), (0.0, 3.0)]);
    let area = signed_area(&triangle);
    triangle.reverse();
    area == 6.0 && signed_area(&triangle) == -6.0
}

fn ladders() -> bool {
    merge_even(&[], 0.0, 1.0, 2) == [0.0, 0.5, 1.0]
        && merge_even(&[], 3.0, 3.0, 4) == [3.0]
        // 02, N2: 11 steps round a turn fall short of it by the last place; no steps add the end
        && 4.0 * H * 11.0 / 11.0 < 4.0 * H
        && merge_even(&[], 0.0, 4.0 * H, 11)[11..] == [4.0 * H]
        && merge_even(&[], 0.0, 3.0, 0) == [0.0, 3.0]
}

/// Period 4, cut 0: u 1 to 5 with positions A B C D A becomes u 0 to 4 with D A B C D.
fn turned_ring() -> bool {
    let ring = |us: [f64; 5], letters: [f64; 5]| UvLoop {
        uv: us.iter().map(|u| Vec2::new(*u, 0.0)).collect(),
        xyz: letters.iter().map(|x| Vec3::new(*x, 0.0, 0.0)).collect(),
        wrap: 1,
        travel: 1,
        area: 0.0,
    };
    let first = ring([0.0, 1.0, 2.0, 3.0, 4.0], [9.0; 5]);
    let mut rings = [first, ring([1.0, 2.0, 3.0, 4.0, 5.0], [1.0, 2.0, 3.0, 4.0, 1.0])];
    align_cuts(&mut rings, 4.0);
    let expected = ring([0.0, 1.0, 2.0, 3.0, 4.0], [4.0, 1.0, 2.0, 3.0, 4.0]);
    rings[1].uv == expected.uv && rings[1].xyz == expected.xyz
}

/// Two equal squares: the second is outer.
fn equal_squares() -> bool {
    let square = |mark: f64| {
        let uv = corners(&[(0.0, 0.0), (1.0, 0.0), (1.0, 1.0), (0.0, 1.0)]);
        let area = signed_area(&uv);
        UvLoop { uv, xyz: vec![Vec3::new(mark, 0.0, 0.0); 4], wrap: 0, travel: 0, area }
    };
    match closed_region(&mut vec![square(1.0), square(2.0)]) {
        Ok((outer, holes)) => outer.xyz[0].x == 2.0 && holes.len() == 1,
        Err(_) => false,
    }
}

fn corners(pairs: &[(f64, f64)]) -> Vec<Vec2> {
    pairs.iter().map(|(u, v)| Vec2::new(*u, *v)).collect()
}

fn shape(kind: Kind, sizes: [f64; 2]) -> Shape {
    let placement = [0.0, 0.0, 0.0, 0.0, 0.0, 1.0, 1.0, 0.0, 0.0];
    Shape { kind, placement, sizes, sag: 1e-6, angle: 0.001, segments: 1 }
}

/// That triangle on a plane, with positions (u, v, 0), as `face_record` writes it.
fn triangle() -> Vec<u8> {
    let uv = corners(&[(0.0, 0.0), (4.0, 0.0), (0.0, 3.0)]);
    let xyz = uv.iter().map(|p| Vec3::new(p.u, p.v, 0.0)).collect();
    let shape = shape(Kind::Plane, [0.0, 0.0]);
    face_record(&Face { shape, same_sense: true, loops: vec![Loop { uv, xyz }] })
}

fn triangle_closes() -> bool {
    let (face, result) = (triangle::face(), triangle::result());
    face.len() == 231 && result.len() == 134 && triangle() == face && closes_to(&face, &result)
}

fn closes_to(record: &[u8], expected: &[u8]) -> bool {
    matches!(judge(LENT, record), Answer::Closed(bytes) if bytes == expected)
}

/// 512 points pass, 513 refuse.
fn most_points() -> bool {
    let polygon = |n: u32| {
        let uv: Vec<Vec2> = (0..n).map(|i| Vec2::new(f64::from(i), f64::from(i * i))).collect();
        let xyz = vec![Vec3::new(0.0, 0.0, 0.0); uv.len()];
        let shape = shape(Kind::Plane, [0.0, 0.0]);
        face_record(&Face { shape, same_sense: true, loops: vec![Loop { uv, xyz }] })
    };
    matches!(judge(LENT, &polygon(512)), Answer::Closed(_)) && refuses(&polygon(513), 5, 0)
}

/// 1,024 strip points pass, 1,025 refuse.
fn most_strip_points() -> bool {
    matches!(judge(LENT, &band(3)), Answer::Closed(_)) && refuses(&band(4), 12, 1025)
}

/// A band of a sphere, with n points on one ring and 3 on the other: 1,021 + n strip points.
fn band(n: u32) -> Vec<u8> {
    let rings = vec![ring(n, 0.0, 1.0), ring(3, 0.5085, 1.0)];
    let shape = shape(Kind::Sphere, [1.0, 0.0]);
    face_record(&Face { shape, same_sense: true, loops: rings })
}

fn ring(n: u32, v: f64, turns: f64) -> Loop {
    let u = |i: u32| turns * 4.0 * H * (f64::from(i) / f64::from(n - 1));
    let place = |i: u32| Vec3::new(f64::from(i % (n - 1)), v, 0.0);
    Loop { uv: (0..n).map(|i| Vec2::new(u(i), v)).collect(), xyz: (0..n).map(place).collect() }
}

fn refuses(record: &[u8], number: u32, place: u32) -> bool {
    judge(LENT, record) == Answer::Refused { number, place }
}

/// Every refusal but 12, with its place.
fn each_refusal() -> bool {
    let with_byte = |at: usize, byte: u8| {
        let mut record = triangle();
        record[at] = byte;
        record
    };
    let with_real = |index: usize, x: f64| {
        let mut record = triangle();
        record[7 + 8 * index..15 + 8 * index].copy_from_slice(&x.to_le_bytes());
        record
    };
    let longer = [triangle(), vec![0]].concat();
    let early = judge(LENT - 1, &[]) == Answer::Refused { number: 1, place: 61614 };
    early
        && refuses(&[], 2, 0)
        && refuses(&triangle()[..4], 2, 4)
        && [(0, 2), (1, 5), (3, 2), (4, 65)]
            .iter()
            .all(|(at, byte)| refuses(&with_byte(*at, *byte), 2, *at as u32))
        && refuses(&with_byte(2, 17), 3, 17)
        && refuses(&triangle()[..6], 6, 7)
        && refuses(&with_byte(5, 2), 4, 0)
        && refuses(&with_byte(6, 2), 5, 0)
        && refuses(&triangle()[..230], 6, 231)
        && refuses(&longer, 6, 231)
        && refuses(&with_real(0, f64::NAN), 7, 0)
        && refuses(&with_real(9, 1e-6), 7, 9)
        && refuses(&with_real(13, 1e6 + 1.0), 7, 13)
        && refuses(&with_real(27, f64::INFINITY), 7, 27)
        && wrapping_refusals()
}

/// Refusals 8 to 11.
fn wrapping_refusals() -> bool {
    let face = |kind: Kind, loops: Vec<Loop>| {
        let sizes = [1.0, if kind == Kind::Torus { 1.0 } else { 0.0 }];
        face_record(&Face { shape: shape(kind, sizes), same_sense: true, loops })
    };
    let mut open = ring(5, 0.0, -1.0);
    open.xyz[4] = Vec3::new(9.0, 0.0, 0.0);
    let rings = |n: usize| (0..n).map(|i| ring(4, i as f64, 1.0)).collect::<Vec<Loop>>();
    refuses(&face(Kind::Torus, vec![ring(4, 0.0, 0.5), open]), 8, 1)
        && refuses(&face(Kind::Sphere, vec![ring(4, 0.0, 0.5), ring(4, 0.0, 2.0)]), 9, 1)
        && refuses(&face(Kind::Cylinder, rings(3)), 10, 3)
        && refuses(&face(Kind::Cylinder, Vec::new()), 11, 0)
}
