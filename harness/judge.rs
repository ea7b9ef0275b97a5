//! The face record and the result record of document 01, and its refusals in their order: what
//! the whole call must answer, worked out by the cut Rust.

use crate::branches::{Branch, note_zeros, noted, strip_points};
use crate::faces::{Face, Loop};
use crate::original::{UvLoop, Vec2, Vec3};
use crate::reference::{Path, close_loops, loops_of};
use crate::shapes::{KINDS, Kind, Shape};

/// The least number of result bytes to be lent.
pub const LENT: usize = 61_614;

#[derive(PartialEq, Debug)]
pub enum Answer {
    Refused { number: u32, place: u32 },
    Closed(Vec<u8>),
}

/// What the program `close` writes of a refusal.
pub fn six_bytes(number: u32, place: u32) -> Vec<u8> {
    let mut out = vec![0, number as u8];
    out.extend(place.to_le_bytes());
    out
}

fn refused(number: u32, place: usize) -> Result<(), Answer> {
    Err(Answer::Refused { number, place: place as u32 })
}

pub fn face_record(face: &Face) -> Vec<u8> {
    let shape = &face.shape;
    let sense = u8::from(face.same_sense);
    let loops = &face.loops;
    let mut out = vec![1, shape.kind as u8, loops.len() as u8, sense, shape.segments as u8];
    for one in loops {
        out.extend((one.uv.len() as u16).to_le_bytes());
    }
    put(&mut out, &shape.placement);
    put(&mut out, &shape.sizes);
    put(&mut out, &[shape.sag, shape.angle]);
    for p in loops.iter().flat_map(|l| &l.uv) {
        put(&mut out, &[p.u, p.v]);
    }
    for p in loops.iter().flat_map(|l| &l.xyz) {
        put(&mut out, &[p.x, p.y, p.z]);
    }
    out
}

pub fn result_record(path: Path, loops: &[&UvLoop]) -> Vec<u8> {
    let mut out = vec![1, path as u8, (loops.len() - 1) as u8, 0];
    for one in loops {
        out.extend((one.uv.len() as u16).to_le_bytes());
    }
    for one in loops {
        put(&mut out, &[one.area]);
    }
    for p in loops.iter().flat_map(|l| &l.uv) {
        put(&mut out, &[p.u, p.v]);
    }
    for p in loops.iter().flat_map(|l| &l.xyz) {
        put(&mut out, &[p.x, p.y, p.z]);
    }
    out
}

fn put(out: &mut Vec<u8>, reals: &[f64]) {
    out.extend(reals.iter().flat_map(|x| x.to_le_bytes()));
}

/// What the call answers, with so many result bytes lent.
pub fn judge(lent: usize, record: &[u8]) -> Answer {
    match closed(lent, record) {
        Ok(bytes) => Answer::Closed(bytes),
        Err(refusal) => refusal,
    }
}

/// What the check of a record alone says: refusals 2 to 7.
pub fn check(record: &[u8]) -> Result<Face, Answer> {
    header(record)?;
    let counts = counts(record)?;
    let reals = reals(record, counts.len());
    in_range(record, &reals)?;
    Ok(face(record, &counts, &reals))
}

fn closed(lent: usize, record: &[u8]) -> Result<Vec<u8>, Answer> {
    if lent < LENT {
        refused(1, LENT)?;
    }
    let face = check(record)?;
    noted(Branch::SixteenLoops, face.loops.len() == 16);
    noted(Branch::PointsAt512, face.loops.iter().map(|l| l.uv.len()).sum::<usize>() == 512);
    let loops = loops_of(&face);
    which_wrap(&face, &loops)?;
    let closing =
        close_loops(&face, loops).expect("a face that no earlier condition refuses is closed");
    if closing.path == Path::Wrapped {
        noted(Branch::StripAt1024, strip_points() == 1024);
        noted(Branch::StripAt1025, strip_points() == 1025);
        if strip_points() > 1024 {
            refused(12, strip_points())?;
        }
    }
    note_zeros(&closing);
    let loops: Vec<&UvLoop> = std::iter::once(&closing.outer).chain(&closing.holes).collect();
    Ok(result_record(closing.path, &loops))
}

/// Refusals 2 and 3.
fn header(record: &[u8]) -> Result<(), Answer> {
    let &[version, kind, loops, sense, segments, ..] = record else {
        return refused(2, record.len());
    };
    let right =
        [(0, version == 1), (1, kind <= 4), (3, sense <= 1), (4, (1..=64).contains(&segments))];
    if let Some((offset, _)) = right.iter().find(|(_, right)| !right) {
        refused(2, *offset)?;
    }
    if loops > 16 {
        refused(3, usize::from(loops))?;
    }
    Ok(())
}

/// The corner counts. Refusals 4, 5 and both halves of 6.
fn counts(record: &[u8]) -> Result<Vec<usize>, Answer> {
    let loops = usize::from(record[2]);
    let head = 5 + 2 * loops;
    if record.len() < head {
        refused(6, head)?;
    }
    let pairs = record[5..head].chunks(2);
    let counts: Vec<usize> = pairs.map(|p| usize::from(u16::from_le_bytes([p[0], p[1]]))).collect();
    if let Some(first) = counts.iter().position(|n| *n < 3) {
        refused(4, first)?;
    }
    let mut total = 0;
    for (i, n) in counts.iter().enumerate() {
        total += n;
        if total > 512 {
            noted(Branch::PointsAt513, total == 513);
            refused(5, i)?;
        }
    }
    let length = head + 8 * (13 + 5 * total);
    if record.len() != length {
        refused(6, length)?;
    }
    Ok(counts)
}

fn reals(record: &[u8], loops: usize) -> Vec<f64> {
    let words = record[5 + 2 * loops..].chunks(8);
    words.map(|w| f64::from_le_bytes(w.try_into().expect("eight bytes"))).collect()
}

fn kind_of(record: &[u8]) -> Kind {
    KINDS[usize::from(record[1])]
}

/// Refusal 7. The limits are included, and a NaN is within none.
fn in_range(record: &[u8], reals: &[f64]) -> Result<(), Answer> {
    let kind = kind_of(record);
    let points = (reals.len() - 13) / 5;
    let size = |most: f64| (-most, most);
    let limits = |index: usize| match (index, kind) {
        (0..=8, _) => size(1e9),
        (9, Kind::Plane) => (0.0, 0.0),
        (9, Kind::Cone) => (0.0, 1e6),
        (9, _) => (1e-6, 1e6),
        (10, Kind::Cone) => size(1.5),
        (10, Kind::Torus) => (1e-6, 1e6),
        (10, _) => (0.0, 0.0),
        (11, _) => (1e-6, 1e3),
        (12, _) => (0.001, 1.5),
        (i, _) if i >= 13 + 2 * points => size(1e9),
        (i, _) => match (i % 2 == 1, kind) {
            (_, Kind::Plane) | (false, Kind::Cylinder | Kind::Cone) => size(1e6),
            _ => size(64.0),
        },
    };
    let within = |(i, x): (usize, &f64)| limits(i).0 <= *x && *x <= limits(i).1;
    match reals.iter().enumerate().position(|real| !within(real)) {
        Some(first) => refused(7, first),
        None => Ok(()),
    }
}

fn face(record: &[u8], counts: &[usize], reals: &[f64]) -> Face {
    let total: usize = counts.iter().sum();
    let shape = Shape {
        kind: kind_of(record),
        placement: reals[..9].try_into().expect("nine reals"),
        sizes: [reals[9], reals[10]],
        sag: reals[11],
        angle: reals[12],
        segments: u64::from(record[4]),
    };
    let uv: Vec<Vec2> =
        reals[13..13 + 2 * total].chunks(2).map(|p| Vec2::new(p[0], p[1])).collect();
    let xyz = reals[13 + 2 * total..].chunks(3).map(|p| Vec3::new(p[0], p[1], p[2]));
    let xyz: Vec<Vec3> = xyz.collect();
    let mut start = 0;
    let mut loops = Vec::new();
    for n in counts {
        let range = start..start + n;
        loops.push(Loop { uv: uv[range.clone()].to_vec(), xyz: xyz[range].to_vec() });
        start += n;
    }
    Face { shape, same_sense: record[3] == 1, loops }
}

/// Refusals 8 to 11.
fn which_wrap(face: &Face, loops: &[UvLoop]) -> Result<(), Answer> {
    let wrapping: Vec<usize> = (0..loops.len()).filter(|i| loops[*i].wrap != 0).collect();
    for i in &wrapping {
        let (first, last) = (loops[*i].xyz[0], loops[*i].xyz[loops[*i].xyz.len() - 1]);
        if first != last {
            refused(8, *i)?;
        }
    }
    match wrapping.len() {
        1 => refused(9, wrapping[0])?,
        n if n > 2 => refused(10, n)?,
        _ => {}
    }
    if loops.is_empty() && matches!(face.shape.kind, Kind::Plane | Kind::Cylinder | Kind::Cone) {
        refused(11, 0)?;
    }
    Ok(())
}
