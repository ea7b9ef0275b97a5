//! Calls at the edges of document 01's table of refusals: small faces of every path and kind and of
//! every refusal from 8 on, their records cut everywhere, with every value of each header byte and
//! with counts and reals at their limits; and records to which several conditions apply at once.

use crate::calls::{Call, put};
use crate::faces::{Face, Loop};
use crate::items::H;
use crate::judge::{Answer, LENT, face_record, judge};
use crate::original::{Vec2, Vec3};
use crate::patterns::moved;
use crate::shapes::{KINDS, Kind, Shape};
use std::collections::BTreeSet;

/// Every call at an edge, handed on one by one.
pub fn each(see: &mut dyn FnMut(&Call)) {
    for face in small_faces() {
        let record = face_record(&face);
        for lent in [0, 1, record.len(), LENT - 1, LENT, LENT + 1] {
            see(&Call { lent, record: record.clone() });
        }
        let mut see = |record: Vec<u8>| see(&Call { lent: LENT, record });
        cuts(&record, &mut see);
        header_bytes(&record, &mut see);
        counts(&record, &mut see);
        reals(&record, &mut see);
    }
    for call in several_at_once() {
        see(&call);
    }
}

/// Faces that are closed, for every path and kind, and faces that the refusals 8 to 12 meet.
fn small_faces() -> Vec<Face> {
    let mut out = Vec::new();
    for kind in KINDS {
        out.push(face(kind, vec![polygon(3, 1.0), polygon(4, 0.25)]));
        // A whole surface, or refusal 11.
        out.push(face(kind, Vec::new()));
    }
    for kind in &KINDS[1..] {
        let rings = |n: usize| (0..n).map(|i| ring(4 + i, i as f64, 1.0)).collect::<Vec<_>>();
        let mut open = rings(2);
        open[1].xyz[4] = Vec3::new(0.0, 1.0, -1.0);
        let with_hole = vec![ring(5, 1.0, -1.0), polygon(3, 0.25), ring(4, 0.0, 2.0)];
        for loops in [rings(2), with_hole, open, rings(1), rings(3)] {
            out.push(face(*kind, loops));
        }
    }
    // 1,024 points of a strip, and 1,025.
    for points in [3, 4] {
        let mut long = face(Kind::Sphere, vec![ring(points, 0.0, 1.0), ring(3, 0.5085, 1.0)]);
        (long.shape.sag, long.shape.angle) = (1e-6, 0.001);
        out.push(long);
    }
    out
}

fn face(kind: Kind, loops: Vec<Loop>) -> Face {
    let sizes = match kind {
        Kind::Plane => [0.0, 0.0],
        Kind::Cylinder | Kind::Sphere => [1.0, 0.0],
        Kind::Cone => [1.0, 0.5],
        Kind::Torus => [2.0, 1.0],
    };
    let placement = [0.0, 0.0, 0.0, 0.0, 0.0, 1.0, 1.0, 0.0, 0.0];
    let shape = Shape { kind, placement, sizes, sag: 0.5, angle: 1.0, segments: 1 };
    Face { shape, same_sense: true, loops }
}

/// A loop that does not wrap.
fn polygon(n: usize, size: f64) -> Loop {
    let corner = |i: usize| Vec2::new(size * (i % 3) as f64, size * (i % 2) as f64);
    let uv: Vec<Vec2> = (0..n).map(corner).collect();
    let xyz = uv.iter().map(|p| Vec3::new(p.u, p.v, 0.0)).collect();
    Loop { uv, xyz }
}

fn ring(n: usize, v: f64, turns: f64) -> Loop {
    let part = |i: usize| i as f64 / (n - 1) as f64;
    let uv = (0..n).map(|i| Vec2::new(turns * 4.0 * H * part(i), v)).collect();
    let xyz = (0..n).map(|i| Vec3::new((i % (n - 1)) as f64, v, 0.0)).collect();
    Loop { uv, xyz }
}

/// The record cut after each of its bytes, and made longer.
fn cuts(record: &[u8], see: &mut dyn FnMut(Vec<u8>)) {
    for length in 0..=record.len() {
        see(record[..length].to_vec());
    }
    for more in [1, 8, 40, 20_622] {
        see([record.to_vec(), vec![0; more]].concat());
    }
}

fn header_bytes(record: &[u8], see: &mut dyn FnMut(Vec<u8>)) {
    for (at, byte) in (0..5).flat_map(|at| (0..=255).map(move |byte| (at, byte))) {
        see(with_bytes(record, at, &[byte]));
    }
}

fn counts(record: &[u8], see: &mut dyn FnMut(Vec<u8>)) {
    for i in 0..usize::from(record[2]) {
        for count in [0u16, 1, 2, 3, 4, 509, 510, 511, 512, 513, 32_768, 65_535] {
            see(with_bytes(record, 5 + 2 * i, &count.to_le_bytes()));
        }
    }
}

/// Each real at each limit of any of them, beside it, and as what is no number.
fn reals(record: &[u8], see: &mut dyn FnMut(Vec<u8>)) {
    let limits = [0.0, 1e-6, 0.001, 1.5, 64.0, 1e3, 1e6, 1e9];
    let about = limits.into_iter().flat_map(|x| [-1, 0, 1].map(|steps| moved(x, steps)));
    let signed = about.flat_map(|x| [x, -x]);
    let none = [f64::NAN, -f64::NAN, f64::INFINITY, f64::NEG_INFINITY, f64::MAX];
    let values: Vec<f64> = signed.chain(none).collect();
    let first = first_real(record);
    for at in (first..record.len()).step_by(8) {
        for value in &values {
            see(with_bytes(record, at, &value.to_le_bytes()));
        }
    }
}

fn first_real(record: &[u8]) -> usize {
    5 + 2 * usize::from(record[2])
}

fn with_bytes(record: &[u8], at: usize, bytes: &[u8]) -> Vec<u8> {
    let mut out = record.to_vec();
    out[at..at + bytes.len()].copy_from_slice(bytes);
    out
}

/// What makes a condition apply to a call, whatever else applies to it.
type Fault = fn(&mut Call);

const FAULTS: &[Fault] = &[
    |call| call.lent = LENT - 1,
    |call| put(&mut call.record, 0, &[2]),
    |call| put(&mut call.record, 4, &[0]),
    |call| put(&mut call.record, 2, &[17]),
    |call| call.record.truncate(first_real(&call.record) - 1),
    |call| put(&mut call.record, 5, &[2, 0]),
    |call| put_last_count(call, 513),
    |call| call.record.push(0),
    |call| put_real(call, 0, f64::NAN),
    |call| put_real(call, 12, 0.0),
    // The end of the last loop is moved from its start.
    |call| put_at_end(call, 1.0),
];

fn put_last_count(call: &mut Call, count: u16) {
    let at = first_real(&call.record) - 2;
    put(&mut call.record, at, &count.to_le_bytes());
}

fn put_real(call: &mut Call, index: usize, value: f64) {
    let at = first_real(&call.record) + 8 * index;
    put(&mut call.record, at, &value.to_le_bytes());
}

fn put_at_end(call: &mut Call, value: f64) {
    let at = call.record.len().saturating_sub(8);
    put(&mut call.record, at, &value.to_le_bytes());
}

fn with_fault(call: &Call, fault: &Fault) -> Call {
    let mut out = call.clone();
    fault(&mut out);
    out
}

/// Small faces with one fault, with two and with three.
fn several_at_once() -> Vec<Call> {
    let mut out: Vec<Call> =
        small_faces().iter().map(|face| Call { lent: LENT, record: face_record(face) }).collect();
    let mut last = 0;
    for _ in 0..3 {
        let before = last..out.len();
        last = out.len();
        for i in before {
            let more: Vec<Call> = FAULTS.iter().map(|fault| with_fault(&out[i], fault)).collect();
            out.extend(more);
        }
    }
    out
}

/// The pairs of refusals of which the first was given where a fault was put into a call that the
/// second refuses. The order is that of the numbers, but for 6 where a record ends inside its
/// counts.
pub fn pairs() -> BTreeSet<(u32, u32)> {
    let mut out = BTreeSet::new();
    for face in small_faces() {
        let plain = Call { lent: LENT, record: face_record(&face) };
        for one in FAULTS.iter().map(|fault| with_fault(&plain, fault)).chain([plain.clone()]) {
            let second = refusal(&one);
            for both in FAULTS.iter().map(|fault| with_fault(&one, fault)) {
                let first = refusal(&both);
                let early = first == 6 && both.record.len() < first_real(&both.record);
                if 0 < first && (first < second || (early && second < 6 && second > 3)) {
                    out.insert((first, second));
                }
            }
        }
    }
    out
}

/// The number of the refusal, or 0.
fn refusal(call: &Call) -> u32 {
    match judge(call.lent, &call.record) {
        Answer::Closed(_) => 0,
        Answer::Refused { number, .. } => number,
    }
}
