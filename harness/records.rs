//! The check of a face record, refusals 2 to 7, and what is read of one. The Rust has no records;
//! these are compared with `judge.rs`, which was written from document 01's words.

use crate::calls::{call, face};
use crate::compared;
use crate::faces::Face;
use crate::judge::{Answer, check, face_record, six_bytes};
use crate::random::Random;
use crate::report::{Check, Run};

const CHECKED: u64 = 200_000;
const READ: u64 = 50_000;

/// What lent places hold before a call; no record has so large a number.
const UNTOUCHED: usize = 1 << 40;

pub fn compare(run: &Run) {
    checks(run);
    readings(run);
}

fn checks(run: &Run) {
    let mut checked = run.check("check of a record");
    for _ in 0..run.times * CHECKED {
        let record = call(&mut checked.random).record;
        let (number, place) = compared::refusal(&record);
        let rattle = six_bytes(u32::from(number), place as u32);
        let expected = match check(&record) {
            Err(Answer::Refused { number, place }) => six_bytes(number, place),
            _ => six_bytes(0, 0),
        };
        checked.see_bytes(false, &record, &rattle, &expected);
    }
    checked.done();
}

/// Accepted records give back what they were made of. Nothing is written where the record ends too
/// early or what is lent is too short.
fn readings(run: &Run) {
    let mut read = run.check("read_counts, read_head, read_corners");
    for _ in 0..run.times * READ {
        let face = face(&mut read.random);
        let mut record = face_record(&face);
        if check(&record).is_err() {
            continue;
        }
        if read.random.one_in(4) {
            record.truncate(read.random.below(record.len() as u64) as usize);
        }
        read_counts(&mut read, &face, &record);
        read_head(&mut read, &face, &record);
        read_corners(&mut read, &face, &record);
    }
    read.done();
}

fn read_counts(check: &mut Check, face: &Face, record: &[u8]) {
    let counts: Vec<usize> = face.loops.iter().map(|l| l.uv.len()).collect();
    let fits = record.len() >= 5 + 2 * counts.len();
    let mut lent = vec![UNTOUCHED; room(&mut check.random, counts.len())];
    let expected = after(fits, 1, &counts, &lent);
    let number = compared::read_counts(record, &mut lent);
    compare_lent(check, face, record, (number, lent), expected);
}

fn read_head(check: &mut Check, face: &Face, record: &[u8]) {
    let shape = &face.shape;
    let head = [&shape.placement[..], &shape.sizes, &[shape.sag, shape.angle]].concat();
    let fits = record.len() >= 5 + 2 * face.loops.len() + 8 * 13;
    let mut lent = vec![UNTOUCHED as f64; room(&mut check.random, 13)];
    let expected = after(fits, 1, &head, &lent);
    let number = compared::read_head(record, &mut lent);
    compare_lent(check, face, record, (number, lent), expected);
}

fn read_corners(check: &mut Check, face: &Face, record: &[u8]) {
    let corners: Vec<f64> = face.loops.iter().flat_map(|l| compared::rows(&l.uv, &l.xyz)).collect();
    let fits = record.len() == face_record(face).len();
    let mut lent = vec![UNTOUCHED as f64; room_for_rows(&mut check.random, corners.len())];
    let expected = after(fits, 5, &corners, &lent);
    let number = compared::read_corners(record, &mut lent);
    compare_lent(check, face, record, (number, lent), expected);
}

/// So many reals; now and then the last row lacks some or all of its reals, or up to two more rows
/// stand behind it, the last of them cut off.
fn room_for_rows(random: &mut Random, n: usize) -> usize {
    match random.below(4) {
        0 => n.saturating_sub(1 + random.below(5) as usize),
        1 => n + 1 + random.below(10) as usize,
        _ => n,
    }
}

/// So many places, one less now and then, or some more.
fn room(random: &mut Random, n: usize) -> usize {
    match random.below(4) {
        0 => n.saturating_sub(1),
        1 => n + 2,
        _ => n,
    }
}

/// How many values of `each` places are read, and the list after that: as it was where they do not
/// fit.
fn after<T: Copy>(fits: bool, each: usize, values: &[T], lent: &[T]) -> (Option<usize>, Vec<T>) {
    let mut list = lent.to_vec();
    if !fits || lent.len() < values.len() {
        return (None, list);
    }
    list[..values.len()].copy_from_slice(values);
    (Some(values.len() / each), list)
}

trait Number: Copy {
    fn real(self) -> f64;
}

impl Number for usize {
    fn real(self) -> f64 {
        self as f64
    }
}

impl Number for f64 {
    fn real(self) -> f64 {
        self
    }
}

fn compare_lent<T: Number>(
    check: &mut Check,
    face: &Face,
    record: &[u8],
    rattle: (Option<usize>, Vec<T>),
    expected: (Option<usize>, Vec<T>),
) {
    let reals = |(number, list): (Option<usize>, Vec<T>)| {
        let mut out = vec![number.map_or(-1.0, |n| n as f64)];
        out.extend(list.iter().map(|x| x.real()));
        out
    };
    let given = [vec![record.len() as f64], face.reals()].concat();
    check.case(&given, &reals(rattle), &reals(expected));
}
