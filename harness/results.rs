//! The result record: its size, and its bytes. The Rust has no records; this is compared with
//! `judge.rs`, which was written from document 01's words.

use crate::compared;
use crate::judge::result_record;
use crate::original::{UvLoop, Vec2, Vec3};
use crate::random::Random;
use crate::reference::Path;
use crate::report::{Check, Run};

const CASES: u64 = 50_000;

pub fn compare(run: &Run) {
    let mut check = run.check("result_size and write_result");
    let alike = |loops: usize, corners: usize| vec![corners; loops];
    for counts in [vec![], alike(1, 0), alike(256, 2), alike(257, 1), vec![65_535], vec![3, 65_536]]
    {
        result(&mut check, true, &counts);
    }
    for _ in 0..run.times * CASES {
        let random = &mut check.random;
        let most = if random.one_in(64) { 300 } else { 17 };
        let loops = 1 + random.below(most);
        let counts: Vec<usize> = (0..loops).map(|_| random.below(9) as usize).collect();
        result(&mut check, false, &counts);
    }
    check.done();
}

/// Random loops of these counts, written to lent bytes.
fn result(check: &mut Check, edge: bool, counts: &[usize]) {
    let random = &mut check.random;
    let path = random.choose(&[Path::Closed, Path::Wrapped, Path::Whole]);
    let loops: Vec<UvLoop> = counts.iter().map(|n| random_loop(random, *n)).collect();
    let holds = (1..=256).contains(&loops.len()) && counts.iter().all(|n| *n < 65_536);
    let expected =
        if holds { result_record(path, &loops.iter().collect::<Vec<_>>()) } else { vec![] };
    let size = holds.then_some([counts.iter().sum(), expected.len()]);
    let given: Vec<f64> = counts.iter().map(|n| *n as f64).collect();
    check.see(edge, &given, &size_reals(compared::result_size(counts)), &size_reals(size));
    write(check, edge, path, &loops, holds.then_some(expected));
}

fn size_reals(size: Option<[usize; 2]>) -> Vec<f64> {
    size.map_or(vec![], |s| s.map(|n| n as f64).to_vec())
}

/// The lent bytes after writing: the record, and past it the bytes that were there. Where something
/// is too short, or no record holds the loops, all bytes stay.
fn write(check: &mut Check, edge: bool, path: Path, loops: &[UvLoop], expected: Option<Vec<u8>>) {
    let random = &mut check.random;
    let counts: Vec<usize> = loops.iter().map(|l| l.uv.len()).collect();
    let mut areas: Vec<f64> = loops.iter().map(|l| l.area).collect();
    let mut corners: Vec<f64> =
        loops.iter().flat_map(|one| compared::rows(&one.uv, &one.xyz)).collect();
    let length = expected.as_ref().map_or(1000, Vec::len);
    let mut lent: Vec<u8> = (0..length + 5).map(|_| random.bits() as u8).collect();
    // One of the lent lists is of another length: the table by one to five reals.
    let other = random.below(7) as usize;
    let short = random.below(3) == 0;
    match other {
        0 => lent.truncate(if short { length - 1 } else { length }),
        1 => resize(&mut areas, 1, short),
        _ => resize(&mut corners, other - 1, short),
    }
    let missing = short && (other < 2 || counts.iter().sum::<usize>() > 0);
    let expected = expected.filter(|_| !missing);
    let mut after = lent.clone();
    if let Some(bytes) = &expected {
        after[..bytes.len()].copy_from_slice(bytes);
    }
    let given = lent.clone();
    let number = compared::write_result(path as u32, &counts, &areas, &corners, &mut lent);
    let answer = |number: Option<usize>| number.map_or([0xff; 8], usize::to_le_bytes);
    let rattle = [&answer(number)[..], &lent].concat();
    check.see_bytes(
        edge,
        &given,
        &rattle,
        &[&answer(expected.map(|e| e.len()))[..], &after].concat(),
    );
}

/// So many shorter or longer: a list may be longer than what is taken from it.
fn resize(list: &mut Vec<f64>, by: usize, short: bool) {
    if short {
        list.truncate(list.len().saturating_sub(by));
    } else {
        list.resize(list.len() + by, f64::MAX);
    }
}

fn random_loop(random: &mut Random, n: usize) -> UvLoop {
    UvLoop {
        uv: (0..n).map(|_| Vec2::new(real(random), real(random))).collect(),
        xyz: (0..n).map(|_| Vec3::new(real(random), real(random), real(random))).collect(),
        wrap: 0,
        travel: 0,
        area: real(random),
    }
}

/// Of any bits; the port keeps no pattern of a NaN.
fn real(random: &mut Random) -> f64 {
    let x = random.pattern();
    if x.is_nan() { f64::from_bits(0x7ff8_0000_0000_0000) } else { x }
}
