//! Whether the generated faces and records meet every path and every branch of the cut Rust, and
//! every refusal. Nothing is compared here.

use crate::branches::{BANDS, LIMITS, REGIONS, all_met, face_done, forget, note_zeros};
use crate::calls::call;
use crate::faces::{band, patch, whole};
use crate::judge::{Answer, judge};
use crate::reference::{Path, close};
use crate::report::Run;

const FACES: u64 = 200_000;

pub fn meet_everything(run: &Run) {
    forget();
    meet_paths(run);
    meet_refusals(run);
    if !all_met(&[REGIONS, BANDS, LIMITS].concat()) {
        println!("comparison: a branch or a limit was met on too few faces");
        std::process::exit(1);
    }
}

fn meet_paths(run: &Run) {
    let mut random = run.random("faces");
    let mut met = [0u64; 3];
    let (mut refused, mut most) = (0u64, 0);
    for i in 0..run.times * FACES {
        let face = match i % 8 {
            0 => whole(&mut random),
            1 | 2 => patch(&mut random),
            _ => band(&mut random),
        };
        match close(&face) {
            Some(closing) => {
                met[closing.path as usize] += 1;
                note_zeros(&closing);
                let holes = closing.holes.iter().map(|h| h.uv.len());
                most = most.max(closing.outer.uv.len() + holes.sum::<usize>());
            }
            None => refused += 1,
        }
        face_done();
    }
    let of = |path: Path| met[path as usize];
    println!(
        "comparison: of the generated faces {} are closed, {} wrapped, {} whole, {refused} neither; \
         at most {most} corners",
        of(Path::Closed),
        of(Path::Wrapped),
        of(Path::Whole),
    );
    if met.contains(&0) {
        println!("comparison: the generated faces leave a path out");
        std::process::exit(1);
    }
}

fn meet_refusals(run: &Run) {
    let mut random = run.random("calls");
    let mut met = [0u64; 13];
    for _ in 0..run.times * FACES {
        let call = call(&mut random);
        match judge(call.lent, &call.record) {
            Answer::Closed(_) => met[0] += 1,
            Answer::Refused { number, .. } => met[number as usize] += 1,
        }
        face_done();
    }
    println!(
        "comparison: of the generated records so many are closed, and refused by 1 to 12: {met:?}"
    );
    if met.contains(&0) {
        println!("comparison: the generated records leave a refusal out");
        std::process::exit(1);
    }
}
