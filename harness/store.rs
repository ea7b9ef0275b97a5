//! Writes the faces of the program `replay` and the answers of the Rust to them. The same each
//! time: faces are chosen from the generator's so that every path, kind, branch, limit and refusal
//! is met several times, small faces first.
//!
//!     store FACES_FILE ANSWERS_FILE

// The generator's modules have more than is called here.
#![allow(dead_code)]

mod branches;
mod calls;
mod faces;
mod items;
mod judge;
mod patterns;
mod random;
mod reference;
mod shapes;

/// The Rust, cut out of its source by `cut.rs`.
#[allow(dead_code, unused)]
mod original {
    include!(env!("ORIGINAL"));
}

use branches::{BANDS, Branch, LIMITS, NUMBER, REGIONS, face_done};
use calls::{Call, call};
use judge::{Answer, judge, six_bytes};
use random::Random;
use std::collections::BTreeMap;

const CANDIDATES: usize = 100_000;

/// Faces of at most so many bytes, with their answers, are kept where they meet something that was
/// kept fewer times than this.
const ROUNDS: [(usize, usize); 3] = [(1_000, 12), (4_000, 4), (usize::MAX, 2)];

/// Then bands of at most so many bytes of which two points or more of a ring came round a new cut
/// (02, N4), up to so many of them.
const CUT_ANEW: (usize, usize) = (2_000, 60);

/// Then small faces of a path are kept, bands before the others, up to so many faces in all.
const SMALL: usize = 1_000;
const PATHS: [u8; 3] = [1, 0, 2];
const FACES: usize = 2_200;

fn main() {
    let arguments: Vec<String> = std::env::args().collect();
    let [_, faces, answers] = arguments.as_slice() else {
        eprintln!("usage: store FACES_FILE ANSWERS_FILE");
        std::process::exit(2);
    };
    let stored = chosen(candidates());
    let all = |of: fn(&Stored) -> Vec<u8>| stored.iter().flat_map(of).collect::<Vec<u8>>();
    for (file, bytes) in [(faces, all(face_bytes)), (answers, all(answer_bytes))] {
        if let Err(problem) = std::fs::write(file, bytes) {
            eprintln!("store: {file}: {problem}");
            std::process::exit(1);
        }
    }
    println!("store: {} faces", stored.len());
}

/// What a call meets: a branch, a path of a kind, or a refusal with what its place is.
#[derive(Clone, PartialEq, Eq, PartialOrd, Ord)]
enum Meeting {
    Branch(usize),
    Path { path: u8, kind: u8 },
    Refusal { number: u32, place: u32 },
}

struct Stored {
    call: Call,
    written: Vec<u8>,
    meets: Vec<Meeting>,
}

impl Stored {
    fn size(&self) -> usize {
        self.call.record.len() + self.written.len()
    }

    fn is_of(&self, wanted: u8) -> bool {
        self.meets.iter().any(|m| matches!(m, Meeting::Path { path, .. } if *path == wanted))
    }
}

fn candidates() -> Vec<Stored> {
    let mut random = Random::new(1, "stored");
    (0..CANDIDATES).map(|_| stored(call(&mut random))).collect()
}

fn stored(call: Call) -> Stored {
    let answer = judge(call.lent, &call.record);
    let branches: [bool; NUMBER] = face_done();
    let mut meets: Vec<Meeting> =
        (0..NUMBER).filter(|i| branches[*i]).map(Meeting::Branch).collect();
    let written = match answer {
        Answer::Closed(result) => {
            meets.push(Meeting::Path { path: result[1], kind: call.record[1] });
            result
        }
        Answer::Refused { number, place } => {
            // Of places that are lengths, indices or points of a strip there are too many.
            let told = if matches!(number, 2..=5 | 8..=10) { place } else { place.min(13) };
            meets.push(Meeting::Refusal { number, place: told });
            six_bytes(number, place)
        }
    };
    Stored { call, written, meets }
}

fn chosen(candidates: Vec<Stored>) -> Vec<Stored> {
    let mut kept = vec![false; candidates.len()];
    let mut times = BTreeMap::new();
    for (most, wanted) in ROUNDS {
        for (one, kept) in candidates.iter().zip(&mut kept) {
            let rare = one.meets.iter().any(|m| times.get(m).copied().unwrap_or(0) < wanted);
            if !*kept && rare && one.size() <= most {
                *kept = true;
                for meeting in &one.meets {
                    *times.entry(meeting.clone()).or_default() += 1;
                }
            }
        }
    }
    hold_all_met(&times);
    let (most, wanted) = CUT_ANEW;
    let at_stake = Meeting::Branch(Branch::TwoComeRound as usize);
    let mut number = times[&at_stake];
    for (one, kept) in candidates.iter().zip(&mut kept) {
        if number < wanted && !*kept && one.meets.contains(&at_stake) && one.size() <= most {
            *kept = true;
            number += 1;
        }
    }
    let mut number = kept.iter().filter(|kept| **kept).count();
    for path in PATHS {
        for (one, kept) in candidates.iter().zip(&mut kept) {
            if number < FACES && !*kept && one.is_of(path) && one.size() <= SMALL {
                *kept = true;
                number += 1;
            }
        }
    }
    candidates.into_iter().zip(kept).filter(|(_, kept)| *kept).map(|(one, _)| one).collect()
}

/// Stops where a branch, a limit or a refusal is met by no face that is kept.
fn hold_all_met(times: &BTreeMap<Meeting, usize>) {
    let refused = |number: u32| {
        times.keys().any(|m| matches!(m, Meeting::Refusal { number: n, .. } if *n == number))
    };
    let branches = [REGIONS, BANDS, LIMITS].concat();
    let met = branches.iter().all(|b| times.contains_key(&Meeting::Branch(*b as usize)));
    if !met || !(1..=12).all(refused) {
        eprintln!("store: the faces leave a branch, a limit or a refusal out");
        std::process::exit(1);
    }
}

/// How many bytes are lent, the length of the record, and the record.
fn face_bytes(one: &Stored) -> Vec<u8> {
    [&four(one.call.lent), &four(one.call.record.len()), &one.call.record[..]].concat()
}

/// The length of what `close` writes, those bytes, and 0: every other byte stays.
fn answer_bytes(one: &Stored) -> Vec<u8> {
    [&four(one.written.len()), &one.written[..], &[0]].concat()
}

fn four(number: usize) -> [u8; 4] {
    (number as u32).to_le_bytes()
}
