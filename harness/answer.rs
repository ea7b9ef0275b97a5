//! Answers the face record on standard input as the Rust does, in the bytes that the program
//! `close` writes: the answers of `examples/` are made and compared with it.
//!
//!     answer <FACE >ANSWER

// The generator's modules have more than is called here.
#![allow(dead_code)]

mod branches;
mod faces;
mod items;
mod judge;
mod patterns;
mod random;
mod reference;
mod shapes;

/// The Rust, cut out of its source by `cut.rs`.
#[allow(dead_code, unused)]
mod original {
    include!(env!("ORIGINAL"));
}

use judge::{Answer, LENT, judge, six_bytes};
use std::io::{Read, Write, stdin, stdout};

fn main() {
    let mut record = Vec::new();
    stdin().read_to_end(&mut record).expect("a face record");
    let answer = match judge(LENT, &record) {
        Answer::Closed(result) => result,
        Answer::Refused { number, place } => six_bytes(number, place),
    };
    stdout().write_all(&answer).expect("the answer is taken");
}
