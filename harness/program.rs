//! Runs the program `close` on document 01's triangle, on the stored faces, and on inputs that a
//! pipe or a file may give: in pieces, longer than any record, empty, not to be read at all, or
//! read with interruptions.
//!
//!     program CLOSE_PROGRAM FACES_FILE ANSWERS_FILE

#[cfg(all(target_os = "linux", target_arch = "x86_64"))]
mod interrupted;
mod triangle;

use std::fs::File;
use std::io::{Read, Write};
use std::process::{Command, Stdio};
use std::thread::{sleep, spawn};
use std::time::Duration;

/// The program lends so many bytes, so stored faces with fewer are not for it.
const LENT: usize = 61_614;

/// Of a longer input no more is read.
const READ: usize = 20_622;

fn main() {
    let arguments: Vec<String> = std::env::args().collect();
    let [_, close, faces, answers] = arguments.as_slice() else {
        eprintln!("usage: program CLOSE_PROGRAM FACES_FILE ANSWERS_FILE");
        std::process::exit(2);
    };
    let triangle = triangle::face();
    hold("document 01's triangle", &fed(close, vec![triangle.clone()]), &triangle::result());
    let stored = stored(&read(faces), &read(answers));
    for (i, (record, answer)) in stored.iter().enumerate() {
        hold("a stored face", &fed(close, vec![record.clone()]), answer);
        if i % 100 == 0 {
            let (front, back) = record.split_at(record.len() / 2);
            hold("a face in pieces", &fed(close, vec![front.to_vec(), back.to_vec()]), answer);
        }
    }
    let longer = |more: usize| [triangle.clone(), vec![0; more]].concat();
    let needed = [&[0, 6][..], &(triangle.len() as u32).to_le_bytes()].concat();
    for more in [1, READ - triangle.len() - 1, READ - triangle.len(), 100_000] {
        hold("a longer input", &fed(close, vec![longer(more)]), &needed);
    }
    hold("no input", &fed(close, vec![]), &[0, 2, 0, 0, 0, 0]);
    hold("an input that cannot be read", &from_folder(close), &[]);
    println!(
        "program: document 01's triangle to its {} bytes, and {} stored faces, each answer as stored",
        triangle::result().len(),
        stored.len()
    );
    interruptions(close, &triangle);
}

fn read(name: &str) -> Vec<u8> {
    std::fs::read(name).unwrap_or_else(|problem| stop(&format!("{name}: {problem}")))
}

fn stop(why: &str) -> ! {
    println!("program: {why}");
    std::process::exit(1)
}

fn hold(what: &str, written: &[u8], expected: &[u8]) {
    if written != expected {
        stop(&format!("{what}: DIFFERENT: written {written:02x?}, expected {expected:02x?}"));
    }
}

/// The records and what is to be written of them.
fn stored(mut faces: &[u8], mut answers: &[u8]) -> Vec<(Vec<u8>, Vec<u8>)> {
    let mut out = Vec::new();
    while !faces.is_empty() {
        let lent = number(take(&mut faces, 4));
        let length = number(take(&mut faces, 4));
        let record = take(&mut faces, length).to_vec();
        let length = number(take(&mut answers, 4));
        let answer = take(&mut answers, length).to_vec();
        take(&mut answers, 1);
        if lent >= LENT {
            out.push((record, answer));
        }
    }
    out
}

fn take<'a>(from: &mut &'a [u8], n: usize) -> &'a [u8] {
    let (front, back) = from.split_at(n);
    *from = back;
    front
}

fn number(bytes: &[u8]) -> usize {
    u32::from_le_bytes(bytes.try_into().expect("four bytes")) as usize
}

/// What the program writes to an input that comes in these pieces.
fn fed(close: &str, pieces: Vec<Vec<u8>>) -> Vec<u8> {
    let mut command = Command::new(close);
    let mut child = command
        .stdin(Stdio::piped())
        .stdout(Stdio::piped())
        .spawn()
        .unwrap_or_else(|problem| stop(&format!("{close}: {problem}")));
    let mut input = child.stdin.take().expect("a pipe");
    let feeding = spawn(move || {
        for (i, piece) in pieces.iter().enumerate() {
            if i > 0 {
                sleep(Duration::from_millis(3));
            }
            // The program may end before it has read all.
            let _ = input.write_all(piece);
        }
    });
    let mut out = Vec::new();
    child.stdout.take().expect("a pipe").read_to_end(&mut out).expect("its output");
    feeding.join().expect("the feeding ends");
    if !child.wait().is_ok_and(|status| status.success()) {
        stop("the program ended with a status that is not 0");
    }
    out
}

/// What it writes where its input is a folder, which can be opened and not read.
fn from_folder(close: &str) -> Vec<u8> {
    let folder = File::open("/").expect("a folder");
    Command::new(close).stdin(folder).output().expect("the program runs").stdout
}

/// Has reads of the triangle's record fail. One that is interrupted is tried again, unless it is
/// the 1,000th in a row; then, and after any other failure, nothing is written.
#[cfg(all(target_os = "linux", target_arch = "x86_64"))]
fn interruptions(close: &str, face: &[u8]) {
    use interrupted::{EINTR, EIO, Reading};
    let (front, back) = face.split_at(100);
    let gives = |bytes| vec![Reading::Gives(bytes)];
    let fails = |error, times| vec![Reading::Fails(error); times];
    let most = || fails(EINTR, 999);
    let (result, nothing) = (triangle::result(), vec![]);
    let cases = [
        ("3 interruptions first", vec![fails(EINTR, 3), gives(face)], &result),
        ("an interruption between", vec![gives(front), fails(EINTR, 1), gives(back)], &result),
        ("an interruption at the end", vec![gives(face), fails(EINTR, 1)], &result),
        ("999 interruptions", vec![most(), gives(face)], &result),
        ("999 interruptions twice", vec![most(), gives(front), most(), gives(back)], &result),
        ("1,000 interruptions", vec![fails(EINTR, 1000), gives(face)], &nothing),
        ("1,000 between", vec![gives(front), fails(EINTR, 1000), gives(back)], &nothing),
        ("a read that fails first", vec![fails(EIO, 1), gives(face)], &nothing),
        ("a read that fails at the end", vec![gives(face), fails(EIO, 1)], &nothing),
    ];
    let mut put_in = 0;
    for (what, readings, expected) in &cases {
        let Some(failed) = with_failures(close, what, &readings.concat(), expected) else {
            println!("program: interrupted reads are NOT TESTED: nothing may be traced here");
            return;
        };
        put_in += failed;
    }
    println!(
        "program: {put_in} of its reads made to fail, in {} runs, each as it should",
        cases.len()
    );
}

/// How many reads failed, which must be all that are told; None where the program cannot be traced.
#[cfg(all(target_os = "linux", target_arch = "x86_64"))]
fn with_failures(
    close: &str,
    what: &str,
    readings: &[interrupted::Reading],
    expected: &[u8],
) -> Option<usize> {
    let run = interrupted::run(close, readings)?;
    if !run.ended_well {
        stop(&format!("{what}: the program was killed, or its status is not 0"));
    }
    hold(what, &run.written, expected);
    let fails = |reading: &&interrupted::Reading| matches!(reading, interrupted::Reading::Fails(_));
    let told = readings.iter().filter(fails).count();
    if run.failed != told {
        stop(&format!("{what}: {} reads were made to fail, not {told}", run.failed));
    }
    Some(run.failed)
}

#[cfg(not(all(target_os = "linux", target_arch = "x86_64")))]
fn interruptions(_: &str, _: &[u8]) {
    println!("program: interrupted reads are NOT TESTED: this is not x86-64 Linux");
}
