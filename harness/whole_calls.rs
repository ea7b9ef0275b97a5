//! The whole call against the judge: its code, its value, the bytes that it writes and those that
//! it leaves.

use crate::branches::{BANDS, LEAST, LIMITS, REGIONS, all_met, face_done, forget};
use crate::calls::{Call, call};
use crate::closer::close_face;
use crate::demands::Demands;
use crate::edges::{self, pairs};
use crate::judge::{Answer, LENT, judge};
use crate::report::{Check, Run};
use crate::shapes::KINDS;
use crate::steps;
use crate::triangle;

const CALLS: u64 = 250_000;

/// So many pairs of refusals are met by one call: all that a record can meet at once.
const PAIRS: usize = 59;

pub fn compare(run: &Run) {
    let mut check = run.check("close_face");
    let mut lent = Lent::new();
    triangle_closes(&mut lent);
    if !steps::holds() {
        println!("comparison: step counts are not what they should be");
        std::process::exit(1);
    }
    let mut met = Met::default();
    let mut demands = Demands::default();
    forget();
    let mut see = |check: &mut Check, edge: bool, call: &Call| {
        let expected = judge(call.lent, &call.record);
        met.note(call, &expected);
        let branches = face_done();
        let pattern = check.random.below(2) as usize;
        let rattle = lent.called(call, pattern);
        let given = [&(call.lent as u32).to_le_bytes(), &call.record[..]].concat();
        check.see_bytes(edge, &given, &rattle, &told(&expected));
        if matches!(&expected, Answer::Closed(_)) {
            // Before the result stand the code, the value and a byte that changed.
            demands.check(&call.record, &rattle[24..], &branches);
        }
    };
    edges::each(&mut |call| see(&mut check, true, call));
    for _ in 0..run.times * CALLS {
        let call = call(&mut check.random);
        see(&mut check, false, &call);
    }
    check.done();
    let all = [met.all(), demands.all(), all_met(&[REGIONS, BANDS, LIMITS].concat())];
    if all.contains(&false) {
        println!("comparison: the calls leave a path, a refusal, a claim, a branch or a limit out");
        std::process::exit(1);
    }
}

/// The triangle of document 01, byte for byte, with both patterns in the lent bytes: it needs
/// neither the Rust nor the judge.
fn triangle_closes(lent: &mut Lent) {
    let call = Call { lent: LENT, record: triangle::face() };
    let expected = telling(0, 134, None, &triangle::result());
    for pattern in 0..2 {
        let rattle = lent.called(&call, pattern);
        if rattle != expected {
            println!("comparison: document 01's triangle: DIFFERENT");
            println!("  code, value, a byte that changed, result: {rattle:02x?}");
            println!("  to be told: {expected:02x?}");
            std::process::exit(1);
        }
    }
    println!("comparison: the call closes document 01's triangle, 231 bytes, to its 134 bytes");
}

/// What is to be told of a call: the code, the value, the first byte that changed and was to stay,
/// and the result record.
fn told(answer: &Answer) -> Vec<u8> {
    match answer {
        Answer::Refused { number, place } => telling(*number, *place as usize, None, &[]),
        Answer::Closed(result) => telling(0, result.len(), None, result),
    }
}

fn telling(code: u32, value: usize, changed: Option<usize>, result: &[u8]) -> Vec<u8> {
    let changed = changed.unwrap_or(usize::MAX);
    let mut out: Vec<u8> =
        [code as usize, value, changed].iter().flat_map(|n| n.to_le_bytes()).collect();
    out.extend(result);
    out
}

/// Bytes not lent on both sides of those that are.
const BESIDE: usize = 64;

/// Result bytes, and what they hold before a call: one of two patterns, of which every byte of one
/// differs from that of the other, so that no byte can be written unseen with both.
struct Lent {
    patterns: [Vec<u8>; 2],
    bytes: Vec<u8>,
}

impl Lent {
    fn new() -> Lent {
        let one: Vec<u8> =
            (0..70_000u32).map(|i| (i.wrapping_mul(0x9e37_79b9) >> 24) as u8).collect();
        let other = one.iter().map(|byte| !byte).collect();
        Lent { bytes: one.clone(), patterns: [one, other] }
    }

    /// What the call tells, with that pattern in the lent bytes.
    fn called(&mut self, call: &Call, pattern: usize) -> Vec<u8> {
        let before = &self.patterns[pattern];
        self.bytes.copy_from_slice(before);
        let (code, value) = close_face(&call.record, &mut self.bytes[BESIDE..BESIDE + call.lent]);
        let length = if code == 0 { value.min(call.lent) } else { 0 };
        let end = BESIDE + length;
        let stays = |at: &usize| self.bytes[*at] != before[*at];
        let same = self.bytes[..BESIDE] == before[..BESIDE] && self.bytes[end..] == before[end..];
        let changed =
            if same { None } else { (0..BESIDE).chain(end..self.bytes.len()).find(stays) };
        telling(code, value, changed, &self.bytes[BESIDE..end])
    }
}

/// On how many calls each refusal and each path was met, by kind.
#[derive(Default)]
struct Met {
    refusals: [u64; 13],
    paths: [[u64; 5]; 3],
}

impl Met {
    fn note(&mut self, call: &Call, answer: &Answer) {
        match answer {
            Answer::Refused { number, .. } => self.refusals[*number as usize] += 1,
            Answer::Closed(result) => {
                self.paths[usize::from(result[1])][usize::from(call.record[1])] += 1;
            }
        }
    }

    /// Prints the counts. False where something was met on too few calls.
    fn all(&self) -> bool {
        let refusals = &self.refusals[1..];
        println!("comparison: so many calls are refused by 1 to 12: {refusals:?}");
        let [closed, wrapped, whole] = &self.paths;
        println!("comparison: closed, of {KINDS:?}: {closed:?}");
        println!("comparison: wrapped, of all but planes: {:?}", &wrapped[1..]);
        println!("comparison: whole, of spheres and tori: {:?}", &whole[3..]);
        let pairs = pairs();
        println!(
            "comparison: {} pairs of refusals that both apply, of which the earlier is given: \
             {pairs:?}",
            pairs.len()
        );
        pairs.len() >= PAIRS
            && [refusals, closed, &wrapped[1..], &whole[3..]].concat().iter().all(|n| *n >= LEAST)
    }
}
