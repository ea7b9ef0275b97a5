//! What the documents claim of a face that is closed, worked out from its record and from the
//! bytes of its result; only which ring of a band is the lower one is what the Rust says.

use crate::branches::{Branch, LEAST, NUMBER};
use crate::judge::check;
use crate::reference::loops_of;
use crate::steps::{Counts, Position, step_counts};

/// The path bytes of a band and of a whole surface, and the fewest corners of the latter: three
/// steps along each side.
const WRAPPED: u8 = 1;
const WHOLE: u8 = 2;
const FEWEST: usize = 12;

/// On how many results the claims were checked.
#[derive(Default)]
pub struct Demands {
    whole: u64,
    bands: u64,
    /// Bands with a hole across the seam, and those of them for which one ring was turned, or both.
    across: u64,
    one_turned: u64,
    both_turned: u64,
    /// Bands of which two points of a ring or more came round, and some step count is not zero.
    at_stake: u64,
}

impl Demands {
    /// Checks a result, of whose face these branches were met.
    pub fn check(&mut self, record: &[u8], result: &[u8], met: &[bool; NUMBER]) {
        let loops = positions_in(result);
        match result[1] {
            WHOLE => {
                self.whole += 1;
                told(record, "a whole surface has steps left over", holds_still(&loops));
            }
            WRAPPED => self.check_band(record, &loops, met),
            _ => (),
        }
    }

    /// Of demand 3 the step counts and the holes: the walls are no longer told apart in a result.
    fn check_band(&mut self, record: &[u8], loops: &[Vec<Position>], met: &[bool; NUMBER]) {
        let on = |branch: Branch| met[branch as usize];
        let exchanged = on(Branch::RingsExchanged) != on(Branch::TorusSwapped);
        let (rings, holes) = rings_and_holes(record);
        told(record, "a hole of a band is not as given", bits(&loops[1..]) == bits(&holes));
        let counts = step_counts(&[&loops[0]]);
        let bounded = counts == counts_of_rings(&rings, exchanged);
        told(record, "a band has not its rings' boundary", bounded);
        self.bands += 1;
        self.across += u64::from(on(Branch::HoleAcross));
        self.one_turned += u64::from(on(Branch::OneRingRecut));
        self.both_turned += u64::from(on(Branch::BothRingsRecut));
        self.at_stake += u64::from(on(Branch::TwoComeRound) && !counts.is_empty());
    }

    /// Prints the counts. False where a claim was checked on too few results.
    pub fn all(&self) -> bool {
        let Demands { whole, bands, across, one_turned, both_turned, at_stake } = self;
        println!("comparison: {whole} whole surfaces have no step left over");
        println!(
            "comparison: {bands} bands have the step counts of their rings, {across} of them with \
             a hole across the seam; for it one ring was turned in {one_turned}, both in \
             {both_turned}; two points or more of a ring with steps came round in {at_stake}"
        );
        [whole, bands, across, one_turned, both_turned, at_stake].iter().all(|n| **n >= LEAST)
    }
}

/// Ends the run where the claim does not hold.
fn told(record: &[u8], wrong: &str, holds: bool) {
    if !holds {
        println!("comparison: {wrong}");
        println!("  record: {record:02x?}");
        std::process::exit(1);
    }
}

/// The positions of each loop: they stand behind the header, the counts, the areas and the
/// parameters.
fn positions_in(result: &[u8]) -> Vec<Vec<Position>> {
    let loops = usize::from(result[2]) + 1;
    let counts: Vec<usize> = result[4..4 + 2 * loops]
        .chunks_exact(2)
        .map(|bytes| usize::from(u16::from_le_bytes([bytes[0], bytes[1]])))
        .collect();
    let corners: usize = counts.iter().sum();
    let reals: Vec<f64> = result[4 + 10 * loops + 16 * corners..]
        .chunks_exact(8)
        .map(|bytes| f64::from_le_bytes(bytes.try_into().expect("eight bytes")))
        .collect();
    let mut positions = reals.chunks_exact(3).map(|p| [p[0], p[1], p[2]]);
    counts.iter().map(|n| positions.by_ref().take(*n).collect()).collect()
}

/// 02, N2: "For a whole sphere or torus the step count of every pair of positions is then zero."
fn holds_still(loops: &[Vec<Position>]) -> bool {
    loops.len() == 1 && loops[0].len() >= FEWEST && step_counts(&[&loops[0]]).is_empty()
}

/// The rings of a record, each with u rising, and its holes.
fn rings_and_holes(record: &[u8]) -> (Vec<Vec<Position>>, Vec<Vec<Position>>) {
    let face = check(record).unwrap_or_else(|_| panic!("the face is closed"));
    let (mut rings, mut holes) = (Vec::new(), Vec::new());
    for one in loops_of(&face) {
        let mut positions: Vec<Position> = one.xyz.iter().map(|p| [p.x, p.y, p.z]).collect();
        if one.wrap < 0 {
            positions.reverse();
        }
        if one.wrap == 0 { &mut holes } else { &mut rings }.push(positions);
    }
    (rings, holes)
}

fn bits(loops: &[Vec<Position>]) -> Vec<Vec<[u64; 3]>> {
    loops.iter().map(|l| l.iter().map(|p| p.map(f64::to_bits)).collect()).collect()
}

/// Those of the lower ring with those of the upper one read backward. The last loop that wraps is the
/// lower one where the two were not exchanged.
fn counts_of_rings(rings: &[Vec<Position>], exchanged: bool) -> Counts {
    let [earlier, last] = rings else { panic!("two loops wrap") };
    let (lower, upper) = if exchanged { (earlier, last) } else { (last, earlier) };
    let backward: Vec<Position> = upper.iter().rev().copied().collect();
    step_counts(&[lower, &backward])
}
