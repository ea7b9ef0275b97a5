//! The closed path against the Rust: the outer loop, and the holes moved onto its branch.

use crate::compared::{self, Table};
use crate::faces::{Face, band, patch};
use crate::original::{UvLoop, closed_region, rephase_holes};
use crate::reference::loops_of;
use crate::report::Run;

const CASES: u64 = 200_000;

pub fn compare(run: &Run) {
    let mut check = run.check("closed_region and rephase_holes");
    for i in 0..run.times * CASES {
        let random = &mut check.random;
        // The functions do not ask whether a loop wraps, so rings are loops like any other.
        let face = if i % 4 == 0 { band(random) } else { patch(random) };
        let (rattle, rust) = (rattle_region(&face), rust_region(&face));
        check.case(&face.reals(), &rattle, &rust);
    }
    check.done();
}

/// The number of the outer loop, then of each loop in file order its area, and its corners.
fn rattle_region(face: &Face) -> Vec<f64> {
    let mut table = table(&loops_of(face));
    let outer = compared::closed_region(&table);
    let domain = face.shape.surface().domain();
    let periods = [domain.u_period, domain.v_period].map(|p| p.unwrap_or(0.0));
    compared::rephase_holes(&mut table, outer, periods);
    [vec![outer as f64], table.areas, table.corners].concat()
}

fn rust_region(face: &Face) -> Vec<f64> {
    let mut loops = loops_of(face);
    for (i, one) in loops.iter_mut().enumerate() {
        // The Rust reads `travel` on bands alone; here it tells the loops apart.
        one.travel = i as i32;
    }
    let (outer, mut holes) = closed_region(&mut loops).expect("a face has loops");
    rephase_holes(&outer, &mut holes, &face.shape.surface().domain());
    let number = outer.travel;
    holes.insert(number as usize, outer);
    let table = table(&holes);
    [vec![f64::from(number)], table.areas, table.corners].concat()
}

fn table(loops: &[UvLoop]) -> Table {
    Table {
        corners: loops.iter().flat_map(|one| compared::rows(&one.uv, &one.xyz)).collect(),
        counts: loops.iter().map(|one| one.uv.len()).collect(),
        areas: loops.iter().map(|one| one.area).collect(),
    }
}
