//! How the time of `closed_region`, which finds the outer loop, grows with the number of loops, up
//! to far more than a record holds. Timed on both sides are the boxes of loops of four points, the
//! making of the lists that hold them, and the search with its areas; on the Rust's also that the
//! outer loop is taken out of the loops.

use crate::compared::{self, Table};
use crate::original::{UvLoop, Vec2, closed_region};
use std::hint::black_box;
use std::time::{Duration, Instant};

const LOOPS: [usize; 5] = [16, 64, 300, 1024, 4096];

/// Where the time of a loop among 4,096 is more than so many times that of one among 300, the run
/// fails. Of loops each within the next it is thirteen times where every box is held against every
/// other.
const MOST_GROWTH: f64 = 2.0;

/// Holding a box against every other ends at the first that it does not enclose: among holes side
/// by side at once, and where each loop lies within the next only after all that lie within it.
const FACES: &[(&str, fn(usize) -> Vec<UvLoop>)] =
    &[("holes side by side", side_by_side), ("each loop within the next", nested)];

pub fn print(rounds: u32) {
    println!("bench: closed_region by loops, nanoseconds a loop: Rattle, Rust, Rattle / Rust");
    for (name, face) in FACES {
        println!("bench: {name}");
        let times = LOOPS.map(|n| {
            let [rattle, rust] =
                least_times(&face(n), rounds).map(|time| time.as_secs_f64() * 1e9 / n as f64);
            println!("bench: {n:32} {rattle:9.1} {rust:9.1} {:6.2}", rattle / rust);
            rattle
        });
        let [_, _, among_300, _, among_4096] = times;
        if among_4096 > MOST_GROWTH * among_300 {
            println!(
                "bench: {name}: from 300 loops to 4,096 each takes over {MOST_GROWTH} times as long"
            );
            std::process::exit(1);
        }
    }
}

fn least_times(loops: &[UvLoop], rounds: u32) -> [Duration; 2] {
    let table = table(loops);
    let mut least = [Duration::MAX; 2];
    for _ in 0..rounds {
        // The Rust takes the outer loop out of the list that it is given.
        let mut given = loops.to_vec();
        let start = Instant::now();
        let region = black_box(closed_region(black_box(&mut given)));
        least[1] = least[1].min(start.elapsed());
        let start = Instant::now();
        let number = black_box(compared::closed_region(black_box(&table)));
        least[0] = least[0].min(start.elapsed());
        let (outer, _) = region.expect("there are loops");
        assert_eq!(number, outer.travel as usize, "bench: the two sides differ");
    }
    least
}

fn table(loops: &[UvLoop]) -> Table {
    let corners = loops.iter().flat_map(|l| &l.uv);
    Table {
        corners: corners.flat_map(|p| [p.u, p.v, 0.0, 0.0, 0.0]).collect(),
        counts: loops.iter().map(|l| l.uv.len()).collect(),
        areas: loops.iter().map(|l| l.area).collect(),
    }
}

fn side_by_side(n: usize) -> Vec<UvLoop> {
    let hole = |i: usize| square(i, (2 * i) as f64, (2 * i + 1) as f64);
    let mut loops: Vec<UvLoop> = (0..n).map(hole).collect();
    loops[n / 2] = square(n / 2, -1.0, (2 * n) as f64);
    loops
}

fn nested(n: usize) -> Vec<UvLoop> {
    (0..n).map(|i| square(i, -((i + 1) as f64), (i + 1) as f64)).collect()
}

/// The square with corners (lo, lo) and (hi, hi), and its number as `travel`, which bands alone
/// read. The larger it is the less is the area that it is given, so that the outer loop is not
/// found by that.
fn square(number: usize, lo: f64, hi: f64) -> UvLoop {
    let uv = [(lo, lo), (hi, lo), (hi, hi), (lo, hi)].map(|(u, v)| Vec2::new(u, v)).to_vec();
    UvLoop { uv, xyz: Vec::new(), wrap: 0, travel: number as i32, area: 1.0 / (hi - lo) }
}
