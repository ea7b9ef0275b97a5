//! The search for the outer loop against every box held against every other, on boxes of any ends:
//! ties, ends that miss by the slack, huge, infinite and undefined ones, zeros of either sign.

use crate::branches::LEAST;
use crate::compared;
use crate::items::Order;
use crate::original::{UvLoop, Vec2, closed_region};
use crate::patterns::{moved, number};
use crate::random::Random;
use crate::report::Run;

const CASES: u64 = 400_000;

/// The ends of a box: ulo, uhi, vlo, vhi.
type Ends = [f64; 4];

pub fn compare(run: &Run) {
    let mut check = run.check("outer_loop");
    let mut met: Vec<(&str, u64)> = kinds(&[], &[]).iter().map(|(kind, _)| (*kind, 0)).collect();
    let mut loops = 0u64;
    for _ in 0..run.times * CASES {
        let random = &mut check.random;
        let boxes = boxes(random);
        let areas = areas(random, boxes.len());
        let lent = lent(random, &boxes);
        for ((_, times), (_, meets)) in met.iter_mut().zip(kinds(&boxes, &areas)) {
            *times += u64::from(meets);
        }
        let given = [lent.clone(), areas.clone()].concat();
        let rattle = compared::outer_loop(&lent, &areas) as f64;
        check.case(&given, &[rattle], &[all_pairs(&boxes, &areas) as f64]);
        // The Rust takes loops, whose lower ends lie above no upper one.
        if !boxes.is_empty() && areas.len() == boxes.len() && boxes.iter().all(a_loop_has) {
            loops += 1;
            check.case(&given, &[rattle], &[of_loops(&boxes, &areas)]);
        }
    }
    check.done();
    println!("comparison: the boxes of {loops} cases are put to the Rust as loops, too");
    for (kind, times) in &met {
        println!("comparison: {kind}: {times}");
    }
    if loops < LEAST || met.iter().any(|(_, times)| *times < LEAST) {
        println!("comparison: the boxes leave a kind out");
        std::process::exit(1);
    }
}

/// Document 01: "the one box that encloses all others within 10^-9 of the largest box side; with no
/// such box or several, the largest absolute area, last of equals". Of an end, a side or an area
/// that is a NaN the document says nothing: here, as in the port's definitions, every comparison
/// with it is false.
fn all_pairs(boxes: &[Ends], areas: &[f64]) -> usize {
    the_one(&enclosing(boxes, slack(boxes)), areas)
}

/// The only one found, and else the last of the largest areas.
fn the_one(found: &[usize], areas: &[f64]) -> usize {
    let larger = |best: usize, i: usize| if areas[i].abs() < areas[best].abs() { best } else { i };
    match found {
        [only] => *only,
        _ => (1..areas.len()).fold(0, larger),
    }
}

/// The boxes that enclose all others within the slack, each held against each.
fn enclosing(boxes: &[Ends], slack: f64) -> Vec<usize> {
    let others = |i: usize| (0..boxes.len()).filter(move |j| *j != i);
    let all = |i: &usize| others(*i).all(|j| encloses(slack, &boxes[*i], &boxes[j]));
    (0..boxes.len()).filter(all).collect()
}

fn encloses(slack: f64, b: &Ends, o: &Ends) -> bool {
    b[0] <= o[0] + slack && b[1] >= o[1] - slack && b[2] <= o[2] + slack && b[3] >= o[3] - slack
}

fn slack(boxes: &[Ends]) -> f64 {
    let sides = boxes.iter().map(|b| (b[1] - b[0]).greatest(b[3] - b[2]));
    sides.fold(0.0, f64::greatest) * 1e-9
}

/// A kind of list, and whether this list is of that kind.
type Kind = (&'static str, bool);

/// What lists of boxes and areas can be like; each kind must be met.
fn kinds(boxes: &[Ends], areas: &[f64]) -> Vec<Kind> {
    let slack = slack(boxes);
    let found = enclosing(boxes, slack);
    let by_found = kinds_by_found(boxes, slack, &found);
    let by_slips = kinds_by_slips(boxes, areas, slack, &found);
    let by_areas = kinds_by_areas(boxes, areas, &found);
    [&by_found[..], &by_slips, &kinds_by_ends(boxes, slack), &by_areas].concat()
}

/// By the boxes that enclose all others.
fn kinds_by_found(boxes: &[Ends], slack: f64, found: &[usize]) -> [Kind; 9] {
    let (none, one, several) = (found.is_empty(), found.len() == 1, found.len() > 1);
    let n = boxes.len();
    [
        ("no box", n == 0),
        ("a box alone", n == 1),
        ("one box encloses all others", n > 1 && one),
        ("one does, and not itself", n > 1 && one && !itself(slack, &boxes[found[0]])),
        ("several do", several),
        ("several do, the first two of equal ends", several && boxes[found[0]] == boxes[found[1]]),
        ("none does", n > 1 && none),
        ("one of over a hundred does", n > 100 && one),
        ("none of over a hundred does", n > 100 && none),
    ]
}

/// By slips that would be seen: with them the answer would be another.
fn kinds_by_slips(boxes: &[Ends], areas: &[f64], slack: f64, found: &[usize]) -> [Kind; 5] {
    let shows = |slip: &[usize]| the_one(slip, areas) != the_one(found, areas);
    let finite = slack < f64::INFINITY;
    let others = |i: usize| (0..boxes.len()).filter(move |j| *j != i);
    let uncounted = |i: &usize| {
        others(*i).all(|j| !itself(slack, &boxes[j]) || encloses(slack, &boxes[*i], &boxes[j]))
    };
    let uncounted: Vec<usize> = (0..boxes.len()).filter(uncounted).collect();
    let tested: Vec<usize> = found.iter().copied().filter(|i| itself(slack, &boxes[*i])).collect();
    [
        ("no slack would show", finite && shows(&enclosing(boxes, 0.0))),
        ("twice the slack would show", finite && shows(&enclosing(boxes, 2.0 * slack))),
        ("boxes that none can enclose, left out, would show", shows(&uncounted)),
        ("a box held against itself would show", boxes.len() > 1 && shows(&tested)),
        ("a box alone held against itself would show", boxes.len() == 1 && shows(&tested)),
    ]
}

/// By what stands among the ends.
fn kinds_by_ends(boxes: &[Ends], slack: f64) -> [Kind; 7] {
    let an_end = |is: fn(f64) -> bool| boxes.iter().flatten().any(|end| is(*end));
    let (unbounded, infinite) = (slack == f64::INFINITY, an_end(f64::is_infinite));
    let (plus, minus) = (an_end(|x| is_zero(x, false)), an_end(|x| is_zero(x, true)));
    let crossed = |b: &Ends| b[1] < b[0] || b[3] < b[2];
    [
        ("an end is a NaN", an_end(f64::is_nan)),
        ("the slack is infinite", unbounded),
        ("the slack is infinite and no end is", unbounded && !infinite),
        ("an end is infinite and the slack is not", !unbounded && infinite),
        ("an end is finite and over 1e300 in size", an_end(|x| x.is_finite() && x.abs() > 1e300)),
        ("there are zeros of both signs among the ends", plus && minus),
        ("an upper end lies below its lower one", boxes.iter().any(crossed)),
    ]
}

/// By how many areas there are where they say which loop is the outer one.
fn kinds_by_areas(boxes: &[Ends], areas: &[f64], found: &[usize]) -> [Kind; 4] {
    let undecided = boxes.len() > 1 && found.len() != 1;
    [
        ("the areas decide, and there is none", undecided && areas.is_empty()),
        ("the areas decide, fewer than the boxes", undecided && areas.len() < boxes.len()),
        ("the areas decide, as many", undecided && areas.len() == boxes.len()),
        ("the areas decide, more", undecided && areas.len() > boxes.len()),
    ]
}

/// Whether a box encloses even itself: it does not where an end is a NaN, or becomes one.
fn itself(slack: f64, b: &Ends) -> bool {
    encloses(slack, b, b)
}

fn is_zero(x: f64, negative: bool) -> bool {
    x == 0.0 && x.is_sign_negative() == negative
}

/// Whether the least and the greatest of some points can be these ends.
fn a_loop_has(b: &Ends) -> bool {
    b[0] <= b[1] && b[2] <= b[3]
}

/// The Rust's answer to loops of two points each.
fn of_loops(boxes: &[Ends], areas: &[f64]) -> f64 {
    let one = |(i, (b, area)): (usize, (&Ends, &f64))| UvLoop {
        uv: vec![Vec2::new(b[0], b[2]), Vec2::new(b[1], b[3])],
        xyz: Vec::new(),
        wrap: 0,
        // Read on bands alone; here it tells the loops apart.
        travel: i as i32,
        area: *area,
    };
    let mut loops = boxes.iter().zip(areas).enumerate().map(one).collect();
    let (outer, _) = closed_region(&mut loops).expect("there are loops");
    f64::from(outer.travel)
}

/// The ends, four to a box; at times up to three more reals, which are no box, stand behind them.
fn lent(random: &mut Random, boxes: &[Ends]) -> Vec<f64> {
    let mut out = boxes.concat();
    if random.one_in(4) {
        out.extend((0..1 + random.below(3)).map(|_| number(random)));
    }
    out
}

/// Mostly as many as there are boxes; at times none, one fewer, or up to two more.
fn areas(random: &mut Random, boxes: usize) -> Vec<f64> {
    if random.one_in(64) {
        return Vec::new();
    }
    let more = if random.one_in(4) { random.below(3) as usize } else { 0 };
    let fewer = if random.one_in(8) { 1 } else { 0 };
    (fewer..boxes + more).map(|_| area(random)).collect()
}

fn boxes(random: &mut Random) -> Vec<Ends> {
    let n = match random.below(64) {
        0 => random.below(400),
        1..8 => random.below(24),
        _ => random.below(5),
    };
    let way = random.below(6);
    let mut out: Vec<Ends> = (0..n).map(|_| one_box(random, way)).collect();
    if way == 1 && n > 0 {
        let outer = random.below(n) as usize;
        out[outer] = [-4.0, 4.0, -4.0, 4.0];
        nearly_outside(random, &mut out, outer);
    }
    out
}

/// Boxes whose ends are often equal; boxes within the square from -4 to 4; ends of any size; ends
/// at the limits of a float; any bits; and small boxes, some with one end at a limit.
fn one_box(random: &mut Random, way: u64) -> Ends {
    let few = [-2.0, -1.0, -0.0, 0.0, 1.0, 2.0];
    match way {
        0 => sorted(random, |random| random.choose(&few)),
        1 => sorted(random, |random| random.between(-3.0, 3.0)),
        2 => sorted(random, |random| {
            let size = random.scaled(1e-300, 1e300);
            random.signed(size)
        }),
        3 => sorted(random, limit),
        4 => [(); 4].map(|_| number(random)),
        _ => {
            let mut ends = sorted(random, |random| random.choose(&few));
            if random.one_in(4) {
                ends[random.below(4) as usize] = limit(random);
            }
            ends
        }
    }
}

/// Lower ends before upper ones, but for a few.
fn sorted(random: &mut Random, mut end: impl FnMut(&mut Random) -> f64) -> Ends {
    let [a, b, c, d] = [(); 4].map(|_| end(random));
    if random.one_in(32) {
        return [a, b, c, d];
    }
    [a.least(b), a.greatest(b), c.least(d), c.greatest(d)]
}

/// An infinity, a NaN, one of the largest floats, the least one, zero or 1, of either sign.
fn limit(random: &mut Random) -> f64 {
    let end = random.choose(&[f64::INFINITY, f64::MAX, 1e308, 1.0, 0.0, 5e-324, f64::NAN]);
    random.signed(end)
}

/// Moves ends of few boxes out of the outer one, by about the slack.
fn nearly_outside(random: &mut Random, boxes: &mut [Ends], outer: usize) {
    for _ in 0..random.below(3) {
        let (i, end) = (random.below(boxes.len() as u64) as usize, random.below(4) as usize);
        if i != outer {
            let out = boxes[outer][end];
            let near = out + out.signum() * 8e-9 * random.choose(&[0.5, 1.0, 1.0, 2.0]);
            boxes[i][end] = moved(near, random.below(5) as i64 - 2);
        }
    }
}

fn area(random: &mut Random) -> f64 {
    if random.one_in(8) {
        return number(random);
    }
    let size = random.below(4) as f64;
    random.signed(size)
}
