//! What is cut out of the Rust source, and where items 1 to 5 of document 01, "Where port and
//! Rust part", and the requests of document 02 that change the Rust are put in. The old texts below
//! are all of that source that this repository holds.

use crate::edit::{Change, Edit};

/// A declaration of a source file that is taken over.
pub struct Cut {
    pub file: &'static str,
    pub name: &'static str,
    pub members: Members,
    pub edits: Vec<Edit>,
}

pub enum Members {
    All,
    /// Of an `impl` or an `enum` only these.
    Only(&'static [&'static str]),
}

const MATH: &str = "native/crates/cad-ir/src/math.rs";
const BREP: &str = "native/crates/cad-ir/src/brep.rs";
const SURFACE: &str = "native/crates/cad-ir/src/eval/surface.rs";
const OPTIONS: &str = "native/crates/cad-tess/src/options.rs";
const KNOTS: &str = "native/crates/cad-tess/src/knots.rs";
const FACE: &str = "native/crates/cad-tess/src/face.rs";

const ITEM_1: &str = "item 1 (sin, cos, tan)";
const ITEM_2: &str = "item 2 (acos)";
const ITEM_3: &str = "item 3 (min, max)";
const ITEM_5: &str = "item 5 (repeats)";
const REQUEST_2: &str = "02, N2 (the last rung is the end)";
const REQUEST_4: &str = "02, N4 (a ring is cut anew without its repeated last point)";
const COUNTS: &str = "counts of the branches met";
const ONE_RING: &str = "the one-ring branch, which refusal 9 stands before";
const PATHS: &str = "paths to other crates";
const SWITCHES: &str = "environment switches and prints";
const KINDS: &str = "free-form kinds, which are left out";

/// What stands before the cut text. Item 4 is put in here: the two functions that it speaks of are
/// those of `items.rs`.
pub const PREAMBLE: &str = "use crate::branches::{Branch, is_minus_zero, met, noted, strip_has};
use crate::items::{Order, Real, repeats};

pub mod knots {
    pub use super::{Axis, merge_even};
    pub use crate::items::{surface_breaks, thin_breaks};
}
";

/// Declarations of the source that `items.rs` stands for. They must be there all the same.
pub const REPLACED: &[(&str, &str)] = &[(KNOTS, "fn surface_breaks"), (KNOTS, "fn thin_breaks")];

/// What no cut text may still hold: functions that the items replace, environment switches, prints.
pub const FORBIDDEN: &str = "
    .sin( .cos( .tan( .sin_cos( .acos( .asin( .atan( .atan2( .hypot( .powi( .powf( .mul_add(
    .min( .max( f64::min f64::max env print! println! eprintln! unsafe";

fn cut(file: &'static str, name: &'static str) -> Cut {
    Cut { file, name, members: Members::All, edits: Vec::new() }
}

impl Cut {
    fn only(mut self, members: &'static [&'static str]) -> Cut {
        self.members = Members::Only(members);
        self
    }

    fn edit(mut self, why: &'static str, change: Change, times: usize) -> Cut {
        self.edits.push(Edit { why, change, times });
        self
    }

    fn replace(self, why: &'static str, old: &'static str, new: &'static str, times: usize) -> Cut {
        self.edit(why, Change::Replace(old, new), times)
    }

    /// Item 3 at every call of `min` (the first number) and `max`. Those of whole numbers go the
    /// same way: there the earlier of two equals and the later are one.
    fn order(self, least: usize, greatest: usize) -> Cut {
        self.replace(ITEM_3, ".min(", ".least(", least).replace(
            ITEM_3,
            ".max(",
            ".greatest(",
            greatest,
        )
    }

    /// A count is put before the text, which stays.
    fn count(self, text: &'static str, with_count: &'static str) -> Cut {
        self.replace(COUNTS, text, with_count, 1)
    }

    fn drop_switches(self, text: &'static str, times: usize) -> Cut {
        self.edit(SWITCHES, Change::DropStatement(text), times)
    }

    fn drop_arms(mut self, patterns: &[&'static str]) -> Cut {
        for pattern in patterns {
            self = self.edit(KINDS, Change::DropArm(pattern), 1);
        }
        self
    }
}

pub fn plan() -> Vec<Cut> {
    let mut all = numbers();
    all.extend(surfaces());
    all.extend(loops());
    all.extend(regions());
    all.extend(bands());
    all
}

fn numbers() -> Vec<Cut> {
    vec![
        cut(MATH, "struct Vec3"),
        cut(MATH, "impl Vec3").only(&[
            "const X",
            "const Y",
            "const Z",
            "fn new",
            "fn dot",
            "fn cross",
            "fn length",
            "fn try_normalized",
            "fn normalized_or",
            "fn any_perpendicular",
        ]),
        cut(MATH, "impl std::ops::Add for Vec3"),
        cut(MATH, "impl std::ops::Sub for Vec3"),
        cut(MATH, "impl std::ops::Mul<f64> for Vec3"),
        cut(MATH, "struct Frame"),
        cut(MATH, "impl Frame")
            .only(&["fn new", "fn y_dir", "fn polar"])
            .replace(ITEM_1, ".sin()", ".sine()", 1)
            .replace(ITEM_1, ".cos()", ".cosine()", 1),
    ]
}

const FREE_FORM: &[&str] = &[
    "Surface::Nurbs",
    "Surface::LinearExtrusion",
    "Surface::Revolution",
    "Surface::Offset",
    "Surface::RectangularTrimmed",
];

fn surfaces() -> Vec<Cut> {
    vec![
        cut(MATH, "struct Vec2"),
        cut(MATH, "impl Vec2"),
        cut(MATH, "struct Interval"),
        cut(MATH, "impl Interval").only(&["fn new", "fn span"]),
        cut(MATH, "const TAU"),
        cut(BREP, "enum Surface").only(&["Plane", "Cylinder", "Cone", "Sphere", "Torus"]),
        cut(SURFACE, "struct Domain"),
        cut(SURFACE, "const UNBOUNDED"),
        cut(SURFACE, "impl Surface").only(&["fn domain"]).drop_arms(FREE_FORM).replace(
            ITEM_1,
            ".tan()",
            ".tangent()",
            1,
        ),
        cut(SURFACE, "impl Surface")
            .only(&["fn point_at"])
            .drop_arms(FREE_FORM)
            .replace(ITEM_1, ".sin()", ".sine()", 2)
            .replace(ITEM_1, ".cos()", ".cosine()", 2)
            .replace(ITEM_1, ".tan()", ".tangent()", 1),
        cut(OPTIONS, "struct Resolved"),
        cut(OPTIONS, "impl Resolved")
            .only(&["fn angle_step_for_radius", "fn segments_for_arc"])
            .replace(ITEM_2, ".acos()", ".arc_cosine()", 1)
            .order(1, 3),
        cut(KNOTS, "enum Axis"),
        cut(KNOTS, "fn merge_even").order(0, 1).replace(
            REQUEST_2,
            "all.dedup_by(|a, b| (*a - *b).abs() <= epsilon);",
            "all.dedup_by(|a, b| (*a - *b).abs() <= epsilon);
            if lo != hi {
                if noted(Branch::EndAdded, all.len() == 1) {
                    all.push(hi);
                }
                let last = all.len() - 1;
                noted(Branch::LastRungSet, all[last] != hi);
                all[last] = hi;
            }",
            1,
        ),
        cut(FACE, "fn v_steps").order(0, 1),
        cut(FACE, "fn adaptive_steps").replace(ITEM_2, ".acos()", ".arc_cosine()", 1).order(0, 3),
        cut(FACE, "fn direction_steps")
            .replace(ITEM_1, ".tan()", ".tangent()", 1)
            .replace(ITEM_1, ".cos()", ".cosine()", 1)
            .order(0, 2),
    ]
}

/// The leaf functions on one loop.
fn loops() -> Vec<Cut> {
    vec![
        cut(FACE, "fn nearest_branch"),
        cut(FACE, "fn net_wrap"),
        cut(FACE, "fn signed_area"),
        cut(FACE, "fn mean_v"),
        cut(FACE, "fn span").order(1, 1),
    ]
}

/// Item 5 in the two places where `close_strip` drops a corner.
fn repeats_by_items(cut: Cut) -> Cut {
    cut.replace(
        ITEM_5,
        "(xyz[i] - xyz[i - 1 - cut]).length_squared() <= 0.0",
        "repeats(xyz[i], xyz[i - 1 - cut])",
        1,
    )
    .replace(
        ITEM_5,
        "(xyz[xyz.len() - 1] - xyz[0]).length_squared() <= 0.0",
        "repeats(xyz[xyz.len() - 1], xyz[0])",
        1,
    )
}

/// What the closed and the whole path call.
fn regions() -> Vec<Cut> {
    vec![
        cut(FACE, "struct UvLoop"),
        cut(FACE, "fn closed_region")
            .order(2, 3)
            .replace(ITEM_3, "f64::max", "Order::greatest", 1)
            .count("[only] => *only", "[only] => { met(Branch::OneEncloses); *only }")
            .count("_ => by_area()", "_ => { met(Branch::LargestArea); by_area() }"),
        cut(FACE, "fn rephase_holes")
            .order(1, 1)
            .count("continue", "met(Branch::HoleStays); continue")
            .count(
                "for p in &mut hole.uv",
                "noted(Branch::HoleMovedInU, shift.u != 0.0);
                noted(Branch::HoleMovedInV, shift.v != 0.0);
                for p in &mut hole.uv",
            ),
        cut(FACE, "fn full_domain_loop")
            .replace(PATHS, "cad_ir::math::Interval", "Interval", 1)
            .count(
                "let us = knots::merge_even(",
                "noted(Branch::StepsAt3, nu == 3 || nv == 3);
                noted(Branch::StepsAt256, nu == 256 || nv == 256);
                let top = |lo: f64, hi: f64, n: usize| lo + (hi - lo) * n as f64 / n as f64;
                let torus = domain.v_period.is_some();
                noted(Branch::TorusShortInU, torus && top(u_lo, u_hi, nu) < u_hi);
                noted(Branch::TorusShortInV, torus && top(v_lo, v_hi, nv) < v_hi);
                noted(Branch::SphereBesidePole, !torus && top(v_lo, v_hi, nv) != v_hi);
                let us = knots::merge_even(",
            ),
    ]
}

/// What the wrapped path calls besides.
fn bands() -> Vec<Cut> {
    vec![
        cut(FACE, "fn align_cuts").count(
            "r.uv.rotate_left(start)",
            "noted(Branch::LaterRingTurned, start > 0); r.uv.rotate_left(start)",
        ),
        cut(FACE, "fn reseam")
            .order(3, 3)
            .count("if shift != 0.0", "if noted(Branch::HoleBroughtOn, shift != 0.0)")
            .count(
                "if !straddles(holes, u0)",
                "if !noted(Branch::HoleAcross, straddles(holes, u0))",
            )
            .count(
                "if best_gap <= 0.0 || cut <= u0 || cut >= u0 + period",
                "if noted(Branch::NoGap, best_gap <= 0.0 || cut <= u0 || cut >= u0 + period)",
            )
            .count("else { continue; }", "else { met(Branch::NoPointPastCut); continue; }")
            .count("if k == 0 ||", "if noted(Branch::FirstPointPastCut, k == 0) ||")
            .count(
                "r.uv.rotate_left(k)",
                "met(Branch::RingRecut);
                noted(Branch::RingOfThreeRecut, n == 3);
                noted(Branch::RecutAtWrapTwo, r.wrap.abs() >= 2);
                noted(Branch::TwoComeRound, k >= 2);
                r.uv.rotate_left(k)",
            )
            .replace(
                REQUEST_4,
                "let n = r.uv.len()",
                "let n = r.uv.len(); let open = n.saturating_sub(1)",
                1,
            )
            .replace(REQUEST_4, "(0..n)", "(0..open)", 1)
            .replace(
                REQUEST_4,
                "r.uv.rotate_left(k)",
                "r.uv.truncate(open); r.xyz.truncate(open); r.uv.rotate_left(k)",
                1,
            )
            .replace(REQUEST_4, "r.uv[n - k..]", "r.uv[open - k..]", 1)
            .replace(
                REQUEST_4,
                "r.area = signed_area(&r.uv)",
                "let (first, at) = (r.uv[0], r.xyz[0]);
                r.uv.push(Vec2::new(first.u + period, first.v));
                r.xyz.push(at);
                r.area = signed_area(&r.uv)",
                1,
            )
            .count(
                "onto(holes, cut)",
                "onto(holes, cut); noted(Branch::HoleStillAcross, straddles(holes, cut))",
            ),
        cut(FACE, "fn seam_segment")
            .replace(PATHS, "crate::knots", "knots", 4)
            .count("let inner =", "noted(Branch::WallEmpty, ladder.len() <= 2); let inner ="),
        repeats_by_items(cut(FACE, "fn close_strip"))
            .drop_switches("if std::env::var_os(", 1)
            .edit(ITEM_5, Change::DropStatement("if uv.last().is_some_and("), 1)
            .count(
                "let mut cut = 0",
                "noted(Branch::EqualFirstV, lower.uv[0].v == upper.uv[0].v);
                noted(Branch::FirstWallFalls, lower.uv[0].v > upper.uv[0].v);
                strip_has(xyz.len());
                let mut cut = 0",
            )
            .count("cut += 1", "met(Branch::RepeatDropped); cut += 1")
            .count("xyz.pop()", "met(Branch::TrailingRepeatDropped); xyz.pop()")
            .count(
                "UvLoop { area",
                "noted(Branch::UnderThreeCorners, uv.len() < 3); UvLoop { area",
            ),
        cut(FACE, "fn wrapped_region")
            .drop_switches("if std::env::var_os(", 6)
            .drop_switches("if k > 0 && std::env::var_os(", 1)
            .edit(ONE_RING, Change::DropArm("1 =>"), 1)
            .replace(ITEM_3, "f64::min", "Order::least", 1)
            .count(
                "r.travel = r.wrap.signum()",
                "noted(Branch::WrapsTwice, r.wrap.abs() == 2);
                noted(Branch::WrapsMore, r.wrap.abs() > 2);
                r.travel = r.wrap.signum()",
            )
            .count("r.uv.reverse()", "met(Branch::RingReversed); r.uv.reverse()")
            .count(
                "for p in &mut r.uv",
                "noted(Branch::RingShifted, shift != 0.0);
                let zeros = r.uv.iter().any(|p| is_minus_zero(p.u));
                noted(Branch::MinusZeroShifted, zeros && is_minus_zero(shift));
                for p in &mut r.uv",
            )
            .count(
                "reseam(&mut rings, &mut holes, period)",
                "noted(Branch::FirstRingOfThree, rings[0].uv.len() == 3);
                noted(Branch::LaterRingOfThree, rings[1].uv.len() == 3);
                reseam(&mut rings, &mut holes, period)",
            )
            .count("if slide != 0.0", "if noted(Branch::LaterRingSlid, slide != 0.0)")
            .count(
                "if k == 0 || open < 3",
                "if k == 0 || noted(Branch::RingTooShortToTurn, open < 3)",
            )
            .count(
                "trial[0].uv[1].u < trial[0].uv[0].u",
                "noted(Branch::StartBackward, trial[0].uv[1].u < trial[0].uv[0].u)",
            )
            .count(
                "if !stands_at_the_cut(&trial)",
                "if !noted(Branch::StartOnSeam, stands_at_the_cut(&trial))",
            )
            .count(
                "rings = trial",
                "met(if k == 0 { Branch::FirstStart } else { Branch::LaterStart }); rings = trial",
            )
            .count(
                "if let Some(r) = rings.first_mut()",
                "met(Branch::NoStart); if let Some(r) = rings.first_mut()",
            )
            .count(
                "begin_ring_at(r, 1, period)",
                "met(Branch::NoStartBackward); begin_ring_at(r, 1, period)",
            )
            .count(
                "rings.sort_by(",
                "if let [a, b] = rings.as_slice() {
                    noted(Branch::RingsExchanged, mean_v(&b.uv) < mean_v(&a.uv));
                    noted(Branch::EqualMeans, mean_v(&b.uv) == mean_v(&a.uv));
                }
                rings.sort_by(",
            )
            .count(
                "std::mem::swap(&mut lower, &mut upper)",
                "met(Branch::TorusSwapped); std::mem::swap(&mut lower, &mut upper)",
            )
            .count("if lifted", "if noted(Branch::TorusLifted, lifted)"),
    ]
}
