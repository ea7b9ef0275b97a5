//! How often each branch of the cut Rust was met and on how many faces, and each limit of a
//! record. A comparison that never meets a branch says nothing of it, so the run fails where one
//! was hardly met.

use crate::faces::columns;
use crate::reference::{Closing, Path};
use std::sync::atomic::{AtomicU64, AtomicUsize, Ordering};

macro_rules! branches {
    ($($group:ident: $($name:ident)*;)*) => {
        #[derive(Clone, Copy, Debug)]
        pub enum Branch { $($($name),*),* }

        $(pub const $group: &[Branch] = &[$(Branch::$name),*];)*

        pub const NUMBER: usize = [$($(Branch::$name),*),*].len();
    };
}

branches! {
REGIONS:
    // closed_region and rephase_holes
    OneEncloses LargestArea HoleStays HoleMovedInU HoleMovedInV
    // full_domain_loop: the least and the greatest number of steps, and numbers of them of which the
    // top division would leave a gap: short of a turn of a torus, beside the pole of a sphere
    StepsAt3 StepsAt256 TorusShortInU TorusShortInV SphereBesidePole;
LADDERS:
    // merge_even (02, N2): a last rung that is not the upper bound is set to it, or it is added
    // after a lone lower bound
    LastRungSet EndAdded;
BANDS:
    // wrapped_region: rings
    RingReversed RingShifted MinusZeroShifted WrapsTwice WrapsMore
    FirstRingOfThree LaterRingOfThree
    // reseam
    HoleBroughtOn HoleAcross NoGap NoPointPastCut FirstPointPastCut RingRecut OneRingRecut
    BothRingsRecut RingOfThreeRecut RecutAtWrapTwo TwoComeRound HoleStillAcross
    // the start search
    StartBackward StartOnSeam RingTooShortToTurn FirstStart LaterStart
    NoStart NoStartForward NoStartBackward LaterRingTurned LaterRingSlid
    // order of the rings
    RingsExchanged EqualMeans TorusSwapped TorusLifted TorusSwappedNotLifted
    // close_strip
    WallEmpty EqualFirstV FirstWallFalls RepeatDropped TrailingRepeatDropped UnderThreeCorners
    // a negative zero in what the wrapped path gives
    MinusZeroInU MinusZeroInV MinusZeroInPositions;
LIMITS:
    // limits of a record, and one past them
    SixteenLoops PointsAt512 PointsAt513 StripAt1024 StripAt1025;
}

/// On so many faces each branch must be met: on one alone it may be by accident.
pub const LEAST: u64 = 20;

type Counts = [AtomicU64; NUMBER];

/// On the face at hand.
static HERE: Counts = [const { AtomicU64::new(0) }; NUMBER];
/// On all faces before it, and on how many of them at all.
static TIMES: Counts = [const { AtomicU64::new(0) }; NUMBER];
static FACES: Counts = [const { AtomicU64::new(0) }; NUMBER];

pub fn met(branch: Branch) {
    // A time is that of the Rust without its counts.
    if cfg!(timed) {
        return;
    }
    HERE[branch as usize].fetch_add(1, Ordering::Relaxed);
}

/// Counts where the condition holds, and gives it back.
pub fn noted(branch: Branch, holds: bool) -> bool {
    if holds {
        met(branch);
    }
    holds
}

pub fn is_minus_zero(x: f64) -> bool {
    x == 0.0 && x.is_sign_negative()
}

/// The negative zeros of a band and its holes, which differ from others in their bits alone.
pub fn note_zeros(closing: &Closing) {
    if closing.path != Path::Wrapped {
        return;
    }
    let mut found = [false; 5];
    for one in closing.holes.iter().chain([&closing.outer]) {
        for (found, list) in found.iter_mut().zip(columns(&one.uv, &one.xyz)) {
            *found |= list.into_iter().any(is_minus_zero);
        }
    }
    let [u, v, x, y, z] = found;
    noted(Branch::MinusZeroInU, u);
    noted(Branch::MinusZeroInV, v);
    noted(Branch::MinusZeroInPositions, x || y || z);
}

/// Forgets all that was met, so that a layer counts its own faces alone.
pub fn forget() {
    for count in [&HERE, &TIMES, &FACES].into_iter().flatten() {
        count.store(0, Ordering::Relaxed);
    }
}

/// Ends a face or a record: notes what its counts say together, adds them up, and tells which
/// branches were met on it.
pub fn face_done() -> [bool; NUMBER] {
    let here = |branch: Branch| HERE[branch as usize].load(Ordering::Relaxed);
    noted(Branch::OneRingRecut, here(Branch::RingRecut) == 1);
    noted(Branch::BothRingsRecut, here(Branch::RingRecut) == 2);
    noted(Branch::NoStartForward, here(Branch::NoStart) > here(Branch::NoStartBackward));
    noted(Branch::TorusSwappedNotLifted, here(Branch::TorusSwapped) > here(Branch::TorusLifted));
    std::array::from_fn(|i| {
        let times = HERE[i].swap(0, Ordering::Relaxed);
        TIMES[i].fetch_add(times, Ordering::Relaxed);
        FACES[i].fetch_add(u64::from(times > 0), Ordering::Relaxed);
        times > 0
    })
}

/// Prints the counts. False where one of the branches was met on too few faces.
pub fn all_met(branches: &[Branch]) -> bool {
    let mut all = true;
    for branch in branches {
        let [times, faces] =
            [&TIMES, &FACES].map(|counts| counts[*branch as usize].load(Ordering::Relaxed));
        println!("comparison: branch {branch:?}: met on {faces} faces, {times} times");
        all &= faces >= LEAST;
    }
    all
}

static STRIP: AtomicUsize = AtomicUsize::new(0);

/// How many points a strip has before its repeats are dropped.
pub fn strip_has(points: usize) {
    STRIP.store(points, Ordering::Relaxed);
}

/// The points of the last strip: refusal 12 speaks of them.
pub fn strip_points() -> usize {
    STRIP.load(Ordering::Relaxed)
}
