//! Items 1 to 5 of document 01, "Where port and Rust part", written from its words. The cut Rust
//! calls these in the place of its own.

use crate::original::{Axis, Surface, Vec3};

/// Item 1: FRAC_PI_2.
pub const H: f64 = f64::from_bits(0x3FF9_21FB_5444_2D18);

/// Items 1 and 2, under names that no method of `f64` has.
pub trait Real {
    fn sine(self) -> f64;
    fn cosine(self) -> f64;
    fn tangent(self) -> f64;
    fn arc_cosine(self) -> f64;
}

impl Real for f64 {
    fn sine(self) -> f64 {
        sin_cos(self).0
    }

    fn cosine(self) -> f64 {
        sin_cos(self).1
    }

    fn tangent(self) -> f64 {
        let (sin, cos) = sin_cos(self);
        sin / cos
    }

    fn arc_cosine(self) -> f64 {
        acos(self)
    }
}

/// Item 1.
fn sin_cos(t: f64) -> (f64, f64) {
    if t.abs() > 1000.0 {
        return (0.0, 0.0);
    }
    let q = (t / H).round();
    let r = t - q * H;
    let w = r * r;
    let (mut s, mut c) = (1.0, 1.0);
    for j in (1..=8).rev() {
        let even = 2.0 * f64::from(j);
        s = 1.0 - (w * s) / (even * (even + 1.0));
        c = 1.0 - (w * c) / ((even - 1.0) * even);
    }
    let s = r * s;
    match (q as i64).rem_euclid(4) {
        0 => (s, c),
        1 => (c, -s),
        2 => (-s, -c),
        _ => (-c, s),
    }
}

/// Item 2.
fn acos(c: f64) -> f64 {
    let (mut lo, mut hi) = (0.0, 2.0 * H);
    for _ in 0..60 {
        let m = (lo + hi) * 0.5;
        if m.cosine() >= c {
            lo = m;
        } else {
            hi = m;
        }
    }
    lo
}

/// Item 3. Of a NaN, where the document leaves the answer free, they keep the earlier operand too.
pub trait Order {
    fn least(self, other: Self) -> Self;
    fn greatest(self, other: Self) -> Self;
}

impl Order for f64 {
    fn least(self, other: f64) -> f64 {
        if other < self { other } else { self }
    }

    fn greatest(self, other: f64) -> f64 {
        if other > self { other } else { self }
    }
}

impl Order for usize {
    fn least(self, other: usize) -> usize {
        self.min(other)
    }

    fn greatest(self, other: usize) -> usize {
        self.max(other)
    }
}

/// Item 4: for these kinds there are no breaks.
pub fn surface_breaks(_: &Surface, _: Axis, _lo: f64, _hi: f64) -> Vec<f64> {
    Vec::new()
}

/// Item 4.
pub fn thin_breaks(
    _: &[f64],
    _lo: f64,
    _hi: f64,
    _sag: f64,
    _at: &dyn Fn(f64) -> Vec3,
) -> Vec<f64> {
    Vec::new()
}

/// Item 5: whether a corner repeats the one kept before it, or one at the end the first.
pub fn repeats(corner: Vec3, kept: Vec3) -> bool {
    corner.x == kept.x && corner.y == kept.y && corner.z == kept.z
}
