//! The Rattle crate `compared`, linked as a static library. Nothing checks these declarations
//! against `crates/compared/src`: they must say the same.

use crate::original::{Frame, Vec2, Vec3};
use crate::shapes::Shape;

#[repr(C)]
#[derive(Clone, Copy)]
pub struct Point {
    pub x: f64,
    pub y: f64,
    pub z: f64,
}

#[repr(C)]
#[derive(Clone, Copy)]
pub struct Placement {
    pub origin: Point,
    pub axis: Point,
    pub reference: Point,
}

/// A domain: its ends, and its periods or 0.
#[repr(C)]
#[derive(Clone, Copy)]
pub struct Limits {
    pub ulo: f64,
    pub uhi: f64,
    pub vlo: f64,
    pub vhi: f64,
    pub uperiod: f64,
    pub vperiod: f64,
}

/// How many values or bytes there are, if `done` is not 0.
#[repr(C)]
struct Counted {
    done: usize,
    number: usize,
}

impl Counted {
    fn number(self) -> Option<usize> {
        (self.done != 0).then_some(self.number)
    }
}

/// What a result record takes, if `holds` is not 0.
#[repr(C)]
struct Room {
    holds: usize,
    corners: usize,
    length: usize,
}

/// A kind by its number in a face record, with its two sizes.
pub struct Surface {
    pub kind: u32,
    pub sizes: [f64; 2],
}

pub struct Tolerances {
    pub sag: f64,
    pub angle: f64,
    pub segments: usize,
}

impl Shape {
    pub fn tolerances(&self) -> Tolerances {
        Tolerances { sag: self.sag, angle: self.angle, segments: self.segments as usize }
    }

    /// The kind and its sizes for the Rattle crate.
    pub fn numbered(&self) -> Surface {
        Surface { kind: self.kind as u32, sizes: self.sizes }
    }

    /// The frame for the Rattle crate.
    pub fn placed(&self) -> Placement {
        let Frame { origin, axis, ref_dir } = self.frame();
        let [origin, axis, reference] =
            [origin, axis, ref_dir].map(|p| Point { x: p.x, y: p.y, z: p.z });
        Placement { origin, axis, reference }
    }
}

// Those marked `safe` take and give numbers alone, and no function has a precondition.
#[link(name = "compared", kind = "static")]
unsafe extern "C" {
    #[link_name = "compared_round"]
    pub safe fn round(x: f64) -> f64;
    #[link_name = "compared_floor"]
    pub safe fn floor(x: f64) -> f64;
    #[link_name = "compared_ceil"]
    pub safe fn ceil(x: f64) -> f64;
    #[link_name = "compared_sqrt"]
    pub safe fn sqrt(x: f64) -> f64;
    #[link_name = "compared_sin"]
    pub safe fn sin(t: f64) -> f64;
    #[link_name = "compared_cos"]
    pub safe fn cos(t: f64) -> f64;
    #[link_name = "compared_tan"]
    pub safe fn tan(t: f64) -> f64;
    #[link_name = "compared_acos"]
    pub safe fn acos(c: f64) -> f64;
    #[link_name = "compared_abs"]
    pub safe fn abs(a: f64) -> f64;
    #[link_name = "compared_min"]
    pub safe fn min(a: f64, b: f64) -> f64;
    #[link_name = "compared_max"]
    pub safe fn max(a: f64, b: f64) -> f64;
    #[link_name = "compared_frame_new"]
    pub safe fn frame_new(origin: Point, axis: Point, reference: Point) -> Placement;
    #[link_name = "compared_polar"]
    pub safe fn polar(frame: Placement, r: f64, theta: f64) -> Point;
    safe fn compared_point_at(kind: u32, a: f64, b: f64, frame: Placement, u: f64, v: f64)
    -> Point;
    safe fn compared_domain(kind: u32, a: f64, b: f64) -> Limits;
    safe fn compared_v_steps(
        kind: u32,
        a: f64,
        b: f64,
        from: f64,
        to: f64,
        sag: f64,
        angle: f64,
        segments: usize,
    ) -> usize;
    safe fn compared_direction_steps(
        kind: u32,
        a: f64,
        b: f64,
        along: bool,
        lo: f64,
        hi: f64,
        other: f64,
        sag: f64,
        angle: f64,
        segments: usize,
    ) -> usize;
    #[link_name = "compared_merge_even_steps"]
    pub safe fn merge_even_steps(lo: f64, hi: f64, n: usize) -> usize;
    fn compared_merge_even(lo: f64, hi: f64, n: usize, from: usize, out: *mut f64, out_len: usize);
    fn compared_inner_into(lo: f64, hi: f64, n: usize, out: *mut f64, out_len: usize) -> usize;
    #[link_name = "compared_nearest_branch"]
    pub safe fn nearest_branch(value: f64, reference: f64, period: f64) -> f64;
    fn compared_net_wrap(t: *const f64, t_len: usize, period: f64) -> i32;
    fn compared_signed_area(t: *const f64, t_len: usize) -> f64;
    fn compared_mean_v(t: *const f64, t_len: usize) -> f64;
    fn compared_least(t: *const f64, t_len: usize) -> f64;
    fn compared_greatest(t: *const f64, t_len: usize) -> f64;
    fn compared_closed_region(
        t: *const f64,
        t_len: usize,
        counts: *const usize,
        counts_len: usize,
        areas: *const f64,
        areas_len: usize,
        boxes: *mut f64,
        boxes_len: usize,
    ) -> usize;
    fn compared_outer_loop(
        boxes: *const f64,
        boxes_len: usize,
        areas: *const f64,
        areas_len: usize,
    ) -> usize;
    fn compared_rephase_holes(
        t: *mut f64,
        t_len: usize,
        counts: *const usize,
        counts_len: usize,
        areas: *mut f64,
        areas_len: usize,
        outer: usize,
        uperiod: f64,
        vperiod: f64,
    );
    safe fn compared_full_domain_count(
        kind: u32,
        a: f64,
        b: f64,
        sag: f64,
        angle: f64,
        segments: usize,
    ) -> usize;
    fn compared_full_domain_loop(
        kind: u32,
        a: f64,
        b: f64,
        frame: Placement,
        sag: f64,
        angle: f64,
        segments: usize,
        t: *mut f64,
        t_len: usize,
    ) -> f64;
    fn compared_refusal(face: *const u8, face_len: usize) -> u8;
    fn compared_refusal_place(face: *const u8, face_len: usize) -> usize;
    fn compared_read_counts(
        face: *const u8,
        face_len: usize,
        dst: *mut usize,
        dst_len: usize,
    ) -> Counted;
    fn compared_read_head(
        face: *const u8,
        face_len: usize,
        dst: *mut f64,
        dst_len: usize,
    ) -> Counted;
    fn compared_read_corners(
        face: *const u8,
        face_len: usize,
        t: *mut f64,
        t_len: usize,
    ) -> Counted;
    fn compared_result_size(counts: *const usize, counts_len: usize) -> Room;
    fn compared_write_result(
        path: u32,
        counts: *const usize,
        counts_len: usize,
        areas: *const f64,
        areas_len: usize,
        t: *const f64,
        t_len: usize,
        out: *mut u8,
        out_len: usize,
    ) -> Counted;
}

pub fn point_at(surface: &Surface, frame: Placement, u: f64, v: f64) -> Point {
    let [a, b] = surface.sizes;
    compared_point_at(surface.kind, a, b, frame, u, v)
}

pub fn domain(surface: &Surface) -> Limits {
    let [a, b] = surface.sizes;
    compared_domain(surface.kind, a, b)
}

pub fn v_steps(surface: &Surface, from: f64, to: f64, tolerances: &Tolerances) -> usize {
    let [a, b] = surface.sizes;
    let Tolerances { sag, angle, segments } = *tolerances;
    compared_v_steps(surface.kind, a, b, from, to, sag, angle, segments)
}

/// Along u or v from one value to another, where the other parameter is the third.
pub fn direction_steps(
    surface: &Surface,
    along: bool,
    [lo, hi, other]: [f64; 3],
    tolerances: &Tolerances,
) -> usize {
    let [a, b] = surface.sizes;
    let Tolerances { sag, angle, segments } = *tolerances;
    compared_direction_steps(surface.kind, a, b, along, lo, hi, other, sag, angle, segments)
}

/// How many corners the boundary of a whole surface has.
pub fn full_domain_count(surface: &Surface, tolerances: &Tolerances) -> usize {
    let [a, b] = surface.sizes;
    let Tolerances { sag, angle, segments } = *tolerances;
    compared_full_domain_count(surface.kind, a, b, sag, angle, segments)
}

// A slice crosses as its pointer and its length, which hold for the time of the call.

/// The rungs from that of number `from` on, as many as there is room for.
pub fn merge_even(lo: f64, hi: f64, n: usize, from: usize, out: &mut [f64]) {
    unsafe { compared_merge_even(lo, hi, n, from, out.as_mut_ptr(), out.len()) }
}

/// How many inner rungs there are; as many are written as there is room for.
pub fn inner_into(lo: f64, hi: f64, n: usize, out: &mut [f64]) -> usize {
    unsafe { compared_inner_into(lo, hi, n, out.as_mut_ptr(), out.len()) }
}

pub fn net_wrap(corners: &[f64], period: f64) -> i32 {
    unsafe { compared_net_wrap(corners.as_ptr(), corners.len(), period) }
}

pub fn signed_area(corners: &[f64]) -> f64 {
    unsafe { compared_signed_area(corners.as_ptr(), corners.len()) }
}

pub fn mean_v(corners: &[f64]) -> f64 {
    unsafe { compared_mean_v(corners.as_ptr(), corners.len()) }
}

/// The least u of a loop's corners.
pub fn least(corners: &[f64]) -> f64 {
    unsafe { compared_least(corners.as_ptr(), corners.len()) }
}

/// The greatest.
pub fn greatest(corners: &[f64]) -> f64 {
    unsafe { compared_greatest(corners.as_ptr(), corners.len()) }
}

/// Writes the boundary of a whole surface to the first rows, and answers its area.
pub fn full_domain_loop(
    surface: &Surface,
    frame: Placement,
    tolerances: &Tolerances,
    corners: &mut [f64],
) -> f64 {
    let [a, b] = surface.sizes;
    let Tolerances { sag, angle, segments } = *tolerances;
    let (t, t_len) = (corners.as_mut_ptr(), corners.len());
    unsafe { compared_full_domain_loop(surface.kind, a, b, frame, sag, angle, segments, t, t_len) }
}

/// The number and the place of refusals 2 to 7, or zeros.
pub fn refusal(face: &[u8]) -> (u8, usize) {
    let (data, length) = (face.as_ptr(), face.len());
    unsafe { (compared_refusal(data, length), compared_refusal_place(data, length)) }
}

/// How many loops there are; their counts are written.
pub fn read_counts(face: &[u8], lent: &mut [usize]) -> Option<usize> {
    unsafe { compared_read_counts(face.as_ptr(), face.len(), lent.as_mut_ptr(), lent.len()) }
        .number()
}

/// How many reals stand before the points; they are written.
pub fn read_head(face: &[u8], lent: &mut [f64]) -> Option<usize> {
    unsafe { compared_read_head(face.as_ptr(), face.len(), lent.as_mut_ptr(), lent.len()) }.number()
}

/// How many points there are; they are written, a row each.
pub fn read_corners(face: &[u8], lent: &mut [f64]) -> Option<usize> {
    unsafe { compared_read_corners(face.as_ptr(), face.len(), lent.as_mut_ptr(), lent.len()) }
        .number()
}

/// The corners and the length of a result record with these counts.
pub fn result_size(counts: &[usize]) -> Option<[usize; 2]> {
    let room = unsafe { compared_result_size(counts.as_ptr(), counts.len()) };
    (room.holds != 0).then_some([room.corners, room.length])
}

/// The length of the record that is written.
pub fn write_result(
    path: u32,
    counts: &[usize],
    areas: &[f64],
    corners: &[f64],
    out: &mut [u8],
) -> Option<usize> {
    let written = unsafe {
        compared_write_result(
            path,
            counts.as_ptr(),
            counts.len(),
            areas.as_ptr(),
            areas.len(),
            corners.as_ptr(),
            corners.len(),
            out.as_mut_ptr(),
            out.len(),
        )
    };
    written.number()
}

/// Corners as the rows of a table: u, v, x, y, z.
pub fn rows(uv: &[Vec2], xyz: &[Vec3]) -> Vec<f64> {
    uv.iter().zip(xyz).flat_map(|(c, p)| [c.u, c.v, p.x, p.y, p.z]).collect()
}

/// The loops of a face: their corners one behind the other, the rows of a table.
#[derive(Clone, Default)]
pub struct Table {
    pub corners: Vec<f64>,
    pub counts: Vec<usize>,
    pub areas: Vec<f64>,
}

/// The number of the outer loop.
pub fn closed_region(table: &Table) -> usize {
    let Table { corners, counts, areas } = table;
    let mut boxes = vec![0.0; 4 * counts.len()];
    unsafe {
        compared_closed_region(
            corners.as_ptr(),
            corners.len(),
            counts.as_ptr(),
            counts.len(),
            areas.as_ptr(),
            areas.len(),
            boxes.as_mut_ptr(),
            boxes.len(),
        )
    }
}

/// The number of the outer loop, by the ends of the boxes, four to a box, and the areas.
pub fn outer_loop(boxes: &[f64], areas: &[f64]) -> usize {
    unsafe { compared_outer_loop(boxes.as_ptr(), boxes.len(), areas.as_ptr(), areas.len()) }
}

/// Moves all loops but the outer one. The period of an open direction is 0.
pub fn rephase_holes(table: &mut Table, outer: usize, [uperiod, vperiod]: [f64; 2]) {
    let Table { corners, counts, areas } = table;
    unsafe {
        compared_rephase_holes(
            corners.as_mut_ptr(),
            corners.len(),
            counts.as_ptr(),
            counts.len(),
            areas.as_mut_ptr(),
            areas.len(),
            outer,
            uperiod,
            vperiod,
        )
    }
}
