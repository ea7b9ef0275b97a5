//! The Rust as document 01 calls it: the choice of path, and then the path's functions.

use crate::faces::Face;
use crate::original::{
    UvLoop, closed_region, full_domain_loop, net_wrap, rephase_holes, signed_area, wrapped_region,
};

#[derive(Clone, Copy, PartialEq, Debug)]
pub enum Path {
    Closed,
    Wrapped,
    Whole,
}

pub struct Closing {
    pub path: Path,
    pub outer: UvLoop,
    pub holes: Vec<UvLoop>,
}

/// The loops with what the Rust works out of each.
pub fn loops_of(face: &Face) -> Vec<UvLoop> {
    let domain = face.shape.surface().domain();
    let built = face.loops.iter().map(|l| {
        let wrap = net_wrap(&l.uv, &domain);
        UvLoop {
            uv: l.uv.clone(),
            xyz: l.xyz.clone(),
            wrap,
            travel: wrap.signum(),
            area: signed_area(&l.uv),
        }
    });
    built.collect()
}

pub fn close(face: &Face) -> Option<Closing> {
    close_loops(face, loops_of(face))
}

/// The same of loops that are worked out already. None where document 01 refuses: other than two
/// loops wrap, or the surface has no whole boundary.
pub fn close_loops(face: &Face, mut loops: Vec<UvLoop>) -> Option<Closing> {
    let surface = face.shape.surface();
    let domain = surface.domain();
    let options = face.shape.resolved();
    if loops.is_empty() {
        let outer = full_domain_loop(&surface, &domain, &options).ok()?;
        return Some(Closing { path: Path::Whole, outer, holes: Vec::new() });
    }
    let wrapping: Vec<usize> = (0..loops.len()).filter(|i| loops[*i].wrap != 0).collect();
    match wrapping.len() {
        0 => {
            let (outer, mut holes) = closed_region(&mut loops).ok()?;
            rephase_holes(&outer, &mut holes, &domain);
            Some(Closing { path: Path::Closed, outer, holes })
        }
        2 => {
            let region = wrapped_region(
                &mut loops,
                &wrapping,
                &[],
                &surface,
                &domain,
                &options,
                face.same_sense,
            );
            let (outer, holes) = region.ok()?;
            Some(Closing { path: Path::Wrapped, outer, holes })
        }
        _ => None,
    }
}
