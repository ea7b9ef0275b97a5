//! The triangle of document 01, "Values to hold": its face record and its result record, put down
//! from the document's words alone, with nothing of the Rust and nothing of `judge.rs`.

/// "Corners (0,0), (4,0), (0,3)"
const PARAMETERS: [f64; 6] = [0.0, 0.0, 4.0, 0.0, 0.0, 3.0];

/// "positions (0,0,0), (4,0,0), (0,3,0)"
const POSITIONS: [f64; 9] = [0.0, 0.0, 0.0, 4.0, 0.0, 0.0, 0.0, 3.0, 0.0];

/// The 231 bytes in. The document leaves its frame and its tolerances open: here the axes are those
/// of space, and the tolerances the least that it allows.
pub fn face() -> Vec<u8> {
    // Version, a plane, one loop, same sense, one segment at least; the loop's points.
    let mut out = vec![1, 0, 1, 1, 1, 3, 0];
    let (origin, axis, reference) = ([0.0, 0.0, 0.0], [0.0, 0.0, 1.0], [1.0, 0.0, 0.0]);
    for direction in [origin, axis, reference] {
        put(&mut out, &direction);
    }
    // A plane has no radius and no second size; then the sag and the angle.
    put(&mut out, &[0.0, 0.0, 1e-6, 0.001]);
    put(&mut out, &PARAMETERS);
    put(&mut out, &POSITIONS);
    out
}

/// The 134 bytes out: "`01 00 00 00 03 00`, 6.0, the three pairs, the three positions".
pub fn result() -> Vec<u8> {
    let mut out = vec![0x01, 0x00, 0x00, 0x00, 0x03, 0x00];
    put(&mut out, &[6.0]);
    put(&mut out, &PARAMETERS);
    put(&mut out, &POSITIONS);
    out
}

/// "Numbers in files are little-endian; reals are IEEE 754 doubles."
fn put(out: &mut Vec<u8>, reals: &[f64]) {
    out.extend(reals.iter().flat_map(|x| x.to_le_bytes()));
}
