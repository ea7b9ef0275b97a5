//! The Rattle crate `closer_c`, linked as a static library: the call as `include/closer.h` declares
//! it. Nothing checks this declaration against `crates/closer_c/src`: they must say the same.

#[link(name = "closer", kind = "static")]
unsafe extern "C" {
    fn closer_close_face(
        record: *const u8,
        record_length: usize,
        result: *mut u8,
        result_length: usize,
        value: *mut usize,
    ) -> u32;
}

/// The code and the value.
pub fn close_face(record: &[u8], result: &mut [u8]) -> (u32, usize) {
    let (from, to) = (record.as_ptr(), result.as_mut_ptr());
    // No call has this value.
    let mut value = usize::MAX;
    let code = unsafe { closer_close_face(from, record.len(), to, result.len(), &mut value) };
    (code, value)
}
