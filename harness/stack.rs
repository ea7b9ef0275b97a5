//! Measures how deep the stack of a whole call reaches: the stored faces are closed in a thread whose
//! stack is painted before. Each answer must be the stored one.
//!
//!     stack FACES_FILE ANSWERS_FILE

mod closer;

use std::alloc::{Layout, alloc};
use std::ffi::{c_int, c_void};
use std::ptr;

/// A whole call may take so much.
const MOST: usize = 256 * 1024;

const STACK_BYTES: usize = 4 * 1024 * 1024;
const PAINT: u8 = 0xa5;

/// No less than the C library's own.
#[repr(C, align(16))]
struct Attributes([u8; 256]);

type Start = extern "C" fn(*mut c_void) -> *mut c_void;

// The standard library gives a thread a stack of its own, which cannot be painted.
unsafe extern "C" {
    fn pthread_attr_init(how: *mut Attributes) -> c_int;
    fn pthread_attr_setstack(how: *mut Attributes, stack: *mut c_void, length: usize) -> c_int;
    fn pthread_create(
        thread: *mut usize,
        how: *const Attributes,
        start: Start,
        argument: *mut c_void,
    ) -> c_int;
    fn pthread_join(thread: usize, result: *mut *mut c_void) -> c_int;
}

/// One stored face with its answer.
struct Stored {
    lent: usize,
    record: Vec<u8>,
    answer: Vec<u8>,
}

fn main() {
    let arguments: Vec<String> = std::env::args().collect();
    let [_, faces, answers] = arguments.as_slice() else {
        eprintln!("usage: stack FACES_FILE ANSWERS_FILE");
        std::process::exit(2);
    };
    let mut stored = stored(&read(faces), &read(answers));
    let idle = depth(no_face, &mut stored);
    let used = depth(all_faces, &mut stored) - idle;
    println!(
        "stack: {} calls, each answer as stored; the deepest takes {used} bytes of stack",
        stored.len()
    );
    if used > MOST {
        stop("that is more than 262144");
    }
}

fn stop(why: &str) -> ! {
    println!("stack: {why}");
    std::process::exit(1);
}

fn read(name: &str) -> Vec<u8> {
    std::fs::read(name).unwrap_or_else(|_| stop("a file cannot be read"))
}

fn stored(mut faces: &[u8], mut answers: &[u8]) -> Vec<Stored> {
    let mut out = Vec::new();
    while !faces.is_empty() {
        let lent = number(&mut faces);
        let length = number(&mut faces);
        let record = next(&mut faces, length).to_vec();
        let length = number(&mut answers);
        let answer = next(&mut answers, length).to_vec();
        next(&mut answers, 1);
        out.push(Stored { lent, record, answer });
    }
    out
}

/// The next bytes, which are then behind us.
fn next<'a>(from: &mut &'a [u8], length: usize) -> &'a [u8] {
    let Some((front, rest)) = from.split_at_checked(length) else {
        stop("a stored file ends too early");
    };
    *from = rest;
    front
}

fn number(from: &mut &[u8]) -> usize {
    next(from, 4).iter().rev().fold(0, |n, byte| n * 256 + usize::from(*byte))
}

/// How far the thread reached from the top of its stack.
fn depth(start: Start, stored: &mut Vec<Stored>) -> usize {
    let layout = Layout::from_size_align(STACK_BYTES, 4096).expect("a layout");
    let mut how = Attributes([0; 256]);
    let mut thread = 0;
    unsafe {
        let stack = alloc(layout);
        stack.write_bytes(PAINT, STACK_BYTES);
        let argument = ptr::from_mut(stored).cast();
        if pthread_attr_init(&mut how) != 0
            || pthread_attr_setstack(&mut how, stack.cast(), STACK_BYTES) != 0
            || pthread_create(&mut thread, &how, start, argument) != 0
            || pthread_join(thread, ptr::null_mut()) != 0
        {
            stop("there is no thread");
        }
        let painted = (0..STACK_BYTES).take_while(|at| *stack.add(*at) == PAINT).count();
        STACK_BYTES - painted
    }
}

extern "C" fn no_face(stored: *mut c_void) -> *mut c_void {
    stored
}

extern "C" fn all_faces(stored: *mut c_void) -> *mut c_void {
    let faces: &Vec<Stored> = unsafe { &*stored.cast() };
    let mut lent = vec![0; 65_536];
    for face in faces {
        let (code, value) = closer::close_face(&face.record, &mut lent[..face.lent]);
        let refusal = [&[0, code as u8], &(value as u32).to_le_bytes()[..]].concat();
        let written = if code == 0 { &lent[..value] } else { &refusal };
        if written != face.answer {
            stop("an answer is not the stored one");
        }
    }
    stored
}
