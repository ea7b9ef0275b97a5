//! Runs a program whose reads of standard input fail where they are told to. A signal cannot be
//! timed to interrupt a given read, so the program is traced from system call to system call, and
//! in place of a read that is to fail its error is put in. The numbers are those of x86-64 Linux.

use std::ffi::{c_int, c_long, c_uint};
use std::io::{Error, Read, Write};
use std::os::unix::process::CommandExt;
use std::process::{Child, ChildStdin, Command, Stdio};
use std::ptr;
use std::slice::Iter;
use std::thread::spawn;

pub const EINTR: u64 = 4;
pub const EIO: u64 = 5;

/// What becomes of one read of standard input. After the last that is told, the input has ended.
#[derive(Clone, Copy)]
pub enum Reading<'a> {
    /// It gives these bytes, which must fit a pipe.
    Gives(&'a [u8]),
    /// It fails with this error.
    Fails(u64),
}

pub struct Run {
    pub written: Vec<u8>,
    /// So many reads were made to fail.
    pub failed: usize,
    /// The program was not killed, and its status is 0.
    pub ended_well: bool,
}

const TRACE_ME: c_int = 0;
const GET_REGISTERS: c_int = 12;
const SET_REGISTERS: c_int = 13;
const TO_NEXT_CALL: c_int = 24;
const SET_OPTIONS: c_int = 0x4200;

/// A stop at a system call can be told from a signal, and the program does not outlive its tracer.
const OPTIONS: usize = 0x1 | 0x10_0000;

/// What stops the program at its exec: SIGTRAP. At a system call the option adds a bit to it.
const AT_EXEC: c_int = 5;
const AT_CALL: c_int = 5 | 0x80;

/// The kernel's `user_regs_struct`: where it has what a call gives, its first argument, and which
/// call it is.
type Registers = [u64; 27];
const GIVEN: usize = 10;
const ARGUMENT: usize = 14;
const CALL: usize = 15;

const CALL_READ: u64 = 0;
const CALL_NONE: u64 = u64::MAX;

/// The errors of a system that lets nothing be traced, and of one that cannot trace.
const EPERM: i32 = 1;
const ENOSYS: i32 = 38;

/// A program that has not ended by then is killed: it may wait for an input that is not to come.
const SECONDS: c_uint = 60;

// The standard library does not trace.
unsafe extern "C" {
    fn ptrace(request: c_int, ...) -> c_long;
    fn waitpid(process: c_int, status: *mut c_int, options: c_int) -> c_int;
    fn alarm(seconds: c_uint) -> c_uint;
}

/// None where the system does not let a program be traced.
pub fn run(program: &str, readings: &[Reading]) -> Option<Run> {
    let mut child = match start(program) {
        Err(problem) if matches!(problem.raw_os_error(), Some(EPERM | ENOSYS)) => return None,
        child => child.expect("the program starts"),
    };
    // Taken in beside the tracing: a program that cannot write on would never stop again.
    let mut output = child.stdout.take().expect("a pipe");
    let taking = spawn(move || {
        let mut written = Vec::new();
        output.read_to_end(&mut written).expect("its output");
        written
    });
    let process = child.id() as c_int;
    let input = child.stdin.take();
    let mut traced = Traced { process, input, readings: readings.iter(), failed: 0 };
    let ended_well = traced.to_end() == 0;
    Some(Run { written: taking.join().expect("its output"), failed: traced.failed, ended_well })
}

/// Starts the program, which then stops before its first instruction.
fn start(program: &str) -> Result<Child, Error> {
    let mut command = Command::new(program);
    command.stdin(Stdio::piped()).stdout(Stdio::piped());
    let before = || {
        // Safe: two system calls that take no memory. The alarm is kept through the exec.
        unsafe { alarm(SECONDS) };
        if unsafe { ptrace(TRACE_ME, 0, 0usize, 0usize) } < 0 {
            Err(Error::last_os_error())
        } else {
            Ok(())
        }
    };
    // Safe: it allocates nothing and takes no lock, as is asked of what runs between fork and exec.
    unsafe { command.pre_exec(before) };
    command.spawn()
}

struct Traced<'a> {
    process: c_int,
    /// None once it is at its end.
    input: Option<ChildStdin>,
    readings: Iter<'a, Reading<'a>>,
    failed: usize,
}

impl Traced<'_> {
    /// The status that the program ends with.
    fn to_end(&mut self) -> c_int {
        assert_eq!(stopped_by(self.wait()), Some(AT_EXEC), "a traced program stops at its exec");
        self.ask(SET_OPTIONS, OPTIONS);
        loop {
            if let Err(status) = self.through_call() {
                return status;
            }
        }
    }

    /// Lets the program make one system call, or has it fail. An error is the status that the
    /// program ended with instead.
    fn through_call(&mut self) -> Result<(), c_int> {
        self.to_stop()?;
        let called = self.registers();
        // Its other half is not looked at: a file descriptor is an `int`.
        let of_input = called[CALL] == CALL_READ && called[ARGUMENT] as u32 == 0;
        let error = if of_input { self.prepare() } else { None };
        if error.is_some() {
            self.put(CALL, CALL_NONE);
        }
        self.to_stop()?;
        if let Some(error) = error {
            self.put(GIVEN, error.wrapping_neg());
            self.failed += 1;
        }
        Ok(())
    }

    /// Has the next read give what is told, or says which error it is to fail with.
    fn prepare(&mut self) -> Option<u64> {
        match self.readings.next() {
            Some(Reading::Fails(error)) => return Some(*error),
            // Fed no sooner, so that this read gives these bytes and no others.
            Some(Reading::Gives(bytes)) => {
                self.input.as_mut().expect("a pipe").write_all(bytes).expect("a pipe takes them")
            }
            None => self.input = None,
        }
        None
    }

    /// To where a system call begins or ends. A signal on the way is passed on.
    fn to_stop(&self) -> Result<(), c_int> {
        let mut signal = 0;
        loop {
            self.ask(TO_NEXT_CALL, signal as usize);
            let status = self.wait();
            match stopped_by(status) {
                Some(AT_CALL) => return Ok(()),
                Some(other) => signal = other,
                None => return Err(status),
            }
        }
    }

    fn wait(&self) -> c_int {
        let mut status = 0;
        // Safe: the status is the only memory that is written.
        let waited = unsafe { waitpid(self.process, &mut status, 0) };
        assert_eq!(waited, self.process, "{}", Error::last_os_error());
        status
    }

    fn registers(&self) -> Registers {
        let mut registers = [0; 27];
        self.ask(GET_REGISTERS, ptr::from_mut(&mut registers) as usize);
        registers
    }

    fn put(&self, register: usize, value: u64) {
        let mut registers = self.registers();
        registers[register] = value;
        self.ask(SET_REGISTERS, ptr::from_ref(&registers) as usize);
    }

    fn ask(&self, request: c_int, data: usize) {
        // Safe: `data` is a number, or the place of all registers where a request asks for one.
        let answer = unsafe { ptrace(request, self.process, 0usize, data) };
        assert_eq!(answer, 0, "ptrace {request}: {}", Error::last_os_error());
    }
}

/// What stopped the program, or None where it ended.
fn stopped_by(status: c_int) -> Option<c_int> {
    (status & 0xff == 0x7f).then_some(status >> 8)
}
