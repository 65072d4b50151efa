//! Runs a command under ptrace, and kills it at the entry of a system call, which is then not done, or lets the call fail (Linux on x86-64).
use std::ffi::{c_int, c_long, c_uint};
use std::io;
use std::os::unix::process::CommandExt;
use std::process::{Child, Command, Stdio};
use std::ptr;

const TRACEME: c_uint = 0;
const POKEUSER: c_uint = 6;
const SYSCALL: c_uint = 24;
const SETOPTIONS: c_uint = 0x4200;
const GET_SYSCALL_INFO: c_uint = 0x420e;
/// System-call stops are told from signals by the bit 0x80.
const TRACESYSGOOD: usize = 1;
const EXITKILL: usize = 1 << 20;
const SIGTRAP: c_int = 5;
/// The kind of a system-call stop before the call is done.
const ENTRY: u8 = 1;
/// Where the kernel keeps a stopped child's number of the call, and the call's answer.
const CALL_NUMBER: usize = 8 * 15;
const CALL_ANSWER: usize = 8 * 10;

/// Calls that change files or say that they are changed for good: pwrite64, fsync, ftruncate, rename, unlink.
const CHANGING: [u64; 5] = [18, 74, 77, 82, 87];
/// What a call answers whose medium fails.
const EIO: c_int = 5;

unsafe extern "C" {
    fn ptrace(request: c_uint, ...) -> c_long;
    fn waitpid(pid: c_int, status: *mut c_int, options: c_int) -> c_int;
}

/// How a traced command ended.
#[derive(Clone, Copy, Debug, PartialEq, Eq)]
pub enum Ending {
    /// At the entry of the system call that was asked for.
    Killed,
    /// By itself, with that status, after the system call that was asked for had failed.
    Failed(c_int),
    /// By itself, with that status, before such a call came.
    Exited(c_int),
}

/// What is done with a system call.
enum Order {
    Go,
    Kill,
    Fail,
}

/// Runs the command, and kills it at the entry of its system call of that number, of which 0 is the first behind the exec.
pub fn killed_at(command: Command, call: usize) -> io::Result<Ending> {
    killed_where(command, |number| number == call)
}

/// Runs the command, and kills it at the entry of the first system call that is the wanted one; what is asked goes by its number. An error
/// says that tracing isn't allowed here, or that this kernel lacks it.
pub fn killed_where(command: Command, mut wanted: impl FnMut(usize) -> bool) -> io::Result<Ending> {
    traced(command, |count, _| if wanted(count) { Order::Kill } else { Order::Go })
}

/// Runs the command, and lets one of its changing calls fail, of which 0 is the first.
pub fn failed_at(command: Command, call: usize) -> io::Result<Ending> {
    let mut changing = 0;
    traced(command, |_, number| {
        changing += usize::from(CHANGING.contains(&number));
        match CHANGING.contains(&number) && changing == call + 1 {
            true => Order::Fail,
            false => Order::Go,
        }
    })
}

/// Runs the command; at each system call it is asked what is to be done, by how many there were before and the system's number of it.
fn traced(mut command: Command, order: impl FnMut(usize, u64) -> Order) -> io::Result<Ending> {
    // SAFETY: the closure runs in the child before the exec and makes one system call; it touches no memory of the parent's.
    unsafe { command.pre_exec(|| answered(ptrace(TRACEME, 0, ptr::null::<u8>(), ptr::null::<u8>()))) };
    let mut child = command.stdout(Stdio::null()).stderr(Stdio::null()).spawn()?;
    let ending = follow(child.id() as c_int, order);
    if !matches!(ending, Ok(Ending::Exited(_) | Ending::Failed(_))) {
        end(&mut child)?;
    }
    ending
}

fn end(child: &mut Child) -> io::Result<()> {
    child.kill()?;
    child.wait().map(drop)
}

/// Lets the child run from stop to stop, until it is killed or has ended.
fn follow(pid: c_int, mut order: impl FnMut(usize, u64) -> Order) -> io::Result<Ending> {
    let mut status = wait(pid)?;
    // SAFETY: the child is stopped after its exec, and the request takes two plain numbers.
    answered(unsafe { ptrace(SETOPTIONS, pid, 0usize, TRACESYSGOOD | EXITKILL) })?;
    let (mut entered, mut has_failed) = (0, false);
    while !has_ended(status) {
        if let Some(number) = entered_call(pid, status)? {
            match order(entered, number) {
                Order::Go => {}
                Order::Kill => return Ok(Ending::Killed),
                Order::Fail => has_failed = fail(pid)?,
            }
            entered += 1;
        }
        status = go_on(pid)?;
    }
    Ok(match has_failed {
        true => Ending::Failed(exit_status(status)),
        false => Ending::Exited(exit_status(status)),
    })
}

/// Lets the child run to its next stop.
fn go_on(pid: c_int) -> io::Result<c_int> {
    // SAFETY: the child is stopped, and the request takes two plain numbers; of signals the program gets none.
    answered(unsafe { ptrace(SYSCALL, pid, 0usize, 0usize) })?;
    wait(pid)
}

/// Lets the call fail that the child is about to make: it becomes one that there is not, and its answer is then another.
fn fail(pid: c_int) -> io::Result<bool> {
    let set = |place: usize, value: c_long| {
        // SAFETY: the child is stopped, and the request takes two plain numbers.
        answered(unsafe { ptrace(POKEUSER, pid, place, value) })
    };
    set(CALL_NUMBER, -1)?;
    go_on(pid)?;
    set(CALL_ANSWER, -c_long::from(EIO))?;
    Ok(true)
}

fn wait(pid: c_int) -> io::Result<c_int> {
    let mut status = 0;
    // SAFETY: `status` is a number of this frame's, and `pid` this thread's own child.
    answered(c_long::from(unsafe { waitpid(pid, &mut status, 0) }))?;
    Ok(status)
}

/// The system's number of the call that a child is about to make; none where it is stopped for something else.
fn entered_call(pid: c_int, status: c_int) -> io::Result<Option<u64>> {
    if (status >> 8) & 0xff != SIGTRAP | 0x80 {
        return Ok(None);
    }
    let mut info = [0u64; 4];
    // SAFETY: the child is stopped, and the kernel writes no more bytes than the length allows.
    answered(unsafe { ptrace(GET_SYSCALL_INFO, pid, size_of_val(&info), info.as_mut_ptr()) })?;
    // The first byte is the kind, the last word of these the number.
    Ok((info[0] as u8 == ENTRY).then_some(info[3]))
}

fn has_ended(status: c_int) -> bool {
    status & 0xff != 0x7f
}

/// A status, or 128 and the signal that ended the child.
fn exit_status(status: c_int) -> c_int {
    match status & 0x7f {
        0 => (status >> 8) & 0xff,
        signal => 128 + signal,
    }
}

fn answered(answer: c_long) -> io::Result<()> {
    match answer {
        -1 => Err(io::Error::last_os_error()),
        _ => Ok(()),
    }
}
