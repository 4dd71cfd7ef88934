//! Feeding a program its standard input one byte at a time. The pipe is one in Linux's packet mode: each
//! write is a packet of its own, and a read never returns more than one packet. So every read of the
//! program gets a single byte, however slowly it begins to read.

use std::ffi::c_int;
use std::fs::File;
use std::io::{self, Write};
use std::os::fd::{FromRawFd, OwnedFd};
use std::process::{Command, Output, Stdio};
use std::thread;

extern "C" {
    fn pipe2(ends: *mut c_int, flags: c_int) -> c_int;
}

/// Linux's flags: closed in programs that are started, and packet mode.
const O_CLOEXEC: c_int = 0o2_000_000;
const O_DIRECT: c_int =
    if cfg!(any(target_arch = "aarch64", target_arch = "arm")) { 0o200_000 } else { 0o40_000 };

/// Where to read and where to write.
fn packets() -> io::Result<(OwnedFd, File)> {
    let mut ends: [c_int; 2] = [-1; 2];
    // SAFETY: `ends` has room for the two numbers that are written.
    if unsafe { pipe2(ends.as_mut_ptr(), O_CLOEXEC | O_DIRECT) } != 0 {
        return Err(io::Error::last_os_error());
    }
    // SAFETY: both are open, and nothing else owns them.
    Ok(unsafe { (OwnedFd::from_raw_fd(ends[0]), File::from_raw_fd(ends[1])) })
}

/// Runs the program on these bytes.
pub fn byte_by_byte(mut program: Command, bytes: &[u8]) -> io::Result<Output> {
    let (reader, mut writer) = packets()?;
    let child = program.stdin(reader).stdout(Stdio::piped()).spawn()?;
    // It holds the reader too: a program that has ended must be seen to read no more.
    drop(program);
    thread::scope(|scope| {
        scope.spawn(move || {
            // A program may end at the first fault: what it has not read does not matter.
            let _ = bytes.iter().try_for_each(|byte| writer.write_all(&[*byte]));
        });
        child.wait_with_output()
    })
}
