//! `packets PROGRAM FILE` runs the program on the file in one packet: of a pipe in packet mode, a read gets one packet,
//! and what it has no room for is lost. It ends as the program does.

use std::fs;
use std::fs::File;
use std::io::{self, Error, Write};
use std::os::fd::{FromRawFd, OwnedFd};
use std::process::{Command, ExitCode, Stdio};

unsafe extern "C" {
    fn pipe2(ends: *mut i32, flags: i32) -> i32;
}

/// `O_DIRECT` of Linux on x86-64.
const IN_PACKETS: i32 = 0o40000;

/// The longest packet of a pipe.
const LONGEST: usize = 4096;

fn packet_pipe() -> io::Result<(OwnedFd, File)> {
    let mut ends = [0; 2];
    // SAFETY: there is room for both ends, and nothing else has them.
    unsafe {
        if pipe2(ends.as_mut_ptr(), IN_PACKETS) != 0 {
            return Err(Error::last_os_error());
        }
        Ok((OwnedFd::from_raw_fd(ends[0]), File::from_raw_fd(ends[1])))
    }
}

fn main() -> io::Result<ExitCode> {
    let given: Vec<String> = std::env::args().collect();
    let [_, program, file] = given.as_slice() else {
        return Err(Error::other("packets PROGRAM FILE"));
    };
    let day = fs::read(file)?;
    if day.len() > LONGEST {
        return Err(Error::other("the file is longer than a packet"));
    }
    let (from, mut to) = packet_pipe()?;
    to.write_all(&day)?;
    drop(to);
    let status = Command::new(program).stdin(Stdio::from(from)).status()?;
    Ok(status.code().map_or(ExitCode::FAILURE, |code| ExitCode::from(code as u8)))
}
