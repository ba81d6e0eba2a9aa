//! The two calls of the system that Rust 1.63 has no safe function for. All unsafe code of the command is here.

use std::fs::File;
use std::io;
use std::os::raw::c_int;
use std::os::unix::io::AsRawFd;

const EXCLUSIVE: c_int = 2;
const AT_ONCE: c_int = 4;

extern "C" {
    fn flock(fd: c_int, operation: c_int) -> c_int;
    fn fchown(fd: c_int, owner: u32, group: u32) -> c_int;
}

fn done(answer: c_int) -> io::Result<()> {
    match answer {
        0 => Ok(()),
        _ => Err(io::Error::last_os_error()),
    }
}

/// Takes the lock of an open file or folder, or fails at once if another has it. It is given back when the file is
/// closed, at the latest by the end of the process, however that comes.
pub fn lock(file: &File) -> io::Result<()> {
    // SAFETY: the call takes numbers alone, and the file is open.
    done(unsafe { flock(file.as_raw_fd(), EXCLUSIVE | AT_ONCE) })
}

/// Gives an open file to an owner and a group.
pub fn give(file: &File, owner: u32, group: u32) -> io::Result<()> {
    // SAFETY: as above.
    done(unsafe { fchown(file.as_raw_fd(), owner, group) })
}
