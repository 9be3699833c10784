//! How much a pipe takes at once. It is less than usual where a user has many pipes.

use std::ffi::c_int;
use std::os::fd::AsRawFd;

extern "C" {
    fn fcntl(file: c_int, command: c_int, ...) -> c_int;
}

/// The command that tells how many bytes a pipe takes.
const SIZE: c_int = 1032;

/// What each pipe takes: it has a page at least.
const LEAST: usize = 4096;

/// How many bytes are written into an empty pipe without a wait.
pub(crate) fn taken_at_once(pipe: &impl AsRawFd) -> usize {
    // SAFETY: the file is open, and the command takes nothing.
    let size = unsafe { fcntl(pipe.as_raw_fd(), SIZE) };
    usize::try_from(size).map_or(LEAST, |size| size.max(LEAST)) // it is negative where the command is unknown
}

#[cfg(test)]
mod tests {
    use super::{taken_at_once, LEAST};
    use std::io::Write;
    use std::process::{Command, Stdio};

    #[test]
    fn as_much_is_written_without_a_wait() {
        // which reads nothing
        let mut waiter = Command::new("sleep").arg("60").stdin(Stdio::piped()).spawn().unwrap();
        let mut input = waiter.stdin.take().unwrap();
        let size = taken_at_once(&input);
        input.write_all(&vec![0; size]).unwrap();
        waiter.kill().unwrap();
        waiter.wait().unwrap();
        assert!(size >= LEAST);
    }
}
