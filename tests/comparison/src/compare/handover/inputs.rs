//! Standard inputs for a program: packets, of which a read gives one, and files.

use crate::compare::program::Printed;
use std::ffi::{c_char, c_int, c_uint};
use std::fs::File;
use std::io::{self, Seek, Write};
use std::os::fd::{FromRawFd, OwnedFd};
use std::os::unix::net::UnixStream;
use std::thread;

use super::Run;

const AF_UNIX: c_int = 1;
const SOCK_SEQPACKET: c_int = 5;
const SOCK_CLOEXEC: c_int = 0o2_000_000;
const MFD_CLOEXEC: c_uint = 1;

extern "C" {
    fn socketpair(domain: c_int, kind: c_int, protocol: c_int, sockets: *mut c_int) -> c_int;
    fn memfd_create(name: *const c_char, flags: c_uint) -> c_int;
}

pub fn told(error: io::Error) -> String {
    error.to_string()
}

/// Two sockets that keep packets apart: a read gives the bytes of one write, and no others.
pub fn packet_sockets() -> Result<(UnixStream, UnixStream), String> {
    let mut sockets = [-1; 2];
    let kind = SOCK_SEQPACKET | SOCK_CLOEXEC;
    // SAFETY: there is room for the two numbers that it writes.
    if unsafe { socketpair(AF_UNIX, kind, 0, sockets.as_mut_ptr()) } != 0 {
        return Err(told(io::Error::last_os_error()));
    }
    // SAFETY: both were just opened, and nothing else has them.
    let [one, other] = sockets.map(|socket| unsafe { OwnedFd::from_raw_fd(socket) });
    Ok((one.into(), other.into()))
}

/// A file in memory, read from its first byte on. A read gives all bytes that there is room for.
pub fn file(bytes: &[u8]) -> Result<File, String> {
    // SAFETY: the name is text that ends with a zero byte.
    let number = unsafe { memfd_create(c"feed".as_ptr(), MFD_CLOEXEC) };
    if number < 0 {
        return Err(told(io::Error::last_os_error()));
    }
    // SAFETY: it was just opened, and nothing else has it.
    let mut file = unsafe { File::from_raw_fd(number) };
    file.write_all(bytes).and_then(|()| file.rewind()).map_err(told)?;
    Ok(file)
}

/// Writes a feed in packets up to the ends given; how many could be written.
pub fn write_packets(mut to: &UnixStream, feed: &[u8], ends: &[usize]) -> u64 {
    let starts = [0].into_iter().chain(ends.iter().copied());
    // A program that stopped reading is told by what it prints.
    let written = |&(start, &end): &(usize, &usize)| to.write_all(&feed[start..end]).is_ok();
    starts.zip(ends).take_while(written).count() as u64
}

/// What a program prints for a feed in packets up to the ends given, and how many it was handed.
pub fn run_on_packets(
    run: &impl Run,
    feed: &[u8],
    ends: &[usize],
) -> Result<(Printed, u64), String> {
    let (input, ours) = packet_sockets()?;
    thread::scope(|scope| {
        let writer = scope.spawn(move || write_packets(&ours, feed, ends));
        let printed = run(input.into(), None);
        let written = writer.join().expect("a writer ends");
        printed.map(|printed| (printed, written))
    })
}
