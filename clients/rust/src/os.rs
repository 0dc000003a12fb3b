//! What is needed of the C library, as Linux has it on little-endian machines of 64 bits.
use crate::Clock;
use std::ffi::{c_char, c_int, c_long, c_uint, c_ushort, c_void, CString};
use std::io::{self, ErrorKind};
use std::mem;
use std::os::fd::{AsRawFd, FromRawFd, RawFd};
use std::os::unix::ffi::OsStrExt;
use std::os::unix::net::UnixStream;
use std::path::Path;
use std::ptr;
use std::thread;
use std::time::{Duration, Instant};

pub(crate) const PROT_READ: c_int = 1;
pub(crate) const MAP_SHARED: c_int = 1;
pub(crate) const MAP_PRIVATE: c_int = 2;
pub(crate) const MAP_FIXED: c_int = 0x10;
pub(crate) const MAP_ANONYMOUS: c_int = if cfg!(target_arch = "mips64") { 0x800 } else { 0x20 };
pub(crate) const O_NONBLOCK: c_int = 0o4000;
pub(crate) const O_NOFOLLOW: c_int = if cfg!(target_arch = "aarch64") { 0o100_000 } else { 0o400_000 };
const AF_UNIX: c_ushort = 1;
const SOCK_STREAM: c_int = 1;
const MSG_PEEK: c_int = 2;
const MSG_DONTWAIT: c_int = 0x40;
const SOCK_CLOEXEC: c_int = 0o2_000_000;
/// The most bytes of a socket's path, without the zero behind it.
const PATH_BYTES: usize = 107;
/// The pause before connecting again to a Unix socket at which as many wait as may.
pub(crate) const CONNECT_PAUSE: Duration = Duration::from_millis(5);

#[repr(C)]
struct Timespec {
    seconds: c_long,
    nanoseconds: c_long,
}

#[repr(C)]
struct SocketPath {
    family: c_ushort,
    path: [u8; PATH_BYTES + 1],
}

#[repr(C)]
struct User {
    name: *mut c_char,
    password: *mut c_char,
    id: c_uint,
    group: c_uint,
    comment: *mut c_char,
    home: *mut c_char,
    shell: *mut c_char,
}

extern "C" {
    pub(crate) fn mmap(at: *mut c_void, length: usize, protection: c_int, flags: c_int, file: c_int, offset: i64) -> *mut c_void;
    pub(crate) fn munmap(at: *mut c_void, length: usize) -> c_int;
    fn clock_gettime(clock: c_int, out: *mut Timespec) -> c_int;
    fn getpwnam_r(name: *const c_char, user: *mut User, text: *mut c_char, length: usize, found: *mut *mut User) -> c_int;
    fn socket(family: c_int, kind: c_int, protocol: c_int) -> c_int;
    fn recv(socket: c_int, bytes: *mut c_void, length: usize, flags: c_int) -> isize;
    fn connect(socket: c_int, address: *const SocketPath, length: c_uint) -> c_int;
}

/// A clock of the machine in nanoseconds.
#[inline]
pub(crate) fn clock_ns(clock: Clock) -> Option<u64> {
    let mut now = Timespec { seconds: 0, nanoseconds: 0 };
    // SAFETY: the call writes one timespec.
    let status = unsafe { clock_gettime(clock as c_int, &mut now) };
    let seconds = u64::try_from(now.seconds).ok().filter(|_| status == 0)?;
    // A clock past the greatest time shows one second more than that, which a reading refuses.
    Some(seconds.min(4_000_000_001) * 1_000_000_000 + now.nanoseconds as u64)
}

/// The number of the user of this name.
pub(crate) fn user_of(name: &str) -> Option<u32> {
    const ERANGE: c_int = 34;
    let name = CString::new(name).ok()?;
    let mut text = vec![0; 1024];
    loop {
        // SAFETY: all zeros are a user without texts.
        let mut user: User = unsafe { mem::zeroed() };
        let mut found = ptr::null_mut();
        // SAFETY: the call writes a user, texts into as many bytes as it is told of, and a pointer to that user or none.
        let status = unsafe { getpwnam_r(name.as_ptr(), &mut user, text.as_mut_ptr(), text.len(), &mut found) };
        if status != ERANGE || text.len() > 1 << 20 {
            return (status == 0 && !found.is_null()).then_some(user.id);
        }
        text.resize(2 * text.len(), 0);
    }
}

/// Connects to the Unix socket at this path. Where as many wait there as may, it is tried again until the deadline.
pub(crate) fn reach(path: &Path, deadline: Instant) -> io::Result<UnixStream> {
    let bytes = path.as_os_str().as_bytes();
    if bytes.len() > PATH_BYTES || bytes.contains(&0) {
        return Err(ErrorKind::InvalidInput.into());
    }
    let mut address = SocketPath { family: AF_UNIX, path: [0; PATH_BYTES + 1] };
    address.path[..bytes.len()].copy_from_slice(bytes);
    // SAFETY: the call takes numbers alone.
    let made = unsafe { socket(AF_UNIX.into(), SOCK_STREAM | SOCK_CLOEXEC | O_NONBLOCK, 0) };
    if made < 0 {
        return Err(io::Error::last_os_error());
    }
    // SAFETY: the descriptor is new, and nobody else has it.
    let stream = unsafe { UnixStream::from_raw_fd(made) };
    loop {
        // SAFETY: the address has as many bytes as the call is told of.
        if unsafe { connect(stream.as_raw_fd(), &address, mem::size_of::<SocketPath>() as c_uint) } == 0 {
            stream.set_nonblocking(false)?;
            return Ok(stream);
        }
        let error = io::Error::last_os_error();
        match error.kind() {
            ErrorKind::Interrupted => {}
            ErrorKind::WouldBlock if Instant::now() < deadline => thread::sleep(CONNECT_PAUSE),
            ErrorKind::WouldBlock => return Err(ErrorKind::TimedOut.into()),
            _ => return Err(error),
        }
    }
}

/// Whether a connection is of no more use before a line: its end is there to be received, or what nobody asked for.
pub(crate) fn has_ended(connection: RawFd) -> bool {
    let mut byte = [0_u8];
    // SAFETY: the call writes at most one byte.
    let is_quiet = unsafe { recv(connection, byte.as_mut_ptr().cast(), 1, MSG_PEEK | MSG_DONTWAIT) } < 0;
    let error = io::Error::last_os_error().kind();
    !is_quiet || !matches!(error, ErrorKind::WouldBlock | ErrorKind::Interrupted)
}
