//! The time with an error bound, and timestamps for commits, by a session with the time service of this machine.
//!
//! ```no_run
//! use std::time::Duration;
//!
//! let mut session = truetime::Session::connect_tcp("127.0.0.1:5601", Duration::from_secs(30))?;
//! let stamp_ns = session.begin(0)?; // no other commit of this machine has this timestamp
//! // write and commit locally, under this timestamp
//! session.wait()?; // only now may anybody be told of the commit
//! # Ok::<(), truetime::Error>(())
//! ```
//!
//! If the connection fails, the call fails, and nobody knows whether a commit that was asked for was begun. The next call
//! connects anew, to a new session of the service. So does a call that finds the connection ended before its line was sent, as
//! behind a pause, unless a commit of [`Session::begin`] is pending or a lease was set. No line is sent a second time by that:
//! the last commit is forgotten. Nor is the lease set again: once [`Session::lease`] was called, [`Session::begin`] and
//! [`Session::commit`] refuse with 903 as long as the connection has no lease.
use crate::calls::{at_most, calls, is_line, is_unknown, reply_in, Address, Calls, Line, Observer, State, Waiter, LINE_BYTES, PAUSE};
pub use crate::calls::{Event, Interval, LONG_WAIT};
pub use crate::error::{Error, Pending};
use crate::{os, Refused};
use std::fmt;
use std::io::{self, ErrorKind, Read, Write};
use std::net::{SocketAddr, TcpStream, ToSocketAddrs};
use std::os::fd::AsRawFd;
use std::os::unix::net::UnixStream;
use std::path::Path;
use std::thread;
use std::time::{Duration, Instant};

trait Stream: Read + Write + AsRawFd + Send + fmt::Debug {
    /// How long a read and a write may take from now on.
    fn set_timeout(&self, timeout: Duration) -> io::Result<()>;
}

impl Stream for TcpStream {
    fn set_timeout(&self, timeout: Duration) -> io::Result<()> {
        self.set_read_timeout(Some(timeout))?;
        self.set_write_timeout(Some(timeout))
    }
}

impl Stream for UnixStream {
    fn set_timeout(&self, timeout: Duration) -> io::Result<()> {
        self.set_read_timeout(Some(timeout))?;
        self.set_write_timeout(Some(timeout))
    }
}

/// A stream whose calls are over after a time-out, however many signals interrupt them.
struct Patient<'a> {
    stream: &'a mut dyn Stream,
    timeout: Duration,
    deadline: Instant,
    /// Whether the stream has a shorter time-out, since a signal came or connecting took some of it.
    is_shorter: bool,
}

impl Patient<'_> {
    /// Calls until that is not interrupted.
    fn call(&mut self, mut call: impl FnMut(&mut dyn Stream) -> io::Result<usize>) -> io::Result<usize> {
        loop {
            match call(self.stream) {
                Err(error) if error.kind() == ErrorKind::Interrupted => self.shorten()?,
                result => return result,
            }
        }
    }

    /// The stream has what is left of its time-out.
    fn shorten(&mut self) -> io::Result<()> {
        let left = self.deadline.saturating_duration_since(Instant::now());
        if left.is_zero() {
            return Err(ErrorKind::TimedOut.into());
        }
        self.stream.set_timeout(left)?;
        self.is_shorter = true;
        Ok(())
    }

    fn send(&mut self, mut bytes: &[u8]) -> io::Result<()> {
        while !bytes.is_empty() {
            let sent = self.call(|stream| stream.write(bytes))?;
            bytes = &bytes[sent..];
        }
        Ok(())
    }

    fn receive(&mut self) -> io::Result<String> {
        let mut bytes = [0; LINE_BYTES + 1];
        let mut length = 0;
        loop {
            match self.call(|stream| stream.read(&mut bytes[length..]))? {
                0 => return Err(ErrorKind::UnexpectedEof.into()),
                received => length += received,
            }
            if let Some(reply) = reply_in(&bytes[..length])? {
                self.end()?;
                return Ok(reply);
            }
        }
    }

    /// The stream has its whole time-out again.
    fn end(&self) -> io::Result<()> {
        if self.is_shorter {
            self.stream.set_timeout(self.timeout)?;
        }
        Ok(())
    }
}

/// A session with the service: one line and its reply at a time. It ends when it is dropped; a commit that is not released
/// then is never known as released.
#[derive(Debug)]
pub struct Session {
    address: Address,
    calls: Calls,
    connection: Option<Box<dyn Stream>>,
}

calls!(Session, [], []);

impl Session {
    /// Connects to a TCP address, as `"127.0.0.1:5601"` or `("localhost", 5601)`; a name is looked up here, without a time-out. `timeout` is how long
    /// connecting, sending, each receiving and the waiting for a release may take, however many signals come; it may not be zero.
    /// One above 136 years, as `Duration::MAX`, counts as that. Connecting anew is part of the sending and receiving that follow it.
    pub fn connect_tcp(address: impl ToSocketAddrs, timeout: Duration) -> Result<Session, Error> {
        Session::connect(Address::Tcp(address.to_socket_addrs()?.collect()), timeout)
    }

    /// Connects to the Unix socket at this path, as `connect_tcp`.
    pub fn connect_unix(path: impl AsRef<Path>, timeout: Duration) -> Result<Session, Error> {
        Session::connect(Address::Unix(path.as_ref().to_path_buf()), timeout)
    }

    fn connect(address: Address, timeout: Duration) -> Result<Session, Error> {
        let timeout = at_most(timeout);
        let connection = Some(connect_to(&address, timeout)?);
        Ok(Session { address, calls: Calls::new(timeout), connection })
    }

    /// Whether it is connected, as far as can be seen, and no commit of it is pending.
    pub(crate) fn is_idle(&self) -> bool {
        let is_connected = self.connection.as_ref().is_some_and(|connection| !os::has_ended(connection.as_raw_fd()));
        is_connected && self.calls.last.state == State::Released
    }

    fn ready(&mut self) -> Result<(), Error> {
        self.look()
    }

    fn give_up(&mut self) {
        self.connection = None;
    }

    fn pause(&self) {
        thread::sleep(PAUSE);
    }

    /// Sends one line and gives its reply. Without a reply the connection is given up.
    fn exchange(&mut self, _: Line, line: &str) -> Result<String, Error> {
        let timeout = self.calls.timeout;
        let (deadline, is_new) = (Instant::now() + timeout, self.connection.is_none());
        let connection = match &mut self.connection {
            Some(connection) => connection,
            none => {
                let made = connect_to(&self.address, timeout)?;
                self.calls.observer.tell(Event::ConnectedAnew);
                none.insert(made)
            }
        };
        let mut stream = Patient { stream: &mut **connection, timeout, deadline, is_shorter: false };
        let ready = if is_new { stream.shorten() } else { Ok(()) };
        let sent = ready.and_then(|()| stream.send(format!("{line}\n").as_bytes()));
        sent.and_then(|()| stream.receive()).map_err(|error| self.lost(named(error)))
    }
}

fn connect_to(address: &Address, timeout: Duration) -> io::Result<Box<dyn Stream>> {
    let stream: Box<dyn Stream> = match address {
        Address::Tcp(addresses) => {
            let stream = reach(addresses, timeout)?;
            stream.set_nodelay(true)?;
            Box::new(stream)
        }
        Address::Unix(path) => Box::new(os::reach(path, Instant::now() + timeout)?),
    };
    stream.set_timeout(timeout)?;
    Ok(stream)
}

/// Connects to one of these addresses, in turn, within the time-out.
fn reach(addresses: &[SocketAddr], timeout: Duration) -> io::Result<TcpStream> {
    let deadline = Instant::now() + timeout;
    let mut failed = if addresses.is_empty() { ErrorKind::AddrNotAvailable } else { ErrorKind::TimedOut }.into();
    for address in addresses {
        let left = deadline.saturating_duration_since(Instant::now());
        if left.is_zero() {
            break;
        }
        match TcpStream::connect_timeout(address, left) {
            Err(error) => failed = error,
            reached => return reached,
        }
    }
    Err(failed)
}

/// The kind of a time-out is `WouldBlock` on Linux.
fn named(error: io::Error) -> io::Error {
    if error.kind() == ErrorKind::WouldBlock {
        ErrorKind::TimedOut.into()
    } else {
        error
    }
}
