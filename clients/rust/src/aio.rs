//! A session for programs of tokio: the calls of [`crate::Session`], with the same refusals, errors and rules. With the feature
//! `tokio`. The runtime has to have its drivers of time and of input and output.
//!
//! ```no_run
//! # async fn committed() -> Result<(), truetime::Error> {
//! use std::time::Duration;
//!
//! let mut session = truetime::aio::Session::connect_tcp("127.0.0.1:5601", Duration::from_secs(30)).await?;
//! let stamp_ns = session.begin(0).await?; // no other commit of this machine has this timestamp
//! // write and commit locally, under this timestamp
//! session.wait().await?; // only now may anybody be told of the commit
//! # Ok(())
//! # }
//! ```
//!
//! # Cancelling
//!
//! A call that is dropped before it is done, as by `tokio::time::timeout`, leaves the session as it is. If its line was sent, the
//! reply is still to come: the next call waits for it, and drops it. The call may have been done:
//!
//! - After [`Session::wait`], call it again. [`Session::begin`] fails with [`Error::Pending`] before that.
//! - After [`Session::begin`] or [`Session::commit`], nobody has the timestamp, and no other commit gets it: the next one has the
//!   service release that commit first.
//! - After [`Session::lease`], the lease is the old one or the new one.
use crate::calls::{at_most, calls, is_line, is_unknown, reply_in, Address, Calls, Line, Observer, State, Waiter, LINE_BYTES, PAUSE};
pub use crate::calls::{Event, Interval, LONG_WAIT};
pub use crate::error::{Error, Pending};
use crate::{os, Refused};
use std::future::Future;
use std::io::{self, ErrorKind};
use std::os::fd::{AsRawFd, RawFd};
use std::path::Path;
use std::time::{Duration, Instant};
use tokio::io::Interest;
use tokio::net::{lookup_host, TcpStream, ToSocketAddrs, UnixStream};
use tokio::time::{sleep, timeout_at};

#[derive(Debug)]
enum Stream {
    Tcp(TcpStream),
    Unix(UnixStream),
}

/// A reply that is still to come, and what is sent and received so far.
#[derive(Debug)]
struct Owed {
    line: Line,
    deadline: Instant,
    unsent: Vec<u8>,
    received: Vec<u8>,
}

/// A session with the service: one line and its reply at a time. It ends when it is dropped; a commit that is not released
/// then is never known as released. The [module](self) says what a call leaves that is dropped.
#[derive(Debug)]
pub struct Session {
    address: Address,
    calls: Calls,
    connection: Option<Stream>,
    owed: Option<Owed>,
}

calls!(Session, [async], [.await]);

impl Session {
    /// Connects to a TCP address, as `"127.0.0.1:5601"` or `("localhost", 5601)`; a name is looked up here. `timeout` is how long
    /// connecting, each line with its reply, and the waiting for a release may take.
    pub async fn connect_tcp(address: impl ToSocketAddrs, timeout: Duration) -> Result<Session, Error> {
        let deadline = Instant::now() + at_most(timeout);
        let addresses = in_time(deadline, lookup_host(address)).await?.collect();
        Session::connect(Address::Tcp(addresses), timeout).await
    }

    /// Connects to the Unix socket at this path, as `connect_tcp`.
    pub async fn connect_unix(path: impl AsRef<Path>, timeout: Duration) -> Result<Session, Error> {
        Session::connect(Address::Unix(path.as_ref().to_path_buf()), timeout).await
    }

    async fn connect(address: Address, timeout: Duration) -> Result<Session, Error> {
        let timeout = at_most(timeout);
        let connection = in_time(Instant::now() + timeout, Stream::to(&address)).await?;
        Ok(Session { address, calls: Calls::new(timeout), connection: Some(connection), owed: None })
    }

    /// Takes the reply that is owed to a call that was dropped, and gives up a connection that has ended.
    async fn ready(&mut self) -> Result<(), Error> {
        if let Some(line) = self.owed.as_ref().map(|owed| owed.line) {
            let reply = self.settle().await?;
            match self.judge(line, &reply) {
                Err(Error::Refused(_)) | Ok(_) => {}
                failed => return failed.map(drop),
            }
        }
        self.look()
    }

    fn give_up(&mut self) {
        (self.connection, self.owed) = (None, None);
    }

    async fn pause(&mut self) {
        sleep(PAUSE).await;
    }

    /// Sends one line and gives its reply. Without a reply the connection is given up.
    async fn exchange(&mut self, line: Line, text: &str) -> Result<String, Error> {
        let deadline = Instant::now() + self.calls.timeout;
        if self.connection.is_none() {
            self.connection = Some(in_time(deadline, Stream::to(&self.address)).await?);
            self.calls.observer.tell(Event::ConnectedAnew);
        }
        self.owed = Some(Owed { line, deadline, unsent: format!("{text}\n").into_bytes(), received: Vec::new() });
        self.settle().await
    }

    /// The reply that is owed. It stays owed where this is dropped.
    async fn settle(&mut self) -> Result<String, Error> {
        let (Some(connection), Some(owed)) = (&self.connection, &mut self.owed) else {
            return Err(Error::Failed(ErrorKind::NotConnected.into()));
        };
        let settled = in_time(owed.deadline, connection.settle(owed)).await;
        self.owed = None;
        settled.map_err(|error| self.lost(error))
    }
}

impl Stream {
    async fn to(address: &Address) -> io::Result<Stream> {
        let addresses = match address {
            Address::Tcp(addresses) => addresses,
            Address::Unix(path) => loop {
                match UnixStream::connect(path).await {
                    Err(error) if error.kind() == ErrorKind::WouldBlock => sleep(os::CONNECT_PAUSE).await, // as many wait as may
                    reached => return reached.map(Stream::Unix),
                }
            },
        };
        let mut failed = ErrorKind::AddrNotAvailable.into();
        for address in addresses {
            match TcpStream::connect(address).await {
                Err(error) => failed = error,
                Ok(stream) => {
                    stream.set_nodelay(true)?;
                    return Ok(Stream::Tcp(stream));
                }
            }
        }
        Err(failed)
    }

    /// Sends what is left of a line, and receives its reply. Nothing is lost where this is dropped.
    async fn settle(&self, owed: &mut Owed) -> io::Result<String> {
        while !owed.unsent.is_empty() {
            let sent = self.tried(Interest::WRITABLE, || self.try_write(&owed.unsent)).await?;
            owed.unsent.drain(..sent);
        }
        loop {
            let mut bytes = [0; LINE_BYTES + 1];
            let left = bytes.len() - owed.received.len();
            match self.tried(Interest::READABLE, || self.try_read(&mut bytes[..left])).await? {
                0 => return Err(ErrorKind::UnexpectedEof.into()),
                received => owed.received.extend_from_slice(&bytes[..received]),
            }
            if let Some(reply) = reply_in(&owed.received)? {
                return Ok(reply);
            }
        }
    }

    /// Waits until something need not wait.
    async fn tried(&self, interest: Interest, mut something: impl FnMut() -> io::Result<usize>) -> io::Result<usize> {
        loop {
            match self {
                Stream::Tcp(stream) => stream.ready(interest).await?,
                Stream::Unix(stream) => stream.ready(interest).await?,
            };
            match something() {
                Err(error) if error.kind() == ErrorKind::WouldBlock => {}
                done => return done,
            }
        }
    }

    fn try_read(&self, bytes: &mut [u8]) -> io::Result<usize> {
        match self {
            Stream::Tcp(stream) => stream.try_read(bytes),
            Stream::Unix(stream) => stream.try_read(bytes),
        }
    }

    fn try_write(&self, bytes: &[u8]) -> io::Result<usize> {
        match self {
            Stream::Tcp(stream) => stream.try_write(bytes),
            Stream::Unix(stream) => stream.try_write(bytes),
        }
    }
}

impl AsRawFd for Stream {
    fn as_raw_fd(&self) -> RawFd {
        match self {
            Stream::Tcp(stream) => stream.as_raw_fd(),
            Stream::Unix(stream) => stream.as_raw_fd(),
        }
    }
}

async fn in_time<T>(deadline: Instant, done: impl Future<Output = io::Result<T>>) -> io::Result<T> {
    timeout_at(deadline.into(), done).await.unwrap_or_else(|_| Err(ErrorKind::TimedOut.into()))
}
