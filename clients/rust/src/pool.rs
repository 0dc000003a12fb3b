//! Sessions for many threads.
use crate::calls::at_most;
use crate::{Error, Session};
use std::fmt;
use std::ops::{Deref, DerefMut};
use std::sync::{Condvar, Mutex, MutexGuard, PoisonError};
use std::time::{Duration, Instant};

/// Sessions with one machine for many threads, each of which has one to itself while it commits.
///
/// ```no_run
/// use std::time::Duration;
///
/// let timeout = Duration::from_secs(30);
/// let pool = truetime::Pool::new(16, timeout, move || truetime::Session::connect_tcp("127.0.0.1:5601", timeout));
/// let stamp_ns = pool.commit(0)?; // or `let mut session = pool.get()?`, and all calls of a session
/// # Ok::<(), truetime::Error>(())
/// ```
///
/// A session is opened when none is idle, and handed out again only where its connection has not ended and none of its commits
/// is pending. One that comes back otherwise is closed: nobody else gets its commit.
pub struct Pool {
    open: Box<dyn Fn() -> Result<Session, Error> + Send + Sync>,
    size: usize,
    timeout: Duration,
    state: Mutex<State>,
    came_back: Condvar,
}

#[derive(Debug, Default)]
struct State {
    idle: Vec<Session>,
    /// How many are out, or about to be.
    out: usize,
    is_closed: bool,
}

impl Pool {
    /// A pool of at most `size` sessions, and at least one. `open` opens one, and sets its lease where commits have one; it is
    /// not called so far. `timeout` is how long a thread waits for a session.
    pub fn new(
        size: usize,
        timeout: Duration,
        open: impl Fn() -> Result<Session, Error> + Send + Sync + 'static,
    ) -> Pool {
        Pool {
            open: Box::new(open),
            size: size.max(1),
            timeout: at_most(timeout),
            state: Mutex::default(),
            came_back: Condvar::new(),
        }
    }

    /// A session that nobody else has until it is dropped: the idle one that was used last, or a new one. Fails with
    /// `NoSession` where as many are out as there may be, with `PoolClosed`, and as opening one does.
    pub fn get(&self) -> Result<Pooled<'_>, Error> {
        let deadline = Instant::now() + self.timeout;
        let mut state = self.lock();
        while state.out >= self.size && !state.is_closed {
            let left = deadline.saturating_duration_since(Instant::now());
            if left.is_zero() {
                return Err(Error::NoSession);
            }
            state = self.came_back.wait_timeout(state, left).unwrap_or_else(PoisonError::into_inner).0;
        }
        if state.is_closed {
            return Err(Error::PoolClosed);
        }
        state.out += 1;
        drop(state);
        let mut lent = Pooled { pool: self, session: None };
        lent.session = match self.usable() {
            None => Some((self.open)()?),
            found => found,
        };
        Ok(lent)
    }

    /// As [`Session::commit`], by a session of the pool, with the errors of [`Pool::get`].
    pub fn commit(&self, floor_ns: u64) -> Result<u64, Error> {
        self.get()?.commit(floor_ns)
    }

    /// Closes the sessions that are idle, and each other one when it comes back.
    pub fn close(&self) {
        let mut state = self.lock();
        state.is_closed = true;
        let idle = std::mem::take(&mut state.idle);
        drop(state);
        self.came_back.notify_all();
        drop(idle);
    }

    /// The last idle session that is of use.
    fn usable(&self) -> Option<Session> {
        loop {
            let session = self.lock().idle.pop()?;
            if session.is_idle() {
                return Some(session);
            }
        }
    }

    fn lock(&self) -> MutexGuard<'_, State> {
        self.state.lock().unwrap_or_else(PoisonError::into_inner)
    }
}

impl fmt::Debug for Pool {
    fn fmt(&self, out: &mut fmt::Formatter<'_>) -> fmt::Result {
        out.debug_struct("Pool").field("size", &self.size).field("timeout", &self.timeout).finish_non_exhaustive()
    }
}

/// A session that is out of its pool until this is dropped. A commit that is pending then is never known as released.
#[derive(Debug)]
pub struct Pooled<'a> {
    pool: &'a Pool,
    /// None where it could not be opened.
    session: Option<Session>,
}

impl Deref for Pooled<'_> {
    type Target = Session;

    fn deref(&self) -> &Session {
        self.session.as_ref().expect("one that was given has a session")
    }
}

impl DerefMut for Pooled<'_> {
    fn deref_mut(&mut self) -> &mut Session {
        self.session.as_mut().expect("one that was given has a session")
    }
}

impl Drop for Pooled<'_> {
    fn drop(&mut self) {
        let mut session = self.session.take();
        if !session.as_ref().is_some_and(Session::is_idle) {
            session = None; // it is closed before another one has its place
        }
        let mut state = self.pool.lock();
        state.out -= 1;
        if !state.is_closed {
            state.idle.extend(session.take());
        }
        drop(state);
        self.pool.came_back.notify_one();
    }
}
