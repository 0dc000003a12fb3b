//! The rules of sessions, which the blocking session and that of tokio share.
use crate::{Error, Pending, Refused, MAX_TIME_NS};
use std::fmt;
use std::io::{self, ErrorKind};
use std::net::SocketAddr;
use std::path::PathBuf;
use std::time::{Duration, Instant};

/// The most bytes of a line and of a reply, without the line feed.
pub(crate) const LINE_BYTES: usize = 64;
/// The pause before a line is sent again.
pub(crate) const PAUSE: Duration = Duration::from_millis(1);
/// The refusals that say of the first line of a commit that it was not begun. Another one may also come of the step that would
/// have released it.
const NOT_BEGUN: [Refused; 8] = [
    Refused::UsedUp,
    Refused::FloorTooFar,
    Refused::LeaseOver,
    Refused::TooManyCommits,
    Refused::IdUsed,
    Refused::StampUsed,
    Refused::CommitPending,
    Refused::FloorAboveCap,
];

/// How long a commit waits before an observer is told.
pub const LONG_WAIT: Duration = Duration::from_secs(1);

/// What a session meets, for an observer.
#[derive(Debug)]
#[non_exhaustive]
pub enum Event<'a> {
    /// It connected anew.
    ConnectedAnew,
    /// Its connection failed, or has ended.
    ConnectionFailed(&'a io::Error),
    /// The service refused a line.
    Refused(Refused),
    /// A commit waits for more than [`LONG_WAIT`]; told once for each.
    LongWait {
        /// Its timestamp.
        stamp_ns: u64,
    },
}

type Tell = dyn FnMut(Event<'_>) + Send;

/// Who is told of events.
#[derive(Default)]
pub(crate) struct Observer(Option<Box<Tell>>);

impl Observer {
    pub(crate) fn new(observer: impl FnMut(Event<'_>) + Send + 'static) -> Observer {
        Observer(Some(Box::new(observer)))
    }

    pub(crate) fn tell(&mut self, event: Event<'_>) {
        if let Some(observer) = &mut self.0 {
            observer(event);
        }
    }
}

impl fmt::Debug for Observer {
    fn fmt(&self, out: &mut fmt::Formatter<'_>) -> fmt::Result {
        out.write_str(if self.0.is_some() { "Observer" } else { "Nobody" })
    }
}

/// The true time lies from `earliest_ns` to `latest_ns`, both included.
#[derive(Clone, Copy, Debug, PartialEq, Eq)]
pub struct Interval {
    /// The earliest that it may be, in nanoseconds.
    pub earliest_ns: u64,
    /// The latest that it may be, in nanoseconds.
    pub latest_ns: u64,
}

/// Where the service is.
#[derive(Clone, Debug)]
pub(crate) enum Address {
    /// Those of a name, which are tried in turn.
    Tcp(Vec<SocketAddr>),
    Unix(PathBuf),
}

/// A time-out that an instant has room for: `Duration::MAX` is none.
pub(crate) fn at_most(timeout: Duration) -> Duration {
    timeout.min(Duration::from_secs(u32::MAX.into()))
}

/// A line, by what its reply means.
#[derive(Clone, Copy, Debug, PartialEq, Eq)]
pub(crate) enum Line {
    /// Any one, whose reply means nothing.
    Any,
    Now,
    After(u64),
    Before(u64),
    Lease([u64; 2]),
    /// That of a commit. The timestamp of one that has none so far has to be at least the floor.
    Commit { number: u64, floor_ns: u64 },
}

impl fmt::Display for Line {
    fn fmt(&self, out: &mut fmt::Formatter<'_>) -> fmt::Result {
        match self {
            Line::Any => Ok(()),
            Line::Now => out.write_str("now"),
            Line::After(t_ns) => write!(out, "after {t_ns}"),
            Line::Before(t_ns) => write!(out, "before {t_ns}"),
            Line::Lease([lo_ns, hi_ns]) => write!(out, "lease {lo_ns} {hi_ns}"),
            Line::Commit { number, floor_ns } => write!(out, "commit {number} {floor_ns}"),
        }
    }
}

/// The last commit that may have begun. Commits are counted from 1.
#[derive(Clone, Copy, Debug)]
pub(crate) struct Commit {
    number: u64,
    /// 0 where it is not known.
    pub(crate) stamp_ns: u64,
    pub(crate) state: State,
}

const NO_COMMIT: Commit = Commit { number: 0, stamp_ns: 0, state: State::Released };

#[derive(Clone, Copy, Debug, PartialEq, Eq)]
pub(crate) enum State {
    /// Its first line was refused, and it may have begun all the same.
    Unsure,
    Waiting,
    Released,
}

/// Who may wait for the last commit.
#[derive(Clone, Copy, Debug, PartialEq, Eq)]
pub(crate) enum Waiter {
    Nobody,
    /// The caller, which has no timestamp so far.
    OfCommit,
    /// The caller, to which `begin` gave its timestamp.
    OfBegin,
}

/// What a session keeps, without its connection.
#[derive(Debug)]
pub(crate) struct Calls {
    pub(crate) timeout: Duration,
    pub(crate) max_width_ns: u64,
    pub(crate) observer: Observer,
    /// Whether a lease was ever asked for: then no commit begins without one.
    pub(crate) wants_lease: bool,
    // The rest belongs to the connection.
    pub(crate) last: Commit,
    pub(crate) waiter: Waiter,
    has_lease: bool,
}

impl Calls {
    pub(crate) fn new(timeout: Duration) -> Calls {
        let (observer, waiter) = (Observer::default(), Waiter::Nobody);
        Calls { timeout, max_width_ns: u64::MAX, observer, wants_lease: false, last: NO_COMMIT, waiter, has_lease: false }
    }

    /// Forgets what belongs to a connection.
    pub(crate) fn forget(&mut self) {
        (self.last, self.waiter, self.has_lease) = (NO_COMMIT, Waiter::Nobody, false);
    }

    /// Forgets what belongs to a connection that failed; the error that says so.
    pub(crate) fn lost(&mut self, error: io::Error) -> Error {
        self.observer.tell(Event::ConnectionFailed(&error));
        let (pending, had_lease) = (self.pending(), self.has_lease);
        self.forget();
        if pending.is_none() && !had_lease {
            return Error::Failed(error);
        }
        Error::Lost { error, pending, had_lease }
    }

    /// The commit that the caller has to wait for.
    pub(crate) fn pending(&self) -> Option<Pending> {
        let Commit { number, stamp_ns, state } = self.last;
        (self.waiter == Waiter::OfBegin && state == State::Waiting).then_some(Pending { commit: number, stamp_ns })
    }

    /// The first line of the next commit.
    pub(crate) fn first_line(&self, floor_ns: u64) -> Result<Line, Error> {
        if self.wants_lease && !self.has_lease {
            return Err(Refused::LeaseOver.into());
        }
        Ok(Line::Commit { number: self.last.number + 1, floor_ns })
    }

    /// The line of the last commit, where that is pending.
    pub(crate) fn line_of_pending(&self) -> Option<Line> {
        (self.last.state == State::Waiting).then_some(Line::Commit { number: self.last.number, floor_ns: 0 })
    }

    /// Looks at how long the last commit waits, which began with a call.
    pub(crate) fn look_at_wait(&mut self, began: Instant, is_told: &mut bool) -> Result<(), Error> {
        if began.elapsed() > self.timeout {
            return Err(Error::NotReleased);
        }
        if began.elapsed() > LONG_WAIT && !*is_told {
            *is_told = true;
            self.observer.tell(Event::LongWait { stamp_ns: self.last.stamp_ns });
        }
        Ok(())
    }

    pub(crate) fn is_limited(&self) -> bool {
        self.max_width_ns < u64::MAX
    }

    /// This interval, where it is narrow enough.
    pub(crate) fn narrow(&self, [earliest_ns, latest_ns]: [u64; 2]) -> Result<Interval, Error> {
        if latest_ns - earliest_ns > self.max_width_ns {
            return Err(Refused::ReadingTooWide.into());
        }
        Ok(Interval { earliest_ns, latest_ns })
    }

    /// Takes the reply to a line: its numbers, or 1 and 0 for yes and no; or the refusal; or nothing where it is no reply to that.
    pub(crate) fn judge(&mut self, line: Line, reply: &str) -> Result<[u64; 2], Option<Refused>> {
        if line == Line::Any {
            return Ok([0, 0]);
        }
        if let Some([number @ 1..=0xFFFF]) = numbers_behind("refused", reply) {
            let refused = Refused::of(number as u16);
            self.observer.tell(Event::Refused(refused));
            match line {
                Line::Commit { number, .. } if number != self.last.number && !NOT_BEGUN.contains(&refused) => {
                    self.last = Commit { number, stamp_ns: 0, state: State::Unsure };
                }
                _ => {}
            }
            return Err(Some(refused));
        }
        let numbers = match line {
            Line::Now => numbers_behind("now", reply).filter(|[earliest_ns, latest_ns]| earliest_ns <= latest_ns),
            Line::Lease(lease) => {
                let is_set = numbers_behind("leased", reply) == Some(lease);
                self.has_lease |= is_set;
                is_set.then_some(lease)
            }
            Line::Commit { number, floor_ns } => self.begun(number, floor_ns, reply),
            _ => [("yes", [1, 0]), ("no", [0, 0])].into_iter().find_map(|(word, is_so)| (word == reply).then_some(is_so)),
        };
        numbers.ok_or(None)
    }

    /// Takes the reply to the line of a commit.
    fn begun(&mut self, number: u64, floor_ns: u64, reply: &str) -> Option<[u64; 2]> {
        let released = numbers_behind("committed", reply);
        let [echo, stamp_ns] = released.or_else(|| numbers_behind("waiting", reply))?;
        let last = self.last;
        let is_right = if number == last.number { [0, stamp_ns].contains(&last.stamp_ns) } else { stamp_ns >= floor_ns };
        if echo != number || !is_right {
            return None;
        }
        let state = if released.is_some() { State::Released } else { State::Waiting };
        self.last = Commit { number, stamp_ns, state };
        Some([number, stamp_ns])
    }
}

/// The numbers of a reply that is this word and so many numbers.
fn numbers_behind<const COUNT: usize>(word: &str, reply: &str) -> Option<[u64; COUNT]> {
    let mut texts = reply.strip_prefix(word)?.split(' ');
    if texts.next() != Some("") {
        return None;
    }
    let numbers: Vec<u64> = texts.map(number_of).collect::<Option<_>>()?;
    numbers.try_into().ok()
}

/// A number has one spelling, and is at most the greatest time.
fn number_of(text: &str) -> Option<u64> {
    text.parse().ok().filter(|number: &u64| *number <= MAX_TIME_NS && number.to_string() == text)
}

/// Whether this refusal of the line of a pending commit says that the service knows of no such one.
pub(crate) fn is_unknown(error: &Error) -> bool {
    matches!(error, Error::Refused(Refused::CommitPassed | Refused::CommitPending | Refused::CommitGone))
}

/// Whether this may be sent.
pub(crate) fn is_line(line: &str) -> bool {
    line.len() <= LINE_BYTES && !line.contains('\n')
}

/// The reply that was received, without its line feed, once it is whole.
pub(crate) fn reply_in(received: &[u8]) -> io::Result<Option<String>> {
    match received {
        [reply @ .., b'\n'] if reply.iter().all(|byte| matches!(byte, b' '..=b'~')) => {
            Ok(Some(reply.iter().copied().map(char::from).collect()))
        }
        _ if received.len() > LINE_BYTES || received.ends_with(b"\n") => Err(ErrorKind::InvalidData.into()),
        _ => Ok(None),
    }
}

/// The calls of a session, which is `async` with `.await`, or blocks. It has `calls`; `ready`, before each call; `exchange`, which
/// sends a line and gives its reply; `give_up`, which gives the connection up; and `pause`.
macro_rules! calls {
    ($session:ident, [$($async:tt)?], [$($wait:tt)*]) => {
        impl $session {
            /// Has an observer told of all that the session meets from now on, in the calls themselves; the one before is told no
            /// more.
            pub fn observe(&mut self, observer: impl FnMut(Event<'_>) + Send + 'static) {
                self.calls.observer = Observer::new(observer);
            }

            /// Has readings that are wider than this refused with `ReadingTooWide`, also where the machine allows them: `now` looks
            /// at each, `after` and `before` compare with one of that, and before a commit begins one is asked for.
            pub fn limit_width(&mut self, max_width_ns: u64) {
                self.calls.max_width_ns = max_width_ns;
            }

            /// Sends one line and gives its reply, both without the line feed; `refused N` is a reply like another. Begin no commit
            /// and set no lease by it: the other calls do not know of that.
            pub $($async)? fn ask(&mut self, line: &str) -> Result<String, Error> {
                if !is_line(line) {
                    return Err(Error::BadLine);
                }
                self.ready()$($wait)*?;
                self.exchange(Line::Any, line)$($wait)*
            }

            /// The time now.
            pub $($async)? fn now(&mut self) -> Result<Interval, Error> {
                self.ready()$($wait)*?;
                self.reading()$($wait)*
            }

            /// Whether time `t_ns` has surely passed.
            pub $($async)? fn after(&mut self, t_ns: u64) -> Result<bool, Error> {
                self.ready()$($wait)*?;
                if self.calls.is_limited() {
                    return Ok(t_ns < self.reading()$($wait)*?.earliest_ns);
                }
                Ok(self.question(Line::After(t_ns))$($wait)*? == [1, 0])
            }

            /// Whether time `t_ns` has surely not arrived.
            pub $($async)? fn before(&mut self, t_ns: u64) -> Result<bool, Error> {
                self.ready()$($wait)*?;
                if self.calls.is_limited() {
                    return Ok(t_ns > self.reading()$($wait)*?.latest_ns);
                }
                Ok(self.question(Line::Before(t_ns))$($wait)*? == [1, 0])
            }

            /// Sets the lease: timestamps of commits that begin from now on lie from `lo_ns` to `hi_ns`, both included. Refuses with
            /// 101 and 102, and then the lease is what it was; where there was none, `begin` and `commit` refuse with 903 until one
            /// is set.
            pub $($async)? fn lease(&mut self, lo_ns: u64, hi_ns: u64) -> Result<(), Error> {
                self.calls.wants_lease = true;
                self.ready()$($wait)*?;
                self.question(Line::Lease([lo_ns, hi_ns]))$($wait)*.map(drop)
            }

            /// Begins a commit and gives its timestamp, no less than `floor_ns`. One commit at a time: fails with [`Error::Pending`]
            /// before the release of the last one that was begun by this. One that [`Session::commit`] left pending is ended first,
            /// as it says. Refuses with 903 where the lease is over or was lost with its connection: set it again. After another
            /// refusal begin again, with the same floor: one that began all the same is ended first, too.
            pub $($async)? fn begin(&mut self, floor_ns: u64) -> Result<u64, Error> {
                self.start(floor_ns, Instant::now())$($wait)*?;
                self.calls.waiter = Waiter::OfBegin;
                Ok(self.calls.last.stamp_ns)
            }

            /// Waits until the timestamp of the commit has surely passed, and gives it. After a refusal the session may wait again.
            pub $($async)? fn wait(&mut self) -> Result<u64, Error> {
                self.ready()$($wait)*?;
                if self.calls.waiter == Waiter::Nobody {
                    return Err(Error::NoCommit);
                }
                self.release(Instant::now())$($wait)*
            }

            /// Begins a commit, waits for its release, and gives its timestamp, with the errors of `begin` and `wait`. Where it fails
            /// while it waits, the commit stays pending, and nobody has its timestamp: `wait` goes on with it, and the next `commit`
            /// or `begin` waits for its release first, and then begins another one.
            pub $($async)? fn commit(&mut self, floor_ns: u64) -> Result<u64, Error> {
                let began = Instant::now();
                self.start(floor_ns, began)$($wait)*?;
                self.release(began)$($wait)*
            }

            /// Begins a commit for which the caller may wait.
            $($async)? fn start(&mut self, floor_ns: u64, began: Instant) -> Result<(), Error> {
                self.ready()$($wait)*?;
                if let Some(pending) = self.calls.pending() {
                    return Err(Error::Pending(pending));
                }
                if self.calls.is_limited() {
                    self.reading()$($wait)*?;
                }
                self.calls.waiter = Waiter::Nobody;
                let is_unsure = self.calls.last.state == State::Unsure;
                self.end(began)$($wait)*?;
                match self.send_first(floor_ns)$($wait)* {
                    Err(Error::Refused(Refused::CommitPending)) if is_unsure => {
                        self.calls.last.state = State::Waiting; // it began, though it was refused
                        self.end(began)$($wait)*?;
                        self.send_first(floor_ns)$($wait)*?;
                    }
                    sent => sent?,
                }
                self.calls.waiter = Waiter::OfCommit;
                Ok(())
            }

            /// Sends the first line of the next commit.
            $($async)? fn send_first(&mut self, floor_ns: u64) -> Result<(), Error> {
                let line = self.calls.first_line(floor_ns)?;
                self.question(line)$($wait)*.map(drop)
            }

            /// Waits for the release of a commit whose timestamp nobody has: it may be too early for the one that begins now.
            $($async)? fn end(&mut self, began: Instant) -> Result<(), Error> {
                match self.release(began)$($wait)* {
                    Err(error) if !is_unknown(&error) => Err(error),
                    _ => Ok(()),
                }
            }

            /// Sends the line of the last commit until it is released. One of which the service does not know is forgotten, with the
            /// connection.
            $($async)? fn release(&mut self, began: Instant) -> Result<u64, Error> {
                let mut is_told = false;
                while let Some(line) = self.calls.line_of_pending() {
                    if let Err(error) = self.question(line)$($wait)* {
                        if is_unknown(&error) {
                            self.give_up();
                            self.calls.forget();
                        }
                        return Err(error);
                    }
                    if self.calls.last.state == State::Waiting {
                        self.calls.look_at_wait(began, &mut is_told)?;
                        self.pause()$($wait)*;
                    }
                }
                Ok(self.calls.last.stamp_ns)
            }

            /// `now` on a connection that is ready.
            $($async)? fn reading(&mut self) -> Result<Interval, Error> {
                let numbers = self.question(Line::Now)$($wait)*?;
                self.calls.narrow(numbers)
            }

            /// Sends one line and gives the numbers of its reply, which is not that of a refusal.
            $($async)? fn question(&mut self, line: Line) -> Result<[u64; 2], Error> {
                let reply = self.exchange(line, &line.to_string())$($wait)*?;
                self.judge(line, &reply)
            }

            /// What a reply says. The connection is given up where it is none.
            fn judge(&mut self, line: Line, reply: &str) -> Result<[u64; 2], Error> {
                match self.calls.judge(line, reply) {
                    Ok(numbers) => Ok(numbers),
                    Err(Some(refused)) => Err(refused.into()),
                    Err(None) => Err(self.lost(ErrorKind::InvalidData.into())),
                }
            }

            /// Gives up a connection that has ended. Fails where that loses what the caller has to make good.
            fn look(&mut self) -> Result<(), Error> {
                if self.connection.as_ref().is_some_and(|connection| os::has_ended(connection.as_raw_fd())) {
                    if let lost @ Error::Lost { .. } = self.lost(ErrorKind::UnexpectedEof.into()) {
                        return Err(lost);
                    }
                }
                Ok(())
            }

            /// Gives the connection up, and says so.
            fn lost(&mut self, error: io::Error) -> Error {
                self.give_up();
                self.calls.lost(error)
            }
        }
    };
}
pub(crate) use calls;
