//! Why a call has no answer.
use std::fmt;
use std::io;

/// The refusals: name, number, and what it says.
macro_rules! refusals {
    ($($name:ident = $number:literal => $text:literal,)*) => {
        /// A refusal of a reader, a stamper or the service. All have a number; `docs/FORMATS.md` has those without a name here.
        #[derive(Clone, Copy, Debug, PartialEq, Eq, Hash)]
        #[non_exhaustive]
        pub enum Refused {
            $(#[doc = $text] $name,)*
            /// Another one, by its number.
            Other(u16),
        }

        impl Refused {
            /// The number of the refusal.
            pub fn number(self) -> u16 {
                match self {
                    $(Refused::$name => $number,)*
                    Refused::Other(number) => number,
                }
            }

            /// The refusal of this number.
            pub fn of(number: u16) -> Refused {
                match number {
                    $($number => Refused::$name,)*
                    _ => Refused::Other(number),
                }
            }

            fn meaning(self) -> &'static str {
                match self {
                    $(Refused::$name => $text,)*
                    Refused::Other(_) => "see docs/reference/refusals.md",
                }
            }
        }
    };
}

refusals! {
    OutOfMemory = 1 => "the service is out of memory",
    LeaseBackwards = 101 => "the ends of the lease are out of order",
    LeasePastMax = 102 => "the upper end of the lease is above the greatest time",
    Nothing = 801 => "the daemon has published nothing so far, or nothing is published any more",
    ClockBack = 802 => "the clock is below that of the publication, or above the greatest time",
    ClockFailed = 803 => "the clock gave no reading",
    UsedUp = 901 => "no stamp is left up to the greatest time",
    FloorTooFar = 902 => "the floor is too far ahead of the latest",
    LeaseOver = 903 => "the least stamp is above the upper end of the lease, or the session has lost its lease: set it again",
    TooManyCommits = 1001 => "as many commits are pending as may",
    IdUsed = 1002 => "a commit with this id is pending or was released",
    StampUsed = 1003 => "another commit has this stamp",
    NoLine = 1101 => "the service knows no such line",
    LineTooLong = 1102 => "the line has more than 64 bytes",
    CommitPassed = 1103 => "a later commit has begun in this session",
    CommitPending = 1104 => "the last commit is not known as released",
    NoFile = 1701 => "the file cannot be opened, mapped or read",
    OtherFile = 1702 => "not such a file, or of another owner, writable by others, of another boot or another clock",
    NoSlot = 1703 => "no daemon wrote what stands there",
    Busy = 1704 => "another publication came during each of the tries",
    TooWide = 1708 => "the clock is past the last reading at which the publication may be used",
    NoSlewed = 1710 => "the file gives nothing by CLOCK_MONOTONIC",
    FloorAboveCap = 1821 => "the floor, or the lower end of the lease, is further ahead than the machine allows",
    CommitGone = 1822 => "the commit is pending no more: its connection broke, or the machine ends",
    Broken = 1823 => "the machine knows that an assumption of the service is broken",
    ReadingTooWide = 1824 => "the reading is wider than the machine allows, or than max_width of this client",
}

impl fmt::Display for Refused {
    fn fmt(&self, out: &mut fmt::Formatter<'_>) -> fmt::Result {
        write!(out, "refused {}: {}", self.number(), self.meaning())
    }
}

/// Which check a file did not pass.
#[derive(Clone, Copy, Debug, PartialEq, Eq)]
#[non_exhaustive]
pub enum FileFault {
    /// It is no file of 320 bytes.
    Kind,
    /// It has another owner.
    Owner,
    /// There is no user of the owner's name.
    UnknownUser,
    /// Others may write to it.
    Writable,
    /// It is of another format, or of another version.
    Format,
    /// It is of another boot, or of another clock.
    Clock,
}

impl fmt::Display for FileFault {
    fn fmt(&self, out: &mut fmt::Formatter<'_>) -> fmt::Result {
        out.write_str(match self {
            FileFault::Kind => "it is no file of 320 bytes",
            FileFault::Owner => "it has another owner",
            FileFault::UnknownUser => "there is no user of the owner's name",
            FileFault::Writable => "others may write to it",
            FileFault::Format => "it is of another format, or of another version",
            FileFault::Clock => "it is of another boot, or of another clock",
        })
    }
}

impl std::error::Error for FileFault {}

/// A commit of [`Session::begin`](crate::Session::begin) that is not known as released.
#[derive(Clone, Copy, Debug, PartialEq, Eq)]
pub struct Pending {
    /// Its number in the session.
    pub commit: u64,
    /// Its timestamp.
    pub stamp_ns: u64,
}

impl fmt::Display for Pending {
    fn fmt(&self, out: &mut fmt::Formatter<'_>) -> fmt::Result {
        write!(out, "commit {}, whose timestamp is {}", self.commit, self.stamp_ns)
    }
}

/// Why a call has no answer.
#[derive(Debug)]
#[non_exhaustive]
pub enum Error {
    /// A reader, a stamper or the service refuses. A session goes on.
    Refused(Refused),
    /// The refusal 1701: the file cannot be opened, mapped or read, by what the system says.
    NoFile(io::Error),
    /// The refusal 1702: the file is not such a file.
    OtherFile(FileFault),
    /// The refusal 1104 of a session itself: it begins no other commit before this one is known as released. Call
    /// [`Session::wait`](crate::Session::wait).
    Pending(Pending),
    /// The connection failed: no reply came in time (`TimedOut`), the service ended the session (`UnexpectedEof`), or what
    /// came is no reply (`InvalidData`). Nobody knows whether a commit that was asked for was begun. The next call connects
    /// anew.
    Failed(io::Error),
    /// The connection failed, as with `Failed`, and took along what the caller has to make good.
    Lost {
        /// How it failed.
        error: io::Error,
        /// The commit that was pending. It is never known as released: begin it again, or give it up.
        pending: Option<Pending>,
        /// Whether the session had a lease: a new one has none until it is set again.
        had_lease: bool,
    },
    /// The commit is not released in time. The session goes on, and may wait again.
    NotReleased,
    /// No commit was begun that could be waited for, or the connection of the last one failed.
    NoCommit,
    /// The line has more than 64 bytes or a line feed, and was not sent.
    BadLine,
    /// A limit of a stamper is out of range.
    BadLimit,
    /// No such commit is pending in a table, or the one that is to be released is not written.
    NotPending,
    /// No session of a pool is free in time.
    NoSession,
    /// The pool is closed.
    PoolClosed,
}

impl Error {
    /// The refusal, where it is one.
    pub fn refused(&self) -> Option<Refused> {
        match self {
            Error::Refused(refused) => Some(*refused),
            Error::NoFile(_) => Some(Refused::NoFile),
            Error::OtherFile(_) => Some(Refused::OtherFile),
            Error::Pending(_) => Some(Refused::CommitPending),
            _ => None,
        }
    }

    /// The number of the refusal, where it is one.
    pub fn number(&self) -> Option<u16> {
        self.refused().map(Refused::number)
    }
}

impl fmt::Display for Error {
    fn fmt(&self, out: &mut fmt::Formatter<'_>) -> fmt::Result {
        match self {
            Error::Refused(refused) => refused.fmt(out),
            Error::NoFile(error) => write!(out, "{}: {error}", Refused::NoFile),
            Error::OtherFile(fault) => write!(out, "{}: {fault}", Refused::OtherFile),
            Error::Pending(pending) => write!(out, "{}: wait for {pending}", Refused::CommitPending),
            Error::Failed(error) => write!(out, "the connection failed: {error}"),
            Error::Lost { error, pending, had_lease } => {
                write!(out, "the connection failed: {error}")?;
                if let Some(pending) = pending {
                    write!(out, "; {pending}, was pending: begin it again, or give it up")?;
                }
                out.write_str(if *had_lease { "; the lease has to be set again" } else { "" })
            }
            Error::NotReleased => out.write_str("the commit is not released in time"),
            Error::NoCommit => out.write_str("no commit was begun"),
            Error::BadLine => out.write_str("the line is too long or has a line feed"),
            Error::BadLimit => out.write_str("a limit of the stamper is out of range"),
            Error::NotPending => out.write_str("no such commit is pending, or it is not written"),
            Error::NoSession => out.write_str("no session of the pool is free in time"),
            Error::PoolClosed => out.write_str("the pool is closed"),
        }
    }
}

impl std::error::Error for Error {
    fn source(&self) -> Option<&(dyn std::error::Error + 'static)> {
        match self {
            Error::NoFile(error) | Error::Failed(error) | Error::Lost { error, .. } => Some(error),
            Error::OtherFile(fault) => Some(fault),
            _ => None,
        }
    }
}

impl From<Refused> for Error {
    fn from(refused: Refused) -> Error {
        Error::Refused(refused)
    }
}

impl From<io::Error> for Error {
    fn from(error: io::Error) -> Error {
        Error::Failed(error)
    }
}
