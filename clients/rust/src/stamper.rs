//! Timestamps for commits, taken in the database's own process, by the time that the daemon shares.
//!
//! ```no_run
//! use std::time::{Duration, Instant};
//!
//! let client = truetime::Client::open("/run/truetime/time", "truetime")?;
//! let stamper = truetime::Stamper::new(client); // one for all threads
//! let given = stamper.stamp(0)?; // no other commit of this stamper has this timestamp
//! // write and commit locally, under given.stamp_ns
//! if stamper.wait_past(given.stamp_ns, Instant::now() + Duration::from_secs(30))? {
//!     // only now may anybody be told of the commit
//! }
//! # Ok::<(), truetime::Error>(())
//! ```
//!
//! A stamper does for a commit what the service does, without asking it: it takes a reading in the call, and gives the least
//! stamp that is no less than the reading's latest, and above all stamps that it gave before.
//!
//! **One lease, one stamper.** A stamper knows its own stamps alone. Two stampers whose leases meet, in one process or in two,
//! on one machine or on two, may give the same stamp, and so may a stamper and the sessions of a machine, unless its setting
//! `stampers` holds the stamper's lease. So give each stamper a lease that meets no other, and share one among the threads.
//! A process that was forked has a second stamper.
//!
//! **After a restart** a new stamper knows nothing of the stamps given before, and a floor may have put some of them ahead of
//! the time. Stamp the first commit with a floor above the greatest stamp of the log (902 says that this is still too far
//! ahead: wait), or open the stamper with a lease that begins above it, or a new one.
use crate::{Client, Error, Reading, Refused, MAX_TIME_NS};
use std::sync::atomic::{AtomicU64, Ordering};
use std::thread;
use std::time::{Duration, Instant};

/// The most that a floor may lie ahead of the reading's latest, in nanoseconds: ten seconds.
pub const MAX_AHEAD_NS: u64 = 10_000_000_000;
/// How far it may, unless a stamper says otherwise: a second, as for sessions.
pub const AHEAD_NS: u64 = 1_000_000_000;
/// The widest grid, in nanoseconds: a second.
pub const MAX_GRID_NS: u64 = 1_000_000_000;

/// The longest sleep before the next look: a newer publication may have a later earliest.
const LONGEST_SLEEP: Duration = Duration::from_millis(50);

/// The times from which stamps are given: two ends, both included.
#[derive(Clone, Copy, Debug, PartialEq, Eq)]
pub struct Lease {
    lo_ns: u64,
    hi_ns: u64,
}

impl Lease {
    /// The whole of time.
    pub const WHOLE: Lease = Lease { lo_ns: 0, hi_ns: MAX_TIME_NS };

    /// The lease from `lo_ns` to `hi_ns`. Refuses with `LeaseBackwards` where these are out of order, then with
    /// `LeasePastMax` where the upper one is above the greatest time.
    pub fn new(lo_ns: u64, hi_ns: u64) -> Result<Lease, Error> {
        if hi_ns < lo_ns {
            return Err(Refused::LeaseBackwards.into());
        }
        if hi_ns > MAX_TIME_NS {
            return Err(Refused::LeasePastMax.into());
        }
        Ok(Lease { lo_ns, hi_ns })
    }

    /// The least stamp that may be given, in nanoseconds.
    pub fn lo_ns(&self) -> u64 {
        self.lo_ns
    }

    /// The greatest one.
    pub fn hi_ns(&self) -> u64 {
        self.hi_ns
    }

    /// The rule of all stamps: the least number up to the greatest time that is no less than the latest of the reading, the
    /// floor, the lower end of the lease, and `free_ns`. That is the least number above all stamps given: 0 before the first
    /// one, and then one more than the last one.
    ///
    /// Refuses, in this order: `FloorTooFar` where the floor is more than [`MAX_AHEAD_NS`] above the latest, `UsedUp` where
    /// there is no such number, `LeaseOver` where it is above the upper end of the lease.
    #[inline]
    pub fn stamp_of(&self, free_ns: u64, latest_ns: u64, floor_ns: u64) -> Result<u64, Error> {
        self.stamp_on_grid(free_ns, latest_ns, floor_ns, [MAX_AHEAD_NS, 1])
    }

    /// The rule with how far the floor may be ahead, and on a grid.
    #[inline]
    fn stamp_on_grid(&self, free_ns: u64, latest_ns: u64, floor_ns: u64, limits: [u64; 2]) -> Result<u64, Error> {
        let [ahead_ns, grid_ns] = limits;
        if floor_ns > latest_ns.saturating_add(ahead_ns) {
            return Err(Refused::FloorTooFar.into());
        }
        let mut stamp_ns = latest_ns.max(floor_ns).max(self.lo_ns).max(free_ns);
        if grid_ns > 1 {
            stamp_ns = stamp_ns.saturating_add((grid_ns - stamp_ns % grid_ns) % grid_ns);
        }
        if stamp_ns > MAX_TIME_NS {
            return Err(Refused::UsedUp.into());
        }
        if stamp_ns > self.hi_ns {
            return Err(Refused::LeaseOver.into());
        }
        Ok(stamp_ns)
    }
}

impl Default for Lease {
    fn default() -> Lease {
        Lease::WHOLE
    }
}

/// A stamp, and the reading by which it was given.
#[derive(Clone, Copy, Debug, PartialEq, Eq)]
pub struct Stamp {
    /// The stamp, in nanoseconds.
    pub stamp_ns: u64,
    /// The reading, which was taken in the call. `fresh` is false where the daemon is late or gone, and another `epoch` than
    /// before is another life of the daemon; the stamp is as good in each case.
    pub reading: Reading,
}

/// Gives stamps to any number of threads, which share it by reference. See the [module](self) for how many there may be.
#[derive(Debug)]
pub struct Stamper {
    client: Client,
    lo_ns: u64,
    hi_ns: AtomicU64,
    /// How far a floor may be ahead, and the grid.
    limits: [u64; 2],
    /// The least number above all stamps given: 0, or one more than the last one.
    free_ns: AtomicU64,
}

impl Stamper {
    /// A stamper by this reader, with the whole of time as its lease. It has given no stamp.
    pub fn new(client: Client) -> Stamper {
        Stamper::with_lease(client, Lease::WHOLE)
    }

    /// The same with a lease.
    pub fn with_lease(client: Client, lease: Lease) -> Stamper {
        let Lease { lo_ns, hi_ns } = lease;
        Stamper { client, lo_ns, hi_ns: AtomicU64::new(hi_ns), limits: [AHEAD_NS, 1], free_ns: AtomicU64::new(0) }
    }

    /// The same stamper, where a floor may lie `ahead_ns` ahead of the latest, [`MAX_AHEAD_NS`] at most: it moves all later stamps,
    /// too. Stamps are multiples of `grid_ns`, [`MAX_GRID_NS`] at most: 1,000 where a database keeps microseconds. Fails with
    /// [`Error::BadLimit`] for other numbers.
    pub fn limited(mut self, ahead_ns: u64, grid_ns: u64) -> Result<Stamper, Error> {
        if ahead_ns > MAX_AHEAD_NS || !(1..=MAX_GRID_NS).contains(&grid_ns) {
            return Err(Error::BadLimit);
        }
        self.limits = [ahead_ns, grid_ns];
        Ok(self)
    }

    /// Has the lease end later, while other threads stamp. It never ends earlier by this. Refuses with `LeasePastMax`.
    pub fn extend(&self, hi_ns: u64) -> Result<(), Error> {
        if hi_ns > MAX_TIME_NS {
            return Err(Refused::LeasePastMax.into());
        }
        self.hi_ns.fetch_max(hi_ns, Ordering::AcqRel);
        Ok(())
    }

    /// Has all stamps from now on be above this time, as above the greatest in a log. Refuses with `LeasePastMax`.
    pub fn rise_above(&self, t_ns: u64) -> Result<(), Error> {
        if t_ns > MAX_TIME_NS {
            return Err(Refused::LeasePastMax.into());
        }
        self.free_ns.fetch_max(t_ns + 1, Ordering::AcqRel);
        Ok(())
    }

    /// The reader.
    pub fn client(&self) -> &Client {
        &self.client
    }

    /// The lease.
    #[inline]
    pub fn lease(&self) -> Lease {
        Lease { lo_ns: self.lo_ns, hi_ns: self.hi_ns.load(Ordering::Acquire) }
    }

    /// The stamp of a commit: the least on the grid that is no less than the latest of a reading taken in this call, the floor and the
    /// lower end of the lease, and above every stamp that this stamper gave before. It lies in the lease.
    ///
    /// Refuses as [`Client::now`], then as [`Lease::stamp_of`]. After a refusal nothing is used up. By a mapped reader it
    /// makes no system call but the clock's. It has one load and one exchange, and one more exchange each time that another
    /// thread was faster.
    #[inline]
    pub fn stamp(&self, floor_ns: u64) -> Result<Stamp, Error> {
        let reading = self.client.now()?;
        let mut free_ns = self.free_ns.load(Ordering::Acquire);
        loop {
            let stamp_ns = self.lease().stamp_on_grid(free_ns, reading.latest_ns, floor_ns, self.limits)?;
            match self.free_ns.compare_exchange(free_ns, stamp_ns + 1, Ordering::AcqRel, Ordering::Acquire) {
                Ok(_) => return Ok(Stamp { stamp_ns, reading }),
                Err(found) => free_ns = found,
            }
        }
    }

    /// Whether a stamp has surely passed: it is below the earliest of a reading taken in this call. Only then may anybody be
    /// told of its commit. Refuses as [`Client::now`], and makes the system calls of that.
    #[inline]
    pub fn is_past(&self, stamp_ns: u64) -> Result<bool, Error> {
        Ok(self.client.now()?.after(stamp_ns))
    }

    /// One step of `wait_past`, for who has to look at something else meanwhile: zero where a stamp has surely passed, or else how
    /// long to sleep before the next look, at most 50 milliseconds. Refuses as [`Client::now`].
    pub fn left(&self, stamp_ns: u64) -> Result<Duration, Error> {
        let reading = self.client.now()?;
        if reading.after(stamp_ns) {
            return Ok(Duration::ZERO);
        }
        Ok(Duration::from_nanos((stamp_ns - reading.earliest_ns).saturating_add(1)).min(LONGEST_SLEEP))
    }

    /// Sleeps until a stamp has surely passed, and answers true, or until the deadline, and answers false. It takes a reading
    /// before the first sleep and after each, also after the deadline, and sleeps as long as the stamp is ahead of the earliest,
    /// at most 50 milliseconds at once.
    ///
    /// Refuses as [`Client::now`], at once. The stamp is as it was after that and after false: wait again.
    pub fn wait_past(&self, stamp_ns: u64, deadline: Instant) -> Result<bool, Error> {
        loop {
            let sleep = self.left(stamp_ns)?;
            if sleep.is_zero() {
                return Ok(true);
            }
            let left = deadline.saturating_duration_since(Instant::now());
            if left.is_zero() {
                return Ok(false);
            }
            thread::sleep(sleep.min(left));
        }
    }
}

#[cfg(test)]
mod tests;
