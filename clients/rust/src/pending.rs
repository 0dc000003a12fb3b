//! The commits of a process that are begun and not written, for snapshots.
use crate::{Error, Stamper};
use std::collections::BTreeSet;
use std::sync::{Condvar, Mutex, MutexGuard, PoisonError};
use std::time::{Duration, Instant};

/// The commits of one stamper from their stamps until they are written, so that snapshots hold all that they have to.
///
/// A database begins each commit by [`begin`](PendingTable::begin), writes it under its stamp, says so by
/// [`written`](PendingTable::written), and tells nobody before [`release`](PendingTable::release). A snapshot at a time that
/// [`make_readable`](PendingTable::make_readable) or [`watermark`](PendingTable::watermark) gave holds every commit with a stamp up
/// to it, and no later one gets such a stamp. Any number of threads may share one table by reference.
#[derive(Debug)]
pub struct PendingTable {
    stamper: Stamper,
    unwritten: Mutex<BTreeSet<u64>>,
    changed: Condvar,
}

impl PendingTable {
    /// A table of no commits. The stamper is its own: no stamp may be taken past it.
    pub fn new(stamper: Stamper) -> PendingTable {
        PendingTable { stamper, unwritten: Mutex::default(), changed: Condvar::new() }
    }

    /// The stamper, as to extend its lease.
    pub fn stamper(&self) -> &Stamper {
        &self.stamper
    }

    /// Begins a commit: its stamp, as [`Stamper::stamp`] gives it, with its refusals. It has to be ended by `written` or `give_up`.
    pub fn begin(&self, floor_ns: u64) -> Result<u64, Error> {
        let mut unwritten = self.lock();
        let stamp_ns = self.stamper.stamp(floor_ns)?.stamp_ns;
        unwritten.insert(stamp_ns);
        Ok(stamp_ns)
    }

    /// Says that a commit is written: who reads under its stamp sees it from now on. Fails with [`Error::NotPending`].
    pub fn written(&self, stamp_ns: u64) -> Result<(), Error> {
        self.end(stamp_ns)
    }

    /// Says that a commit is never written. Fails with [`Error::NotPending`].
    pub fn give_up(&self, stamp_ns: u64) -> Result<(), Error> {
        self.end(stamp_ns)
    }

    /// Waits until the stamp of a commit that is written has surely passed: only then may anybody be told. As
    /// [`Stamper::wait_past`], and it fails with [`Error::NotPending`] where the commit is not written.
    pub fn release(&self, stamp_ns: u64, deadline: Instant) -> Result<bool, Error> {
        if self.lock().contains(&stamp_ns) {
            return Err(Error::NotPending);
        }
        self.stamper.wait_past(stamp_ns, deadline)
    }

    /// The greatest time that has surely passed and up to which all commits are written. Refuses as
    /// [`Client::now`](crate::Client::now).
    pub fn watermark(&self) -> Result<Option<u64>, Error> {
        let unwritten = self.lock();
        // Whoever begins a commit behind this reading gets a stamp that is no less than its earliest.
        let earliest_ns = self.stamper.client().now()?.earliest_ns;
        Ok(unwritten.first().map_or(earliest_ns, |least_ns| earliest_ns.min(*least_ns)).checked_sub(1))
    }

    /// Waits until a time has surely passed and all commits up to it are written, and answers true, or until the deadline, and
    /// answers false. Refuses as [`Client::now`](crate::Client::now).
    pub fn make_readable(&self, t_ns: u64, deadline: Instant) -> Result<bool, Error> {
        if !self.stamper.wait_past(t_ns, deadline)? {
            return Ok(false);
        }
        let mut unwritten = self.lock();
        while unwritten.first().is_some_and(|least_ns| *least_ns <= t_ns) {
            let left = deadline.saturating_duration_since(Instant::now());
            if left == Duration::ZERO {
                return Ok(false);
            }
            unwritten = self.changed.wait_timeout(unwritten, left).unwrap_or_else(PoisonError::into_inner).0;
        }
        Ok(true)
    }

    fn end(&self, stamp_ns: u64) -> Result<(), Error> {
        if !self.lock().remove(&stamp_ns) {
            return Err(Error::NotPending);
        }
        self.changed.notify_all();
        Ok(())
    }

    fn lock(&self) -> MutexGuard<'_, BTreeSet<u64>> {
        self.unwritten.lock().unwrap_or_else(PoisonError::into_inner)
    }
}
