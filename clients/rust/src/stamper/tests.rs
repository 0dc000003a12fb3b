//! The rule by values worked out by hand, and stampers over files that the tests write.
use super::*;
use crate::Clock;
use std::fs;
use std::os::unix::fs::{FileExt, MetadataExt};
use std::path::{Path, PathBuf};
use std::process;
use std::sync::Barrier;

const MAX: u64 = MAX_TIME_NS;
/// Far above the readings of these tests, so the stamps do not depend on the clock.
const LO: u64 = 500_000_000_000_000_000;
const NO_LIMIT: u64 = u64::MAX;
/// The clock of the files here.
const CLOCK: Clock = Clock::MonotonicRaw;

/// A file with publications, in a folder of its own.
struct Shared {
    folder: PathBuf,
}

impl Shared {
    /// One in which nothing was published.
    fn new(name: &str) -> Shared {
        let folder = std::env::temp_dir().join(format!("truetime-{name}-{}", process::id()));
        fs::create_dir_all(&folder).expect("a folder");
        let shared = Shared { folder };
        let mut bytes = vec![0; crate::BYTES];
        bytes[..8].copy_from_slice(&crate::HEAD.to_le_bytes());
        bytes[8] = CLOCK.number() as u8;
        bytes[24..60].copy_from_slice(&fs::read("/proc/sys/kernel/random/boot_id").expect("a boot")[..36]);
        fs::write(shared.path(), bytes).expect("a file");
        shared
    }

    /// One with the interval `lo_ns` to `hi_ns` at this moment, and no drift.
    fn at_this_moment(name: &str, lo_ns: u64, hi_ns: u64) -> Shared {
        let shared = Shared::new(name);
        shared.publish(1, lo_ns, hi_ns, NO_LIMIT);
        shared
    }

    fn path(&self) -> PathBuf {
        self.folder.join("time")
    }

    /// Publishes as the daemon does: the slot, and then the index. `count` is 1 or 2.
    fn publish(&self, count: u64, lo_ns: u64, hi_ns: u64, usable_until_ns: u64) {
        let clock_ns = crate::os::clock_ns(CLOCK).expect("a clock");
        let words = [count, clock_ns, lo_ns, hi_ns, clock_ns, 70 + count, 9, 0, usable_until_ns];
        let bytes: Vec<u8> = words.iter().flat_map(|word| word.to_le_bytes()).collect();
        let file = fs::OpenOptions::new().write(true).open(self.path()).expect("the file");
        let slot = crate::FIRST_SLOT + crate::SLOT_WORDS * (count as usize % 2);
        file.write_all_at(&bytes, 8 * slot as u64).expect("a slot");
        // Byte 0 of the index is the count's less byte 1 of that, which is 0.
        file.write_all_at(&count.to_le_bytes(), 8 * crate::INDEX_WORD as u64).expect("an index");
    }

    fn client(&self) -> Client {
        Client::open(self.path(), owner(&self.path())).expect("a client")
    }

    fn stamper(&self, lo_ns: u64, hi_ns: u64) -> Stamper {
        Stamper::with_lease(self.client(), Lease::new(lo_ns, hi_ns).expect("a lease"))
    }
}

impl Drop for Shared {
    fn drop(&mut self) {
        let _ = fs::remove_dir_all(&self.folder);
    }
}

fn owner(path: &Path) -> u32 {
    fs::metadata(path).expect("the file").uid()
}

/// A result with the refusal in place of the error.
fn told<T>(result: Result<T, Error>) -> Result<T, Refused> {
    result.map_err(|error| error.refused().expect("a refusal"))
}

fn stamp_of(stamper: &Stamper, floor_ns: u64) -> Result<u64, Refused> {
    told(stamper.stamp(floor_ns)).map(|given| given.stamp_ns)
}

#[test]
fn the_rule_by_hand() {
    use Refused::{FloorTooFar, LeaseOver, UsedUp};
    for (free, latest, floor, lo, hi, answer) in [
        (0, 0, 0, 0, MAX, Ok(0)),
        (1, 0, 0, 0, MAX, Ok(1)), // 0 was given
        (0, 250, 0, 0, MAX, Ok(250)),
        (0, 250, 249, 0, MAX, Ok(250)),
        (0, 250, 251, 0, MAX, Ok(251)),
        (250, 250, 0, 0, MAX, Ok(250)),
        (251, 250, 0, 0, MAX, Ok(251)),
        (251, 250, 251, 0, MAX, Ok(251)),
        (1_000, 250, 999, 0, MAX, Ok(1_000)),
        (0, 250, 0, 300, MAX, Ok(300)),
        (301, 250, 0, 300, MAX, Ok(301)),
        // The floor may be ten seconds ahead of the latest, and no more.
        (0, 0, 10_000_000_000, 0, MAX, Ok(10_000_000_000)),
        (0, 0, 10_000_000_001, 0, MAX, Err(FloorTooFar)),
        (0, 250, 10_000_000_250, 0, MAX, Ok(10_000_000_250)),
        (0, 250, 10_000_000_251, 0, MAX, Err(FloorTooFar)),
        (20_000_000_000, 250, 10_000_000_251, 0, MAX, Err(FloorTooFar)),
        (0, 250, 10_000_000_251, 20_000_000_000, MAX, Err(FloorTooFar)),
        (0, 250, u64::MAX, 0, MAX, Err(FloorTooFar)),
        // The end of time.
        (0, MAX, 0, 0, MAX, Ok(MAX)),
        (MAX, MAX, MAX, MAX, MAX, Ok(MAX)),
        (MAX, 250, 0, 0, MAX, Ok(MAX)),
        (MAX + 1, 250, 0, 0, MAX, Err(UsedUp)),
        (0, MAX, MAX + 1, 0, MAX, Err(UsedUp)),
        (0, MAX, MAX + 10_000_000_000, 0, MAX, Err(UsedUp)),
        (0, MAX, MAX + 10_000_000_001, 0, MAX, Err(FloorTooFar)),
        // The ends of the lease.
        (0, 250, 0, 250, 250, Ok(250)),
        (0, 250, 0, 0, 250, Ok(250)),
        (0, 250, 0, 0, 249, Err(LeaseOver)),
        (0, 250, 251, 0, 250, Err(LeaseOver)),
        (250, 250, 0, 0, 250, Ok(250)),
        (251, 250, 0, 0, 250, Err(LeaseOver)), // the last stamp is the lease's end
        (0, 0, 0, 0, 0, Ok(0)),
        (1, 0, 0, 0, 0, Err(LeaseOver)),
        // The order of the refusals.
        (0, 250, 10_000_000_251, 0, 100, Err(FloorTooFar)),
        (MAX + 1, 250, 10_000_000_251, 0, 100, Err(FloorTooFar)),
        (MAX + 1, 250, 0, 0, 300, Err(UsedUp)),
        (MAX, 250, 0, 0, MAX - 1, Err(LeaseOver)),
    ] {
        let lease = Lease::new(lo, hi).expect("a lease");
        assert_eq!(told(lease.stamp_of(free, latest, floor)), answer, "{free} {latest} {floor} {lo} {hi}");
    }
}

#[test]
fn numbers_of_refusals() {
    use Refused::*;
    let numbers = [LeaseBackwards, LeasePastMax, UsedUp, FloorTooFar, LeaseOver].map(Refused::number);
    assert_eq!(numbers, [101, 102, 901, 902, 903]);
}

#[test]
fn leases() {
    let ends = |lo_ns, hi_ns| told(Lease::new(lo_ns, hi_ns)).map(|lease| (lease.lo_ns(), lease.hi_ns()));
    assert_eq!(ends(8, 7), Err(Refused::LeaseBackwards));
    assert_eq!(ends(u64::MAX, MAX + 1), Err(Refused::LeaseBackwards));
    assert_eq!(ends(7, MAX + 1), Err(Refused::LeasePastMax));
    assert_eq!(ends(7, 7), Ok((7, 7)));
    assert_eq!(told(Lease::new(0, MAX)), Ok(Lease::WHOLE));
    assert_eq!(Lease::default(), Lease::WHOLE);
    assert_eq!(Stamper::new(Shared::new("leases").client()).lease(), Lease::WHOLE);
}

#[test]
fn stamps_of_a_lease() {
    let shared = Shared::at_this_moment("lease", 1_000, 2_000);
    let stamper = shared.stamper(LO, LO + 2);
    assert_eq!(stamp_of(&stamper, 0), Ok(LO));
    // After a refusal nothing is used up.
    assert_eq!(stamp_of(&stamper, LO + 2), Err(Refused::FloorTooFar));
    assert_eq!(stamp_of(&stamper, 3_000), Ok(LO + 1));
    assert_eq!(stamp_of(&stamper, u64::MAX), Err(Refused::FloorTooFar));
    assert_eq!(stamp_of(&stamper, 0), Ok(LO + 2));
    assert_eq!(stamp_of(&stamper, 0), Err(Refused::LeaseOver));
    assert_eq!(stamp_of(&stamper, LO), Err(Refused::FloorTooFar));
    assert_eq!(stamp_of(&stamper, 0), Err(Refused::LeaseOver));
}

#[test]
fn stamps_at_the_end_of_time() {
    let shared = Shared::at_this_moment("end", MAX, MAX);
    let stamper = Stamper::new(shared.client());
    assert_eq!(stamp_of(&stamper, MAX + 1), Err(Refused::UsedUp));
    assert_eq!(stamp_of(&stamper, 0), Ok(MAX));
    assert_eq!(stamp_of(&stamper, 0), Err(Refused::UsedUp));
    assert_eq!(stamp_of(&stamper, MAX + 10_000_000_001), Err(Refused::FloorTooFar));
    assert_eq!(told(stamper.is_past(MAX - 1)), Ok(true));
    assert_eq!(told(stamper.is_past(MAX)), Ok(false));
    assert_eq!(told(stamper.is_past(u64::MAX)), Ok(false));
    assert_eq!(told(stamper.wait_past(MAX - 1, Instant::now())), Ok(true));
    assert_eq!(told(stamper.wait_past(MAX, Instant::now())), Ok(false));
}

#[test]
fn only_the_earliest_has_passed() {
    let shared = Shared::at_this_moment("wide", 1_000, MAX);
    let stamper = Stamper::new(shared.client());
    assert_eq!(told(stamper.is_past(999)), Ok(true));
    assert_eq!(told(stamper.is_past(LO)), Ok(false));
    assert_eq!(told(stamper.wait_past(999, Instant::now())), Ok(true));
    assert_eq!(told(stamper.wait_past(LO, Instant::now())), Ok(false));
}

#[test]
fn readings_of_stamps() {
    let shared = Shared::at_this_moment("readings", 1_000, 2_000);
    let stamper = Stamper::new(shared.client());
    let given = stamper.stamp(0).expect("a stamp");
    assert_eq!(given.stamp_ns, given.reading.latest_ns);
    assert_eq!(given.reading.latest_ns - given.reading.earliest_ns, 1_000);
    // It was published as overdue, in life 71.
    assert_eq!((given.reading.epoch, given.reading.fresh), (71, false));
    shared.publish(2, 1_000, 2_000, NO_LIMIT);
    let next = stamper.stamp(given.stamp_ns + 900_000_000).expect("a stamp");
    assert_eq!((next.stamp_ns, next.reading.epoch), (given.stamp_ns + 900_000_000, 72));
    // A floor put that one ahead of the time.
    assert_eq!(stamp_of(&stamper, 0), Ok(next.stamp_ns + 1));
}

#[test]
fn refusals_of_a_reading() {
    let shared = Shared::new("refusals");
    let stamper = shared.stamper(LO, LO);
    let refused = |refused| {
        assert_eq!(stamp_of(&stamper, u64::MAX), Err(refused));
        assert_eq!(told(stamper.is_past(0)), Err(refused));
        assert_eq!(told(stamper.wait_past(0, Instant::now())), Err(refused));
    };
    refused(Refused::Nothing);
    shared.publish(1, 1_000, 2_000, 1);
    refused(Refused::TooWide);
    shared.publish(2, 1_000, 2_000, 0);
    refused(Refused::Nothing);
    shared.publish(1, 2_000, 1_000, NO_LIMIT);
    refused(Refused::NoSlot);
    shared.publish(2, 1_000, 2_000, NO_LIMIT);
    assert_eq!(stamp_of(&stamper, 0), Ok(LO));
}

#[test]
fn waits() {
    let shared = Shared::at_this_moment("waits", 1_000_000_000, 1_000_000_000);
    let stamper = Stamper::new(shared.client());
    let began = Instant::now();
    let given = stamper.stamp(0).expect("a stamp");
    let ahead = stamper.stamp(given.stamp_ns + 70_000_000).expect("a stamp");
    assert_eq!(told(stamper.is_past(ahead.stamp_ns)), Ok(false));
    // The deadline, before and after a sleep.
    assert_eq!(told(stamper.wait_past(given.stamp_ns + 1_000_000_000_000, began)), Ok(false));
    let deadline = Instant::now() + Duration::from_millis(10);
    assert_eq!(told(stamper.wait_past(u64::MAX, deadline)), Ok(false));
    assert!(Instant::now() >= deadline);
    // The time of the stamp, after two sleeps.
    assert_eq!(told(stamper.wait_past(ahead.stamp_ns, began + Duration::from_secs(60))), Ok(true));
    assert!(began.elapsed() > Duration::from_millis(70) && began.elapsed() < Duration::from_secs(30));
    assert_eq!(told(stamper.is_past(ahead.stamp_ns)), Ok(true));
    // One that has passed, after the deadline.
    assert_eq!(told(stamper.wait_past(ahead.stamp_ns, began)), Ok(true));
}

/// Whether a call takes less than 40 milliseconds; where the host is busy, one of 50 has to.
fn is_short(call: impl Fn()) -> bool {
    (0..50).any(|_| {
        let began = Instant::now();
        call();
        began.elapsed() < Duration::from_millis(40)
    })
}

#[test]
fn waits_no_longer() {
    let shared = Shared::at_this_moment("short", 1_000, 2_000);
    let stamper = Stamper::new(shared.client());
    let in_10_ms = || Instant::now() + Duration::from_millis(10);
    assert!(is_short(|| assert_eq!(told(stamper.wait_past(LO, in_10_ms())), Ok(false))));
    assert!(is_short(|| {
        let ahead_ns = stamper.client().now().expect("a reading").latest_ns + 10_000_000;
        assert_eq!(told(stamper.wait_past(ahead_ns, Instant::now() + Duration::from_secs(60))), Ok(true));
    }));
}

#[test]
fn waits_for_a_publication() {
    let shared = Shared::at_this_moment("newer", 1_000, 2_000);
    let stamper = Stamper::new(shared.client());
    let began = Instant::now();
    thread::scope(|scope| {
        let waiting = scope.spawn(|| stamper.wait_past(LO, began + Duration::from_secs(60)));
        thread::sleep(Duration::from_millis(20));
        shared.publish(2, LO + 1, LO + 1, NO_LIMIT);
        assert_eq!(told(waiting.join().expect("a thread")), Ok(true));
    });
    assert!(began.elapsed() < Duration::from_secs(30));
}

const THREADS: u64 = 8;

/// What this call gives in each of eight threads, which begin together.
fn in_threads<T: Send>(call: impl Fn(u64) -> Vec<T> + Sync) -> Vec<Vec<T>> {
    let start = Barrier::new(THREADS as usize);
    thread::scope(|scope| {
        let (start, call) = (&start, &call);
        let run = |thread| {
            start.wait();
            call(thread)
        };
        let threads: Vec<_> = (0..THREADS).map(|thread| scope.spawn(move || run(thread))).collect();
        threads.into_iter().map(|thread| thread.join().expect("a thread")).collect()
    })
}

#[test]
fn threads_get_the_least_stamps() {
    let shared = Shared::at_this_moment("threads", 1_000, 2_000);
    let stamper = Stamper::new(shared.client());
    // Each seventh floor is a millisecond ahead, each eleventh too far.
    let floor_of = |call: u64, latest_ns: u64| match (call % 7, call % 11) {
        (_, 0) => u64::MAX,
        (0, _) => latest_ns + 1_000_000,
        _ => 0,
    };
    let given = in_threads(|thread| {
        let mut given: Vec<(Stamp, u64)> = Vec::new();
        for call in 0..5_000 {
            let floor_ns = floor_of(call + thread, stamper.client().now().expect("a reading").latest_ns);
            match told(stamper.stamp(floor_ns)) {
                Ok(stamp) => given.push((stamp, floor_ns)),
                Err(refused) => assert_eq!((refused, floor_ns), (Refused::FloorTooFar, u64::MAX)),
            }
        }
        given
    });
    for of_thread in &given {
        assert!(of_thread.windows(2).all(|pair| pair[0].0.stamp_ns < pair[1].0.stamp_ns));
    }
    let mut all = given.concat();
    all.sort_by_key(|(given, _)| given.stamp_ns);
    let mut free_ns = 0;
    for (given, floor_ns) in all {
        // Each is the least that could follow those below it.
        assert_eq!(given.stamp_ns, given.reading.latest_ns.max(floor_ns).max(free_ns));
        free_ns = given.stamp_ns + 1;
    }
}

#[test]
fn threads_use_up_a_lease() {
    let shared = Shared::at_this_moment("use-up", 1_000, 2_000);
    let stamper = shared.stamper(LO, LO + 299_999);
    let given = in_threads(|_| {
        let mut given = Vec::new();
        loop {
            match stamp_of(&stamper, 0) {
                Ok(stamp_ns) => given.push(stamp_ns),
                Err(refused) => {
                    assert_eq!(refused, Refused::LeaseOver);
                    return given;
                }
            }
        }
    });
    let mut all = given.concat();
    all.sort_unstable();
    assert_eq!(all, (LO..LO + 300_000).collect::<Vec<_>>());
}

#[test]
fn limits() {
    let shared = Shared::new("limits");
    for (ahead_ns, grid_ns) in [(MAX_AHEAD_NS + 1, 1), (0, 0), (0, MAX_GRID_NS + 1)] {
        let limited = Stamper::new(shared.client()).limited(ahead_ns, grid_ns);
        assert!(matches!(limited, Err(Error::BadLimit)), "{limited:?}");
    }
    assert!(Stamper::new(shared.client()).limited(MAX_AHEAD_NS, MAX_GRID_NS).is_ok());
}
