//! The time with an error bound, read from shared memory; timestamps for commits are in [`stamper`], by the same memory, and
//! in [`session`], by the service, and for programs of tokio in `aio`, with the feature `tokio`.
//!
//! The time daemon of a machine keeps its last publication in a file of 320 bytes. A client maps that file once and reads
//! it as often as it likes, without a lock and without waiting.
//!
//! ```no_run
//! let client = truetime::Client::open("/run/truetime/time", "truetime")?;
//! let now = client.now()?;
//! println!("from {} to {} ns", now.earliest_ns, now.latest_ns);
//! # Ok::<(), truetime::Error>(())
//! ```
//!
//! Where an owner of the file or of its folder truncates the file, a mapped one raises SIGBUS. A client of
//! [`Client::open_unmapped`] refuses instead; each of its calls makes three system calls more.
//!
//! A call that would refuse, or give a reading that is not fresh, looks at the path, at most once a second. Where another file is
//! there, as behind a restart, the client opens that by the same rules, and answers by it.
//!
//! The clock is that of the file: `CLOCK_MONOTONIC_RAW`, or `CLOCK_MONOTONIC`. Reads version 3 of the format (its first four bytes
//! are `TTS3`), and refuses another version with 1702. Needs Linux on a little-endian 64-bit machine.
#![warn(missing_docs)]

#[cfg(not(all(target_os = "linux", target_endian = "little", target_pointer_width = "64")))]
compile_error!("truetime needs Linux on a little-endian 64-bit machine");

#[cfg(feature = "tokio")]
pub mod aio;
mod calls;
mod error;
mod os;
mod pending;
mod pool;
pub mod session;
pub mod stamper;

pub use error::{Error, FileFault, Pending, Refused};
pub use pending::PendingTable;
pub use pool::{Pool, Pooled};
pub use session::Session;
pub use stamper::Stamper;

use std::env;
use std::ffi::c_void;
use std::fs::{self, File, Metadata, OpenOptions};
use std::io;
use std::os::fd::{AsRawFd, RawFd};
use std::os::unix::fs::{FileExt, MetadataExt, OpenOptionsExt};
use std::path::{Path, PathBuf};
use std::ptr;
use std::sync::atomic::{fence, AtomicBool, AtomicU64, AtomicUsize, Ordering};
use std::sync::{Arc, Mutex, MutexGuard, PoisonError};

/// The greatest time and the greatest clock reading, in nanoseconds.
pub const MAX_TIME_NS: u64 = 4_000_000_000_000_000_000;
/// The greatest drift of a clock, in parts per million.
pub const MAX_DRIFT_PPM: u64 = 100_000;

const BYTES: usize = 8 * (FIRST_SLOT + 2 * SLOT_WORDS);
const WORDS: usize = BYTES / 8;
const INDEX_WORD: usize = 2;
const FIRST_SLOT: usize = 8;
const SLOT_WORDS: usize = 16;
const TRIES: usize = 1000;
const HEAD: u64 = 0x0000_0140_3353_5454;
const LOWEST_BITS: u64 = 0x0101_0101_0101_0101;
/// How far the two pages of a reader are apart: as long as the longest page.
const APART: usize = 1 << 16;
/// The time from one look at the path to the next.
const LOOK_NS: u64 = 1_000_000_000;

/// The user who has to own a file: a name, or a number.
#[derive(Clone, Debug, PartialEq, Eq)]
pub enum Owner {
    /// By name.
    Name(String),
    /// By number.
    Id(u32),
}

impl From<&str> for Owner {
    fn from(name: &str) -> Owner {
        Owner::Name(name.to_string())
    }
}

impl From<String> for Owner {
    fn from(name: String) -> Owner {
        Owner::Name(name)
    }
}

impl From<u32> for Owner {
    fn from(id: u32) -> Owner {
        Owner::Id(id)
    }
}

impl Owner {
    /// The number of the user.
    fn id(&self) -> Result<u32, Error> {
        match self {
            Owner::Name(name) => os::user_of(name).ok_or(Error::OtherFile(FileFault::UnknownUser)),
            Owner::Id(id) => Ok(*id),
        }
    }
}

/// What is known of the true time: it lies from `earliest_ns` to `latest_ns`, both included.
#[derive(Clone, Copy, Debug, PartialEq, Eq)]
pub struct Reading {
    /// The earliest that it may be, in nanoseconds.
    pub earliest_ns: u64,
    /// The latest that it may be, in nanoseconds.
    pub latest_ns: u64,
    /// The daemon's life.
    pub epoch: u64,
    /// The number of the publication that was read, in that life.
    pub number: u64,
    /// False where the daemon is late or gone: the interval is right, and widens until the daemon is back.
    pub fresh: bool,
}

impl Reading {
    /// Whether time `t_ns` has surely passed.
    pub fn after(&self, t_ns: u64) -> bool {
        t_ns < self.earliest_ns
    }

    /// Whether time `t_ns` has surely not arrived.
    pub fn before(&self, t_ns: u64) -> bool {
        t_ns > self.latest_ns
    }
}

/// A clock that a file may have.
#[derive(Clone, Copy, Debug, PartialEq, Eq, Hash)]
pub enum Clock {
    /// `CLOCK_MONOTONIC`, which a daemon of NTP slews.
    Monotonic = 1,
    /// `CLOCK_MONOTONIC_RAW`, which nobody slews.
    MonotonicRaw = 4,
}

impl Clock {
    /// Its number in Linux.
    pub fn number(self) -> u64 {
        self as u64
    }

    /// The clock of this number.
    pub fn of(number: u64) -> Option<Clock> {
        [Clock::Monotonic, Clock::MonotonicRaw].into_iter().find(|clock| clock.number() == number)
    }
}

/// What the daemon published.
#[derive(Clone, Copy, Debug, PartialEq, Eq)]
pub struct Publication {
    /// Which clock the readings here are of.
    pub clock: Clock,
    /// That clock at the fusion.
    pub clock_ns: u64,
    /// The lower end of the interval that held the true time then.
    pub lo_ns: u64,
    /// Its upper end.
    pub hi_ns: u64,
    /// The last clock reading at which a newer publication is not overdue.
    pub valid_until_ns: u64,
    /// The last clock reading at which it may be used. `u64::MAX`: there is no limit. 0: nothing is published any more.
    pub usable_until_ns: u64,
    /// The daemon's life.
    pub epoch: u64,
    /// The publication's number in that life.
    pub number: u64,
    /// How far the clock may drift, in parts per million.
    pub drift_ppm: u64,
}

impl Publication {
    /// The reading of this publication at a clock reading. Refuses with `ClockBack` and `TooWide`.
    #[inline]
    pub fn read_at(&self, clock_ns: u64) -> Result<Reading, Error> {
        if clock_ns < self.clock_ns || clock_ns > MAX_TIME_NS {
            return Err(Refused::ClockBack.into());
        }
        if clock_ns > self.usable_until_ns {
            return Err(Refused::TooWide.into());
        }
        let elapsed = clock_ns - self.clock_ns;
        let widening = widening(self.drift_ppm, elapsed);
        Ok(Reading {
            earliest_ns: (self.lo_ns + (elapsed - widening)).min(MAX_TIME_NS),
            latest_ns: (self.hi_ns + (elapsed + widening)).min(MAX_TIME_NS),
            epoch: self.epoch,
            number: self.number,
            fresh: clock_ns <= self.valid_until_ns,
        })
    }
}

/// Whether a daemon may have written a slot with these words for this index.
#[inline]
fn is_slot(index: u64, word: &[u64; SLOT_WORDS]) -> bool {
    // The second base, by `CLOCK_MONOTONIC`, is for who cannot read the clock of the file: it has to be one, and is not read.
    let [echo, clock_ns, lo_ns, hi_ns, _, _, _, drift_ppm, _, slewed_ns, slewed_lo_ns, slewed_hi_ns, slewed_drift_ppm, _, _, zero] = *word;
    echo == index
        && zero == 0
        && is_base(clock_ns, lo_ns, hi_ns, drift_ppm)
        && is_base(slewed_ns, slewed_lo_ns, slewed_hi_ns, slewed_drift_ppm)
}

#[inline]
fn is_base(clock_ns: u64, lo_ns: u64, hi_ns: u64, drift_ppm: u64) -> bool {
    clock_ns <= MAX_TIME_NS && lo_ns <= hi_ns && hi_ns <= MAX_TIME_NS && drift_ppm <= MAX_DRIFT_PPM
}

/// What a clock may be wrong by after `elapsed` nanoseconds, up to `MAX_TIME_NS`: rounded up, at most as many. Nothing
/// overflows: below 2^47, some 39 hours, the product with `MAX_DRIFT_PPM` has 64 bits.
#[inline]
#[allow(clippy::manual_div_ceil)] // which multiplies once more
fn widening(drift_ppm: u64, elapsed: u64) -> u64 {
    if elapsed < 1 << 47 {
        (elapsed * drift_ppm + 999_999) / 1_000_000
    } else {
        elapsed / 1_000_000 * drift_ppm + (elapsed % 1_000_000 * drift_ppm + 999_999) / 1_000_000
    }
}

/// A file of a daemon. Any number of threads may use one client.
#[derive(Debug)]
pub struct Client {
    source: Source,
    place: Place,
    max_width_ns: u64,
}

#[derive(Debug)]
enum Source {
    Mapped(Pages),
    /// The file is closed by the last call that reads it.
    Unmapped(Mutex<Arc<Opened>>),
}

/// A file that is open, and its clock.
#[derive(Debug)]
struct Opened {
    file: File,
    clock: Clock,
}

/// Where the file is, and which one is read.
#[derive(Debug)]
struct Place {
    path: PathBuf,
    owner: u32,
    /// The clock reading from which on the path may be looked at again.
    next_look_ns: AtomicU64,
    /// The device and the number of the file. Who looks at the path has it locked.
    read: Mutex<(u64, u64)>,
}

impl Client {
    /// Maps the file at this path, which the user `owner` has to own: a name or a number. Refuses with `NoFile` and `OtherFile`.
    pub fn open(path: impl AsRef<Path>, owner: impl Into<Owner>) -> Result<Client, Error> {
        Client::with(path.as_ref(), owner.into().id()?, |opened| Ok(Source::Mapped(Pages::map(&opened)?)))
    }

    /// Opens it as `open`, and each call reads it.
    pub fn open_unmapped(path: impl AsRef<Path>, owner: impl Into<Owner>) -> Result<Client, Error> {
        Client::with(path.as_ref(), owner.into().id()?, |opened| Ok(Source::Unmapped(Mutex::new(Arc::new(opened)))))
    }

    fn with(path: &Path, owner: u32, source: impl FnOnce(Opened) -> io::Result<Source>) -> Result<Client, Error> {
        let (opened, found) = open_file(path, owner)?;
        let source = source(opened).map_err(Error::NoFile)?;
        // A path that does not begin at the root is one from here, also where the process goes elsewhere.
        let path = env::current_dir().map_or_else(|_| path.to_path_buf(), |here| here.join(path));
        let place = Place { path, owner, next_look_ns: AtomicU64::new(0), read: Mutex::new((found.dev(), found.ino())) };
        Ok(Client { source, place, max_width_ns: u64::MAX })
    }

    /// The same client, where readings that are wider than this are refused with `ReadingTooWide`, and so the timestamps by them; the
    /// machine's own `max_width` need not be set.
    pub fn with_max_width(mut self, max_width_ns: u64) -> Client {
        self.max_width_ns = max_width_ns;
        self
    }

    /// The last publication. Refuses with `Nothing`, `Busy` and `NoSlot`, then with `Nothing` where nothing is published any
    /// more, and with `NoFile` where the file is not mapped and has become shorter.
    #[inline]
    pub fn read(&self) -> Result<Publication, Error> {
        match self.read_once() {
            Err(_) if self.is_renewed() => self.read_once(),
            read => read,
        }
    }

    /// The time now. Refuses as `read`, and with `ClockFailed`, `ClockBack` and `TooWide`, and with `ReadingTooWide` by
    /// [`Client::with_max_width`].
    #[inline]
    pub fn now(&self) -> Result<Reading, Error> {
        match self.now_once() {
            Ok(reading) if reading.fresh && self.is_narrow(&reading) => Ok(reading),
            late => self.now_late(late),
        }
    }

    /// `now` where the file that is open gives a reading that is late or too wide, or none: where another file is at the path, by
    /// that.
    #[cold]
    #[inline(never)]
    fn now_late(&self, late: Result<Reading, Error>) -> Result<Reading, Error> {
        let reading = if self.is_renewed() { self.now_once()? } else { late? };
        if self.is_narrow(&reading) { Ok(reading) } else { Err(Refused::ReadingTooWide.into()) }
    }

    #[inline]
    fn is_narrow(&self, reading: &Reading) -> bool {
        reading.latest_ns - reading.earliest_ns <= self.max_width_ns
    }

    /// The reading by the file that is open, however wide.
    #[inline]
    fn now_once(&self) -> Result<Reading, Error> {
        let published = self.read_once()?;
        // The clock is read after the publication, so it is not below that of the publication.
        published.read_at(os::clock_ns(published.clock).ok_or(Refused::ClockFailed)?)
    }

    /// `read` by the file that is open.
    #[inline]
    fn read_once(&self) -> Result<Publication, Error> {
        for _ in 0..TRIES {
            let (index, word, again, clock) = match &self.source {
                Source::Mapped(pages) => pages.copy(),
                Source::Unmapped(opened) => {
                    let opened = Arc::clone(&lock(opened));
                    copy(&opened).map_err(Error::NoFile)?
                }
            };
            if again != index {
                continue;
            }
            if index == 0 {
                return Err(Refused::Nothing.into());
            }
            if !is_slot(index, &word) {
                return Err(Refused::NoSlot.into());
            }
            let [_, clock_ns, lo_ns, hi_ns, valid_until_ns, epoch, number, drift_ppm, usable_until_ns, ..] = word;
            let published = Publication { clock, clock_ns, lo_ns, hi_ns, valid_until_ns, usable_until_ns, epoch, number, drift_ppm };
            return if usable_until_ns == 0 { Err(Refused::Nothing.into()) } else { Ok(published) };
        }
        Err(Refused::Busy.into())
    }

    /// Looks at the path, unless it was looked at within a second, and takes another file that is there, where it passes the
    /// checks of `open`. Whether it did.
    #[cold]
    #[inline(never)]
    fn is_renewed(&self) -> bool {
        let place = &self.place;
        let (Some(now_ns), Ok(mut read)) = (os::clock_ns(Clock::Monotonic), place.read.try_lock()) else { return false };
        if now_ns < place.next_look_ns.load(Ordering::Relaxed) {
            return false;
        }
        place.next_look_ns.store(now_ns + LOOK_NS, Ordering::Relaxed);
        if fs::symlink_metadata(&place.path).map_or(true, |there| *read == (there.dev(), there.ino())) {
            return false;
        }
        let Ok((opened, found)) = open_file(&place.path, place.owner) else { return false };
        match &self.source {
            Source::Mapped(pages) if !pages.replace(&opened) => return false,
            Source::Mapped(_) => {}
            Source::Unmapped(old) => *lock(old) = Arc::new(opened),
        }
        *read = (found.dev(), found.ino());
        true
    }
}

fn lock<T>(of: &Mutex<T>) -> MutexGuard<'_, T> {
    of.lock().unwrap_or_else(PoisonError::into_inner)
}

/// The index, the slot that is current at it, the index again, and the clock of the file.
type Copied = (u64, [u64; SLOT_WORDS], u64, Clock);

/// The word at which the slot begins that is current at this index.
#[inline]
fn slot_of(index: u64) -> usize {
    // The publication's count is odd where an odd number of the eight bytes of the index are odd: the product has their
    // number, at most 8, in its highest byte.
    let odd_bytes = (index & LOWEST_BITS).wrapping_mul(LOWEST_BITS) >> 56;
    FIRST_SLOT + SLOT_WORDS * (odd_bytes & 1) as usize
}

/// Two pages, of which the lowest bit of the turn says which one is that of the file. The other one is of no file.
#[derive(Debug)]
struct Pages {
    at: *mut u8,
    turn: AtomicUsize,
    /// Whether the clock of the file at each page is the raw one.
    is_raw: [AtomicBool; 2],
}

// SAFETY: the pages stay until this is dropped, and are read by atomic loads alone.
unsafe impl Send for Pages {}
unsafe impl Sync for Pages {}

impl Pages {
    fn map(opened: &Opened) -> io::Result<Pages> {
        let kind = os::MAP_PRIVATE | os::MAP_ANONYMOUS;
        // SAFETY: a new mapping of no file, for reading alone.
        let at = unsafe { os::mmap(ptr::null_mut(), 2 * APART, os::PROT_READ, kind, -1, 0) };
        if at as isize == -1 {
            return Err(io::Error::last_os_error());
        }
        let pages = Pages { at: at.cast(), turn: AtomicUsize::new(0), is_raw: Default::default() };
        pages.put(0, Some(opened))?;
        Ok(pages)
    }

    /// The page of a turn.
    #[inline]
    fn page(&self, turn: usize) -> *mut u8 {
        // SAFETY: both are within the mapping.
        unsafe { self.at.add(turn % 2 * APART) }
    }

    /// Maps a file, or nothing, in place of what is at the page of a turn.
    fn put(&self, turn: usize, opened: Option<&Opened>) -> io::Result<()> {
        let none: RawFd = -1;
        let (kind, file) = opened.map_or((os::MAP_PRIVATE | os::MAP_ANONYMOUS, none), |it| (os::MAP_SHARED, it.file.as_raw_fd()));
        let is_raw = opened.is_some_and(|it| it.clock == Clock::MonotonicRaw);
        self.is_raw[turn % 2].store(is_raw, Ordering::SeqCst);
        // SAFETY: the page is this one's. Who reads there meanwhile loads words of the one or of the other.
        let put = unsafe { os::mmap(self.page(turn).cast(), BYTES, os::PROT_READ, kind | os::MAP_FIXED, file, 0) };
        if put as isize == -1 { Err(io::Error::last_os_error()) } else { Ok(()) }
    }

    /// Has this file read in place of the one before, which is unmapped. One thread at a time. Whether it could be mapped.
    fn replace(&self, opened: &Opened) -> bool {
        let turn = self.turn.load(Ordering::Relaxed);
        let is_mapped = self.put(turn + 1, Some(opened)).is_ok();
        if is_mapped {
            self.turn.store(turn + 1, Ordering::SeqCst);
            fence(Ordering::SeqCst);
            let _ = self.put(turn, None); // who still reads there sees the turn, and reads again
        }
        is_mapped
    }

    /// What is there, with another index again where the file was replaced meanwhile. Nothing is mapped over the page of a turn while
    /// that lasts.
    #[inline]
    fn copy(&self) -> Copied {
        let turn = self.turn.load(Ordering::Acquire);
        let words: *const AtomicU64 = self.page(turn).cast();
        let load = |place: usize| {
            debug_assert!(place < WORDS);
            // SAFETY: the page has that many words.
            unsafe { &*words.add(place) }.load(Ordering::Acquire)
        };
        let index = load(INDEX_WORD);
        let slot = slot_of(index);
        let word = std::array::from_fn(|place| load(slot + place));
        let again = load(INDEX_WORD);
        let clock = if self.is_raw[turn % 2].load(Ordering::Acquire) { Clock::MonotonicRaw } else { Clock::Monotonic };
        (index, word, if self.turn.load(Ordering::Acquire) == turn { again } else { !index }, clock)
    }
}

impl Drop for Pages {
    fn drop(&mut self) {
        // SAFETY: `map` made this mapping, and nothing borrows from it any more.
        unsafe { os::munmap(self.at.cast::<c_void>(), 2 * APART) };
    }
}

/// So many words of a file from this place on, before any that is read later. Fails where the file has not that many.
fn words_at<const COUNT: usize>(file: &File, place: usize) -> io::Result<[u64; COUNT]> {
    let mut bytes = [0; 8 * SLOT_WORDS];
    let bytes = &mut bytes[..8 * COUNT];
    file.read_exact_at(bytes, 8 * place as u64)?;
    fence(Ordering::Acquire);
    Ok(std::array::from_fn(|word| u64::from_le_bytes(std::array::from_fn(|byte| bytes[8 * word + byte]))))
}

fn copy(opened: &Opened) -> io::Result<Copied> {
    let [index] = words_at(&opened.file, INDEX_WORD)?;
    let slot = words_at(&opened.file, slot_of(index))?;
    let [again] = words_at(&opened.file, INDEX_WORD)?;
    Ok((index, slot, again, opened.clock))
}

/// The file at this path, where it is such a file.
fn open_file(path: &Path, owner: u32) -> Result<(Opened, Metadata), Error> {
    let opened = OpenOptions::new().read(true).custom_flags(os::O_NOFOLLOW | os::O_NONBLOCK).open(path);
    let file = opened.map_err(Error::NoFile)?;
    let found = file.metadata().map_err(Error::NoFile)?;
    match clock_of(&file, &found, owner).map_err(Error::NoFile)? {
        Err(fault) => Err(Error::OtherFile(fault)),
        Ok(clock) => Ok((Opened { file, clock }, found)),
    }
}

/// The clock of an open file, or which of the checks it does not pass.
fn clock_of(file: &File, found: &Metadata, owner: u32) -> io::Result<Result<Clock, FileFault>> {
    if !found.is_file() || found.len() != BYTES as u64 {
        return Ok(Err(FileFault::Kind));
    }
    if found.uid() != owner {
        return Ok(Err(FileFault::Owner));
    }
    if found.mode() & 0o022 != 0 {
        return Ok(Err(FileFault::Writable));
    }
    let words: [u64; FIRST_SLOT] = words_at(file, 0)?;
    let head: Vec<u8> = words.iter().flat_map(|word| word.to_le_bytes()).collect();
    let Some(clock) = Clock::of(words[1]).filter(|_| words[0] == HEAD && head[60..] == [0; 4]) else {
        return Ok(Err(FileFault::Format));
    };
    Ok(if is_same_clock(&head[24..60]) { Ok(clock) } else { Err(FileFault::Clock) })
}

/// Whether both clocks are here what they are to the daemon: the same boot, and no time namespace that shifts them.
fn is_same_clock(boot: &[u8]) -> bool {
    let is_same = fs::read("/proc/sys/kernel/random/boot_id").is_ok_and(|here| here.starts_with(boot));
    let is_shifted = match fs::read_to_string("/proc/self/timens_offsets") {
        Ok(text) => !text.lines().next().is_some_and(|line| line.split_whitespace().eq(["monotonic", "0", "0"])),
        // A kernel without time namespaces has no such file.
        Err(error) => error.kind() != io::ErrorKind::NotFound,
    };
    is_same && !is_shifted
}
