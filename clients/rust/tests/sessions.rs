//! Files, sessions and pools as a program has them, over the public items alone.
use std::error::Error as _;
use std::fs;
use std::io::{self, BufRead, BufReader, ErrorKind, Write};
use std::net::{SocketAddr, TcpListener, TcpStream};
use std::os::unix::fs::{MetadataExt, PermissionsExt};
use std::os::unix::net::{UnixListener, UnixStream};
use std::path::PathBuf;
use std::sync::{Arc, Barrier, Mutex};
use std::thread;
use std::time::{Duration, Instant};
use truetime::session::{Event, LONG_WAIT};
use truetime::{Client, Clock, Error, FileFault, Pool, Refused, Session};

const TIMEOUT: Duration = Duration::from_secs(10);

/// A folder that is removed in the end.
struct Room(PathBuf);

impl Room {
    fn new(name: &str) -> Room {
        let folder = std::env::temp_dir().join(format!("truetime-{name}-{}", std::process::id()));
        fs::create_dir_all(&folder).expect("a folder");
        Room(folder)
    }

    fn path(&self, name: &str) -> PathBuf {
        self.0.join(name)
    }

    /// A file in which nothing was published so far.
    fn file(&self) -> Vec<u8> {
        let mut bytes = b"TTS3\x40\x01\0\0\x04\0\0\0\0\0\0\0".to_vec();
        bytes.resize(24, 0);
        bytes.extend(&fs::read("/proc/sys/kernel/random/boot_id").expect("a boot")[..36]);
        bytes.resize(320, 0);
        bytes
    }

    /// A file by this clock, with one publication. Its words behind the index.
    fn published(&self, clock: Clock, words: [u64; 15]) -> Vec<u8> {
        let mut bytes = self.file();
        bytes[8] = clock.number() as u8;
        bytes[16] = 1;
        bytes[192] = 1;
        for (place, word) in words.into_iter().enumerate() {
            bytes[200 + 8 * place..208 + 8 * place].copy_from_slice(&word.to_le_bytes());
        }
        bytes
    }

    /// Puts a file in place of the one at the path.
    fn put(&self, bytes: &[u8]) {
        fs::write(self.path("new"), bytes).expect("a file");
        fs::set_permissions(self.path("new"), fs::Permissions::from_mode(0o644)).expect("a mode");
        fs::rename(self.path("new"), self.path("time")).expect("it takes the place");
    }

    fn refusal(&self, bytes: &[u8], mode: u32, owner: u32) -> Error {
        let path = self.path("time");
        fs::write(&path, bytes).expect("a file");
        fs::set_permissions(&path, fs::Permissions::from_mode(mode)).expect("a mode");
        let mapped = Client::open(&path, owner).expect_err("it is refused");
        let unmapped = Client::open_unmapped(&path, owner).expect_err("it is refused");
        assert_eq!(mapped.to_string(), unmapped.to_string());
        mapped
    }
}

impl Drop for Room {
    fn drop(&mut self) {
        let _ = fs::remove_dir_all(&self.0);
    }
}

fn fault(error: &Error) -> Option<FileFault> {
    error.source()?.downcast_ref().copied()
}

#[test]
fn causes_of_files() {
    let room = Room::new("causes");
    let me = fs::metadata(&room.0).expect("a folder").uid();
    let good = room.file();
    for (bytes, mode, owner, wanted) in [
        (good[1..].to_vec(), 0o644, me, FileFault::Kind),
        (good.clone(), 0o644, me + 1, FileFault::Owner),
        (good.clone(), 0o664, me, FileFault::Writable),
        ([b"TTS1", &good[4..]].concat(), 0o644, me, FileFault::Format),
        ([b"TTS2", &good[4..]].concat(), 0o644, me, FileFault::Format),
        ([&good[..8], b"\x07", &good[9..]].concat(), 0o644, me, FileFault::Format),
        ([&good[..15], b"\x01", &good[16..]].concat(), 0o644, me, FileFault::Format),
        ([&good[..24], b"x", &good[25..]].concat(), 0o644, me, FileFault::Clock),
    ] {
        let error = room.refusal(&bytes, mode, owner);
        assert_eq!((error.number(), fault(&error)), (Some(1702), Some(wanted)));
        assert!(error.to_string().ends_with(&wanted.to_string()), "{error}");
    }
    let error = Client::open(room.path("none"), me).expect_err("there is no file");
    let cause = error.source().and_then(|cause| cause.downcast_ref::<io::Error>()).map(io::Error::kind);
    assert_eq!((error.number(), cause), (Some(1701), Some(ErrorKind::NotFound)));
}

#[repr(C)]
struct Timespec {
    seconds: i64,
    nanoseconds: i64,
}

extern "C" {
    fn clock_gettime(clock: i32, out: *mut Timespec) -> i32;
}

fn shown_by(clock: Clock) -> u64 {
    let mut now = Timespec { seconds: 0, nanoseconds: 0 };
    // SAFETY: the call writes one timespec.
    assert_eq!(unsafe { clock_gettime(clock.number() as i32, &mut now) }, 0);
    now.seconds as u64 * 1_000_000_000 + now.nanoseconds as u64
}

#[test]
fn the_clock_is_that_of_the_file() {
    const ALWAYS: u64 = u64::MAX;
    let room = Room::new("clocks");
    let me = fs::metadata(&room.0).expect("a folder").uid();
    for is_mapped in [true, false] {
        let open = |path| if is_mapped { Client::open(path, me) } else { Client::open_unmapped(path, me) };
        let mut client = None;
        for (epoch, clock) in (10..).zip([Clock::MonotonicRaw, Clock::Monotonic, Clock::MonotonicRaw, Clock::Monotonic]) {
            // The reading is what the clock shows. By the second base it would be a second or more.
            let first = [0, 0, 0, 0, epoch, 1, 0, ALWAYS];
            let second = [0, 1_000_000_000_000_000, 1_000_000_000_000_000, 0, ALWAYS, ALWAYS, 0];
            room.put(&room.published(clock, [&first[..], &second[..]].concat().try_into().expect("15 words")));
            let client = client.get_or_insert_with(|| open(room.path("time")).expect("a client"));
            if epoch > 10 {
                thread::sleep(Duration::from_millis(1010)); // until it looks at the path again
            }
            let before = shown_by(clock);
            let now = client.now().expect("a reading");
            let after = shown_by(clock);
            assert!((before..=after).contains(&now.earliest_ns), "{now:?} is not from {before} to {after}");
            assert_eq!((now.latest_ns, now.epoch, now.fresh), (now.earliest_ns, epoch, false));
            assert_eq!(client.read().expect("a publication").clock, clock);
        }
    }
}

#[test]
fn what_no_daemon_writes() {
    const MAX: u64 = truetime::MAX_TIME_NS;
    let room = Room::new("slots");
    let me = fs::metadata(&room.0).expect("a folder").uid();
    let good = [1000, 5, 15, 6000, 7, 1, 200, 7000, 500_000, 7000, 8000, 1400, 600_000, 700_000, 0];
    let changed = |place, word| {
        let mut words: [u64; 15] = good;
        words[place] = word;
        room.put(&room.published(Clock::MonotonicRaw, words));
        let read = Client::open(room.path("time"), me).expect("a client").read();
        assert_eq!(Client::open_unmapped(room.path("time"), me).expect("a client").read().ok(), read.as_ref().ok().copied());
        read.map_err(|error| error.refused().expect("a refusal"))
    };
    for (place, word) in [(8, MAX), (10, MAX), (11, 100_000), (12, 0), (12, u64::MAX), (13, 0), (13, u64::MAX)] {
        let read = changed(place, word).expect("a publication");
        assert_eq!((read.clock, read.clock_ns, read.lo_ns, read.hi_ns, read.drift_ppm), (Clock::MonotonicRaw, 1000, 5, 15, 200));
        assert_eq!((read.valid_until_ns, read.usable_until_ns, read.epoch, read.number), (6000, 7000, 7, 1));
    }
    for (place, word) in [(0, MAX + 1), (1, 16), (2, MAX + 1), (6, 100_001), (8, MAX + 1), (9, 8001), (10, MAX + 1), (11, 100_001), (14, 1)] {
        assert_eq!(changed(place, word), Err(Refused::NoSlot), "{place} {word}");
    }
    assert_eq!(changed(7, 0), Err(Refused::Nothing));
}

#[test]
fn owners_by_name() {
    let room = Room::new("owners");
    fs::write(room.path("time"), room.file()).expect("a file");
    fs::set_permissions(room.path("time"), fs::Permissions::from_mode(0o644)).expect("a mode");
    let me = fs::metadata(&room.0).expect("a folder").uid();
    let users = fs::read_to_string("/etc/passwd").expect("the users");
    let name = users.lines().find_map(|line| {
        let words: Vec<_> = line.split(':').collect();
        (words.get(2)?.parse() == Ok(me)).then(|| words[0].to_string())
    });
    if let Some(name) = name {
        let client = Client::open(room.path("time"), name).expect("it is mine");
        assert_eq!(client.now().expect_err("nothing is published").refused(), Some(Refused::Nothing));
    }
    let error = Client::open(room.path("time"), "no-such-user").expect_err("there is no such user");
    assert_eq!(fault(&error), Some(FileFault::UnknownUser));
}

/// Serves sessions, each by this: it gets a line, and gives its reply, or ends the session. The address.
fn serve(reply: impl Fn(&str) -> Option<String> + Send + Sync + 'static) -> SocketAddr {
    let listener = TcpListener::bind("127.0.0.1:0").expect("a port");
    let address = listener.local_addr().expect("an address");
    let reply = Arc::new(reply);
    thread::spawn(move || {
        for stream in listener.incoming().map_while(Result::ok) {
            let reply = reply.clone();
            thread::spawn(move || play(stream, &*reply));
        }
    });
    address
}

fn play(mut stream: TcpStream, reply: &dyn Fn(&str) -> Option<String>) -> Option<()> {
    let lines = BufReader::new(stream.try_clone().ok()?).lines();
    for line in lines.map_while(Result::ok) {
        writeln!(stream, "{}", reply(&line)?).ok()?;
    }
    Some(())
}

/// A commit is released `after` it was begun; `now` ends the session.
fn released(after: Duration) -> impl Fn(&str) -> Option<String> {
    let began = Mutex::new((String::new(), Instant::now()));
    move |line| {
        let number = match line.split(' ').collect::<Vec<_>>()[..] {
            ["commit", number, _] => number,
            ["before", _] => return Some("refused 801".to_string()),
            _ => return None,
        };
        let mut last = began.lock().expect("no panic");
        if last.0 != number {
            *last = (number.to_string(), Instant::now());
            return Some(format!("waiting {number} 200"));
        }
        Some(format!("{} {number} 200", if last.1.elapsed() < after { "waiting" } else { "committed" }))
    }
}

#[test]
fn an_observer_is_told() {
    let address = serve(released(LONG_WAIT + LONG_WAIT / 2));
    let told = Arc::new(Mutex::new(Vec::new()));
    let mut session = Session::connect_tcp(("localhost", address.port()), TIMEOUT).expect("a session");
    let kept = told.clone();
    session.observe(move |event| {
        kept.lock().expect("no panic").push(match event {
            Event::ConnectedAnew => "anew".to_string(),
            Event::ConnectionFailed(error) => format!("{:?}", error.kind()),
            Event::Refused(refused) => refused.number().to_string(),
            Event::LongWait { stamp_ns } => format!("long {stamp_ns}"),
            _ => "another".to_string(),
        })
    });
    assert_eq!(session.before(1).expect_err("it refuses").number(), Some(801));
    assert!(matches!(session.now(), Err(Error::Failed(_))));
    assert_eq!(session.commit(0).expect("a timestamp"), 200);
    assert_eq!(*told.lock().expect("no panic"), ["801", "UnexpectedEof", "anew", "long 200"]);
}

#[test]
fn the_longest_time_out() {
    let address = serve(released(Duration::ZERO));
    let pool = Pool::new(1, Duration::MAX, move || Session::connect_tcp(address, Duration::MAX));
    thread::scope(|scope| {
        let held = pool.get().expect("a session");
        scope.spawn(|| assert_eq!(pool.commit(0).expect("a timestamp"), 200));
        thread::sleep(Duration::from_millis(50));
        drop(held);
    });
    let room = Room::new("longest");
    let listener = UnixListener::bind(room.path("socket")).expect("a socket");
    let mut session = Session::connect_unix(room.path("socket"), Duration::MAX).expect("a session");
    let (mut other, _) = listener.accept().expect("a session");
    thread::spawn(move || {
        let mut line = String::new();
        BufReader::new(other.try_clone().expect("a stream")).read_line(&mut line).expect("a line");
        writeln!(other, "yes").expect("it is sent");
    });
    assert!(session.after(5).expect("a reply"));
}

#[test]
fn a_pool_that_cannot_open() {
    let pool = Pool::new(1, TIMEOUT, || Err(Error::Failed(ErrorKind::ConnectionRefused.into())));
    for _ in 0..3 {
        assert!(matches!(pool.commit(0), Err(Error::Failed(_))));
    }
    pool.close();
    assert!(matches!(pool.commit(0), Err(Error::PoolClosed)));
}

#[test]
fn a_pool_that_is_closed_wakes_who_waits() {
    let address = serve(released(Duration::ZERO));
    let pool = Pool::new(1, TIMEOUT, move || Session::connect_tcp(address, TIMEOUT));
    let _held = pool.get().expect("a session");
    let (began, comes) = (Instant::now(), Barrier::new(2));
    thread::scope(|scope| {
        let waiting = scope.spawn(|| {
            comes.wait();
            pool.commit(0)
        });
        comes.wait();
        thread::sleep(Duration::from_millis(300));
        pool.close();
        assert!(matches!(waiting.join().expect("no panic"), Err(Error::PoolClosed)));
    });
    assert!(began.elapsed() < TIMEOUT / 2, "{:?}", began.elapsed());
}

#[test]
fn a_panic_gives_the_session_back() {
    let address = serve(released(Duration::ZERO));
    let pool = Pool::new(1, Duration::from_millis(100), move || Session::connect_tcp(address, TIMEOUT));
    let panicked = thread::scope(|scope| {
        let user = scope.spawn(|| {
            let _session = pool.get().expect("a session");
            panic!("in the midst");
        });
        user.join().is_err()
    });
    assert!(panicked);
    assert_eq!(pool.commit(0).expect("a timestamp"), 200);
    let _held = pool.get().expect("a session");
    assert!(matches!(pool.commit(0), Err(Error::NoSession)));
}

#[test]
fn connecting_to_a_full_unix_socket_ends_in_time() {
    let room = Room::new("full");
    let listener = UnixListener::bind(room.path("socket")).expect("a socket");
    // As many as wait there, until another one would have to wait for a place.
    let others: Arc<Mutex<Vec<UnixStream>>> = Arc::default();
    let (path, waiting) = (room.path("socket"), others.clone());
    thread::spawn(move || {
        while let Ok(other) = UnixStream::connect(&path) {
            waiting.lock().expect("no panic").push(other);
        }
    });
    let count = || others.lock().expect("no panic").len();
    let mut before = usize::MAX;
    while count() != before || before == 0 {
        before = count();
        thread::sleep(Duration::from_millis(500));
    }
    let began = Instant::now();
    let error = Session::connect_unix(room.path("socket"), Duration::from_millis(300)).expect_err("nobody is let in");
    assert!(matches!(&error, Error::Failed(error) if error.kind() == ErrorKind::TimedOut), "{error:?}");
    assert!((Duration::from_millis(290)..TIMEOUT).contains(&began.elapsed()), "{:?}", began.elapsed());
    drop(listener);
    let error = Session::connect_unix(room.path("none"), TIMEOUT).expect_err("nobody is there");
    assert!(matches!(&error, Error::Failed(error) if error.kind() == ErrorKind::NotFound), "{error:?}");
    let error = Session::connect_unix("x".repeat(108), TIMEOUT).expect_err("it is too long");
    assert!(matches!(&error, Error::Failed(error) if error.kind() == ErrorKind::InvalidInput), "{error:?}");
}
