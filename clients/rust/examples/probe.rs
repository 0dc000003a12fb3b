//! What reader, stamper and sessions answer, for the tests: as ../../c/test/probe.c.
use std::env;
use std::fs;
use std::io::{self, BufWriter, Write};
use std::os::unix::fs::MetadataExt;
use std::sync::atomic::{AtomicBool, Ordering};
use std::sync::{Arc, Barrier, Mutex};
use std::thread;
use std::time::{Duration, Instant};
use truetime::stamper::{Lease, Stamp, MAX_AHEAD_NS};
use truetime::{Client, Clock, Error, PendingTable, Pool, Pooled, Publication, Session, Stamper};

fn answer_vectors() -> io::Result<()> {
    let mut out = BufWriter::new(io::stdout().lock());
    for line in io::stdin().lines() {
        let numbers: Vec<u64> = line?.split(' ').map(|word| word.parse().expect("a number")).collect();
        let [clock_ns, lo_ns, hi_ns, drift_ppm, usable_until_ns, now_ns, valid_until_ns, epoch, number, t_ns] = numbers[..] else {
            panic!("ten numbers")
        };
        let clock = Clock::Monotonic;
        let published = Publication { clock, clock_ns, lo_ns, hi_ns, valid_until_ns, usable_until_ns, epoch, number, drift_ppm };
        let yes_or_no = |answer| if answer { "yes" } else { "no" };
        match published.read_at(now_ns) {
            Ok(reading) => {
                let fresh = if reading.fresh { "fresh" } else { "stale" };
                write!(out, "{} {} {} {} {fresh} ", reading.earliest_ns, reading.latest_ns, reading.epoch, reading.number)?;
                writeln!(out, "{} {}", yes_or_no(reading.after(t_ns)), yes_or_no(reading.before(t_ns)))?
            }
            Err(error) => writeln!(out, "{}", said_of_error(&error))?,
        }
    }
    Ok(())
}

fn user() -> u32 {
    fs::metadata("/proc/self").expect("this process").uid()
}

fn read_file(path: &str) -> Result<Publication, Error> {
    Client::open(path, user())?.read()
}

fn print_publication(read: Result<Publication, Error>) {
    match read {
        Ok(p) => println!(
            "published {} {} {} {} {} {} {} {}",
            p.clock_ns, p.lo_ns, p.hi_ns, p.valid_until_ns, p.usable_until_ns, p.epoch, p.number, p.drift_ppm
        ),
        Err(error) => println!("{}", said_of_error(&error)),
    }
}

/// The reading of a file where the clocks show these, behind the number of the clock that is read.
fn print_at(published: Result<Publication, Error>, [monotonic_ns, raw_ns]: [u64; 2]) {
    let reading_of = |p: Publication| {
        let reading = p.read_at(if p.clock == Clock::MonotonicRaw { raw_ns } else { monotonic_ns })?;
        Ok((p.clock.number(), reading))
    };
    match published.and_then(reading_of) {
        Ok((clock, r)) => {
            let fresh = if r.fresh { "fresh" } else { "stale" };
            println!("{clock} {} {} {} {} {fresh}", r.earliest_ns, r.latest_ns, r.epoch, r.number)
        }
        Err(error) => println!("{}", said_of_error(&error)),
    }
}

fn try_files() -> io::Result<()> {
    let mut client: Option<Client> = None;
    for line in io::stdin().lines() {
        let line = line?;
        if let Some(clocks) = line.strip_prefix("at ") {
            print_at(client.as_ref().expect("a file").read(), numbers_of(clocks));
            continue;
        }
        let opened = match line.split_once(' ') {
            Some(("open", path)) => Client::open_unmapped(path, user()).map(|opened| client = Some(opened)),
            Some((_, path)) => Client::open(path, user()).map(|opened| client = Some(opened)),
            None => Ok(()),
        };
        if opened.is_err() {
            client = None;
        }
        let read = |()| client.as_ref().map_or(Err(Error::NoFile(io::ErrorKind::NotFound.into())), Client::read);
        print_publication(opened.and_then(read));
    }
    Ok(())
}

fn open_session(address: &str) -> Result<Session, Error> {
    let words: Vec<&str> = address.split(' ').collect();
    let [kind, place, milliseconds, max_width @ ..] = &words[..] else { panic!("three words") };
    let timeout = Duration::from_millis(milliseconds.parse().expect("a number"));
    let mut session = match *kind {
        "unix" => Session::connect_unix(place, timeout)?,
        _ => Session::connect_tcp(("127.0.0.1", place.parse().expect("a port")), timeout)?,
    };
    if let [max_width] = max_width {
        session.limit_width(max_width.parse().expect("a number"));
    }
    Ok(session)
}

/// Makes a call, and gives what it gives.
fn call_session(open: &mut Option<Session>, name: &str, rest: &str) -> Result<String, Error> {
    if name == "open" {
        *open = Some(open_session(rest)?);
        return Ok("open".to_string());
    }
    if name == "close" {
        *open = None;
        return Ok("closed".to_string());
    }
    // A session that was dropped cannot be called: the compiler says so.
    let session = open.as_mut().ok_or(Error::Failed(io::ErrorKind::NotConnected.into()))?;
    let number = || rest.parse().expect("a number");
    let yes_or_no = |answer| String::from(if answer { "yes" } else { "no" });
    match name {
        "now" => session.now().map(|now| format!("{} {}", now.earliest_ns, now.latest_ns)),
        "after" => session.after(number()).map(yes_or_no),
        "before" => session.before(number()).map(yes_or_no),
        "begin" => session.begin(number()).map(|stamp| stamp.to_string()),
        "wait" => session.wait().map(|stamp| stamp.to_string()),
        "commit" => session.commit(number()).map(|stamp| stamp.to_string()),
        "lease" => {
            let [lo_ns, hi_ns] = numbers_of(rest);
            session.lease(lo_ns, hi_ns).map(|()| format!("leased {rest}"))
        }
        _ => session.ask(rest),
    }
}

fn try_sessions() -> io::Result<()> {
    let (mut session, mut told) = (None, String::new());
    for line in io::stdin().lines() {
        let line = line?;
        if line == "told" {
            println!("{told}");
            continue;
        }
        let (name, rest) = line.split_once(' ').unwrap_or((&line, ""));
        match call_session(&mut session, name, rest) {
            Ok(said) => println!("{said}"),
            Err(error) => {
                told = error.to_string();
                println!("{}", said_of_error(&error))
            }
        }
    }
    Ok(())
}

/// An error of a session, with what it carries.
fn said_of_error(error: &Error) -> String {
    let how = |error: &io::Error| String::from(if error.kind() == io::ErrorKind::TimedOut { "timed out" } else { "failed" });
    match error {
        Error::Pending(of) => format!("refused {} {} {}", error.number().unwrap_or(0), of.commit, of.stamp_ns),
        Error::Failed(error) => how(error),
        Error::Lost { error, pending, had_lease } => {
            let commit = pending.map(|of| format!(" {} {}", of.commit, of.stamp_ns)).unwrap_or_default();
            how(error) + &commit + if *had_lease { " lease" } else { "" }
        }
        Error::NotReleased | Error::NoSession => "timed out".to_string(),
        Error::NoCommit | Error::BadLine | Error::NotPending => "invalid".to_string(),
        Error::PoolClosed => "failed".to_string(),
        _ => format!("refused {}", error.number().unwrap_or(0)),
    }
}

/// The stamp behind the last one, 0 where none was given, by the reading [_, LATEST].
fn answer_row([last_ns, _, latest_ns, floor_ns, lo_ns, hi_ns]: [u64; 6]) -> Result<String, Error> {
    let free_ns = if last_ns == 0 { 0 } else { last_ns.saturating_add(1) };
    Lease::new(lo_ns, hi_ns)?.stamp_of(free_ns, latest_ns, floor_ns).map(|stamp_ns| format!("stamp {stamp_ns}"))
}

fn said_of(given: Result<Stamp, Error>) -> String {
    match given {
        Ok(Stamp { stamp_ns, reading }) => {
            let fresh = if reading.fresh { "fresh" } else { "stale" };
            format!("stamp {stamp_ns} {} {} {fresh} {}", reading.earliest_ns, reading.latest_ns, reading.epoch)
        }
        Err(error) => said_of_error(&error),
    }
}

/// Stamps of so many threads, which begin together; the lines of each one behind those of the last.
fn stamp_in_threads(stamper: &Stamper, [threads, each, floor_ns]: [u64; 3]) -> String {
    let begin = Barrier::new(threads as usize);
    let stamp_on = || -> Vec<Result<Stamp, Error>> {
        begin.wait();
        (0..each).map(|_| stamper.stamp(floor_ns)).collect()
    };
    let given: Vec<_> = thread::scope(|scope| {
        let running: Vec<_> = (0..threads).map(|_| scope.spawn(stamp_on)).collect();
        running.into_iter().map(|thread| thread.join().expect("a thread")).collect()
    });
    let mut lines = String::new();
    for (number, mine) in given.into_iter().enumerate() {
        lines.extend(mine.into_iter().map(|one| format!("{number} {}\n", said_of(one))));
    }
    lines + "end"
}

fn numbers_of<const COUNT: usize>(line: &str) -> [u64; COUNT] {
    let numbers: Vec<u64> = line.split(' ').map(|word| word.parse().expect("a number")).collect();
    numbers.try_into().expect("so many numbers")
}

fn open_stamper(rest: &str) -> Result<Stamper, Error> {
    let words: Vec<&str> = rest.split(' ').collect();
    let [path, lo_ns, hi_ns, limits @ ..] = &words[..] else { panic!("three words") };
    let [lo_ns, hi_ns] = numbers_of(&format!("{lo_ns} {hi_ns}"));
    let stamper = Stamper::with_lease(Client::open(path, user())?, Lease::new(lo_ns, hi_ns)?);
    if limits.is_empty() {
        return Ok(stamper);
    }
    let [ahead_ns, grid_ns] = numbers_of(&limits.join(" "));
    stamper.limited(ahead_ns, grid_ns)
}

/// Makes a call of a stamper, and gives what it gives.
fn call_stamper(open: &mut Option<Stamper>, name: &str, rest: &str) -> Result<String, Error> {
    if name == "open" {
        *open = Some(open_stamper(rest)?);
        return Ok("open".to_string());
    }
    if name == "row" {
        return answer_row(numbers_of(rest));
    }
    let stamper = open.as_ref().ok_or(Error::NoCommit)?;
    let yes_or_no = |answer| String::from(if answer { "yes" } else { "no" });
    match name {
        "stamp" => {
            let [floor_ns] = numbers_of(rest);
            Ok(said_of(stamper.stamp(floor_ns)))
        }
        "extend" => {
            let [hi_ns] = numbers_of(rest);
            stamper.extend(hi_ns).map(|()| "extended".to_string())
        }
        "above" => {
            let [t_ns] = numbers_of(rest);
            stamper.rise_above(t_ns).map(|()| "risen".to_string())
        }
        "left" => {
            let [stamp_ns] = numbers_of(rest);
            stamper.left(stamp_ns).map(|left| left.as_nanos().to_string())
        }
        "past" => {
            let [stamp_ns] = numbers_of(rest);
            stamper.is_past(stamp_ns).map(yes_or_no)
        }
        "wait" => {
            let [stamp_ns, milliseconds] = numbers_of(rest);
            stamper.wait_past(stamp_ns, Instant::now() + Duration::from_millis(milliseconds)).map(yes_or_no)
        }
        _ => Ok(stamp_in_threads(stamper, numbers_of(rest))),
    }
}

fn try_stampers() -> io::Result<()> {
    let mut stamper = None;
    for line in io::stdin().lines() {
        let line = line?;
        let (name, rest) = line.split_once(' ').unwrap_or((&line, ""));
        match call_stamper(&mut stamper, name, rest) {
            Ok(said) => println!("{said}"),
            Err(error) => println!("{}", said_of_error(&error)),
        }
    }
    Ok(())
}

/// So many commits in each of so many threads; each keeps one session where it is alone.
fn commits(pool: &Pool, [threads, each]: [u64; 2], is_alone: bool) -> String {
    let commit_on = || -> Vec<Result<u64, Error>> {
        if is_alone {
            let mut session = pool.get().expect("a session");
            return (0..each).map(|_| session.commit(0)).collect();
        }
        (0..each).map(|_| pool.commit(0)).collect()
    };
    let given: Vec<_> = thread::scope(|scope| {
        let running: Vec<_> = (0..threads).map(|_| scope.spawn(commit_on)).collect();
        running.into_iter().flat_map(|thread| thread.join().expect("a thread")).collect()
    });
    let mut stamps: Vec<u64> = given.iter().filter_map(|one| one.as_ref().ok().copied()).collect();
    let (all, errors) = (stamps.len(), given.len() - stamps.len());
    stamps.sort_unstable();
    stamps.dedup();
    format!("{all} stamps, {} different, {errors} errors", stamps.len())
}

/// Makes a call of a pool, and gives what it gives.
fn call_pool<'a>(pool: &'a Pool, out: &mut Vec<Pooled<'a>>, name: &str, rest: &str) -> Result<String, Error> {
    match name {
        "commits" | "alone" => return Ok(commits(pool, numbers_of(rest), name == "alone")),
        "hold" => out.push(pool.get()?),
        "begin" => return out.last_mut().ok_or(Error::NoCommit)?.begin(0).map(|stamp| stamp.to_string()),
        "free" => out.clear(),
        _ => pool.close(),
    }
    Ok(match name {
        "hold" => "held",
        "free" => "freed",
        _ => "closed",
    }
    .to_string())
}

fn try_pools() -> io::Result<()> {
    let mut lines = io::stdin().lines();
    let opening = lines.next().expect("a line")?;
    let words: Vec<String> = opening.split(' ').map(String::from).collect();
    let [_, kind, place, size, milliseconds] = &words[..] else { panic!("five words") };
    let timeout = Duration::from_millis(milliseconds.parse().expect("a number"));
    let address = format!("{kind} {place} {milliseconds}");
    let pool = Pool::new(size.parse().expect("a number"), timeout, move || open_session(&address));
    println!("open");
    let mut out = Vec::new();
    for line in lines {
        let line = line?;
        let (name, rest) = line.split_once(' ').unwrap_or((&line, ""));
        match call_pool(&pool, &mut out, name, rest) {
            Ok(said) => println!("{said}"),
            Err(error) => println!("{}", said_of_error(&error)),
        }
    }
    Ok(())
}

/// What is opened many times.
enum Opening {
    Reader(Client),
    Stamper(Stamper),
    Session(Session),
}

/// So many commits in each of so many threads, and a reader that takes snapshots at the watermark beside them: each has to have all
/// that is written up to it in the end.
fn watch_in_threads(table: &PendingTable, [threads, each]: [u64; 2]) -> String {
    let (log, is_over) = (Mutex::new(Vec::new()), AtomicBool::new(false));
    let count = |log: &Vec<u64>, mark: u64| log.iter().filter(|stamp_ns| **stamp_ns <= mark).count();
    let commit_on = || {
        for _ in 0..each {
            let stamp_ns = table.begin(0).expect("a stamp");
            log.lock().expect("no panic").push(stamp_ns);
            table.written(stamp_ns).expect("it is pending");
        }
    };
    let snapshots = thread::scope(|scope| {
        let reader = scope.spawn(|| {
            let mut snapshots = Vec::new();
            while !is_over.load(Ordering::Acquire) {
                let mark = table.watermark().expect("a reading").expect("a time");
                snapshots.push((mark, count(&log.lock().expect("no panic"), mark)));
            }
            snapshots
        });
        let running: Vec<_> = (0..threads).map(|_| scope.spawn(commit_on)).collect();
        running.into_iter().for_each(|thread| thread.join().expect("a thread"));
        is_over.store(true, Ordering::Release);
        reader.join().expect("a thread")
    });
    let mut log = log.into_inner().expect("no panic");
    let torn = snapshots.iter().filter(|(mark, seen)| count(&log, *mark) != *seen).count();
    let all = log.len();
    log.sort_unstable();
    log.dedup();
    let some = if snapshots.is_empty() { "no" } else { "some" };
    format!("{all} stamps, {} different, {some} snapshots, {torn} torn", log.len())
}

fn call_table(table: &PendingTable, name: &str, rest: &str) -> Result<String, Error> {
    let one = || numbers_of::<1>(rest)[0];
    let in_time = |milliseconds| Instant::now() + Duration::from_millis(milliseconds);
    let yes_or_no = |answer| String::from(if answer { "yes" } else { "no" });
    match name {
        "begin" => table.begin(one()).map(|stamp_ns| format!("begun {stamp_ns}")),
        "written" => table.written(one()).map(|()| "ended".to_string()),
        "given_up" => table.give_up(one()).map(|()| "ended".to_string()),
        "watermark" => Ok(table.watermark()?.map_or("none".to_string(), |mark| mark.to_string())),
        "threads" => Ok(watch_in_threads(table, numbers_of(rest))),
        _ => {
            let [t_ns, milliseconds] = numbers_of(rest);
            let deadline = in_time(milliseconds);
            let answer = if name == "release" { table.release(t_ns, deadline) } else { table.make_readable(t_ns, deadline) };
            answer.map(yes_or_no)
        }
    }
}

fn try_tables() -> io::Result<()> {
    let mut table = None;
    for line in io::stdin().lines() {
        let line = line?;
        let (name, rest) = line.split_once(' ').unwrap_or((&line, ""));
        let said = match (&table, name) {
            (_, "open") => Client::open(rest, user()).and_then(|client| {
                table = Some(PendingTable::new(Stamper::new(client).limited(MAX_AHEAD_NS, 1)?));
                Ok("open".to_string())
            }),
            (Some(table), _) => call_table(table, name, rest),
            (None, _) => Err(Error::NotPending),
        };
        println!("{}", said.unwrap_or_else(|error| said_of_error(&error)));
    }
    Ok(())
}

const QUESTIONS: usize = 3;

impl Opening {
    fn new(kind: &str, place: &str, milliseconds: &str) -> Option<Opening> {
        Some(match kind {
            "mapped" => Opening::Reader(Client::open(place, user()).ok()?),
            "unmapped" => Opening::Reader(Client::open_unmapped(place, user()).ok()?),
            "stamper" => Opening::Stamper(Stamper::new(Client::open(place, user()).ok()?)),
            _ => Opening::Session(open_session(&format!("{kind} {place} {milliseconds}")).ok()?),
        })
    }

    /// How many questions it answers.
    fn answers(&mut self) -> usize {
        let mut answers = 0;
        for _ in 0..QUESTIONS {
            answers += usize::from(match self {
                Opening::Reader(client) => client.now().is_ok(),
                Opening::Stamper(stamper) => stamper.stamp(0).is_ok(),
                Opening::Session(session) => session.now().is_ok(),
            });
        }
        answers
    }
}

fn try_openings() -> io::Result<()> {
    let mut opened = Vec::new();
    for line in io::stdin().lines() {
        let line = line?;
        match line.split(' ').collect::<Vec<_>>()[..] {
            ["open", kind, place, number, milliseconds] => {
                let number = number.parse().expect("a number");
                opened = (0..number).filter_map(|_| Opening::new(kind, place, milliseconds)).collect();
                let answers: usize = opened.iter_mut().map(Opening::answers).sum();
                println!("{} opened, {answers} answers", opened.len());
            }
            ["close"] => {
                opened.clear();
                println!("closed");
            }
            _ => println!("rested"),
        }
    }
    Ok(())
}

/// What a thread saw that reads again and again: a bit for each epoch, and how many readings were torn and refused.
fn reread(stamper: &Stamper, is_over: &AtomicBool) -> [u64; 3] {
    let mut seen = [0; 3];
    while !is_over.load(Ordering::Acquire) {
        match stamper.client().now() {
            Ok(now) => {
                seen[0] |= 1 << now.epoch;
                seen[1] += u64::from(now.latest_ns - now.earliest_ns != now.epoch);
            }
            Err(_) => seen[2] += 1,
        }
    }
    seen
}

/// The threads that read, and what ends them.
type Rereading = (Arc<AtomicBool>, Vec<thread::JoinHandle<[u64; 3]>>);

fn end_rereading((is_over, threads): Rereading) -> String {
    is_over.store(true, Ordering::Release);
    let seen: Vec<[u64; 3]> = threads.into_iter().map(|thread| thread.join().expect("a thread")).collect();
    let epochs = seen.iter().fold(0, |all, one| all | one[0]);
    let said: String = (0..64).filter(|epoch| epochs >> epoch & 1 != 0).map(|epoch| format!("{epoch} ")).collect();
    let sum = |of: usize| seen.iter().map(|one| one[of]).sum::<u64>();
    format!("{said}seen, {} torn, {} refused", sum(1), sum(2))
}

fn open_reader(kind: &str, path: &str, max_width: &[&str]) -> Result<Arc<Stamper>, Error> {
    let mut client = if kind == "mapped" { Client::open(path, user())? } else { Client::open_unmapped(path, user())? };
    if let [max_width] = max_width {
        client = client.with_max_width(max_width.parse().expect("a number"));
    }
    Ok(Arc::new(Stamper::new(client)))
}

fn start_rereading(stamper: &Arc<Stamper>, count: &str) -> Rereading {
    let is_over = Arc::new(AtomicBool::new(false));
    let start = |_| {
        let (stamper, is_over) = (stamper.clone(), is_over.clone());
        thread::spawn(move || reread(&stamper, &is_over))
    };
    let threads = (0..count.parse().expect("a number")).map(start).collect();
    (is_over, threads)
}

fn try_renewals() -> io::Result<()> {
    let (mut open, mut running): (Option<Arc<Stamper>>, Option<Rereading>) = (None, None);
    let closed = || Error::NoFile(io::ErrorKind::NotFound.into());
    for line in io::stdin().lines() {
        let line = line?;
        let words: Vec<&str> = line.split(' ').collect();
        let said = match (&words[..], &open) {
            (["open", kind, path, max_width @ ..], _) => open_reader(kind, path, max_width).map(|opened| {
                open = Some(opened);
                "open".to_string()
            }),
            (["now"], stamper) => stamper.as_ref().ok_or_else(closed).and_then(|stamper| stamper.client().now()).map(|now| {
                let fresh = if now.fresh { "fresh" } else { "stale" };
                format!("{} {} {fresh}", now.epoch, now.latest_ns - now.earliest_ns)
            }),
            (["stamp"], Some(stamper)) => stamper.stamp(0).map(|given| given.stamp_ns.to_string()),
            (["threads", count], Some(stamper)) => {
                running = Some(start_rereading(stamper, count));
                Ok("started".to_string())
            }
            (["end"], _) => Ok(end_rereading(running.take().expect("threads"))),
            (["close"], _) => {
                open = None;
                Ok("closed".to_string())
            }
            _ => Ok("rested".to_string()),
        };
        println!("{}", said.unwrap_or_else(|error| said_of_error(&error)));
    }
    Ok(())
}

/// The session of tokio: `tokio session`, and `tokio openings` of sessions.
#[cfg(feature = "tokio")]
mod of_tokio {
    use super::{numbers_of, said_of_error, QUESTIONS};
    use std::io;
    use std::time::Duration;
    use tokio::runtime::{Builder, Runtime};
    use truetime::aio::Session;
    use truetime::Error;

    fn runtime() -> Runtime {
        Builder::new_current_thread().enable_all().build().expect("a runtime")
    }

    async fn open_session(address: &str) -> Result<Session, Error> {
        let words: Vec<&str> = address.split(' ').collect();
        let [kind, place, milliseconds, max_width @ ..] = &words[..] else { panic!("three words") };
        let timeout = Duration::from_millis(milliseconds.parse().expect("a number"));
        let mut session = match *kind {
            "unix" => Session::connect_unix(place, timeout).await?,
            _ => Session::connect_tcp(("127.0.0.1", place.parse().expect("a port")), timeout).await?,
        };
        if let [max_width] = max_width {
            session.limit_width(max_width.parse().expect("a number"));
        }
        Ok(session)
    }

    async fn call_session(open: &mut Option<Session>, name: &str, rest: &str) -> Result<String, Error> {
        if name == "open" {
            *open = Some(open_session(rest).await?);
            return Ok("open".to_string());
        }
        if name == "close" {
            *open = None;
            return Ok("closed".to_string());
        }
        let session = open.as_mut().ok_or(Error::Failed(io::ErrorKind::NotConnected.into()))?;
        let number = || rest.parse().expect("a number");
        let yes_or_no = |answer| String::from(if answer { "yes" } else { "no" });
        match name {
            "now" => session.now().await.map(|now| format!("{} {}", now.earliest_ns, now.latest_ns)),
            "after" => session.after(number()).await.map(yes_or_no),
            "before" => session.before(number()).await.map(yes_or_no),
            "begin" => session.begin(number()).await.map(|stamp| stamp.to_string()),
            "wait" => session.wait().await.map(|stamp| stamp.to_string()),
            "commit" => session.commit(number()).await.map(|stamp| stamp.to_string()),
            "lease" => {
                let [lo_ns, hi_ns] = numbers_of(rest);
                session.lease(lo_ns, hi_ns).await.map(|()| format!("leased {rest}"))
            }
            _ => session.ask(rest).await,
        }
    }

    pub fn try_sessions() -> io::Result<()> {
        let (mut session, mut told, runtime) = (None, String::new(), runtime());
        for line in io::stdin().lines() {
            let line = line?;
            if line == "told" {
                println!("{told}");
                continue;
            }
            let (name, rest) = line.split_once(' ').unwrap_or((&line, ""));
            match runtime.block_on(call_session(&mut session, name, rest)) {
                Ok(said) => println!("{said}"),
                Err(error) => {
                    told = error.to_string();
                    println!("{}", said_of_error(&error))
                }
            }
        }
        Ok(())
    }

    pub fn try_openings() -> io::Result<()> {
        let (mut opened, runtime) = (Vec::new(), runtime());
        for line in io::stdin().lines() {
            let line = line?;
            match line.split(' ').collect::<Vec<_>>()[..] {
                ["open", kind, place, count, milliseconds] => {
                    let mut answers = 0;
                    opened.clear();
                    for _ in 0..count.parse().expect("a number") {
                        let Ok(mut session) = runtime.block_on(open_session(&format!("{kind} {place} {milliseconds}"))) else { continue };
                        answers += (0..QUESTIONS).filter(|_| runtime.block_on(session.now()).is_ok()).count();
                        opened.push(session);
                    }
                    println!("{} opened, {answers} answers", opened.len());
                }
                ["close"] => {
                    opened.clear();
                    println!("closed");
                }
                _ => println!("rested"),
            }
        }
        Ok(())
    }
}

fn main() -> io::Result<()> {
    let words: Vec<String> = env::args().skip(1).collect();
    match words.iter().map(String::as_str).collect::<Vec<_>>()[..] {
        ["vectors"] => answer_vectors(),
        ["open", path] => {
            print_publication(read_file(path));
            Ok(())
        }
        ["files"] => try_files(),
        ["session"] => try_sessions(),
        ["stamper"] => try_stampers(),
        ["pending"] => try_tables(),
        ["pool"] => try_pools(),
        ["openings"] => try_openings(),
        ["renewals"] => try_renewals(),
        #[cfg(feature = "tokio")]
        ["tokio", "session"] => of_tokio::try_sessions(),
        #[cfg(feature = "tokio")]
        ["tokio", "openings"] => of_tokio::try_openings(),
        _ => panic!("usage: probe vectors | open PATH | files | session | stamper | pending | pool | openings | renewals"),
    }
}
