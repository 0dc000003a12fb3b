//! Reads a shared file until it is killed: tools/suites/slews.py says which lines it prints.
use std::error::Error;
use std::io::{self, Write};
use std::os::unix::fs::MetadataExt;
use std::time::{Duration, SystemTime, UNIX_EPOCH};
use std::{env, fs, thread};

const AT_ONCE: u32 = 20;

fn true_ns() -> Result<u128, Box<dyn Error>> {
    Ok(SystemTime::now().duration_since(UNIX_EPOCH)?.as_nanos())
}

fn main() -> Result<(), Box<dyn Error>> {
    let path = env::args().nth(1).ok_or("no path")?;
    let client = truetime::Client::open(&path, fs::metadata("/proc/self")?.uid())?;
    let mut out = io::BufWriter::new(io::stdout());
    loop {
        for _ in 0..AT_ONCE {
            let before = true_ns()?;
            let now = client.now();
            let after = true_ns()?;
            match now {
                Ok(now) => writeln!(out, "{before} {after} 0 {} {}", now.earliest_ns, now.latest_ns)?,
                Err(error) => writeln!(out, "{before} {after} {} 0 0", error.number().ok_or(error)?)?,
            }
        }
        out.flush()?;
        thread::sleep(Duration::from_millis(5));
    }
}
