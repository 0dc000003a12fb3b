//! What a reading of the shared file takes by the Rust client, for bench/service: `shared PATH` prints the least nanoseconds of 500 batches
//! of 1,000 calls, by the call.
use std::error::Error;
use std::os::unix::fs::MetadataExt;
use std::time::Instant;
use std::{env, fs, hint};

fn main() -> Result<(), Box<dyn Error>> {
    let path = env::args().nth(1).ok_or("no path")?;
    let client = truetime::Client::open(&path, fs::metadata("/proc/self")?.uid())?;
    let mut least = u128::MAX;
    for _ in 0..500 {
        let begun = Instant::now();
        for _ in 0..1000 {
            hint::black_box(client.now()?.earliest_ns);
        }
        least = least.min(begun.elapsed().as_nanos());
    }
    println!("{:.1}", least as f64 / 1000.0);
    Ok(())
}
