//! Times the reader and the writer on a file, as bench/ asks: `bench read|write RUNS FILE`. Prints
//! name, bytes, median seconds, runs and the peak KiB of the process.

use reference::read::{read, read_into};
use reference::tables::*;
use reference::write::write;

fn main() {
    let words: Vec<String> = std::env::args().collect();
    let [_, task, runs, path] = &words[..] else { panic!("bench read|write RUNS FILE") };
    let runs: usize = runs.parse().unwrap();
    let text = std::fs::read(path).unwrap();
    let mut tables = read(&text, &Room::ample()).unwrap();
    let mut codes = tables.lent_codes();
    let seconds = match task.as_str() {
        "read" => median(runs, || fill(&text, &mut tables, &mut codes)),
        _ => median(runs, || drop(write(&tables.lent(&codes), u64::MAX).unwrap())),
    };
    println!("{task} {} {seconds:.9} {runs} {}", text.len(), peak());
}

/// The median of some runs, after one that isn't timed.
fn median(runs: usize, mut run: impl FnMut()) -> f64 {
    run();
    let mut once = || {
        let start = now();
        run();
        now() - start
    };
    let mut seconds: Vec<f64> = (0..runs).map(|_| once()).collect();
    seconds.sort_by(f64::total_cmp);
    seconds[runs / 2]
}

#[repr(C)]
struct Timespec {
    seconds: i64,
    nanoseconds: i64,
}

extern "C" {
    fn clock_gettime(clock: i32, time: *mut Timespec) -> i32;
}

/// Processor time of this process, in seconds, as bench/bench.h takes it.
fn now() -> f64 {
    const PROCESS: i32 = 2;
    let mut time = Timespec { seconds: 0, nanoseconds: 0 };
    let failed = unsafe { clock_gettime(PROCESS, &mut time) };
    assert_eq!(failed, 0);
    time.seconds as f64 + 1e-9 * time.nanoseconds as f64
}

fn fill(text: &[u8], tables: &mut Tables, codes: &mut [u32]) {
    read_into(text, tables.lend(codes)).unwrap();
}

/// The most memory that this process has had, in KiB.
fn peak() -> u64 {
    let status = std::fs::read_to_string("/proc/self/status").unwrap_or_default();
    let line = status.lines().find_map(|line| line.strip_prefix("VmHWM:")).unwrap_or("0");
    line.split_whitespace().next().unwrap_or("0").parse().unwrap_or(0)
}
