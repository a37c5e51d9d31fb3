//! Counts and times what a pin and its unpin do with shared words, and nothing else: two loads of
//! one word that another thread stores every 50 microseconds, and three stores in a line of the
//! cache that each reader has to itself, all of them sequentially consistent.
//!   words READERS SECONDS
//! A line for each reader, as `lmdb_pins` writes it.
use std::sync::atomic::{AtomicBool, AtomicU64, Ordering::SeqCst};
use std::thread;
use std::time::{Duration, Instant};

/// A word with a line of the cache to itself.
#[repr(align(128))]
struct Word(AtomicU64);

static NOW: Word = Word(AtomicU64::new(0));
static COUNTING: AtomicBool = AtomicBool::new(true);
static RUNNING: AtomicBool = AtomicBool::new(true);

/// Stores the next version every 50 microseconds.
fn publish() {
    while RUNNING.load(SeqCst) {
        let next = Instant::now() + Duration::from_micros(50);
        NOW.0.fetch_add(1, SeqCst);
        while Instant::now() < next {}
    }
}

/// Announces, holds what was loaded, and leaves.
fn pin_once(own: &Word, seen: &mut u64) {
    own.0.store(2 * *seen + 1, SeqCst);
    *seen = NOW.0.load(SeqCst);
    own.0.store(2 * *seen + 2, SeqCst);
    *seen = (*seen).max(NOW.0.load(SeqCst));
    own.0.store(0, SeqCst);
}

/// How many pins a reader makes while they are counted, and the nanoseconds of each while they are
/// timed.
fn read(own: &Word) -> (u64, Vec<u32>) {
    let mut seen = 0;
    let mut pins = 0;
    while COUNTING.load(SeqCst) {
        pin_once(own, &mut seen);
        pins += 1;
    }
    let mut nanos = Vec::with_capacity(10_000_000);
    while RUNNING.load(SeqCst) && nanos.len() < nanos.capacity() {
        let start = Instant::now();
        pin_once(own, &mut seen);
        nanos.push(start.elapsed().as_nanos() as u32);
    }
    nanos.sort_unstable();
    (pins, nanos)
}

fn main() {
    let words: Vec<u64> = std::env::args().skip(1).map(|word| word.parse().expect("a number")).collect();
    let [readers, seconds] = words[..] else { panic!("words READERS SECONDS") };
    let own: Vec<Word> = (0..readers).map(|_| Word(AtomicU64::new(0))).collect();
    thread::scope(|scope| {
        scope.spawn(publish);
        let each: Vec<_> = own.iter().map(|own| scope.spawn(move || read(own))).collect();
        thread::sleep(Duration::from_secs(seconds));
        COUNTING.store(false, SeqCst);
        thread::sleep(Duration::from_secs(seconds));
        RUNNING.store(false, SeqCst);
        for reader in each {
            let (pins, nanos) = reader.join().expect("a reader");
            let at = |part: f64| nanos.get((part * nanos.len() as f64) as usize).copied().unwrap_or(0);
            println!("{} {} {} {}", pins / seconds, at(0.5), at(0.99), at(0.9999));
        }
    });
}
