//! Planners of a `clearmap serve` that pin, ask and unpin in turn over loopback, next to one that
//! paints and publishes.
//!
//!     cycles PORT SIDE PLANNERS SECONDS BATCH
//!
//! Each planner is a thread with a connection: `PIN`, `AT euclid2` of a random cell, `UNPIN`. With
//! a BATCH of 0 each line is sent after the reply before, otherwise the lines of BATCH cycles are
//! sent in one write, and then their replies are read. The publisher paints or clears a cell,
//! publishes and collects every millisecond; where old pins leave no slot the publish is refused.
//! Printed: the cycles per second of all planners, the 50th and 99th percentile of a cycle or a
//! batch in microseconds, and how many versions were published.
mod random;

use random::below;
use std::io::{BufRead, BufReader, Write};
use std::net::TcpStream;
use std::time::{Duration, Instant};

/// A connection that asks a line and waits for its reply.
struct Client {
    stream: TcpStream,
    replies: BufReader<TcpStream>,
    line: String,
}

impl Client {
    fn new(port: u16) -> Client {
        let stream = TcpStream::connect(("127.0.0.1", port)).expect("a server");
        stream.set_nodelay(true).expect("a socket");
        let replies = BufReader::new(stream.try_clone().expect("a socket"));
        Client { stream, replies, line: String::new() }
    }

    fn send(&mut self, request: &str) {
        self.stream.write_all(request.as_bytes()).expect("a request");
    }

    fn reply(&mut self) -> &str {
        self.line.clear();
        assert!(self.replies.read_line(&mut self.line).expect("a reply") > 0, "the server ended");
        &self.line
    }

    fn good_reply(&mut self) -> &str {
        let reply = self.reply();
        assert!(reply.starts_with("OK "), "{reply}");
        reply
    }

    fn ask(&mut self, request: &str) -> &str {
        self.send(request);
        self.reply()
    }

    fn ask_well(&mut self, request: &str) -> &str {
        self.send(request);
        self.good_reply()
    }
}

/// A planner: its connection, the cells that it asks, and the newest version that it has pinned.
/// The versions that it pins never decrease.
struct Planner {
    client: Client,
    side: usize,
    random: u64,
    newest: u64,
}

impl Planner {
    fn new(port: u16, side: u64, seed: u64) -> Planner {
        Planner { client: Client::new(port), side: side as usize, random: seed.wrapping_mul(0x9E37_79B9_7F4A_7C15) | 1, newest: 0 }
    }

    fn at_line(&mut self) -> String {
        format!("AT euclid2 {} {}\n", below(&mut self.random, self.side), below(&mut self.random, self.side))
    }

    fn see(&mut self, pinned: &str) {
        let version: u64 = pinned[3..].trim().parse().expect("a version");
        assert!(self.newest <= version, "version {version} after {}", self.newest);
        self.newest = version;
    }

    fn cycle(&mut self) {
        let pinned = self.client.ask_well("PIN\n").to_string();
        self.see(&pinned);
        let line = self.at_line();
        self.client.ask_well(&line);
        self.client.ask_well("UNPIN\n");
    }

    fn cycles_at_once(&mut self, batch: u64) {
        let lines: String = (0..batch).map(|_| format!("PIN\n{}UNPIN\n", self.at_line())).collect();
        self.client.send(&lines);
        for _ in 0..batch {
            let pinned = self.client.good_reply().to_string();
            self.see(&pinned);
            self.client.good_reply();
            self.client.good_reply();
        }
    }

    /// The time of each cycle, or of each batch, in microseconds.
    fn plan(mut self, end: Instant, batch: u64) -> Vec<u128> {
        let mut times = Vec::new();
        while Instant::now() < end {
            let begun = Instant::now();
            match batch {
                0 => self.cycle(),
                _ => self.cycles_at_once(batch),
            }
            times.push(begun.elapsed().as_micros());
        }
        let _ = self.client.stream.write_all(b"QUIT\n");
        times
    }
}

/// Paints or clears a cell, publishes and collects, and returns how many versions that were.
fn publish(port: u16, side: u64, end: Instant) -> u64 {
    let mut client = Client::new(port);
    let mut published = 0;
    while Instant::now() < end {
        let (verb, x) = (["PAINT", "CLEAR"][published as usize % 2], published / 2 % side);
        client.ask_well(&format!("{verb} {x} 0 {} 1\n", x + 1));
        published += u64::from(client.ask("PUBLISH\n").starts_with("OK "));
        client.ask_well("COLLECT\n");
        std::thread::sleep(Duration::from_millis(1));
    }
    let _ = client.stream.write_all(b"QUIT\n");
    published
}

fn main() {
    let words: Vec<u64> = std::env::args().skip(1).map(|word| word.parse().expect("a number")).collect();
    let (port, side, planners, seconds, batch) = (words[0] as u16, words[1], words[2], words[3], words[4]);
    let end = Instant::now() + Duration::from_secs(seconds);
    let publisher = std::thread::spawn(move || publish(port, side, end));
    let threads: Vec<_> = (0..planners).map(|seed| std::thread::spawn(move || Planner::new(port, side, seed + 1).plan(end, batch))).collect();
    let mut all: Vec<u128> = threads.into_iter().flat_map(|thread| thread.join().expect("a planner")).collect();
    all.sort_unstable();
    let at = |percent: usize| all[(all.len() - 1) * percent / 100];
    println!("{} {} {} {}", all.len() as u64 * batch.max(1) / seconds, at(50), at(99), publisher.join().expect("the publisher"));
}
