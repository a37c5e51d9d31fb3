//! Asks `AT` of a `clearmap serve`, or `GET` of a Redis server, over loopback, and measures the
//! replies.
//!
//!     load PORT CONNECTIONS LINES_A_WRITE REQUESTS_A_CONNECTION TABLE|get
//!
//! TABLE is what `clearmap dist --nearest` writes of the served map: each reply is compared with
//! it. A connection is a thread. Printed: requests per second of all connections, the 50th and 99th
//! percentile of a write's latency in microseconds, how many replies came, and how many of them
//! were wrong.
mod random;

use random::below;
use std::io::{BufRead, BufReader, Write};
use std::net::TcpStream;
use std::sync::{Arc, Barrier};
use std::time::Instant;

/// What is asked, and what each cell has to be answered; no rows for `GET`.
struct Kind {
    rows: Vec<Vec<String>>,
}

impl Kind {
    fn of(name: &str) -> Kind {
        let rows = match name {
            "get" => Vec::new(),
            path => std::fs::read_to_string(path)
                .expect("the table")
                .lines()
                .map(|row| row.split(' ').map(reply_of).collect())
                .collect(),
        };
        Kind { rows }
    }

    /// Adds one request, and returns its reply's lines.
    fn ask(&self, random: &mut u64, request: &mut Vec<u8>) -> Vec<String> {
        if self.rows.is_empty() {
            request.extend_from_slice(b"GET k\r\n");
            return vec!["$8\r\n".into(), "12345678\r\n".into()];
        }
        let y = below(random, self.rows.len());
        let x = below(random, self.rows[y].len());
        writeln!(request, "AT euclid2 {x} {y}").expect("memory");
        vec![self.rows[y][x].clone()]
    }
}

/// The reply to a cell whose entry in the table is this.
fn reply_of(entry: &str) -> String {
    match entry {
        "-" => "NONE\n".into(),
        some => format!("OK {}\n", some.replace('/', " ")),
    }
}

/// What one connection saw: the latency of each write, its replies, and how many were wrong.
struct Seen {
    latencies: Vec<u128>,
    replies: usize,
    wrong: usize,
}

fn connection(port: u16, depth: usize, requests: usize, kind: &Kind, seed: u64, start: &Barrier) -> Seen {
    let stream = TcpStream::connect(("127.0.0.1", port)).expect("a server");
    stream.set_nodelay(true).expect("a socket");
    let mut replies = BufReader::with_capacity(1 << 16, stream.try_clone().expect("a socket"));
    let mut stream = stream;
    let mut line = String::new();
    if !kind.rows.is_empty() {
        stream.write_all(b"PIN\n").expect("a pin");
        replies.read_line(&mut line).expect("a pin");
        assert!(line.starts_with("OK "), "a pin: {line}");
    }
    let mut seen = Seen { latencies: Vec::with_capacity(requests / depth + 1), replies: 0, wrong: 0 };
    let mut random = seed.wrapping_mul(0x9E37_79B9_7F4A_7C15) | 1;
    start.wait();
    while seen.replies < requests {
        let mut request = Vec::new();
        let wanted: Vec<Vec<String>> = (0..depth).map(|_| kind.ask(&mut random, &mut request)).collect();
        let begun = Instant::now();
        stream.write_all(&request).expect("a request");
        for lines in &wanted {
            let mut right = true;
            for want in lines {
                line.clear();
                assert!(replies.read_line(&mut line).expect("a reply") > 0, "the server ended");
                right &= line == *want;
            }
            seen.replies += 1;
            seen.wrong += usize::from(!right);
        }
        seen.latencies.push(begun.elapsed().as_micros());
    }
    let _ = stream.write_all(b"QUIT\n");
    seen
}

fn main() {
    // A connection that fails ends the program: the others would wait for it at the barrier.
    std::panic::set_hook(Box::new(|fault| {
        eprintln!("{fault}");
        std::process::exit(1);
    }));
    let words: Vec<String> = std::env::args().collect();
    let number = |i: usize| words[i].parse::<usize>().expect("a number");
    let (port, connections, depth, requests) = (number(1) as u16, number(2), number(3), number(4));
    let kind = Arc::new(Kind::of(&words[5]));
    let start = Arc::new(Barrier::new(connections + 1));
    let threads: Vec<_> = (0..connections)
        .map(|i| {
            let (kind, start) = (kind.clone(), start.clone());
            std::thread::spawn(move || connection(port, depth, requests, &kind, i as u64 + 1, &start))
        })
        .collect();
    start.wait();
    let begun = Instant::now();
    let seen: Vec<Seen> = threads.into_iter().map(|thread| thread.join().expect("a connection")).collect();
    let seconds = begun.elapsed().as_secs_f64();
    let replies: usize = seen.iter().map(|s| s.replies).sum();
    let wrong: usize = seen.iter().map(|s| s.wrong).sum();
    let mut latencies: Vec<u128> = seen.into_iter().flat_map(|s| s.latencies).collect();
    latencies.sort_unstable();
    let at = |percent: usize| latencies[(latencies.len() - 1) * percent / 100];
    println!("{:.0} {} {} {replies} {wrong}", replies as f64 / seconds, at(50), at(99));
}
