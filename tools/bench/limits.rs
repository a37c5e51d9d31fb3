//! What a socket allows, next to a `clearmap serve`: a server that answers each line with a ready
//! text, and the client that asks either.
//!
//!     limits echo REPLY COUNTED
//!     limits ask PORT LINES_A_WRITE WRITES LINES COUNTED
//!
//! REPLY and LINES are files. After each line an image of COUNTED bytes follows. `echo` prints its
//! port, and answers `PIN` with `OK 0`, `QUIT` with `BYE`. `ask` sends `PIN`, and then the lines in
//! turn. A reply to `DUMP` counts its bytes. Printed: requests per second, and the 50th and 99th
//! percentile of a write's latency in microseconds.
mod random;

use random::below;
use std::io::{BufRead, BufReader, Read, Write};
use std::net::{TcpListener, TcpStream};
use std::time::Instant;

const BLOCK: usize = 1 << 16;

/// Answers the lines of one connection. A block of replies is sent before the next read.
fn answer(mut stream: TcpStream, reply: &[u8], counted: usize) -> std::io::Result<()> {
    stream.set_nodelay(true)?;
    let (mut block, mut line, mut replies) = (vec![0; BLOCK], Vec::new(), Vec::new());
    let mut skipped = 0;
    loop {
        let count = stream.read(&mut block)?;
        if count == 0 {
            return Ok(());
        }
        let mut rest = &block[..count];
        while !rest.is_empty() {
            if skipped > 0 {
                let taken = skipped.min(rest.len());
                (skipped, rest) = (skipped - taken, &rest[taken..]);
                if skipped == 0 {
                    replies.extend_from_slice(reply);
                }
                continue;
            }
            let end = rest.iter().position(|byte| *byte == b'\n');
            line.extend_from_slice(&rest[..end.unwrap_or(rest.len())]);
            rest = &rest[end.map_or(rest.len(), |at| at + 1)..];
            if end.is_some() {
                match line.as_slice() {
                    b"QUIT" => return stream.write_all(b"BYE\n"),
                    b"PIN" => replies.extend_from_slice(b"OK 0\n"),
                    _ if counted > 0 => skipped = counted,
                    _ => replies.extend_from_slice(reply),
                }
                line.clear();
            }
        }
        stream.write_all(&replies)?;
        replies.clear();
    }
}

fn echo(reply: Vec<u8>, counted: usize) -> std::io::Result<()> {
    let listener = TcpListener::bind("127.0.0.1:0")?;
    println!("{}", listener.local_addr()?.port());
    for stream in listener.incoming() {
        answer(stream?, &reply, counted)?;
    }
    Ok(())
}

/// Takes one reply: its line, and the bytes that a `DUMP` counts.
fn take(replies: &mut impl BufRead, line: &mut String, dumped: &mut Vec<u8>, dump: bool) {
    line.clear();
    assert!(replies.read_line(line).expect("a reply") > 0, "the server ended");
    assert!(line.starts_with("OK ") || line == "NONE\n", "a reply: {line}");
    if dump {
        dumped.resize(line[3..].trim().parse().expect("a count"), 0);
        replies.read_exact(dumped).expect("the bytes");
    }
}

fn ask(port: u16, depth: usize, writes: usize, lines: &str, counted: usize) {
    let mut stream = TcpStream::connect(("127.0.0.1", port)).expect("a server");
    stream.set_nodelay(true).expect("a socket");
    let mut replies = BufReader::with_capacity(BLOCK, stream.try_clone().expect("a socket"));
    let (mut line, mut dumped) = (String::new(), Vec::new());
    stream.write_all(b"PIN\n").expect("a pin");
    take(&mut replies, &mut line, &mut dumped, false);
    let (lines, images) = (lines.lines().collect::<Vec<_>>(), [image(counted, 1), image(counted, 2)]);
    let mut latencies = Vec::with_capacity(writes);
    let begun = Instant::now();
    for write in 0..writes {
        let mut request = Vec::new();
        for index in write * depth..(write + 1) * depth {
            writeln!(request, "{}", lines[index % lines.len()]).expect("memory");
            request.extend_from_slice(&images[index % 2]);
        }
        let dump = request.starts_with(b"DUMP");
        let sent = Instant::now();
        stream.write_all(&request).expect("a request");
        for _ in 0..depth {
            take(&mut replies, &mut line, &mut dumped, dump);
        }
        latencies.push(sent.elapsed().as_micros());
    }
    let seconds = begun.elapsed().as_secs_f64();
    stream.write_all(b"QUIT\n").expect("an end");
    latencies.sort_unstable();
    let at = |percent: usize| latencies[(latencies.len() - 1) * percent / 100];
    println!("{:.0} {} {}", (writes * depth) as f64 / seconds, at(50), at(99));
}

/// A square PBM image of cells that look drawn, of this many bytes; no bytes for 0.
fn image(counted: usize, seed: u64) -> Vec<u8> {
    let (mut image, mut random) = (Vec::new(), seed);
    for side in (8..=4096).step_by(8) {
        if image.len() < counted {
            image = format!("P4\n{side} {side}\n").into_bytes();
            image.extend((0..side * side / 8).map(|_| below(&mut random, 256) as u8));
        }
    }
    assert!(image.len() == counted, "no image has {counted} bytes");
    image
}

fn main() -> std::io::Result<()> {
    let words: Vec<String> = std::env::args().collect();
    let number = |i: usize| words[i].parse::<usize>().expect("a number");
    if words[1] == "echo" {
        return echo(std::fs::read(&words[2])?, number(3));
    }
    let lines = std::fs::read_to_string(&words[5])?;
    ask(number(2) as u16, number(3), number(4), &lines, number(6));
    Ok(())
}
