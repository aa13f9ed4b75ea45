//! Sessions that come and go: `soak PATH CLIENTS REQUESTS POOLS SEED`. CLIENTS threads ask until they have sent REQUESTS lines in all. Each opens a session, sends some thousand random requests, sixteen at a time, reads a line for each, and goes; every tenth session goes in the middle of a line, with replies unread.
//! Prints the number of requests, of replies, of sessions, and of sessions that went so.
use std::env::args;
use std::io::{BufRead, BufReader, Write};
use std::os::unix::net::UnixStream;
use std::sync::atomic::{AtomicU64, Ordering};
use std::sync::Arc;
use std::thread;

const BATCH: usize = 16;

struct Random(u64);

impl Random {
    fn below(&mut self, most: u64) -> u64 {
        self.0 ^= self.0 << 13;
        self.0 ^= self.0 >> 7;
        self.0 ^= self.0 << 17;
        self.0 % most
    }
}

#[derive(Default)]
struct Counts {
    requests: AtomicU64,
    replies: AtomicU64,
    sessions: AtomicU64,
    killed: AtomicU64,
}

fn request(random: &mut Random, pools: u64) -> String {
    let feature = random.below(pools);
    match random.below(16) {
        0..=4 => format!("CHECKOUT f{feature} 1.0\n"),
        5..=6 => format!("QUEUE f{feature} 1.0\n"),
        7..=11 => format!("CHECKIN f{feature}\n"),
        12 => format!("BEAT f{feature}\n"),
        13 => format!("LOOK f{feature}\n"),
        14 => format!("GLANCE f{feature}\n"),
        _ => format!("STATUS f{feature}\n"),
    }
}

fn read_lines(lines: &mut BufReader<UnixStream>, line: &mut Vec<u8>, many: usize, counts: &Counts) {
    for _ in 0..many {
        line.clear();
        lines.read_until(b'\n', line).expect("a reply");
        assert!(line.ends_with(b"\n"), "the daemon closed the session");
        counts.replies.fetch_add(1, Ordering::Relaxed);
    }
}

fn session(path: &str, client: usize, random: &mut Random, pools: u64, counts: &Counts) {
    let mut link = UnixStream::connect(path).expect("a daemon");
    let mut lines = BufReader::new(link.try_clone().expect("a link"));
    let mut line = Vec::new();
    let number = counts.sessions.fetch_add(1, Ordering::Relaxed);
    link.write_all(format!("HELLO u{client} h{} d p\n", random.below(4)).as_bytes()).expect("a link");
    read_lines(&mut lines, &mut line, 1, counts);
    for _ in 0..64 {
        let batch: String = (0..BATCH).map(|_| request(random, pools)).collect();
        link.write_all(batch.as_bytes()).expect("a link");
        counts.requests.fetch_add(BATCH as u64, Ordering::Relaxed);
        read_lines(&mut lines, &mut line, BATCH, counts);
    }
    if number % 10 == 0 {
        counts.killed.fetch_add(1, Ordering::Relaxed);
        link.write_all(b"CHECKOUT f0 1.0\nBEAT f").expect("a link");
    } else {
        link.write_all(b"QUIT\n").expect("a link");
        read_lines(&mut lines, &mut line, 1, counts);
    }
}

fn main() {
    let words: Vec<String> = args().skip(1).collect();
    let [path, rest @ ..] = words.as_slice() else { panic!("a path") };
    let numbers: Vec<u64> = rest.iter().map(|word| word.parse().expect("a number")).collect();
    let [clients, requests, pools, seed] = *numbers.as_slice() else { panic!("four numbers") };
    let counts = Arc::new(Counts::default());
    let threads: Vec<_> = (0..clients as usize)
        .map(|client| {
            let (path, counts) = (path.clone(), counts.clone());
            thread::spawn(move || {
                let mut random = Random(seed.wrapping_mul(0x9E37_79B9_7F4A_7C15) ^ (client as u64 + 1));
                while counts.requests.load(Ordering::Relaxed) < requests {
                    session(&path, client, &mut random, pools, &counts);
                }
            })
        })
        .collect();
    for thread in threads {
        thread.join().expect("a client");
    }
    let all = [&counts.requests, &counts.replies, &counts.sessions, &counts.killed].map(|count| count.load(Ordering::Relaxed).to_string());
    println!("{}", all.join(" "));
}
