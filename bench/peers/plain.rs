//! A small licence daemon in plain Rust, for what a daemon of this shape can do beside a bare echo: `plain PATH POOLS [OPTIONS]`. A thread for each connection, whose reads wait a second, and for each of POOLS features of 300 licences a mutex round a hash map of its holders, the order in which they were heard, its free seats and the first 4,096 entries, and beside it the numbers that others may look at.
//! It answers HELLO, and CHECKOUT, CHECKIN and GLANCE of a feature that is there, in the daemon's words, under the EXCLUDE and INCLUDE lines of OPTIONS that name a user, and WRONG to all else; a holder that isn't heard for two hours loses its seat. It has no groups, other lines, expiry, lingering seats or queue. Prints nothing, and runs until it is killed.
#![allow(dead_code)] // What a holder and an entry keep, a whole daemon would print.
use std::collections::{BTreeSet, HashMap, HashSet};
use std::env::args;
use std::fs;
use std::io::{self, BufRead, BufReader, ErrorKind, Write};
use std::os::unix::net::{UnixListener, UnixStream};
use std::sync::atomic::{AtomicU64, Ordering};
use std::sync::{Arc, Mutex};
use std::thread;
use std::time::{Duration, SystemTime, UNIX_EPOCH};

const SEATS: u32 = 300;
const ENTRIES: usize = 4096;
const TIMEOUT: u64 = 7200;

/// User, host, display and project.
type Client = [String; 4];

struct Holder {
    client: Client,
    seat: u32,
    beat: u64,
}

struct Entry {
    party: usize,
    client: Client,
    moment: u64,
    reply: String,
}

struct Book {
    holders: HashMap<usize, Holder>,
    /// When each holder was heard last, and its party.
    beats: BTreeSet<(u64, usize)>,
    free: Vec<u32>,
    log: Vec<Entry>,
    calls: u64,
    now: u64,
}

/// What the lines of a feature say of users: the number of the line that excludes one, and, where there is an INCLUDE line, the number of the first and who is included.
#[derive(Default)]
struct Rules {
    excluded: HashMap<String, u32>,
    included: Option<(u32, HashSet<String>)>,
}

/// How many entries there were, and how many seats are held then. Odd while they are written.
#[derive(Default)]
struct Numbers {
    version: AtomicU64,
    entries: AtomicU64,
    held: AtomicU64,
}

struct Pool {
    version: f64,
    rules: Rules,
    numbers: Numbers,
    book: Mutex<Book>,
}

type Pools = HashMap<String, Pool>;

impl Book {
    fn new() -> Book {
        Book { holders: HashMap::new(), beats: BTreeSet::new(), free: (0..SEATS).rev().collect(), log: Vec::new(), calls: 0, now: 0 }
    }

    /// Takes the seats of those who weren't heard in time.
    fn settle(&mut self) {
        while let Some(&(beat, party)) = self.beats.first() {
            if self.now < beat + TIMEOUT {
                break;
            }
            self.beats.pop_first();
            if let Some(holder) = self.holders.remove(&party) {
                self.free.push(holder.seat);
            }
        }
    }

    fn check_out(&mut self, party: usize, client: &Client, rules: &Rules) -> String {
        if let Some(line) = rules.denies(&client[0]) {
            return format!("DENIED LINE {line}");
        }
        if let Some(holder) = self.holders.get_mut(&party) {
            self.beats.remove(&(holder.beat, party));
            self.beats.insert((self.now, party));
            holder.beat = self.now;
            return "ALREADYHELD".to_string();
        }
        let Some(seat) = self.free.pop() else { return format!("NOSEAT TAKEN {SEATS} OF {SEATS}") };
        self.holders.insert(party, Holder { client: client.clone(), seat, beat: self.now });
        self.beats.insert((self.now, party));
        format!("GRANTED SEAT {seat} OPEN")
    }

    fn check_in(&mut self, party: usize) -> String {
        let Some(holder) = self.holders.remove(&party) else { return "NOTHELD".to_string() };
        self.beats.remove(&(holder.beat, party));
        self.free.push(holder.seat);
        "RETURNED".to_string()
    }
}

impl Rules {
    /// The line that denies a user.
    fn denies(&self, user: &str) -> Option<u32> {
        if let Some(line) = self.excluded.get(user) {
            return Some(*line);
        }
        self.included.as_ref().filter(|(_, users)| !users.contains(user)).map(|(line, _)| *line)
    }
}

impl Numbers {
    fn publish(&self, entries: u64, held: u64) {
        self.version.fetch_add(1, Ordering::SeqCst);
        self.entries.store(entries, Ordering::SeqCst);
        self.held.store(held, Ordering::SeqCst);
        self.version.fetch_add(1, Ordering::SeqCst);
    }

    fn glance(&self) -> (u64, u64) {
        loop {
            let before = self.version.load(Ordering::SeqCst);
            let numbers = (self.entries.load(Ordering::SeqCst), self.held.load(Ordering::SeqCst));
            if before % 2 == 0 && self.version.load(Ordering::SeqCst) == before {
                return numbers;
            }
        }
    }
}

impl Pool {
    fn new(rules: Rules) -> Pool {
        Pool { version: 1.0, rules, numbers: Numbers::default(), book: Mutex::new(Book::new()) }
    }

    /// Makes an entry of what `step` answers, and gives the reply line.
    fn enter(&self, party: usize, client: &Client, step: impl FnOnce(&mut Book) -> String) -> String {
        let moment = SystemTime::now().duration_since(UNIX_EPOCH).map_or(0, |since| since.as_secs());
        let mut book = self.book.lock().expect("a whole book");
        book.now = book.now.max(moment);
        book.settle();
        let mut reply = step(&mut book);
        if book.log.len() < ENTRIES {
            let entry = Entry { party, client: client.clone(), moment: book.now, reply: reply.clone() };
            book.log.push(entry);
        }
        let number = book.calls;
        book.calls += 1;
        self.numbers.publish(book.calls, book.holders.len() as u64);
        drop(book);
        reply.push_str(&format!(" #{number}\n"));
        reply
    }
}

fn answer(line: &str, party: usize, client: &mut Option<Client>, pools: &Pools) -> String {
    let words: Vec<&str> = line.split_ascii_whitespace().collect();
    let found = words.get(1).and_then(|name| pools.get(*name));
    match (words.as_slice(), client.as_ref(), found) {
        (["HELLO", user, host, display, project], None, _) => {
            *client = Some([user, host, display, project].map(|name| name.to_string()));
            format!("WELCOME {party}\n")
        }
        (["CHECKOUT", _, version], Some(client), Some(pool)) if version.parse().is_ok_and(|it: f64| it <= pool.version) => {
            pool.enter(party, client, |book| book.check_out(party, client, &pool.rules))
        }
        (["GLANCE", _], Some(_), Some(pool)) => {
            let (entries, held) = pool.numbers.glance();
            format!("GLANCE FRONT {entries} HELD {held} LINGERING 0 OPEN {held} OF {SEATS} QUEUED 0\n")
        }
        (["CHECKIN", _], Some(client), Some(pool)) => pool.enter(party, client, |book| book.check_in(party)),
        _ => "WRONG\n".to_string(),
    }
}

fn serve(mut link: UnixStream, party: usize, pools: &Pools) -> io::Result<()> {
    link.set_read_timeout(Some(Duration::from_secs(1)))?;
    let mut lines = BufReader::new(link.try_clone()?);
    let mut line = String::new();
    let mut client = None;
    loop {
        match lines.read_line(&mut line) {
            Ok(0) => break,
            Ok(_) => {
                link.write_all(answer(&line, party, &mut client, pools).as_bytes())?;
                line.clear();
            }
            Err(error) if error.kind() == ErrorKind::WouldBlock => {}
            Err(error) => return Err(error),
        }
    }
    if let Some(client) = &client {
        for pool in pools.values() {
            pool.enter(party, client, |book| book.check_in(party));
        }
    }
    Ok(())
}

/// The rules of each feature.
fn rules_of(text: &str) -> HashMap<String, Rules> {
    let mut rules: HashMap<String, Rules> = HashMap::new();
    for (number, line) in (1..).zip(text.lines()) {
        match line.split_ascii_whitespace().collect::<Vec<_>>().as_slice() {
            ["EXCLUDE", feature, "USER", user] => {
                rules.entry(feature.to_string()).or_default().excluded.entry(user.to_string()).or_insert(number);
            }
            ["INCLUDE", feature, "USER", user] => {
                let rules = rules.entry(feature.to_string()).or_default();
                rules.included.get_or_insert((number, HashSet::new())).1.insert(user.to_string());
            }
            _ => panic!("line {}", number),
        }
    }
    rules
}

fn main() -> io::Result<()> {
    let words: Vec<String> = args().skip(1).collect();
    let [path, count, options @ ..] = words.as_slice() else { panic!("a path and a number") };
    let count: usize = count.parse().expect("a number");
    let text = options.first().map_or(Ok(String::new()), fs::read_to_string)?;
    let mut rules = rules_of(&text);
    let pools = (0..count).map(|n| format!("f{n}")).map(|name| (name.clone(), Pool::new(rules.remove(&name).unwrap_or_default())));
    let pools: Arc<Pools> = Arc::new(pools.collect());
    for (party, link) in UnixListener::bind(path)?.incoming().enumerate() {
        let (link, pools) = (link?, pools.clone());
        thread::spawn(move || serve(link, party, &pools));
    }
    Ok(())
}
