//! A book of licences in plain Rust with hash maps: what `trial-replay` does, and what `replay` does under the trial's licence and options.
//!
//! `book trial EVENTS` prints how often each reply came; `book replay SCRIPT` prints the reply to each line of a script.
use std::collections::{HashMap, HashSet};
use std::io::{self, BufWriter, Write};
use std::{env, fmt, fs};

#[derive(Clone, PartialEq, Eq)]
struct Client {
    user: String,
    host: String,
    display: String,
    project: String,
}

#[derive(Clone, Copy, PartialEq, Eq)]
enum Charge {
    Reserve(u32),
    Open,
}

#[derive(Clone, Copy)]
enum Verb {
    Checkout,
    Checkin,
    Beat,
    Look,
}

enum Reply {
    Granted(Charge),
    Retaken(Charge),
    Denied(u32),
    NoSeat(usize, usize),
    AlreadyHeld,
    Returned,
    Lingering(u64),
    NotHeld,
    Beaten,
    Held,
}

enum Who {
    User(String),
    Group(String),
}

/// A line of the options file with a number: how many seats it keeps, or how many there may be.
struct Limit {
    line: u32,
    number: usize,
    who: Who,
}

struct Rules {
    groups: HashMap<String, HashSet<String>>,
    excludes: Vec<(u32, Who)>,
    reserves: Vec<Limit>,
    maxes: Vec<Limit>,
    count: usize,
    linger: u64,
    timeout: u64,
}

struct Holder {
    client: Client,
    charge: Charge,
    beat: u64,
}

struct Lingerer {
    client: Client,
    charge: Charge,
    until: u64,
}

struct Book {
    rules: Rules,
    holders: HashMap<u32, Holder>,
    lingering: Vec<Lingerer>,
    now: u64,
}

impl Rules {
    /// Those of the trial.
    fn of_trial() -> Rules {
        let even = ["u0", "u2", "u4", "u6"].map(String::from);
        Rules {
            groups: HashMap::from([("even".into(), HashSet::from(even))]),
            excludes: vec![(2, Who::User("u7".into()))],
            reserves: vec![Limit { line: 3, number: 1, who: Who::User("u1".into()) }],
            maxes: vec![Limit { line: 4, number: 2, who: Who::Group("even".into()) }],
            count: 4,
            linger: 40,
            timeout: 900,
        }
    }

    fn applies(&self, who: &Who, client: &Client) -> bool {
        match who {
            Who::User(name) => *name == client.user,
            Who::Group(name) => self.groups.get(name).is_some_and(|members| members.contains(&client.user)),
        }
    }

    fn free(&self) -> usize {
        self.count - self.reserves.iter().map(|limit| limit.number).sum::<usize>()
    }
}

impl Book {
    fn new(rules: Rules) -> Book {
        Book { rules, holders: HashMap::new(), lingering: Vec::new(), now: 0 }
    }

    fn settle(&mut self, moment: u64) {
        self.now = self.now.max(moment.min((1 << 40) - 1));
        let (now, timeout) = (self.now, self.rules.timeout);
        self.lingering.retain(|entry| now < entry.until);
        self.holders.retain(|_, holder| now - holder.beat < timeout);
    }

    fn clients(&self) -> impl Iterator<Item = &Client> {
        self.holders.values().map(|holder| &holder.client).chain(self.lingering.iter().map(|entry| &entry.client))
    }

    fn charged(&self, charge: Charge) -> usize {
        let held = self.holders.values().filter(|holder| holder.charge == charge).count();
        held + self.lingering.iter().filter(|entry| entry.charge == charge).count()
    }

    fn free_charge(&self, client: &Client) -> Option<Charge> {
        if self.holders.len() + self.lingering.len() < self.rules.count {
            for limit in &self.rules.reserves {
                let charge = Charge::Reserve(limit.line);
                if self.rules.applies(&limit.who, client) && self.charged(charge) < limit.number {
                    return Some(charge);
                }
            }
        }
        (self.charged(Charge::Open) < self.rules.free()).then_some(Charge::Open)
    }

    fn seat(&mut self, party: u32, client: &Client, charge: Charge) {
        self.holders.insert(party, Holder { client: client.clone(), charge, beat: self.now });
    }

    fn check_out(&mut self, party: u32, client: &Client) -> Reply {
        if self.holders.contains_key(&party) {
            return Reply::AlreadyHeld;
        }
        if let Some((line, _)) = self.rules.excludes.iter().find(|(_, who)| self.rules.applies(who, client)) {
            return Reply::Denied(*line);
        }
        if let Some(at) = self.lingering.iter().position(|entry| entry.client == *client) {
            let charge = self.lingering.remove(at).charge;
            self.seat(party, client, charge);
            return Reply::Retaken(charge);
        }
        for limit in &self.rules.maxes {
            let is_met = |client: &Client| self.rules.applies(&limit.who, client);
            if is_met(client) && limit.number <= self.clients().filter(|client| is_met(client)).count() {
                return Reply::Denied(limit.line);
            }
        }
        match self.free_charge(client) {
            Some(charge) => {
                self.seat(party, client, charge);
                Reply::Granted(charge)
            }
            None => Reply::NoSeat(self.charged(Charge::Open), self.rules.free()),
        }
    }

    fn check_in(&mut self, party: u32) -> Reply {
        let Some(Holder { client, charge, .. }) = self.holders.remove(&party) else {
            return Reply::NotHeld;
        };
        if self.rules.linger == 0 || self.lingering.len() >= 4096 {
            return Reply::Returned;
        }
        let until = self.now + self.rules.linger;
        self.lingering.push(Lingerer { client, charge, until });
        Reply::Lingering(until)
    }

    fn step(&mut self, party: u32, client: &Client, verb: Verb, moment: u64) -> Reply {
        self.settle(moment);
        match verb {
            Verb::Checkout => self.check_out(party, client),
            Verb::Checkin => self.check_in(party),
            Verb::Beat => match self.holders.get_mut(&party) {
                Some(holder) => {
                    holder.beat = self.now;
                    Reply::Beaten
                }
                None => Reply::NotHeld,
            },
            Verb::Look if self.holders.contains_key(&party) => Reply::Held,
            Verb::Look => Reply::NotHeld,
        }
    }
}

impl fmt::Display for Charge {
    fn fmt(&self, f: &mut fmt::Formatter<'_>) -> fmt::Result {
        match self {
            Charge::Reserve(line) => write!(f, "RESERVE {line}"),
            Charge::Open => f.write_str("OPEN"),
        }
    }
}

impl fmt::Display for Reply {
    fn fmt(&self, f: &mut fmt::Formatter<'_>) -> fmt::Result {
        match self {
            Reply::Granted(charge) => write!(f, "GRANTED {charge}"),
            Reply::Retaken(charge) => write!(f, "RETAKEN {charge}"),
            Reply::Denied(line) => write!(f, "DENIED LINE {line}"),
            Reply::NoSeat(taken, free) => write!(f, "NOSEAT TAKEN {taken} OF {free}"),
            Reply::AlreadyHeld => f.write_str("ALREADYHELD"),
            Reply::Returned => f.write_str("RETURNED"),
            Reply::Lingering(until) => write!(f, "LINGERING UNTIL {until}"),
            Reply::NotHeld => f.write_str("NOTHELD"),
            Reply::Beaten => f.write_str("BEATEN"),
            Reply::Held => f.write_str("HELD"),
        }
    }
}

const WORDS: [&str; 10] = ["GRANTED", "RETAKEN", "DENIED", "NOSEAT", "ALREADYHELD", "RETURNED", "LINGERING", "NOTHELD", "BEATEN", "HELD"];

fn kind(reply: &Reply) -> usize {
    match reply {
        Reply::Granted(_) => 0,
        Reply::Retaken(_) => 1,
        Reply::Denied(_) => 2,
        Reply::NoSeat(..) => 3,
        Reply::AlreadyHeld => 4,
        Reply::Returned => 5,
        Reply::Lingering(_) => 6,
        Reply::NotHeld => 7,
        Reply::Beaten => 8,
        Reply::Held => 9,
    }
}

fn trial(events: u64, out: &mut impl Write) -> io::Result<()> {
    let client = |party: u32| Client { user: format!("u{}", party % 8), host: format!("h{party}"), display: "d".into(), project: "p".into() };
    let clients: Vec<Client> = (0..16).map(client).collect();
    let verbs = [Verb::Checkout, Verb::Checkin, Verb::Beat, Verb::Look];
    let mut book = Book::new(Rules::of_trial());
    let mut counts = [0u64; WORDS.len()];
    for event in 0..events {
        let mixed = (event * 2_654_435_761 % (1 << 32)) as u32;
        let party = mixed >> 28;
        let verb = verbs[(mixed >> 24) as usize % 4];
        counts[kind(&book.step(party, &clients[party as usize], verb, 10 * event))] += 1;
    }
    writeln!(out, "EVENTS {events}")?;
    for (word, count) in WORDS.iter().zip(counts) {
        writeln!(out, "{word} {count}")?;
    }
    Ok(())
}

fn name(word: &str) -> String {
    assert!(word.len() <= 64 && word.bytes().all(|byte| (33..=126).contains(&byte)));
    word.into()
}

fn replay(script: &str, out: &mut impl Write) -> io::Result<()> {
    let mut book = Book::new(Rules::of_trial());
    for (place, line) in script.lines().enumerate() {
        let words: Vec<&str> = line.split([' ', '\t']).filter(|word| !word.is_empty()).collect();
        let [moment, party, user, host, display, project, verb, feature, version @ ..] = words.as_slice() else {
            panic!("a line without its words");
        };
        let client = Client { user: name(user), host: name(host), display: name(display), project: name(project) };
        let verb = match (*verb, version) {
            ("CHECKOUT", ["1.0"]) => Verb::Checkout,
            ("CHECKIN", []) => Verb::Checkin,
            ("BEAT", []) => Verb::Beat,
            ("LOOK", []) => Verb::Look,
            _ => panic!("no verb of a trial"),
        };
        assert!(*feature == "bench");
        let (moment, party) = (moment.parse().expect("a moment"), party.parse().expect("a party"));
        writeln!(out, "{} #{place}", book.step(party, &client, verb, moment))?;
    }
    Ok(())
}

fn main() -> io::Result<()> {
    let words: Vec<String> = env::args().skip(1).collect();
    let [command, word] = words.as_slice() else {
        panic!("book trial EVENTS, or book replay SCRIPT");
    };
    let mut out = BufWriter::new(io::stdout().lock());
    match command.as_str() {
        "trial" => trial(word.parse().expect("a number of events"), &mut out)?,
        "replay" => replay(&fs::read_to_string(word)?, &mut out)?,
        _ => panic!("neither trial nor replay"),
    }
    out.flush()
}
