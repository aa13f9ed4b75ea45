//! Clients that ask a server over a Unix socket: `ask PATH CLIENTS MILLISECONDS POOLS BEFORE`. Each says HELLO, and then CHECKOUT and CHECKIN in turn, each once the line before was answered; client i asks for feature f followed by i modulo POOLS. What they ask in the first BEFORE milliseconds isn't counted, and what they ask in the MILLISECONDS after them is.
//! Prints requests a second, each client's over the time in which they counted, added up, and the middle, the 99th and the 99.9th percentile of the time to an answer in microseconds.
use std::env::args;
use std::io::{BufRead, BufReader, Write};
use std::os::unix::net::UnixStream;
use std::sync::atomic::{AtomicBool, Ordering};
use std::sync::{Arc, Barrier};
use std::thread;
use std::time::{Duration, Instant};

struct Client {
    link: UnixStream,
    lines: BufReader<UnixStream>,
    line: Vec<u8>,
}

impl Client {
    fn of(path: &str) -> Client {
        let link = UnixStream::connect(path).expect("a server");
        let lines = BufReader::new(link.try_clone().expect("a link"));
        Client { link, lines, line: Vec::new() }
    }

    fn ask(&mut self, request: &[u8]) {
        self.link.write_all(request).expect("a link that takes the request");
        self.line.clear();
        self.lines.read_until(b'\n', &mut self.line).expect("an answer");
        assert!(self.line.ends_with(b"\n"), "the server closed the link");
    }
}

/// What all clients share: when they begin, and whether their requests count yet and are over.
struct Course {
    start: Barrier,
    counts: AtomicBool,
    is_over: AtomicBool,
}

/// The nanoseconds to each answer that counts, and such requests a second.
fn work(path: &str, number: usize, pools: usize, course: &Course) -> (Vec<u32>, f64) {
    let mut client = Client::of(path);
    client.ask(format!("HELLO u{number} h d p\n").as_bytes());
    let feature = number % pools;
    let requests = [format!("CHECKOUT f{feature} 1.0\n"), format!("CHECKIN f{feature}\n")];
    let mut taken = Vec::with_capacity(1 << 20);
    course.start.wait();
    while !course.counts.load(Ordering::Relaxed) {
        for request in &requests {
            client.ask(request.as_bytes());
        }
    }
    let started = Instant::now();
    while !course.is_over.load(Ordering::Relaxed) {
        for request in &requests {
            let begun = Instant::now();
            client.ask(request.as_bytes());
            taken.push(begun.elapsed().as_nanos() as u32);
        }
    }
    let rate = taken.len() as f64 / started.elapsed().as_secs_f64();
    (taken, rate)
}

fn main() {
    let words: Vec<String> = args().skip(1).collect();
    let [path, rest @ ..] = words.as_slice() else { panic!("a path") };
    let numbers: Vec<usize> = rest.iter().map(|word| word.parse().expect("a number")).collect();
    let [clients, milliseconds, pools, before] = numbers.as_slice() else { panic!("four numbers") };
    let course = Arc::new(Course { start: Barrier::new(clients + 1), counts: AtomicBool::new(*before == 0), is_over: AtomicBool::new(false) });
    let threads: Vec<_> = (0..*clients)
        .map(|number| {
            let (path, course, pools) = (path.clone(), course.clone(), *pools);
            thread::spawn(move || work(&path, number, pools, &course))
        })
        .collect();
    course.start.wait();
    thread::sleep(Duration::from_millis(*before as u64));
    course.counts.store(true, Ordering::Relaxed);
    thread::sleep(Duration::from_millis(*milliseconds as u64));
    course.is_over.store(true, Ordering::Relaxed);
    let (each, rates): (Vec<_>, Vec<_>) = threads.into_iter().map(|it| it.join().expect("a client")).unzip();
    let mut taken: Vec<u32> = each.into_iter().flatten().collect();
    taken.sort_unstable();
    let at = |part: f64| f64::from(taken[((taken.len() - 1) as f64 * part) as usize]) / 1000.0;
    println!("{:.0} {:.1} {:.1} {:.1}", rates.iter().sum::<f64>(), at(0.5), at(0.99), at(0.999));
}
