//! Asks a sum behind a `Mutex` from several threads: what `desk_bench lock` does, in plain Rust.
//!
//! `sum_mutex THREADS ROUNDS` prints the number of the calls, so that a lost one shows.
use std::env;
use std::sync::{Mutex, PoisonError};
use std::thread;

/// What stands behind the lock.
#[derive(Default)]
struct Counted {
    /// The sum so far.
    total: u64,
    /// The calls so far.
    calls: u64,
}

/// What a call gives.
struct Answered {
    answer: u64,
    place: u64,
}

fn ask(counted: &Mutex<Counted>, amount: u64) -> Answered {
    let mut counted = counted.lock().unwrap_or_else(PoisonError::into_inner);
    let answered = Answered { answer: counted.total, place: counted.calls };
    counted.total = counted.total.wrapping_add(amount);
    counted.calls = counted.calls.wrapping_add(1);
    answered
}

fn main() {
    let mut words = env::args().skip(1).map(|word| word.parse::<u32>());
    let (Some(Ok(threads)), Some(Ok(rounds))) = (words.next(), words.next()) else {
        panic!("sum_mutex THREADS ROUNDS");
    };
    let counted = Mutex::default();
    thread::scope(|scope| {
        for _ in 0..threads {
            scope.spawn(|| {
                for _ in 0..rounds {
                    let answered = ask(&counted, 1);
                    assert_eq!(answered.answer, answered.place);
                }
            });
        }
    });
    let counted = counted.into_inner().unwrap_or_else(PoisonError::into_inner);
    println!("{}", counted.calls);
}
