//! Checks seats out and in from several threads: what `desk_bench desk` does, in plain Rust, with a mutex round a map of who holds which seat and a list of the free ones.
//!
//! `seat_map THREADS ROUNDS SEATS` prints the number of the grants, so that a lost one shows.
use std::collections::HashMap;
use std::env;
use std::sync::{Mutex, PoisonError};
use std::thread;

/// What stands behind the lock.
struct Desk {
    /// The seat of each party that has one, with its client.
    holders: HashMap<u32, (u32, [String; 4])>,
    /// The seats that nobody has.
    free: Vec<u32>,
    /// How many seats were granted.
    grants: u64,
}

impl Desk {
    fn check_out(&mut self, party: u32, client: &[String; 4]) -> Option<u32> {
        if self.holders.contains_key(&party) {
            return None;
        }
        let seat = self.free.pop()?;
        self.holders.insert(party, (seat, client.clone()));
        self.grants += 1;
        Some(seat)
    }

    fn check_in(&mut self, party: u32) -> bool {
        let Some((seat, _)) = self.holders.remove(&party) else {
            return false;
        };
        self.free.push(seat);
        true
    }
}

fn come_and_go(desk: &Mutex<Desk>, party: u32, rounds: u32) {
    let client = ["u", "h", "d", "p"].map(String::from);
    let locked = || desk.lock().unwrap_or_else(PoisonError::into_inner);
    for _ in 0..rounds {
        let seat = locked().check_out(party, &client);
        let is_back = locked().check_in(party);
        assert_eq!(seat.is_some(), is_back);
    }
}

fn main() {
    let mut words = env::args().skip(1).map(|word| word.parse::<u32>());
    let (Some(Ok(threads)), Some(Ok(rounds)), Some(Ok(seats))) = (words.next(), words.next(), words.next()) else {
        panic!("seat_map THREADS ROUNDS SEATS");
    };
    let desk = Mutex::new(Desk { holders: HashMap::new(), free: (0..seats).collect(), grants: 0 });
    thread::scope(|scope| {
        for party in 0..threads {
            let desk = &desk;
            scope.spawn(move || come_and_go(desk, party, rounds));
        }
    });
    println!("{}", desk.into_inner().unwrap_or_else(PoisonError::into_inner).grants);
}
