//! Runs a program, throws its output away, and prints the most memory that it had, in KiB: `peak PROGRAM WORD ..`. What starts it counts
//! too, so this is a small program.
use std::env;
use std::ffi::{c_int, c_long};
use std::process::{Command, Stdio};

/// Linux's `struct rusage`.
#[repr(C)]
#[derive(Default)]
struct Used {
    user: [c_long; 2],
    system: [c_long; 2],
    most_resident: c_long,
    others: [c_long; 13],
}

extern "C" {
    fn getrusage(who: c_int, used: *mut Used) -> c_int;
}

const CHILDREN: c_int = -1;

fn main() {
    let mut words = env::args().skip(1);
    let program = words.next().expect("a program");
    let ended = Command::new(program).args(words).stdout(Stdio::null()).status().expect("a program that runs");
    assert!(ended.success());
    let mut used = Used::default();
    assert_eq!(unsafe { getrusage(CHILDREN, &mut used) }, 0);
    println!("{}", used.most_resident);
}
