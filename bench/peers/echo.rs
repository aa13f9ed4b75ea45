//! A bare server over a Unix socket: a thread for each connection, which writes each line back. Prints nothing, and runs until it is killed.
use std::env::args;
use std::io::{BufRead, BufReader, Write};
use std::os::unix::net::{UnixListener, UnixStream};
use std::thread;

fn echo(mut link: UnixStream) -> std::io::Result<()> {
    let mut lines = BufReader::new(link.try_clone()?);
    let mut line = Vec::new();
    while lines.read_until(b'\n', &mut line)? > 0 {
        link.write_all(&line)?;
        line.clear();
    }
    Ok(())
}

fn main() -> std::io::Result<()> {
    let path = args().nth(1).expect("a path");
    for link in UnixListener::bind(path)?.incoming() {
        let link = link?;
        thread::spawn(move || echo(link));
    }
    Ok(())
}
