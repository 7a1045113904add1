//! The driver's own errors, and the way out for them.

use std::fs::OpenOptions;
use std::io::{self, Write};

pub enum Fault {
    Message(String),
    /// Whoever read the output has gone, and wants no message either.
    NoReader,
}

impl Fault {
    pub fn new(message: String) -> Fault {
        Fault::Message(message)
    }

    pub fn report(&self) {
        if let Fault::Message(message) = self {
            tell(message);
        }
    }
}

impl From<io::Error> for Fault {
    fn from(e: io::Error) -> Fault {
        match e.kind() {
            io::ErrorKind::BrokenPipe => Fault::NoReader,
            _ => Fault::Message(e.to_string()),
        }
    }
}

/// Standard error belongs to the original's `dbg!` and leads nowhere, so
/// messages take descriptor 3; without one, what standard error leads to.
pub fn tell(message: &str) {
    let line = format!("oracle: {message}\n");
    // Nothing is left to be done if both fail.
    let _ = send("/dev/fd/3", &line).or_else(|_| send("/dev/stderr", &line));
}

fn send(way: &str, line: &str) -> io::Result<()> {
    let mut file = OpenOptions::new().append(true).open(way)?;
    file.write_all(line.as_bytes())
}
