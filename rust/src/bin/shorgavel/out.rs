//! The output through one large buffer.
//!
//! Text is put into memory, where nothing fails; `pass` writes it once there is enough, and is called between lines.

use crate::failure::Failure;
use crate::target::Target;
use std::ffi::OsStr;
use std::io::{self, Write};

const ENOUGH: usize = 256 * 1024;

pub struct Out {
    buffer: Vec<u8>,
    to: Target,
    /// Whether any byte was written.
    begun: bool,
}

impl Out {
    /// To a file, or to standard output.
    pub fn new(file: Option<&OsStr>) -> io::Result<Out> {
        let to = file.map_or(Ok(Target::standard()), Target::file)?;
        Ok(Out { buffer: Vec::with_capacity(2 * ENOUGH), to, begun: false })
    }

    /// What was shown before a refusal is written too. A file is not replaced where there is nothing to show, nor where
    /// some of it could not be written.
    pub fn end(mut self, done: Result<(), Failure>) -> Result<(), Failure> {
        if matches!(done, Err(Failure::Unwritten(_))) {
            return done;
        }
        self.flush()?;
        if self.begun {
            self.to.end()?;
        }
        done
    }

    pub fn text(&mut self, text: &[u8]) {
        self.buffer.extend_from_slice(text);
    }

    pub fn decimal(&mut self, number: u64) {
        let mut digits = [0; 20];
        let mut at = digits.len();
        let mut left = number;
        loop {
            at -= 1;
            digits[at] = b'0' + (left % 10) as u8;
            left /= 10;
            if left == 0 {
                break;
            }
        }
        self.text(&digits[at..]);
    }

    pub fn signed(&mut self, number: i64) {
        if number < 0 {
            self.text(b"-");
        }
        self.decimal(number.unsigned_abs());
    }

    /// Two digits in lower case for each byte.
    pub fn hex(&mut self, bytes: &[u8]) {
        const DIGITS: [u8; 16] = *b"0123456789abcdef";
        let pair = |byte: &u8| [DIGITS[usize::from(byte >> 4)], DIGITS[usize::from(byte & 15)]];
        self.buffer.extend(bytes.iter().flat_map(pair));
    }

    /// What is not yet written.
    #[cfg(test)]
    pub fn kept(&self) -> &[u8] {
        &self.buffer
    }

    pub fn pass(&mut self) -> io::Result<()> {
        if self.buffer.len() < ENOUGH {
            return Ok(());
        }
        self.flush()
    }

    pub fn flush(&mut self) -> io::Result<()> {
        self.begun |= !self.buffer.is_empty();
        let written = self.to.write(&self.buffer);
        // Also what could not be written is gone: it is not tried again.
        self.buffer.clear();
        written
    }
}

/// For `write!`, where speed does not matter: it puts text into the buffer and never fails.
impl Write for Out {
    fn write(&mut self, text: &[u8]) -> io::Result<usize> {
        self.text(text);
        Ok(text.len())
    }

    fn flush(&mut self) -> io::Result<()> {
        Out::flush(self)
    }
}
