//! A stream of databases: for each a length of four bytes, big-endian, and that
//! many bytes.

use std::io::{self, Read, Write};

use crate::fault::Fault;

/// The next database; none at the end of the input.
pub fn next(input: &mut dyn Read) -> Result<Option<Vec<u8>>, Fault> {
    let head = up_to(input, 4)?;
    if head.is_empty() {
        return Ok(None);
    }
    let head = <[u8; 4]>::try_from(head).map_err(|_| cut_short())?;
    let length = u32::from_be_bytes(head);
    let bytes = up_to(input, length)?;
    if bytes.len() < length as usize {
        return Err(cut_short());
    }
    Ok(Some(bytes))
}

pub fn put(out: &mut impl Write, bytes: &[u8]) -> Result<(), Fault> {
    let length = u32::try_from(bytes.len())
        .map_err(|_| Fault::new("a database is too long for the stream".to_string()))?;
    out.write_all(&length.to_be_bytes())?;
    out.write_all(bytes)?;
    Ok(())
}

/// Reads piece by piece, so that a false length takes no memory.
fn up_to(input: &mut dyn Read, length: u32) -> io::Result<Vec<u8>> {
    let mut bytes = Vec::new();
    input.take(length.into()).read_to_end(&mut bytes)?;
    Ok(bytes)
}

fn cut_short() -> Fault {
    Fault::new("the stream is cut short".to_string())
}
