//! Databases written as text, for people. The head of oracle/cases/first.txt
//! says how.

use std::fs;

use crate::fault::Fault;

pub struct Case {
    pub name: String,
    pub bytes: Vec<u8>,
}

pub fn read(file: &str) -> Result<Vec<Case>, Fault> {
    let text = fs::read_to_string(file).map_err(|e| Fault::new(format!("{file}: {e}")))?;
    let mut cases = Vec::new();
    for (line, number) in text.lines().zip(1..) {
        take_line(&mut cases, line)
            .map_err(|what| Fault::new(format!("{file}:{number}: {what}")))?;
    }
    Ok(cases)
}

fn take_line(cases: &mut Vec<Case>, line: &str) -> Result<(), String> {
    let said = line.split('#').next().unwrap_or("");
    let words: Vec<&str> = said.split_whitespace().collect();
    match words.split_first() {
        None => Ok(()),
        Some((&"case", rest)) => {
            let case = start(cases, rest)?;
            cases.push(case);
            Ok(())
        }
        Some((offset, items)) => {
            let case = cases.last_mut().ok_or("bytes before the first case")?;
            let offset = offset.strip_suffix(':').ok_or("no `OFFSET:`")?;
            put(&mut case.bytes, number(offset)?, items)
        }
    }
}

/// `NAME LENGTH`, `NAME like OTHER`, or `NAME like OTHER LENGTH`.
fn start(cases: &[Case], words: &[&str]) -> Result<Case, String> {
    let (name, bytes) = match words {
        [name, "like", other] => (name, find(cases, other)?.bytes.clone()),
        [name, "like", other, length] => {
            let mut bytes = find(cases, other)?.bytes.clone();
            bytes.resize(number(length)?, 0);
            (name, bytes)
        }
        [name, length] => (name, vec![0; number(length)?]),
        _ => return Err("`case NAME LENGTH` or `case NAME like OTHER [LENGTH]`".to_string()),
    };
    if find(cases, name).is_ok() {
        return Err(format!("a second case {name}"));
    }
    let name = name.to_string();
    Ok(Case { name, bytes })
}

fn find<'c>(cases: &'c [Case], name: &str) -> Result<&'c Case, String> {
    let found = cases.iter().find(|case| case.name == name);
    found.ok_or(format!("no case {name} before this one"))
}

/// Each item is a byte, `0d`, or a byte repeated, `ff*9`.
fn put(bytes: &mut [u8], offset: usize, items: &[&str]) -> Result<(), String> {
    let mut at = offset;
    for item in items {
        let (byte, times) = item.split_once('*').unwrap_or((item, "1"));
        let byte = hex(byte)?;
        for _ in 0..number(times)? {
            *bytes.get_mut(at).ok_or("bytes past the length")? = byte;
            at += 1;
        }
    }
    Ok(())
}

fn hex(digits: &str) -> Result<u8, String> {
    let byte = u8::from_str_radix(digits, 16).ok();
    byte.filter(|_| digits.len() == 2 && !digits.starts_with('+'))
        .ok_or(format!("{digits} is not a byte of two hex digits"))
}

fn number(digits: &str) -> Result<usize, String> {
    let read: Result<usize, _> = digits.parse();
    read.map_err(|_| format!("{digits} is not a number"))
}
