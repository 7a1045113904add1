//! Prints everything the original shows of a database. See oracle/README.md.

mod alone;
mod answers;
mod ask;
mod cases;
mod cells;
mod fault;
mod generate;
mod quiet;
mod rows;
mod stream;
mod text;
mod values;

use std::env;
use std::fs::{self, File};
use std::io::{self, BufReader, BufWriter, Read, Write};
use std::process::exit;

use fault::Fault;
use memmap2::Mmap;

const USAGE: &str = "answers [FILE] | cases FILE.. | encode FILE.. | names FILE.. | rows [FILE] \
    | pages FILE N.. | stream FILE.. | nth INDEX [FILE] | generate .. | classes ..";

fn main() {
    ask::record_panics();
    let args: Vec<String> = env::args().skip(1).collect();
    let mut out = BufWriter::with_capacity(1 << 16, io::stdout().lock());
    let done = run(&args, &mut out);
    // Also after a fault: what was answered before it is good.
    let written = out.flush().map_err(Fault::from);
    if let Err(fault) = done.and(written) {
        fault.report();
        exit(2);
    }
}

fn run(args: &[String], out: &mut impl Write) -> Result<(), Fault> {
    let (command, files) = args.split_first().ok_or_else(usage)?;
    match command.as_str() {
        "answers" => answer_stream(&mut open(files)?, out),
        "cases" => answer_cases(files, out),
        "encode" => encode(files, out),
        "names" => names(files, out),
        "rows" => print_rows(&mut open(files)?, out),
        "pages" => print_pages(files, out),
        "stream" => put_files(files, out),
        "nth" => put_nth(files, out),
        "generate" => generate::run(files, out),
        "classes" => generate::list(files, out),
        _ => Err(usage()),
    }
}

fn usage() -> Fault {
    Fault::new(format!("the commands are {USAGE}"))
}

/// The one file named, or standard input.
fn open(files: &[String]) -> Result<Box<dyn Read>, Fault> {
    match files {
        [] => Ok(Box::new(io::stdin().lock())),
        [name] => {
            let file = File::open(name).map_err(|e| Fault::new(format!("{name}: {e}")))?;
            Ok(Box::new(BufReader::with_capacity(1 << 16, file)))
        }
        _ => Err(usage()),
    }
}

fn answer_stream(input: &mut dyn Read, out: &mut impl Write) -> Result<(), Fault> {
    let mut index = 0;
    while let Some(bytes) = stream::next(input)? {
        answers::print(out, index, &bytes)?;
        index += 1;
    }
    Ok(())
}

fn answer_cases(files: &[String], out: &mut impl Write) -> Result<(), Fault> {
    for (index, case) in all_cases(files)?.iter().enumerate() {
        answers::print(out, index, &case.bytes)?;
    }
    Ok(())
}

fn encode(files: &[String], out: &mut impl Write) -> Result<(), Fault> {
    for case in all_cases(files)? {
        stream::put(out, &case.bytes)?;
    }
    Ok(())
}

fn put_files(files: &[String], out: &mut impl Write) -> Result<(), Fault> {
    for name in files {
        let bytes = fs::read(name).map_err(|e| Fault::new(format!("{name}: {e}")))?;
        stream::put(out, &bytes)?;
    }
    Ok(())
}

/// One database of a stream, its bytes as they are.
fn put_nth(words: &[String], out: &mut impl Write) -> Result<(), Fault> {
    let (index, files) = words.split_first().ok_or_else(usage)?;
    let index: usize = index.parse().map_err(|_| usage())?;
    let mut input = open(files)?;
    for _ in 0..index {
        stream::next(&mut input)?;
    }
    let bytes = stream::next(&mut input)?;
    let bytes = bytes.ok_or_else(|| Fault::new(format!("no database {index}")))?;
    Ok(out.write_all(&bytes)?)
}

fn names(files: &[String], out: &mut impl Write) -> Result<(), Fault> {
    for (index, case) in all_cases(files)?.iter().enumerate() {
        writeln!(out, "{index} {}", case.name)?;
    }
    Ok(())
}

fn all_cases(files: &[String]) -> Result<Vec<cases::Case>, Fault> {
    if files.is_empty() {
        return Err(usage());
    }
    let mut all = Vec::new();
    for file in files {
        all.extend(cases::read(file)?);
    }
    Ok(all)
}

fn print_rows(input: &mut dyn Read, out: &mut impl Write) -> Result<(), Fault> {
    let mut bytes = Vec::new();
    input.read_to_end(&mut bytes)?;
    Ok(rows::print(out, &bytes)?)
}

/// The pages asked for of one database, which is mapped: it may be of gigabytes.
fn print_pages(words: &[String], out: &mut impl Write) -> Result<(), Fault> {
    let (name, numbers) = words.split_first().ok_or_else(usage)?;
    let numbers: Result<Vec<u32>, _> = numbers.iter().map(|n| n.parse()).collect();
    let numbers = numbers.map_err(|_| usage())?;
    // Safety: the map is sound as long as nobody cuts the file meanwhile.
    let map = File::open(name).and_then(|file| unsafe { Mmap::map(&file) });
    let map = map.map_err(|e| Fault::new(format!("{name}: {e}")))?;
    Ok(answers::print_some(out, &map, &numbers)?)
}
