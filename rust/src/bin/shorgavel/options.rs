//! The words of the command by what they are: those that start with a dash are options, but for the dash alone.

use crate::failure::Failure;
use crate::form::Form;
use shorgavel::Reading;
use std::ffi::{OsStr, OsString};
use std::os::unix::ffi::OsStrExt;

const HELP: &str = include_str!("help.txt");

#[derive(Default)]
pub struct Words {
    pub plain: Vec<OsString>,
    /// What is asked of the command itself, whatever the other words are.
    pub said: Option<String>,
    pub reading: Option<Reading>,
    pub table: Option<u32>,
    pub output: Option<OsString>,
    pub notes: bool,
    pub parting: bool,
    pub summary: bool,
    pub form: Option<Form>,
}

impl Words {
    pub fn of(mut args: impl Iterator<Item = OsString>) -> Result<Words, Failure> {
        let mut words = Words::default();
        while let Some(arg) = args.next() {
            if arg == "--" {
                words.plain.extend(args);
                break;
            } else if arg == "-" || !arg.as_bytes().starts_with(b"-") {
                words.plain.push(arg);
            } else {
                let (name, value) = parts(&arg);
                words.option(&name, value, &mut args)?;
            }
            if words.said.is_some() {
                break;
            }
        }
        Ok(words)
    }

    /// A value stands behind the option, or is the next word.
    fn option(
        &mut self,
        name: &str,
        value: Option<OsString>,
        more: &mut impl Iterator<Item = OsString>,
    ) -> Result<(), Failure> {
        let alone = value.is_none();
        let mut value = || value.clone().or_else(|| more.next());
        match name {
            "--reading" => self.reading = Some(reading(value())?),
            "--table" => self.table = Some(root(value())?),
            "-o" | "--output" => self.output = Some(file(value())?),
            "-h" | "--help" | "-V" | "--version" | "--notes" | "--parting" | "--summary" | "--csv" | "--json"
                if !alone =>
            {
                return Err(Failure::Usage(format!("{name} takes no value")));
            }
            "-h" | "--help" => self.said = Some(help()),
            "-V" | "--version" => self.said = Some(format!("shorgavel {}\n", env!("CARGO_PKG_VERSION"))),
            "--notes" => self.notes = true,
            "--parting" => self.parting = true,
            "--summary" => self.summary = true,
            "--csv" => self.written(Form::Csv)?,
            "--json" => self.written(Form::Json)?,
            _ => return Err(Failure::Usage(format!("there is no option {name}"))),
        }
        Ok(())
    }

    fn written(&mut self, form: Form) -> Result<(), Failure> {
        match self.form.replace(form) {
            Some(before) if before != form => Err(Failure::Usage("--csv and --json do not go together".to_string())),
            _ => Ok(()),
        }
    }
}

pub fn help() -> String {
    HELP.to_string()
}

/// Only a long option has its value behind it. A file's name need be no text, so it is taken as it is.
fn parts(arg: &OsStr) -> (String, Option<OsString>) {
    let bytes = arg.as_bytes();
    let end = bytes.iter().position(|&byte| byte == b'=').filter(|_| bytes.starts_with(b"--"));
    let name = OsStr::from_bytes(&bytes[..end.unwrap_or(bytes.len())]).to_string_lossy().into_owned();
    (name, end.map(|end| OsStr::from_bytes(&bytes[end + 1..]).to_owned()))
}

fn reading(word: Option<OsString>) -> Result<Reading, Failure> {
    let found = word.as_deref().and_then(OsStr::to_str).and_then(|name| name.parse().ok());
    found.ok_or_else(|| Failure::Usage("--reading takes old, file or guarded".to_string()))
}

fn root(word: Option<OsString>) -> Result<u32, Failure> {
    let parsed = word.as_deref().and_then(OsStr::to_str).and_then(|digits| digits.parse().ok());
    let why = "--table takes the number of a root page, as `shorgavel tables` lists it";
    parsed.ok_or_else(|| Failure::Usage(why.to_string()))
}

fn file(word: Option<OsString>) -> Result<OsString, Failure> {
    let named = word.filter(|word| !word.is_empty());
    named.ok_or_else(|| Failure::Usage("--output takes the name of a file".to_string()))
}
