//! What the words of the command ask for.

use crate::failure::Failure;
use crate::form::Form;
use crate::lines::Lines;
use crate::options::{self, Words};
use crate::sheet::{self, View};
use shorgavel::{Notes, Reading};
use std::ffi::{OsStr, OsString};
use std::path::Path;
use std::slice;

/// What is asked for, and the file that it is written to in place of standard output.
pub struct Asked {
    pub order: Order,
    pub output: Option<OsString>,
}

pub enum Order {
    Say(String),
    Trust(OsString),
    TrustMany(Vec<OsString>, Form),
    Writer(OsString),
    Header(OsString),
    Page(OsString, u32, Reading),
    Tables(OsString),
    Rows(OsString, Lines),
    Compare(OsString),
    Summary(Vec<OsString>, Form),
    Sheet(OsString, sheet::Asked),
}

const COMMANDS: [&str; 9] = ["trust", "writer", "header", "page", "tables", "rows", "compare", "sheet", "help"];

impl Order {
    /// The files and folders that are read.
    pub fn files(&self) -> &[OsString] {
        match self {
            Order::Say(_) => &[],
            Order::TrustMany(files, _) | Order::Summary(files, _) => files,
            Order::Trust(file) | Order::Writer(file) | Order::Header(file) | Order::Page(file, ..) => {
                slice::from_ref(file)
            }
            Order::Tables(file) | Order::Rows(file, _) | Order::Compare(file) | Order::Sheet(file, _) => {
                slice::from_ref(file)
            }
        }
    }
}

pub fn parse(args: impl Iterator<Item = OsString>) -> Result<Asked, Failure> {
    let mut words = Words::of(args)?;
    if let Some(said) = words.said {
        return Ok(Asked { order: Order::Say(said), output: None });
    }
    if words.plain.is_empty() {
        return Err(wrong("a command is missing".to_string()));
    }
    let name = words.plain.remove(0).to_string_lossy().into_owned();
    let output = words.output.take().filter(|output| output != "-");
    let order = order(&name, &mut words)?;
    unfit(&name, &order, &words).map_or(Ok(Asked { order, output }), Err)
}

/// The words that an order takes are gone from the plain ones.
fn order(name: &str, words: &mut Words) -> Result<Order, Failure> {
    let mut plain = std::mem::take(&mut words.plain).into_iter();
    let mut next = |what: &str| plain.next().ok_or_else(|| wrong(format!("{name}: {what} is missing")));
    let order = match name {
        "trust" => trust(next("FILE")?, plain.by_ref(), words.form),
        "writer" => Order::Writer(next("FILE")?),
        "header" => Order::Header(next("FILE")?),
        "page" => Order::Page(next("FILE")?, number(&next("N")?)?, words.reading.unwrap_or(Reading::File)),
        "tables" => Order::Tables(next("FILE")?),
        "rows" => {
            let readings = words.reading.map_or(Reading::ALL.to_vec(), |one| vec![one]);
            let notes = words.notes.then(Notes::new);
            Order::Rows(
                next("FILE")?,
                Lines { readings, notes, table: words.table, form: words.form.unwrap_or_default() },
            )
        }
        "compare" if words.summary => {
            let first = next("FILE")?;
            Order::Summary([first].into_iter().chain(plain.by_ref()).collect(), words.form.unwrap_or_default())
        }
        "compare" => Order::Compare(next("FILE")?),
        "sheet" => Order::Sheet(next("FILE")?, sheet::Asked { view: view(words)?, table: words.table }),
        "help" => help(plain.next())?,
        _ => return Err(no_command(name)),
    };
    words.plain = plain.collect();
    Ok(order)
}

/// One file has a page to be printed; a folder is several files, whatever is in it.
fn trust(first: OsString, more: impl Iterator<Item = OsString>, form: Option<Form>) -> Order {
    let files: Vec<_> = [first].into_iter().chain(more).collect();
    match &files[..] {
        [file] if form.is_none() && (file == "-" || !Path::new(file).is_dir()) => Order::Trust(file.clone()),
        _ => Order::TrustMany(files, form.unwrap_or_default()),
    }
}

/// Rows part between readings, so that one alone has none that part.
fn view(words: &Words) -> Result<View, Failure> {
    match (words.reading, words.parting) {
        (Some(_), true) => Err(wrong("sheet takes --reading or --parting, not both".to_string())),
        (Some(reading), false) => Ok(View::One(reading)),
        (None, parting) => Ok(if parting { View::Parting } else { View::Three }),
    }
}

/// The first word or option for which the command has no use.
fn unfit(name: &str, order: &Order, words: &Words) -> Option<Failure> {
    let (rows, sheet) = (matches!(order, Order::Rows(..)), matches!(order, Order::Sheet(..)));
    let summary = matches!(order, Order::Summary(..));
    let listed = rows || summary || matches!(order, Order::TrustMany(..));
    let options = [
        ("--reading", words.reading.is_some(), rows || sheet || matches!(order, Order::Page(..))),
        ("--table", words.table.is_some(), rows || sheet),
        ("--notes", words.notes, rows),
        ("--summary", words.summary, summary),
        ("--csv", words.form == Some(Form::Csv), listed),
        ("--json", words.form == Some(Form::Json), listed),
        ("--parting", words.parting, sheet),
    ];
    let several = if matches!(order, Order::Compare(_)) { ": --summary takes several files" } else { "" };
    let too_many = |more: &OsString| format!("{name}: {} is one word too many{several}", more.to_string_lossy());
    let more = words.plain.first().map(too_many);
    let option = options.iter().find(|(_, given, taken)| *given && !taken);
    more.or_else(|| option.map(|(option, ..)| format!("{name} takes no {option}"))).map(wrong)
}

/// All words of help are one text, whatever command they are asked on.
fn help(command: Option<OsString>) -> Result<Order, Failure> {
    let command = command.map(|command| command.to_string_lossy().into_owned());
    match command.filter(|command| !COMMANDS.contains(&command.as_str())) {
        Some(unknown) => Err(no_command(&unknown)),
        None => Ok(Order::Say(options::help())),
    }
}

fn number(word: &OsStr) -> Result<u32, Failure> {
    let parsed = word.to_str().and_then(|digits| digits.parse().ok());
    parsed.ok_or_else(|| wrong(format!("page: {} is no page number", word.to_string_lossy())))
}

fn no_command(name: &str) -> Failure {
    wrong(format!("there is no command {name}"))
}

fn wrong(why: String) -> Failure {
    Failure::Usage(why)
}
