//! The man page has the words of `shorgavel --help`: it is made of them here, and held against the one that is kept.

mod common;

use common::command::{out, run};
use std::path::Path;
use std::process::Command;
use std::{env, fs};

const KEPT: &str = concat!(env!("CARGO_MANIFEST_DIR"), "/man/shorgavel.1");

/// What stands above the first section; the version is the package's.
const TITLE: &str = concat!(".TH SHORGAVEL 1 \"\" \"shorgavel ", env!("CARGO_PKG_VERSION"), "\" \"User Commands\"\n");
const NAME: &str = "shorgavel \\- shows the SQLite file of a battery gauge in three readings";

/// Words as roff has them: those in backquotes are bold, and no dash is a hyphen.
fn words(line: &str) -> String {
    let plain = line.replace('\\', "\\e").replace('-', "\\-").replace('\'', "\\(aq");
    let mut bold = false;
    let turned = plain.split('`').map(|part| {
        let font = if bold { "\\fB" } else { "\\fR" };
        bold = !bold;
        format!("{font}{part}")
    });
    let turned: String = turned.collect();
    turned.strip_prefix("\\fR").unwrap_or(&turned).to_string()
}

/// A name and what it means, which starts behind it or on the next line.
fn item(lines: &[&str]) -> String {
    let (name, first) = lines[0].trim_start().split_once("  ").unwrap_or((lines[0].trim(), ""));
    let text: Vec<_> = [first].iter().chain(&lines[1..]).map(|line| words(line.trim())).collect();
    format!(".TP\n\\fB{}\\fR\n{}\n", words(name), text.join("\n").trim_start())
}

/// A section's items, each from a line that is indented by two to the next such line; and what stands behind them.
fn items(lines: &[&str]) -> String {
    let starts = |line: &str| line.starts_with("  ") && !line.starts_with("   ");
    let end = lines.iter().position(|line| !line.starts_with(' ')).unwrap_or(lines.len());
    let mut page = String::new();
    for (at, _) in lines[..end].iter().enumerate().filter(|(_, line)| starts(line)) {
        let next = lines[at + 1..end].iter().position(|line| starts(line)).map_or(end, |more| at + 1 + more);
        page += &item(&lines[at..next]);
    }
    page + &paragraph(&lines[end..])
}

fn paragraph(lines: &[&str]) -> String {
    if lines.is_empty() {
        return String::new();
    }
    let lines: Vec<_> = lines.iter().map(|line| words(line)).collect();
    // A line that starts with a dot or a quote would be taken for a request.
    let guarded =
        lines.iter().map(|line| if line.starts_with(['.', '\'']) { format!("\\&{line}") } else { line.clone() });
    format!(".PP\n{}\n", guarded.collect::<Vec<_>>().join("\n"))
}

fn page(help: &str) -> String {
    let mut page = format!("{TITLE}.SH NAME\n{NAME}\n");
    let mut described = String::new();
    for block in help.trim_end().split("\n\n") {
        let lines: Vec<_> = block.lines().collect();
        match lines[0] {
            "Commands:" => described += &format!(".SH COMMANDS\n{}", items(&lines[1..])),
            "Options:" => described += &format!(".SH OPTIONS\n{}.SH NOTES\n", items(&lines[1..])),
            "Exit status:" => described += &format!(".SH EXIT STATUS\n{}", items(&lines[1..])),
            usage if usage.starts_with("Usage: ") => {
                page += &format!(".SH SYNOPSIS\n{}\n.SH DESCRIPTION\n", words(&usage["Usage: ".len()..]));
            }
            _ => described += &paragraph(&lines),
        }
    }
    page + &described
}

#[test]
fn the_man_page_has_the_words_of_help() {
    let made = page(out(&run(&["--help"])));
    if fs::read_to_string(KEPT).ok().as_deref() != Some(&made) {
        let wanted = Path::new(env!("CARGO_TARGET_TMPDIR")).join("shorgavel.1");
        fs::write(&wanted, made).unwrap();
        panic!("man/shorgavel.1 is not what --help says: cp {} {KEPT}", wanted.display());
    }
}

/// Where groff is there: it finds nothing to warn of, and every word of help is in what it shows.
#[test]
fn groff_shows_the_man_page() {
    let Ok(shown) = Command::new("groff").args(["-man", "-ww", "-Tascii", "-P-cbou", "-rHY=0", KEPT]).output() else {
        println!("there is no groff: nothing was shown");
        return;
    };
    assert_eq!((String::from_utf8_lossy(&shown.stderr).as_ref(), shown.status.code()), ("", Some(0)));
    let text = String::from_utf8(shown.stdout).unwrap();
    let seen: Vec<_> = text.split_whitespace().collect();
    for word in out(&run(&["--help"])).replace('`', "").split_whitespace() {
        assert!(
            seen.contains(&word) || ["Usage:", "Commands:", "Options:", "Exit", "status:"].contains(&word),
            "{word}"
        );
    }
}

/// README.md has the statuses as help has them, a line each.
#[test]
fn the_statuses_are_the_same_everywhere() {
    let help = out(&run(&["--help"])).to_string();
    let (_, statuses) = help.split_once("\nExit status:\n").unwrap();
    let mut told: Vec<String> = Vec::new();
    for line in statuses.lines().take_while(|line| line.starts_with(' ')) {
        match line.trim_start().split_once("  ") {
            Some((number, words)) => told.push(format!("| {number} | {words}")),
            None => *told.last_mut().unwrap() += &format!(" {}", line.trim_start()),
        }
    }
    assert_eq!(told.len(), 7);
    let readme = fs::read_to_string(concat!(env!("CARGO_MANIFEST_DIR"), "/README.md")).unwrap();
    for status in told {
        assert!(readme.contains(&format!("\n{status} |\n")), "{status}");
    }
}
