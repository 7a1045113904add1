//! The words of the command `shorgavel`: values behind options, the end of options, help, and the file it writes to.

mod common;

use common::command::{command, err, fed, out, run, status, Kept};
use common::folder::Folder;
use common::two_rows;
use std::ffi::OsString;
use std::fs::{self, File};
use std::os::unix::ffi::OsStringExt;
use std::os::unix::fs::{symlink, PermissionsExt};

#[test]
fn a_value_stands_behind_its_option_or_is_the_next_word() {
    let apart = fed(&["rows", "-", "--reading", "file", "--table", "1"], &two_rows());
    let behind = fed(&["rows", "--reading=file", "--table=1", "-"], &two_rows());
    assert_eq!((out(&apart), status(&apart)), (out(&behind), 0));
    assert_eq!(out(&behind).lines().count(), 3);
}

#[test]
fn words_that_are_wrong_are_told() {
    let wrong: [(&[&str], &str); 9] = [
        (&["rows", "-", "--reading="], "--reading takes old, file or guarded"),
        (&["rows", "-", "--reading=new"], "--reading takes old, file or guarded"),
        (&["rows", "-", "--notes=yes"], "--notes takes no value"),
        (&["rows", "-", "--fast=yes"], "there is no option --fast"),
        (&["rows", "-", "--output"], "--output takes the name of a file"),
        (&["rows", "-", "-o", ""], "--output takes the name of a file"),
        (&["rows", "--", "-", "--notes"], "rows: --notes is one word too many"),
        (&["help", "row"], "there is no command row"),
        (&["help", "rows", "page"], "help: page is one word too many"),
    ];
    for (words, why) in wrong {
        let output = run(words);
        assert_eq!((out(&output), status(&output)), ("", 2), "{why}");
        assert_eq!(err(&output), format!("shorgavel: {why}; `shorgavel --help` has the words\n"));
    }
}

/// Behind two dashes a name may start with one. The dash alone stays standard input.
#[test]
fn two_dashes_end_the_options() {
    let file = Kept::new("--notes", &two_rows());
    let folder = file.0.parent().unwrap();
    let output = command().args(["rows", "--reading=file", "--", "--notes"]).current_dir(folder).output().unwrap();
    assert_eq!((out(&output).lines().count(), status(&output)), (3, 0));
    assert_eq!(out(&fed(&["rows", "--reading=file", "--", "-"], &two_rows())), out(&output));
    assert_eq!(err(&run(&["rows", "--", "--no such file"])).split(" cannot").next(), Some("shorgavel: --no such file"));
}

#[test]
fn help_is_a_command_too() {
    let help = out(&run(&["--help"])).to_string();
    for words in [&["help"][..], &["help", "trust"], &["help", "sheet"], &["help", "help"], &["sheet", "--help", "-x"]]
    {
        let output = run(words);
        assert_eq!((out(&output), err(&output), status(&output)), (help.as_str(), "", 0));
    }
    assert!(help.contains("\n  help ") && help.contains("\n  -o, --output OUT\n") && help.contains("\n  -- "));
    assert!(help.lines().all(|line| line.chars().count() <= 120));
}

/// A folder with a database.
fn with_gauge(name: &str) -> Folder {
    let folder = Folder::new(name);
    folder.put("gauge.db", &two_rows());
    folder
}

#[test]
fn the_output_goes_to_a_file() {
    let folder = with_gauge("output");
    for command in ["rows", "compare", "sheet", "trust"] {
        let shown = folder.run(&[command, "gauge.db"]);
        for words in [["-o", "out.txt"], ["--output", "./out.txt"]] {
            let output = folder.run(&[&[command, "gauge.db"][..], &words].concat());
            assert_eq!((out(&output), err(&output), status(&output)), ("", err(&shown), status(&shown)));
            assert_eq!((folder.text("out.txt").as_str(), folder.files()), (out(&shown), 2));
        }
    }
    folder.run(&["rows", "gauge.db", "--output=a=b"]);
    assert_eq!(folder.text("a=b"), out(&folder.run(&["rows", "gauge.db", "-o", "-"])));
    let name = OsString::from_vec(b"--output=\xff".to_vec());
    command().args(["help".into(), name.clone()]).current_dir(&folder.0).output().unwrap();
    assert_eq!(fs::read(folder.0.join(OsString::from_vec(vec![0xff]))).unwrap(), run(&["help"]).stdout);
}

/// A link and the permissions stay as they were.
#[test]
fn a_file_is_replaced_in_its_place() {
    let folder = with_gauge("replaced");
    let path = folder.0.join("out.txt");
    fs::write(&path, "before").unwrap();
    fs::set_permissions(&path, fs::Permissions::from_mode(0o640)).unwrap();
    symlink("out.txt", folder.0.join("link")).unwrap();
    assert_eq!(status(&folder.run(&["rows", "gauge.db", "-o", "link"])), 0);
    assert!(fs::symlink_metadata(folder.0.join("link")).unwrap().file_type().is_symlink());
    assert!(folder.text("out.txt").starts_with("page cell"));
    assert_eq!(fs::metadata(&path).unwrap().permissions().mode() & 0o777, 0o640);
    assert_eq!(folder.files(), 3);
}

/// What is refused has lines in `rows`, and none in `trust`.
#[test]
fn a_file_is_left_as_it_was_where_there_is_nothing_to_show() {
    let folder = with_gauge("nothing");
    fs::write(folder.0.join("out.txt"), "before").unwrap();
    fs::write(folder.0.join("none.db"), "").unwrap();
    for (words, ended) in [(["trust", "none.db"], 6), (["rows", "no such file"], 3)] {
        let output = folder.run(&[&words[..], &["-o", "out.txt"]].concat());
        assert_eq!((status(&output), folder.text("out.txt").as_str(), folder.files()), (ended, "before", 3));
    }
    assert_eq!(status(&folder.run(&["rows", "none.db", "-o", "out.txt"])), 6);
    assert_eq!(folder.text("out.txt"), "page cell reading rowid values\nrefused 1\n");
}

#[test]
fn a_file_that_cannot_be_written_is_named() {
    let folder = with_gauge("unwritten");
    fs::create_dir(folder.0.join("sub")).unwrap();
    for (name, why) in [("sub", "it is a folder\n"), ("none/out.txt", "No such file"), ("/dev/full", "No space left")] {
        let output = folder.run(&["rows", "gauge.db", "-o", name]);
        assert_eq!((out(&output), status(&output), folder.files()), ("", 3, 2));
        let said = format!("shorgavel: {name} cannot be written: {why}");
        assert!(err(&output).starts_with(&said), "{}", err(&output));
    }
    // A device is written to, and stays one.
    assert_eq!(status(&folder.run(&["rows", "gauge.db", "-o", "/dev/null"])), 0);
    assert!(!File::open("/dev/null").unwrap().metadata().unwrap().is_file());
}

#[test]
fn the_database_is_not_written_over() {
    let folder = with_gauge("spared");
    symlink("gauge.db", folder.0.join("link")).unwrap();
    for name in ["gauge.db", "./gauge.db", "link"] {
        let output = folder.run(&["sheet", "gauge.db", "-o", name]);
        let said = format!("shorgavel: {name} is a file that is read: it is not written over; ");
        assert!(err(&output).starts_with(&said), "{}", err(&output));
        assert_eq!((status(&output), fs::read(folder.0.join("gauge.db")).unwrap()), (2, two_rows()));
    }
}
