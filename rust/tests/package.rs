//! The package: which files are in it, and what its types say of themselves.

use shorgavel::{Reading, Value};
use std::fs;
use std::process::Command;

const PACKAGE: &str = env!("CARGO_MANIFEST_DIR");

/// Whoever has the package has the licence and what it asks for, the man page and what changed.
#[test]
fn it_has_its_licence_and_its_pages() {
    let words = ["package", "--list", "--allow-dirty", "--offline"];
    let listed = Command::new(env!("CARGO")).args(words).current_dir(PACKAGE).output().unwrap();
    let listed = String::from_utf8(listed.stdout).unwrap();
    for name in [
        "LICENSE",
        "NOTICE",
        "CHANGELOG.md",
        "README.md",
        "docs/MOVING.md",
        "man/shorgavel.1",
        "examples/screen.rs",
        "examples/sum.rs",
    ] {
        assert!(listed.lines().any(|line| line == name), "{name}: {listed}");
    }
    let licence = fs::read_to_string(format!("{PACKAGE}/LICENSE")).unwrap();
    assert!(licence.contains("Apache License") && licence.contains("Version 2.0, January 2004"));
    assert!(fs::read_to_string(format!("{PACKAGE}/NOTICE")).unwrap().contains("sqlite-parser-nom"));
    let manifest = fs::read_to_string(format!("{PACKAGE}/Cargo.toml")).unwrap();
    assert!(manifest.contains("\nlicense = \"Apache-2.0\"\n") && !manifest.contains("repository"));
}

#[test]
fn readings_have_names() {
    for reading in Reading::ALL {
        assert_eq!(reading.to_string().parse(), Ok(reading));
    }
    let wrong = "Old".parse::<Reading>().unwrap_err();
    assert_eq!(wrong.to_string(), "the readings are old, file and guarded");
}

#[test]
fn values_are_shown_as_in_sql() {
    for (value, shown) in [
        (Value::Null, "null"),
        (Value::Integer(i64::MIN), "-9223372036854775808"),
        (Value::Real(44.0), "44.0"),
        (Value::Real(-0.0), "-0.0"),
        (Value::Real(1e300), "1e300"),
        (Value::Real(f64::from_bits(0x7ff0_0000_0000_0001)), "nan(7ff0000000000001)"),
        (Value::Text("it's Ω".as_bytes()), "'it''s Ω'"),
        (Value::Text(b"\xff"), "x'ff'"),
        (Value::Blob(&[]), "x''"),
        (Value::Blob(&[0, 255]), "x'00ff'"),
    ] {
        assert_eq!(value.to_string(), shown);
    }
    assert_eq!(format!("{:>4}|", Value::Integer(7)), "   7|");
}
