//! Strings and numbers of JSON.

use crate::out::Out;
use std::io::Write;

/// Integers up to this, either way, are the same to every reader of JSON: many take numbers for reals of 64 bits.
const SAFE: u64 = (1 << 53) - 1;

/// A string in quotes. What could steer a terminal is written as an escape.
pub fn string(out: &mut Out, words: &str) {
    out.text(b"\"");
    for character in words.chars() {
        match character {
            '"' => out.text(b"\\\""),
            '\\' => out.text(b"\\\\"),
            '\n' => out.text(b"\\n"),
            '\t' => out.text(b"\\t"),
            _ if crate::words::hidden(character) => {
                let mut units = [0; 2];
                for unit in character.encode_utf16(&mut units) {
                    out.text(b"\\u");
                    out.hex(&unit.to_be_bytes());
                }
            }
            _ => out.text(character.encode_utf8(&mut [0; 4]).as_bytes()),
        }
    }
    out.text(b"\"");
}

/// A number; one that a reader might round is an object with its digits.
pub fn integer(out: &mut Out, number: i64) {
    if number.unsigned_abs() <= SAFE {
        return out.signed(number);
    }
    out.text(b"{\"integer\":\"");
    out.signed(number);
    out.text(b"\"}");
}

/// An object with the number, which reads back as the same bits, and these bits; what is no number is null beside them.
pub fn real(out: &mut Out, number: f64) {
    out.text(b"{\"real\":");
    if number.is_finite() {
        // The buffer takes all.
        let _ = write!(out, "{number:?}");
    } else {
        out.text(b"null");
    }
    out.text(b",\"bits\":\"");
    out.hex(&number.to_bits().to_be_bytes());
    out.text(b"\"}");
}

/// An object with the bytes as hexadecimal digits below their kind.
pub fn bytes(out: &mut Out, kind: &str, bytes: &[u8]) {
    out.text(b"{");
    string(out, kind);
    out.text(b":\"");
    out.hex(bytes);
    out.text(b"\"}");
}

#[cfg(test)]
mod tests {
    use super::*;

    fn written(write: impl FnOnce(&mut Out)) -> String {
        let mut out = Out::new(None).unwrap();
        write(&mut out);
        String::from_utf8(out.kept().to_vec()).unwrap()
    }

    #[test]
    fn strings_steer_no_terminal() {
        assert_eq!(written(|out| string(out, "a\"\\\n\x1b\u{202e}Ω")), r#""a\"\\\n\u001b\u202eΩ""#);
    }

    #[test]
    fn no_integer_is_rounded() {
        assert_eq!(written(|out| integer(out, -9_007_199_254_740_991)), "-9007199254740991");
        assert_eq!(written(|out| integer(out, 9_007_199_254_740_992)), r#"{"integer":"9007199254740992"}"#);
        assert_eq!(written(|out| integer(out, i64::MIN)), r#"{"integer":"-9223372036854775808"}"#);
    }

    #[test]
    fn reals_are_exact() {
        assert_eq!(written(|out| real(out, 44.0)), r#"{"real":44.0,"bits":"4046000000000000"}"#);
        assert_eq!(written(|out| real(out, -0.0)), r#"{"real":-0.0,"bits":"8000000000000000"}"#);
        assert_eq!(written(|out| real(out, 5e-324)), r#"{"real":5e-324,"bits":"0000000000000001"}"#);
        assert_eq!(written(|out| real(out, f64::INFINITY)), r#"{"real":null,"bits":"7ff0000000000000"}"#);
    }
}
