//! Fields of comma-separated values.

use crate::out::Out;

/// A field, in quotes where it needs them.
pub fn field(out: &mut Out, words: &str) {
    if !words.contains([',', '"', '\n', '\r']) {
        return out.text(words.as_bytes());
    }
    out.text(b"\"");
    for (at, part) in words.split('"').enumerate() {
        out.text(if at == 0 { b"" } else { b"\"\"" });
        out.text(part.as_bytes());
    }
    out.text(b"\"");
}

#[cfg(test)]
mod tests {
    use super::*;

    #[test]
    fn fields_are_quoted_where_they_must_be() {
        for (words, written) in
            [("load", "load"), ("a,b", "\"a,b\""), ("a\"b\"", "\"a\"\"b\"\"\""), ("a\nb", "\"a\nb\""), ("", "")]
        {
            let mut out = Out::new(None).unwrap();
            field(&mut out, words);
            assert_eq!(out.kept(), written.as_bytes());
        }
    }
}
