//! What HTML takes for its own is written as a name, so that nothing from a file becomes markup.

use crate::out::Out;

pub fn text(out: &mut Out, words: &str) {
    let mut plain = 0;
    for (at, byte) in words.bytes().enumerate() {
        let name: &[u8] = match byte {
            b'&' => b"&amp;",
            b'<' => b"&lt;",
            b'>' => b"&gt;",
            b'"' => b"&quot;",
            _ => continue,
        };
        out.text(&words.as_bytes()[plain..at]);
        out.text(name);
        plain = at + 1;
    }
    out.text(&words.as_bytes()[plain..]);
}
