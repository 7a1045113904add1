use std::borrow::Cow;

/// How a database's texts are encoded.
#[derive(Clone, Copy, Debug, PartialEq, Eq, Hash)]
pub enum TextEncoding {
    /// 1
    Utf8,
    /// 2
    Utf16Le,
    /// 3
    Utf16Be,
}

impl TextEncoding {
    /// A header with another number than 1, 2 or 3 is refused, so no other comes here.
    pub(crate) fn of(number: u32) -> TextEncoding {
        match number {
            2 => TextEncoding::Utf16Le,
            3 => TextEncoding::Utf16Be,
            _ => TextEncoding::Utf8,
        }
    }

    /// The number in the header.
    #[must_use]
    pub fn number(self) -> u32 {
        match self {
            TextEncoding::Utf8 => 1,
            TextEncoding::Utf16Le => 2,
            TextEncoding::Utf16Be => 3,
        }
    }

    /// The characters of a text's bytes; none if they are not in this encoding.
    pub fn decode(self, bytes: &[u8]) -> Option<Cow<'_, str>> {
        match self {
            TextEncoding::Utf8 => std::str::from_utf8(bytes).ok().map(Cow::Borrowed),
            TextEncoding::Utf16Le => utf16(bytes, u16::from_le_bytes),
            TextEncoding::Utf16Be => utf16(bytes, u16::from_be_bytes),
        }
    }

    /// The characters for display: a replacement character stands for each part that is not in this encoding.
    pub fn decode_lossy(self, bytes: &[u8]) -> Cow<'_, str> {
        match self {
            TextEncoding::Utf8 => String::from_utf8_lossy(bytes),
            TextEncoding::Utf16Le => utf16_lossy(bytes, u16::from_le_bytes),
            TextEncoding::Utf16Be => utf16_lossy(bytes, u16::from_be_bytes),
        }
    }
}

fn utf16_lossy(bytes: &[u8], unit: fn([u8; 2]) -> u16) -> Cow<'_, str> {
    let pairs = bytes.chunks_exact(2);
    let half = (!pairs.remainder().is_empty()).then_some(char::REPLACEMENT_CHARACTER);
    let units = pairs.map(|pair| unit([pair[0], pair[1]]));
    let characters = char::decode_utf16(units).map(|one| one.unwrap_or(char::REPLACEMENT_CHARACTER));
    Cow::Owned(characters.chain(half).collect())
}

fn utf16(bytes: &[u8], unit: fn([u8; 2]) -> u16) -> Option<Cow<'_, str>> {
    let pairs = bytes.chunks_exact(2);
    if !pairs.remainder().is_empty() {
        return None;
    }
    let units = pairs.map(|pair| unit([pair[0], pair[1]]));
    char::decode_utf16(units).collect::<Result<String, _>>().ok().map(Cow::Owned)
}

#[cfg(test)]
mod tests {
    use super::*;

    #[test]
    fn texts_are_decoded_or_not_at_all() {
        assert_eq!(TextEncoding::Utf8.decode("Volt Ω".as_bytes()).as_deref(), Some("Volt Ω"));
        assert_eq!(TextEncoding::Utf8.decode(&[0xff]), None);
        assert_eq!(TextEncoding::Utf16Le.decode(b"H\0i\0").as_deref(), Some("Hi"));
        assert_eq!(TextEncoding::Utf16Be.decode(b"\0H\0i").as_deref(), Some("Hi"));
        assert_eq!(TextEncoding::Utf16Be.decode(b"\0H\0"), None);
        assert_eq!(TextEncoding::Utf16Be.decode(b"\xd8\0\0H"), None);
    }

    #[test]
    fn what_is_no_text_is_displayed_as_far_as_it_is_one() {
        assert_eq!(TextEncoding::Utf8.decode_lossy("Volt Ω".as_bytes()), "Volt Ω");
        assert_eq!(TextEncoding::Utf8.decode_lossy(b"a\xffb"), "a\u{fffd}b");
        assert_eq!(TextEncoding::Utf16Le.decode_lossy(b"H\0i\0"), "Hi");
        assert_eq!(TextEncoding::Utf16Be.decode_lossy(b"\xd8\0\0H\0"), "\u{fffd}H\u{fffd}");
    }
}
