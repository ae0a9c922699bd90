//! The fields of lines: base64 (RFC 4648, section 4) in its only spelling, or a dash for no bytes.

fn value(letter: u8) -> Option<u32> {
    Some(match letter {
        b'A'..=b'Z' => u32::from(letter - b'A'),
        b'a'..=b'z' => u32::from(letter - b'a') + 26,
        b'0'..=b'9' => u32::from(letter - b'0') + 52,
        b'+' => 62,
        b'/' => 63,
        _ => return None,
    })
}

/// The bytes of a field.
pub fn field(text: &[u8]) -> Option<Vec<u8>> {
    if text == b"-" {
        return Some(Vec::new());
    }
    if text.is_empty() || text.len() % 4 != 0 {
        return None;
    }
    let padding = if text.ends_with(b"==") { 2 } else { usize::from(text.ends_with(b"=")) };
    let mut out = Vec::with_capacity(text.len() / 4 * 3);
    let (mut bits, mut count) = (0u32, 0);
    for &letter in &text[..text.len() - padding] {
        bits = bits << 6 | value(letter)?;
        count += 6;
        if count >= 8 {
            count -= 8;
            out.push((bits >> count) as u8);
            bits &= (1 << count) - 1;
        }
    }
    // (no bits left over)
    (bits == 0).then_some(out)
}

#[cfg(test)]
mod tests {
    use super::field;

    // RFC 4648, section 10, and what a strict reader refuses.
    #[test]
    fn reads_base64() {
        for (text, wanted) in [("Zg==", "f"), ("Zm8=", "fo"), ("Zm9v", "foo"), ("Zm9vYg==", "foob"), ("Zm9vYmFy", "foobar"), ("-", "")] {
            assert_eq!(field(text.as_bytes()).as_deref(), Some(wanted.as_bytes()), "{text}");
        }
        for text in ["", "=", "==", "====", "A===", "Zg", "Zg=", "Zh==", "Zm9=", "Zg==Zg==", "Zm9v\n", "Zm-_", "Z g=", "--", "-Zg="] {
            assert_eq!(field(text.as_bytes()), None, "{text}");
        }
    }
}
