// Numbers as text: decimal, no leading zeros, no plus, minus only before a value below zero.

/// The number that the whole text is, if it has the form and lies in low to high.
pub fn number(text: &[u8], low: u32, high: u32) -> Option<u32> {
    if text.is_empty() || !text.iter().all(u8::is_ascii_digit) {
        return None;
    }
    if text[0] == b'0' && text.len() > 1 {
        return None;
    }
    let n: u32 = std::str::from_utf8(text).ok()?.parse().ok()?;
    (low <= n && n <= high).then_some(n)
}

/// A value: any signed 32-bit number.
pub fn value(text: &[u8]) -> Option<i32> {
    match text.strip_prefix(b"-") {
        Some(digits) => {
            let n = number(digits, 1, 1 << 31)?;
            i32::try_from(-i64::from(n)).ok()
        }
        None => i32::try_from(number(text, 0, u32::MAX)?).ok(),
    }
}
