//! Decimal numbers and times, read from whole words.

/// Digits only, at least one; a value past the largest u64 stays there, out of every bound.
pub fn decimal(digits: &[u8]) -> Option<u64> {
    if digits.is_empty() || !digits.iter().all(u8::is_ascii_digit) {
        return None;
    }
    let step = |value: u64, &digit: &u8| value.saturating_mul(10).saturating_add(u64::from(digit - b'0'));
    Some(digits.iter().fold(0, step))
}

/// A whole number and `ns` or `ps`, in ps.
pub fn time(word: &[u8]) -> Option<u64> {
    let (digits, unit) = word.split_at(word.len().saturating_sub(2));
    match unit {
        b"ns" => decimal(digits).map(|value| value.saturating_mul(1_000)),
        b"ps" => decimal(digits),
        _ => None,
    }
}
