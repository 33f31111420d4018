//! Lines and columns as an editor counts them: both from 1, a new line after each LF, columns in bytes.

#[derive(Clone, Copy, Debug, PartialEq, Eq)]
pub struct Position {
    pub line: u64,
    pub column: u64,
}

impl Position {
    pub const START: Position = Position { line: 1, column: 1 };

    /// Where the byte behind these stands, of which the first stands here.
    pub fn past(self, bytes: &[u8]) -> Position {
        let ends = bytes.iter().filter(|&&byte| byte == b'\n').count() as u64;
        match bytes.iter().rposition(|&byte| byte == b'\n') {
            Some(last) => Position { line: self.line + ends, column: (bytes.len() - last) as u64 },
            None => Position { column: self.column + bytes.len() as u64, ..self },
        }
    }
}

/// Where the byte at a place stands, in a text of any length; at its end and past it, where one more byte would stand.
pub fn position(text: &[u8], place: u64) -> Position {
    let place = usize::try_from(place).unwrap_or(usize::MAX).min(text.len());
    Position::START.past(&text[..place])
}
