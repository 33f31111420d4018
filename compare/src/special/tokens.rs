//! Places in short texts, and the token that document 01 gives from each of them.

use second::refusal::Answer;
use second::{Located, Position, Refusal};

type Next = Answer<Option<Located>>;

const NONE: Next = Ok(None);

/// In the first line.
const fn at(place: u64, length: u64) -> Next {
    below(place, length, 1, place + 1)
}

const fn below(place: u64, length: u64, line: u64, column: u64) -> Next {
    Ok(Some(Located { place, length, position: Position { line, column } }))
}

const fn refused(number: u8, place: u64) -> Next {
    Err(Refusal { number, place })
}

pub(super) const TOKENS: [(&str, &[u8], u64, Next); 32] = [
    ("an empty text", b"", 0, NONE),
    ("a word to the text's end", b"ab", 0, at(0, 2)),
    ("the rest of a word", b"ab cd", 1, at(1, 1)),
    ("blanks are passed over", b"ab \t\r\n cd", 2, below(7, 2, 2, 2)),
    ("at the text's end", b"ab", 2, NONE),
    ("past the text's end", b"ab", 3, NONE),
    ("at the largest number", b"ab", u64::MAX, NONE),
    ("letters, digits, `_` and `.` are one word", b"aZ09_.#", 0, at(0, 6)),
    ("no other byte joins a token", b"==", 0, at(0, 1)),
    ("a quote is a token alone", b"'A'", 0, at(0, 1)),
    ("the last byte that is allowed", b"~", 0, at(0, 1)),
    ("the first behind it", b"\x7f", 0, refused(2, 0)),
    ("a byte in place of the token", b"ab\x80", 2, refused(2, 2)),
    ("what stands behind the token is not looked at", b"ab\x80/*", 0, at(0, 2)),
    ("a single slash", b"/ /", 0, at(0, 1)),
    ("a slash that ends the text", b"/", 0, at(0, 1)),
    ("a comment to LF", b"//*\r x\n y", 0, below(8, 1, 2, 2)),
    ("a comment to the text's end", b"// x", 0, NONE),
    ("on the second slash", b"// x", 1, at(1, 1)),
    ("in a comment, as if it were none", b"// x", 2, at(3, 1)),
    ("a comment parts a word", b"a/**/b", 1, at(5, 1)),
    ("between quotes too", b"'/*'*/'", 1, at(6, 1)),
    ("on the star of a comment's beginning", b"/* x */", 1, at(1, 1)),
    ("on the star of its end", b"/* x */", 5, at(5, 1)),
    ("its end begins another comment", b"/* x *//y", 6, NONE),
    ("a comment is not closed by the star that opens it", b"/*/ x", 0, refused(3, 0)),
    ("a comment closed by the last of many stars", b"/*/***/;", 0, at(7, 1)),
    ("no comment in a comment", b"/* /* */ // */\n;", 0, below(15, 1, 2, 1)),
    ("the comment that is open, not the one before", b" /**/ /* // *", 0, refused(3, 6)),
    ("a byte in a comment", b"//\0\n;", 0, refused(2, 2)),
    ("2 comes before 3", b"/* \x1f", 0, refused(2, 3)),
    ("2 comes before none", b" \0", 0, refused(2, 1)),
];
