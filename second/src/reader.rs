//! The tokens of a text under a moving place, with the refusals that hang on one token: 4 to 9.

use crate::names::{is_name, NameTable};
use crate::refusal::*;
use crate::tokens::{check_bytes, token_from, Token};

pub struct Reader<'t> {
    pub text: &'t [u8],
    here: Token,
}

impl<'t> Reader<'t> {
    pub fn new(text: &'t [u8]) -> Answer<Reader<'t>> {
        check_bytes(text)?;
        Ok(Reader { text, here: token_from(text, 0) })
    }

    /// The token here; at the end of the text the one of length 0, which fits nothing.
    pub fn peek(&self) -> Token {
        self.here
    }

    pub fn take(&mut self) -> Token {
        let token = self.here;
        self.here = token_from(self.text, token.end());
        token
    }

    pub fn at_end(&self) -> bool {
        self.here.length == 0
    }

    pub fn refuse(&self, number: u8) -> Refusal {
        self.peek().refuse(number)
    }

    pub fn word(&self) -> &'t [u8] {
        self.peek().bytes(self.text)
    }

    pub fn is(&self, byte: u8) -> bool {
        self.peek().first == byte
    }

    pub fn is_fixed(&self, word: &[u8]) -> bool {
        self.word() == word
    }

    pub fn byte(&mut self, byte: u8) -> Answer<Token> {
        if self.is(byte) {
            Ok(self.take())
        } else {
            Err(self.refuse(TOKEN_NOT_ALLOWED))
        }
    }

    pub fn bytes(&mut self, bytes: &[u8]) -> Answer<()> {
        bytes.iter().try_for_each(|&byte| self.byte(byte).map(|_| ()))
    }

    pub fn fixed(&mut self, word: &[u8]) -> Answer<Token> {
        if self.is_fixed(word) {
            Ok(self.take())
        } else {
            Err(self.refuse(TOKEN_NOT_ALLOWED))
        }
    }

    pub fn any_word(&mut self) -> Answer<Token> {
        if self.peek().is_word() {
            Ok(self.take())
        } else {
            Err(self.refuse(TOKEN_NOT_ALLOWED))
        }
    }

    /// A word that must be a name.
    pub fn name(&mut self) -> Answer<Token> {
        let token = self.any_word()?;
        if is_name(token.bytes(self.text)) {
            Ok(token)
        } else {
            Err(token.refuse(NOT_A_NAME))
        }
    }

    /// A name to declare in `space`; `full` says that it would be one too many.
    pub fn new_name(&mut self, space: &NameTable, full: bool) -> Answer<Token> {
        let token = self.name()?;
        if space.find(self.text, token.bytes(self.text)).is_some() {
            Err(token.refuse(NAME_USED))
        } else if full {
            Err(token.refuse(ONE_TOO_MANY))
        } else {
            Ok(token)
        }
    }

    /// A name declared in `space`, with its number there.
    pub fn known(&mut self, space: &NameTable) -> Answer<(usize, Token)> {
        let token = self.any_word()?;
        let word = token.bytes(self.text);
        match space.find(self.text, word) {
            Some(index) => Ok((index, token)),
            None if is_name(word) => Err(token.refuse(NAME_UNKNOWN)),
            None => Err(token.refuse(NOT_A_NAME)),
        }
    }

    /// A word read as a number by `value`, from `least` to `most`.
    pub fn number(&mut self, value: fn(&[u8]) -> Option<u64>, least: u64, most: u64) -> Answer<u64> {
        let token = self.any_word()?;
        match value(token.bytes(self.text)) {
            Some(number) if number >= least && number <= most => Ok(number),
            _ => Err(token.refuse(BAD_NUMBER)),
        }
    }
}
