//! A text as a row of tokens, and the blanks and comments put between them.

use super::random::Random;

#[derive(Default)]
pub struct Tokens(pub Vec<String>);

impl Tokens {
    /// Puts each blank-separated part as a token.
    pub fn put(&mut self, parts: &str) {
        self.0.extend(parts.split_whitespace().map(String::from));
    }

    pub fn word(&mut self, word: impl Into<String>) {
        self.0.push(word.into());
    }

    pub fn time(&mut self, sign: &str, word: impl Into<String>) {
        self.put("'");
        self.put(sign);
        self.word(word);
        self.put("'");
    }
}

fn is_word(token: &str) -> bool {
    token.bytes().all(|byte| byte.is_ascii_alphanumeric() || byte == b'_' || byte == b'.')
}

const BLANKS: [&str; 6] = [" ", "\n", "\t", " \r\n", "  ", " "];
const COMMENTS: [&str; 8] =
    ["/**/", "/* ; } */", "// to the end\n", "//\n", "/* // */", "// /* \r '\n", "/***/", "/*/ V { A = 0; } /*/"];

/// How the tokens are set apart; some texts are tight, some full of comments.
pub fn render(tokens: &Tokens, random: &mut Random) -> Vec<u8> {
    let (tight, noisy) = (random.percent(25), random.percent(15));
    let mut text = String::new();
    let mut last: Option<&str> = None;
    for token in &tokens.0 {
        let must = last.map_or(false, |last| (is_word(last) && is_word(token)) || last == "/" || last == "*");
        if must || !(tight || random.percent(20)) {
            text.push_str(random.pick(&BLANKS));
        }
        if noisy && random.percent(12) && last != Some("/") {
            text.push_str(random.pick(&COMMENTS));
        }
        text.push_str(token);
        last = Some(token);
    }
    if random.percent(60) {
        text.push('\n');
    }
    text.into_bytes()
}
