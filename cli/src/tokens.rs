//! The tokens of a text: names, numbers, signs, the longest first. Blanks and comments part them.

#[derive(Clone, Copy, Debug, PartialEq, Eq)]
pub struct Token {
    /// Place of the first byte.
    pub start: usize,
    /// Place after the last byte.
    pub end: usize,
}

impl Token {
    pub fn word<'a>(&self, text: &'a [u8]) -> &'a str {
        std::str::from_utf8(&text[self.start..self.end]).unwrap_or("")
    }
}

const LONG_SIGNS: [&[u8]; 7] = [b"..", b"<=", b">=", b"==", b"!=", b"||", b"->"];

/// All tokens of a text.
pub fn split(text: &[u8]) -> Vec<Token> {
    let mut tokens = Vec::new();
    let mut place = 0;
    while place < text.len() {
        let rest = &text[place..];
        if rest[0].is_ascii_whitespace() {
            place += 1;
        } else if rest.starts_with(b"//") {
            place += count(rest, |byte| byte != b'\n');
        } else {
            let end = place + first_length(rest);
            tokens.push(Token { start: place, end });
            place = end;
        }
    }
    tokens
}

fn first_length(rest: &[u8]) -> usize {
    let digit = |byte: u8| byte.is_ascii_digit();
    if is_name(&rest[..1]) {
        return count(rest, |byte| byte.is_ascii_alphanumeric() || byte == b'_');
    }
    if digit(rest[0]) {
        let whole = count(rest, digit);
        let part = rest.get(whole + 1..).map_or(0, |after| count(after, digit));
        return if rest.get(whole) == Some(&b'.') && part > 0 { whole + 1 + part } else { whole };
    }
    if LONG_SIGNS.iter().any(|sign| rest.starts_with(sign)) {
        2
    } else {
        1
    }
}

fn count(bytes: &[u8], goes_on: impl Fn(u8) -> bool) -> usize {
    bytes.iter().take_while(|&&byte| goes_on(byte)).count()
}

/// Does the word begin as a name does?
pub fn is_name(word: &[u8]) -> bool {
    word.first().is_some_and(|&byte| byte.is_ascii_alphabetic() || byte == b'_')
}

/// Reads tokens from the first on.
pub struct Cursor<'a> {
    pub text: &'a [u8],
    tokens: Vec<Token>,
    at: usize,
}

impl<'a> Cursor<'a> {
    pub fn new(text: &'a [u8]) -> Cursor<'a> {
        Cursor { text, tokens: split(text), at: 0 }
    }

    /// The word of the token that is so many after the present one; nothing past the end.
    pub fn ahead(&self, count: usize) -> &'a str {
        self.tokens.get(self.at + count).map_or("", |token| token.word(self.text))
    }

    pub fn word(&self) -> &'a str {
        self.ahead(0)
    }

    /// The present token; past the end an empty one at the text's end.
    pub fn token(&self) -> Token {
        self.tokens.get(self.at).copied().unwrap_or(Token { start: self.text.len(), end: self.text.len() })
    }

    pub fn pass(&mut self) -> Token {
        let token = self.token();
        self.at += 1;
        token
    }

    /// Where it is, to come back to.
    pub fn mark(&self) -> usize {
        self.at
    }

    pub fn back_to(&mut self, mark: usize) {
        self.at = mark;
    }

    /// Goes past the token if it is this sign.
    pub fn take(&mut self, sign: &str) -> bool {
        let is = self.word() == sign;
        self.at += usize::from(is);
        is
    }
}

#[cfg(test)]
mod tests {
    use super::*;

    #[test]
    fn words() {
        let words = |text: &'static str| -> Vec<&str> {
            split(text.as_bytes()).iter().map(|token| token.word(text.as_bytes())).collect()
        };
        assert_eq!(words("a1..2 // x\n->1.5.{"), ["a1", "..", "2", "->", "1.5", ".", "{"]);
        assert_eq!(words("|||1."), ["||", "|", "1", "."]);
    }
}
