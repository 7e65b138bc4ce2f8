//! Splits a text into tokens: names, numbers, signs, the longest first.
//!
//! Space, tab, LF and CR part tokens. `//` runs to the next LF or the end of the text.
//! Every other byte is a token of its own that fits nowhere.

#[derive(Clone, Copy, PartialEq, Eq, Debug, PartialOrd, Ord, Hash)]
pub enum Kind {
    Name,
    /// A number without a point.
    Whole,
    /// A number with a point and at least one digit after it.
    Decimal,
    Abs,
    Max,
    Min,
    Union,
    Inter,
    /// `=`
    Assign,
    /// `;`
    Semicolon,
    /// `[`
    OpenSquare,
    /// `]`
    CloseSquare,
    /// `{`
    OpenBrace,
    /// `}`
    CloseBrace,
    /// `(`
    OpenRound,
    /// `)`
    CloseRound,
    /// `,`
    Comma,
    /// `.`
    Point,
    /// `..`
    Range,
    /// `+`
    Plus,
    /// `-`
    Minus,
    /// `*`
    Times,
    /// `/`
    Over,
    /// `\`
    Without,
    /// `<`
    Less,
    /// `<=`
    LessEqual,
    /// `>`
    Greater,
    /// `>=`
    GreaterEqual,
    /// `==`
    Equal,
    /// `!=`
    Unequal,
    /// `&`
    And,
    /// `|`
    Or,
    /// `||`
    Parallel,
    /// `->`
    Arrow,
    /// `!`
    Bang,
    /// `#`
    Hash,
    /// `?`
    Question,
    /// `~`
    Tilde,
    /// `@`
    At,
    /// Any other byte.
    Other,
}

#[derive(Clone, Copy, PartialEq, Eq, Debug)]
pub struct Token {
    pub kind: Kind,
    /// Place of the first byte.
    pub start: usize,
    /// Place after the last byte.
    pub end: usize,
}

/// The number of a token in its text.
pub type TokenId = usize;

impl Token {
    /// The token's bytes.
    pub fn word<'a>(&self, text: &'a [u8]) -> &'a [u8] {
        &text[self.start..self.end]
    }
}

/// All tokens of a text, in order.
pub fn split(text: &[u8]) -> Vec<Token> {
    let mut tokens = Vec::new();
    let mut place = 0;
    while place < text.len() {
        let rest = &text[place..];
        if matches!(rest[0], b' ' | b'\t' | b'\n' | b'\r') {
            place += 1;
        } else if rest.starts_with(b"//") {
            place += rest.iter().take_while(|&&byte| byte != b'\n').count();
        } else {
            let (kind, length) = first_token(rest);
            tokens.push(Token { kind, start: place, end: place + length });
            place += length;
        }
    }
    tokens
}

/// Kind and length of the token that begins at the first byte of `rest`.
fn first_token(rest: &[u8]) -> (Kind, usize) {
    let first = rest[0];
    if first.is_ascii_alphabetic() || first == b'_' {
        let length = rest.iter().take_while(|&&byte| byte.is_ascii_alphanumeric() || byte == b'_').count();
        return (word_kind(&rest[..length]), length);
    }
    if first.is_ascii_digit() {
        let before = digits(rest);
        if rest.get(before) == Some(&b'.') {
            let after = digits(&rest[before + 1..]);
            if after > 0 {
                return (Kind::Decimal, before + 1 + after);
            }
        }
        return (Kind::Whole, before);
    }
    if let Some(kind) = two_byte_sign(rest) {
        return (kind, 2);
    }
    (one_byte_sign(first), 1)
}

/// How many digits stand at the start.
fn digits(rest: &[u8]) -> usize {
    rest.iter().take_while(|byte| byte.is_ascii_digit()).count()
}

fn word_kind(word: &[u8]) -> Kind {
    match word {
        b"abs" => Kind::Abs,
        b"max" => Kind::Max,
        b"min" => Kind::Min,
        b"union" => Kind::Union,
        b"inter" => Kind::Inter,
        _ => Kind::Name,
    }
}

fn two_byte_sign(rest: &[u8]) -> Option<Kind> {
    let kind = match rest.get(..2)? {
        b".." => Kind::Range,
        b"<=" => Kind::LessEqual,
        b">=" => Kind::GreaterEqual,
        b"==" => Kind::Equal,
        b"!=" => Kind::Unequal,
        b"||" => Kind::Parallel,
        b"->" => Kind::Arrow,
        _ => return None,
    };
    Some(kind)
}

fn one_byte_sign(byte: u8) -> Kind {
    match byte {
        b'=' => Kind::Assign,
        b';' => Kind::Semicolon,
        b'[' => Kind::OpenSquare,
        b']' => Kind::CloseSquare,
        b'{' => Kind::OpenBrace,
        b'}' => Kind::CloseBrace,
        b'(' => Kind::OpenRound,
        b')' => Kind::CloseRound,
        b',' => Kind::Comma,
        b'.' => Kind::Point,
        b'+' => Kind::Plus,
        b'-' => Kind::Minus,
        b'*' => Kind::Times,
        b'/' => Kind::Over,
        b'\\' => Kind::Without,
        b'<' => Kind::Less,
        b'>' => Kind::Greater,
        b'&' => Kind::And,
        b'|' => Kind::Or,
        b'!' => Kind::Bang,
        b'#' => Kind::Hash,
        b'?' => Kind::Question,
        b'~' => Kind::Tilde,
        b'@' => Kind::At,
        _ => Kind::Other,
    }
}

/// Question 4: the place of the `(` that is the 25th unclosed one, if there is one.
/// A `)` with none open counts nothing.
pub fn too_deep(tokens: &[Token]) -> Option<usize> {
    let mut open = 0;
    for token in tokens {
        match token.kind {
            Kind::OpenRound => {
                open += 1;
                if open > 24 {
                    return Some(token.start);
                }
            }
            Kind::CloseRound if open > 0 => open -= 1,
            _ => {}
        }
    }
    None
}

#[cfg(test)]
mod tests {
    use super::*;

    fn kinds(text: &str) -> Vec<Kind> {
        split(text.as_bytes()).iter().map(|token| token.kind).collect()
    }

    #[test]
    fn points() {
        assert_eq!(kinds("1..2"), [Kind::Whole, Kind::Range, Kind::Whole]);
        assert_eq!(kinds("1.2"), [Kind::Decimal]);
        assert_eq!(kinds("1.2.3"), [Kind::Decimal, Kind::Point, Kind::Whole]);
        assert_eq!(kinds("1.2..3.4"), [Kind::Decimal, Kind::Range, Kind::Decimal]);
        assert_eq!(kinds("1...2"), [Kind::Whole, Kind::Range, Kind::Point, Kind::Whole]);
        assert_eq!(kinds("1."), [Kind::Whole, Kind::Point]);
        assert_eq!(kinds(".5"), [Kind::Point, Kind::Whole]);
        assert_eq!(kinds("1.a"), [Kind::Whole, Kind::Point, Kind::Name]);
    }

    #[test]
    fn signs_and_words() {
        assert_eq!(kinds("->-> -"), [Kind::Arrow, Kind::Arrow, Kind::Minus]);
        assert_eq!(kinds("|||"), [Kind::Parallel, Kind::Or]);
        assert_eq!(kinds("==="), [Kind::Equal, Kind::Assign]);
        assert_eq!(kinds("!=!"), [Kind::Unequal, Kind::Bang]);
        assert_eq!(kinds("abs absx _1 3a"), [Kind::Abs, Kind::Name, Kind::Name, Kind::Whole, Kind::Name]);
        assert_eq!(kinds("a//b\nc/d///"), [Kind::Name, Kind::Name, Kind::Over, Kind::Name]);
        assert_eq!(kinds("^:$"), [Kind::Other; 3]);
        assert_eq!(split(b"a \x00\xff").len(), 3);
    }

    #[test]
    fn depth() {
        let text = format!("){}){}", "(".repeat(24), "((");
        assert_eq!(too_deep(&split(text.as_bytes())), Some(27));
        let text = format!("){}){}", "(".repeat(24), "(");
        assert_eq!(too_deep(&split(text.as_bytes())), None);
    }
}
