//! A plain reader of accepted texts: which sums, branches, calls and channel names stand where.
//!
//! The engine has judged the text before; this reader decides nothing, it finds the words to print. It is not proved.

use crate::tokens::{is_name, Cursor, Token};

#[derive(Default)]
pub struct Outline<'a> {
    /// Variables whose number has no point.
    whole: Vec<&'a str>,
    pub definitions: Vec<Definition<'a>>,
    /// In the order of their first tokens.
    pub sums: Vec<Sum<'a>>,
    /// How many processes of which definition the system line names.
    pub system: Vec<(u64, &'a str)>,
    /// Channel names and names of waits by first appearance.
    pub channels: Vec<Token>,
    pub waits: Vec<Token>,
}

pub struct Definition<'a> {
    pub name: Token,
    pub parameters: Vec<&'a str>,
    /// The numbers of its own sums, without those of continuations.
    pub sums: Vec<usize>,
}

pub struct Sum<'a> {
    pub definition: usize,
    /// The locals in scope: parameters, then bound names.
    pub locals: Vec<&'a str>,
    pub branches: Vec<Branch<'a>>,
}

pub struct Branch<'a> {
    /// Where the branch and its `{` begin, and where its `}` ends.
    pub first: usize,
    pub action: usize,
    pub end: usize,
    pub offer: Offer<'a>,
    /// What follows: calls by name, and sums by number.
    pub calls: Vec<&'a str>,
    pub next: Vec<usize>,
}

/// What a branch does on which channel: the items as written, nothing for a wait.
pub struct Offer<'a> {
    pub kind: Kind,
    pub items: Vec<&'a str>,
    bound: Vec<&'a str>,
}

#[derive(Clone, Copy, PartialEq, Eq, Debug)]
pub enum Kind {
    Wait,
    Launch,
    Kill,
    Receive,
    Check,
    Send,
    Take,
}

impl Outline<'_> {
    /// Reads a text that the engine accepted; nothing for a text that is no model.
    pub fn read(text: &[u8]) -> Option<Outline<'_>> {
        let mut reader = Reader { cursor: Cursor::new(text), made: Outline::default() };
        reader.variables()?;
        while reader.is_definition() {
            reader.definition()?;
        }
        reader.system()?;
        Some(reader.made)
    }
}

struct Reader<'a> {
    cursor: Cursor<'a>,
    made: Outline<'a>,
}

impl<'a> Reader<'a> {
    fn variables(&mut self) -> Option<()> {
        while self.cursor.ahead(1) == "=" {
            let name = self.cursor.word();
            self.skip_to("=");
            self.cursor.take("-");
            if !self.cursor.word().contains('.') {
                self.made.whole.push(name);
            }
            self.skip_to(";");
        }
        Some(())
    }

    /// Goes past the next token of this word, or to the end.
    fn skip_to(&mut self, word: &str) {
        while !self.cursor.word().is_empty() && self.cursor.word() != word {
            self.cursor.pass();
        }
        self.cursor.pass();
    }

    /// A system item has numbers in its brackets, and no `=` after them.
    fn is_definition(&self) -> bool {
        let end = (0..).find(|&at| ["]", ""].contains(&self.cursor.ahead(at)));
        end.is_some_and(|end| self.cursor.ahead(end + 1) == "=")
    }

    fn definition(&mut self) -> Option<()> {
        let name = self.cursor.pass();
        let parameters = self.names("[", "]")?;
        self.expect("=")?;
        let number = self.made.definitions.len();
        self.made.definitions.push(Definition { name, parameters: parameters.clone(), sums: Vec::new() });
        loop {
            let sum = self.sum(number, &parameters)?;
            self.made.definitions[number].sums.push(sum);
            if !self.cursor.take("||") {
                return self.expect(";");
            }
        }
    }

    fn expect(&mut self, sign: &str) -> Option<()> {
        self.cursor.take(sign).then_some(())
    }

    /// A list of names between two signs.
    fn names(&mut self, open: &str, close: &str) -> Option<Vec<&'a str>> {
        self.expect(open)?;
        let mut names = Vec::new();
        while !self.cursor.take(close) {
            if !self.cursor.take(",") {
                names.push(self.name()?);
            }
        }
        Some(names)
    }

    fn name(&mut self) -> Option<&'a str> {
        let word = self.cursor.word();
        self.cursor.pass();
        is_name(word.as_bytes()).then_some(word)
    }

    fn sum(&mut self, definition: usize, locals: &[&'a str]) -> Option<usize> {
        let number = self.begin_sum(definition, locals);
        loop {
            self.branch(number)?;
            if !self.cursor.take("+") {
                return Some(number);
            }
        }
    }

    fn begin_sum(&mut self, definition: usize, locals: &[&'a str]) -> usize {
        self.made.sums.push(Sum { definition, locals: locals.to_vec(), branches: Vec::new() });
        self.made.sums.len() - 1
    }

    fn branch(&mut self, sum: usize) -> Option<()> {
        let first = self.cursor.token().start;
        if self.cursor.word() == "[" {
            self.skip_to("->");
        }
        let action = self.cursor.token().start;
        self.expect("{")?;
        let offer = self.offer(sum)?;
        self.skip_to_brace();
        let end = self.cursor.pass().end;
        let mut locals = self.made.sums[sum].locals.clone();
        locals.extend(&offer.bound);
        let number = self.made.sums[sum].branches.len();
        let branch = Branch { first, action, end, offer, calls: Vec::new(), next: Vec::new() };
        self.made.sums[sum].branches.push(branch);
        if self.cursor.take(".") {
            self.continuation(sum, number, &locals)?;
        }
        Some(())
    }

    fn skip_to_brace(&mut self) {
        while !["}", ""].contains(&self.cursor.word()) {
            self.cursor.pass();
        }
    }

    /// A call, a group, or one more branch, which is a sum of its own.
    fn continuation(&mut self, sum: usize, branch: usize, locals: &[&'a str]) -> Option<()> {
        let definition = self.made.sums[sum].definition;
        if !["{", "["].contains(&self.cursor.word()) {
            return self.item(sum, branch, locals);
        }
        let next = self.begin_sum(definition, locals);
        self.made.sums[sum].branches[branch].next.push(next);
        self.branch(next)
    }

    /// An item of a group: a group, a call or a sum.
    fn item(&mut self, sum: usize, branch: usize, locals: &[&'a str]) -> Option<()> {
        if self.cursor.take("(") {
            loop {
                self.item(sum, branch, locals)?;
                if !self.cursor.take("||") {
                    return self.expect(")");
                }
            }
        }
        if is_name(self.cursor.word().as_bytes()) {
            let name = self.name()?;
            self.made.sums[sum].branches[branch].calls.push(name);
            self.skip_to("]");
            return Some(());
        }
        let next = self.sum(self.made.sums[sum].definition, locals)?;
        self.made.sums[sum].branches[branch].next.push(next);
        Some(())
    }

    /// The action after its `{`, up to its rate.
    fn offer(&mut self, sum: usize) -> Option<Offer<'a>> {
        let check = self.cursor.take("~");
        let shakes = self.cursor.take("@");
        let first = self.cursor.token();
        let (items, sign) = self.items(sum)?;
        let kind = match (sign, shakes, check) {
            ("!", true, _) => Kind::Send,
            ("!", false, _) => Kind::Launch,
            ("#", ..) => Kind::Kill,
            ("?", _, true) => Kind::Check,
            ("?", true, _) => Kind::Take,
            ("?", ..) => Kind::Receive,
            _ => Kind::Wait,
        };
        if kind == Kind::Wait {
            note(&mut self.made.waits, first, self.cursor.text);
            return Some(Offer { kind, items: Vec::new(), bound: Vec::new() });
        }
        self.skip_to("]");
        let bound = if self.cursor.word() == "(" { self.names("(", ")")? } else { Vec::new() };
        Some(Offer { kind, items, bound })
    }

    /// The items of a channel as written, and the sign after them. A wait has none: its `}` comes first.
    fn items(&mut self, sum: usize) -> Option<(Vec<&'a str>, &'a str)> {
        let (mut items, mut lone) = (Vec::new(), Vec::new());
        loop {
            let from = self.cursor.token();
            let to = self.item_end()?;
            items.push(std::str::from_utf8(&self.cursor.text[from.start..to.end]).ok()?);
            if from == to {
                lone.push(from);
            }
            match self.cursor.word() {
                "}" => return Some((Vec::new(), "}")),
                "," => self.cursor.pass(),
                sign => {
                    self.note_channels(sum, &lone);
                    self.cursor.pass();
                    return Some((items, sign));
                }
            };
        }
    }

    /// Goes to the sign after an item, and gives the item's last token.
    fn item_end(&mut self) -> Option<Token> {
        let (mut depth, mut last) = (0, self.cursor.token());
        loop {
            let word = self.cursor.word();
            if depth == 0 && ["!", "#", "?", ",", "}"].contains(&word) {
                return Some(last);
            }
            if word.is_empty() {
                return None;
            }
            depth += i64::from(word == "(") - i64::from(word == ")");
            last = self.cursor.pass();
        }
    }

    /// Lone names that are neither locals nor whole variables are channel names.
    fn note_channels(&mut self, sum: usize, lone: &[Token]) {
        for &token in lone {
            let word = token.word(self.cursor.text);
            let value = self.made.sums[sum].locals.contains(&word) || self.made.whole.contains(&word);
            if is_name(word.as_bytes()) && !value {
                note(&mut self.made.channels, token, self.cursor.text);
            }
        }
    }

    fn system(&mut self) -> Option<()> {
        loop {
            let count = self.cursor.word().parse().ok();
            if count.is_some() {
                self.cursor.pass();
                self.expect("*")?;
            }
            let name = self.name()?;
            self.made.system.push((count.unwrap_or(1), name));
            self.skip_to("]");
            if !self.cursor.take("||") {
                return self.expect(";");
            }
        }
    }
}

/// Adds a name that was not met before.
fn note(names: &mut Vec<Token>, token: Token, text: &[u8]) {
    if !names.iter().any(|met| met.word(text) == token.word(text)) {
        names.push(token);
    }
}
