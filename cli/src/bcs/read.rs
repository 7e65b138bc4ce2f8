//! The reader of bcs models, after the grammar of 000, S1.1, with brackets where 000 and 001 write them.

use super::ratio::Ratio;
use super::tree::*;
use crate::tokens::{is_name, Cursor};
use std::collections::BTreeMap;

/// Brackets and prefixes one in another, and signs in the expressions of one gate, prefix or call, that are followed at
/// most.
const DEEPEST: usize = 1_000;

/// What was looked for, and the place where it isn't.
pub struct Unread {
    pub place: usize,
    pub wanted: &'static str,
}

type Read<T> = Result<T, Unread>;

/// Names that have another one in `renamed` are read as that.
pub fn read(text: &[u8], renamed: &BTreeMap<String, String>) -> Read<Model> {
    let mut reader = Reader { cursor: Cursor::new(text), depth: 0, signs: 0, renamed };
    let mut model = Model { variables: Vec::new(), definitions: Vec::new(), system: Vec::new() };
    while reader.cursor.ahead(1) == "=" {
        model.variables.push(reader.variable()?);
    }
    while reader.is_definition() {
        model.definitions.push(reader.definition()?);
    }
    loop {
        model.system.push(reader.start()?);
        if !reader.cursor.take("||") {
            break;
        }
    }
    reader.expect(";", "`;` after the system line")?;
    if reader.cursor.word().is_empty() {
        Ok(model)
    } else {
        Err(reader.unread("the end of the text"))
    }
}

struct Reader<'a> {
    cursor: Cursor<'a>,
    depth: usize,
    /// Since the present gate, prefix or call began.
    signs: usize,
    renamed: &'a BTreeMap<String, String>,
}

impl Reader<'_> {
    fn unread(&self, wanted: &'static str) -> Unread {
        Unread { place: self.cursor.token().start, wanted }
    }

    fn expect(&mut self, sign: &str, wanted: &'static str) -> Read<()> {
        if self.cursor.take(sign) {
            Ok(())
        } else {
            Err(self.unread(wanted))
        }
    }

    fn place(&self) -> usize {
        self.cursor.token().start
    }

    fn name(&mut self) -> Read<String> {
        let word = self.cursor.word();
        if !is_name(word.as_bytes()) {
            return Err(self.unread("a name"));
        }
        self.cursor.pass();
        Ok(self.renamed.get(word).cloned().unwrap_or_else(|| word.to_string()))
    }

    /// A number, perhaps with `-` before it.
    fn number(&mut self) -> Read<Ratio> {
        let mark = self.cursor.mark();
        let negative = self.cursor.take("-");
        let number =
            Ratio::read(self.cursor.word()).filter(|_| self.cursor.word().starts_with(|c: char| c.is_ascii_digit()));
        match number {
            Some(number) => {
                self.cursor.pass();
                Ok(if negative { Ratio { above: -number.above, ..number } } else { number })
            }
            None => {
                self.cursor.back_to(mark);
                Err(self.unread("a number"))
            }
        }
    }

    fn variable(&mut self) -> Read<(String, Ratio)> {
        let name = self.name()?;
        self.expect("=", "`=`")?;
        let number = self.number()?;
        self.expect(";", "`;` after a variable")?;
        Ok((name, number))
    }

    /// A system item has no `=` after its brackets.
    fn is_definition(&self) -> bool {
        let end = (0..).find(|&at| ["]", ""].contains(&self.cursor.ahead(at)));
        end.is_some_and(|end| self.cursor.ahead(end + 1) == "=")
    }

    fn definition(&mut self) -> Read<Definition> {
        let name = self.name()?;
        self.expect("[", "`[` after a definition's name")?;
        let parameters = self.list("]", |reader| reader.name())?;
        self.expect("=", "`=`")?;
        let body = self.parallel()?;
        self.expect(";", "`;` after a definition")?;
        Ok(Definition { name, parameters, body })
    }

    /// Things parted by commas up to a closing sign.
    fn list<T>(&mut self, close: &str, one: impl Fn(&mut Self) -> Read<T>) -> Read<Vec<T>> {
        let mut all = Vec::new();
        if self.cursor.take(close) {
            return Ok(all);
        }
        loop {
            all.push(one(self)?);
            if self.cursor.take(close) {
                return Ok(all);
            }
            self.expect(",", "`,` or a closing bracket")?;
        }
    }

    fn start(&mut self) -> Read<Start> {
        let place = self.place();
        let count = self.cursor.word().parse().ok();
        if count.is_some() {
            self.cursor.pass();
            self.expect("*", "`*` after a count")?;
        }
        let name = self.name()?;
        self.expect("[", "`[` after a process's name")?;
        let values = self.list("]", |reader| reader.number())?;
        Ok(Start { place, count: count.unwrap_or(1), name, values })
    }

    /// Goes one bracket or prefix deeper, if that isn't too deep.
    fn deeper<T>(&mut self, read: impl FnOnce(&mut Self) -> Read<T>) -> Read<T> {
        if self.depth == DEEPEST {
            return Err(self.unread("fewer brackets and prefixes one in another"));
        }
        self.depth += 1;
        let result = read(self);
        self.depth -= 1;
        result
    }

    /// Goes past a sign that joins two parts, if there aren't too many.
    fn sign(&mut self) -> Read<&str> {
        if self.signs == DEEPEST {
            return Err(self.unread("a shorter expression"));
        }
        self.signs += 1;
        let word = self.cursor.word();
        self.cursor.pass();
        Ok(word)
    }

    fn parallel(&mut self) -> Read<Process> {
        let mut parts = vec![self.choice()?];
        while self.cursor.take("||") {
            parts.push(self.choice()?);
        }
        Ok(alone(parts, Process::Parallel))
    }

    fn choice(&mut self) -> Read<Process> {
        let mut parts = vec![self.sequence()?];
        while self.cursor.take("+") {
            parts.push(self.sequence()?);
        }
        Ok(alone(parts, Process::Choice))
    }

    fn sequence(&mut self) -> Read<Process> {
        self.signs = 0;
        self.deeper(|reader| match reader.cursor.word() {
            "[" => reader.gated(),
            "{" => reader.prefix(),
            "(" => {
                reader.cursor.pass();
                let inside = reader.parallel()?;
                reader.expect(")", "`)`")?;
                Ok(inside)
            }
            _ => reader.call(),
        })
    }

    fn gated(&mut self) -> Read<Process> {
        let place = self.place();
        self.expect("[", "`[`")?;
        let condition = self.condition()?;
        self.expect("]", "`]` after a condition")?;
        self.expect("->", "`->` after a gate")?;
        Ok(Process::Gated(At { place, it: condition }, Box::new(self.sequence()?)))
    }

    fn call(&mut self) -> Read<Process> {
        let name = At { place: self.place(), it: self.name()? };
        self.expect("[", "`[` after a process's name")?;
        Ok(Process::Call(name, self.list("]", |reader| reader.placed())?))
    }

    fn placed(&mut self) -> Read<At<Expr>> {
        Ok(At { place: self.place(), it: self.expression()? })
    }

    fn prefix(&mut self) -> Read<Process> {
        self.expect("{", "`{`")?;
        let action = At { place: self.place(), it: self.action()? };
        self.expect(",", "`,` before a rate")?;
        let rate = self.placed()?;
        self.expect("}", "`}` after a rate")?;
        let then = if self.cursor.take(".") { Some(Box::new(self.sequence()?)) } else { None };
        Ok(Process::Prefix(action, rate, then))
    }

    fn action(&mut self) -> Read<Action> {
        if !self.has_channel() {
            return Ok(Action::Wait(self.name()?));
        }
        let before = if self.cursor.take("@") {
            "@"
        } else if self.cursor.take("~") {
            "~"
        } else {
            ""
        };
        let mut items = vec![self.expression()?];
        while self.cursor.take(",") {
            items.push(self.expression()?);
        }
        let sign = self.cursor.word().chars().next().unwrap_or(' ');
        self.cursor.pass();
        self.expect("[", "`[` after `!`, `#` or `?`")?;
        if sign != '?' {
            return Ok(Action::Give(before, items, sign, self.list("]", |reader| reader.expression())?));
        }
        let sets = self.list("]", |reader| reader.set())?;
        let names = if self.cursor.take("(") { self.list(")", |reader| reader.name())? } else { Vec::new() };
        Ok(Action::Take(before, items, sets, names))
    }

    /// Does one of the signs of a channel stand before the `}`?
    fn has_channel(&self) -> bool {
        let words = (0..).map(|at| self.cursor.ahead(at)).take_while(|word| !["}", ""].contains(word));
        words.into_iter().any(|word| ["!", "#", "?"].contains(&word))
    }

    fn set(&mut self) -> Read<Set> {
        let mut terms = Vec::new();
        loop {
            let mut factors = Vec::new();
            loop {
                let mut parts = vec![self.range()?];
                while self.cursor.take("\\") {
                    parts.push(self.range()?);
                }
                factors.push(parts);
                if !self.cursor.take("I") {
                    break;
                }
            }
            terms.push(factors);
            if !self.cursor.take("U") {
                return Ok(Set(terms));
            }
        }
    }

    fn range(&mut self) -> Read<Range> {
        let first = self.expression()?;
        let last = if self.cursor.take("..") { Some(self.expression()?) } else { None };
        Ok(Range { first, last })
    }

    fn condition(&mut self) -> Read<Condition> {
        let mut left = self.both()?;
        while self.cursor.word() == "|" {
            self.sign()?;
            left = Condition::Or(Box::new(left), Box::new(self.both()?));
        }
        Ok(left)
    }

    fn both(&mut self) -> Read<Condition> {
        let mut left = self.relation()?;
        while self.cursor.word() == "&" {
            self.sign()?;
            left = Condition::And(Box::new(left), Box::new(self.relation()?));
        }
        Ok(left)
    }

    /// A relation, or a condition in brackets; a bracket may begin either.
    fn relation(&mut self) -> Read<Condition> {
        self.deeper(|reader| {
            if reader.cursor.take("~") {
                return Ok(Condition::Not(Box::new(reader.relation()?)));
            }
            let (mark, signs) = (reader.cursor.mark(), reader.signs);
            let plain = reader.plain_relation();
            if plain.is_ok() {
                return plain;
            }
            reader.cursor.back_to(mark);
            reader.signs = signs;
            if !reader.cursor.take("(") {
                return plain;
            }
            let inside = reader.condition()?;
            reader.expect(")", "`)`")?;
            Ok(inside)
        })
    }

    fn plain_relation(&mut self) -> Read<Condition> {
        let left = self.expression()?;
        let sign = ["<=", "<", ">=", ">", "==", "!="].into_iter().find(|sign| self.cursor.take(sign));
        let sign = sign.ok_or_else(|| self.unread("one of < <= > >= == !="))?;
        Ok(Condition::Relation(left, sign, self.expression()?))
    }

    fn expression(&mut self) -> Read<Expr> {
        self.joined(&["+", "-"], |reader| {
            reader.joined(&["*", "/"], |reader| reader.joined(&["^"], |reader| reader.atom()))
        })
    }

    /// Operands joined from left to right by signs of one strength.
    fn joined(&mut self, signs: &[&str], operand: impl Fn(&mut Self) -> Read<Expr>) -> Read<Expr> {
        let mut left = operand(self)?;
        while signs.contains(&self.cursor.word()) {
            let sign = self.sign()?.chars().next().unwrap_or(' ');
            left = Expr::Op(sign, Box::new(left), Box::new(operand(self)?));
        }
        Ok(left)
    }

    fn atom(&mut self) -> Read<Expr> {
        self.deeper(|reader| {
            if let Ok(number) = reader.number() {
                return Ok(Expr::Number(number));
            }
            if reader.cursor.take("-") {
                let zero = Box::new(Expr::Number(Ratio::whole(0)));
                return Ok(Expr::Op('-', zero, Box::new(reader.atom()?)));
            }
            if reader.cursor.take("(") {
                let inside = reader.expression()?;
                reader.expect(")", "`)`")?;
                return Ok(inside);
            }
            let name = reader.name()?;
            if !reader.cursor.take("(") {
                return Ok(Expr::Name(name));
            }
            Ok(Expr::Fun(name, reader.list(")", |reader| reader.expression())?))
        })
    }
}

fn alone(mut parts: Vec<Process>, several: fn(Vec<Process>) -> Process) -> Process {
    if parts.len() == 1 {
        parts.remove(0)
    } else {
        several(parts)
    }
}
