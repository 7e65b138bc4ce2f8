//! A bcs model as it is read.

use super::ratio::Ratio;

/// Something of the text with the byte place of its first token.
pub struct At<T> {
    pub place: usize,
    pub it: T,
}

#[derive(Clone)]
pub enum Expr {
    Number(Ratio),
    Name(String),
    /// `+ - * / ^`
    Op(char, Box<Expr>, Box<Expr>),
    Fun(String, Vec<Expr>),
}

#[derive(Clone)]
pub enum Condition {
    Relation(Expr, &'static str, Expr),
    Not(Box<Condition>),
    And(Box<Condition>, Box<Condition>),
    Or(Box<Condition>, Box<Condition>),
}

/// A value or a range of values.
#[derive(Clone)]
pub struct Range {
    pub first: Expr,
    pub last: Option<Expr>,
}

/// A union of intersections of differences: `\` binds most strongly, then `I`, then `U`.
#[derive(Clone)]
pub struct Set(pub Vec<Vec<Vec<Range>>>);

#[derive(Clone)]
pub enum Action {
    Wait(String),
    /// The sign before (`@` or nothing), the channel's items, `!` or `#`, and the values.
    Give(&'static str, Vec<Expr>, char, Vec<Expr>),
    /// The sign before (`@`, `~` or nothing), the channel's items, the sets, and the names that are bound.
    Take(&'static str, Vec<Expr>, Vec<Set>, Vec<String>),
}

pub enum Process {
    Prefix(At<Action>, At<Expr>, Option<Box<Process>>),
    Call(At<String>, Vec<At<Expr>>),
    Gated(At<Condition>, Box<Process>),
    Choice(Vec<Process>),
    Parallel(Vec<Process>),
}

pub struct Definition {
    pub name: String,
    pub parameters: Vec<String>,
    pub body: Process,
}

pub struct Start {
    pub place: usize,
    pub count: u64,
    pub name: String,
    pub values: Vec<Ratio>,
}

pub struct Model {
    pub variables: Vec<(String, Ratio)>,
    pub definitions: Vec<Definition>,
    pub system: Vec<Start>,
}
