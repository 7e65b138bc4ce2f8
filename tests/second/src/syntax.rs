//! The tree that the reader makes of a text. Names and numbers are token numbers here; what
//! they mean is settled in `model`.
//!
//! Sums stand in one list, in the order of their first tokens, so that a sum's place in the
//! list is the number that 01 gives it. A sum that is part of a continuation of another sum
//! has a larger number than that sum.

use crate::tokens::TokenId;

#[derive(Debug, Default)]
pub struct Tree {
    pub variables: Vec<Variable>,
    pub definitions: Vec<Definition>,
    pub sums: Vec<Sum>,
    pub system: Vec<SystemItem>,
    /// The first token of the system line.
    pub system_start: TokenId,
    /// Every number of the text.
    pub numbers: Vec<Number>,
    /// Every group of the text.
    pub groups: Vec<Group>,
}

/// Round brackets around items of a continuation.
#[derive(Clone, Copy, Debug)]
pub struct Group {
    /// The `(`.
    pub bracket: TokenId,
    /// How many items it has of its own; a group inside is one.
    pub items: usize,
}

/// A number, perhaps with a `-` of its own before it.
#[derive(Clone, Copy, Debug)]
pub struct Number {
    /// Its digits.
    pub token: TokenId,
    pub negative: bool,
    /// Is it the count of a system item?
    pub count: bool,
}

#[derive(Debug)]
pub struct Variable {
    pub name: TokenId,
    pub number: Number,
}

#[derive(Debug)]
pub struct Definition {
    pub name: TokenId,
    pub parameters: Vec<TokenId>,
    /// Numbers of its sums.
    pub sums: Vec<usize>,
}

#[derive(Debug)]
pub struct SystemItem {
    pub count: Option<Number>,
    pub name: TokenId,
    pub values: Vec<Number>,
}

#[derive(Debug)]
pub struct Sum {
    /// The number of the definition in whose text it stands.
    pub definition: usize,
    pub branches: Vec<Branch>,
}

#[derive(Debug)]
pub struct Branch {
    pub first: TokenId,
    pub gate: Option<Condition>,
    pub action: Action,
    pub rate: Rate,
    /// Groups are flattened left to right. Nothing if there is no continuation.
    pub continuation: Vec<Item>,
}

#[derive(Debug)]
pub enum Item {
    Sum(usize),
    Call(Call),
}

#[derive(Debug)]
pub struct Call {
    pub name: TokenId,
    pub arguments: Vec<Expression>,
}

#[derive(Debug)]
pub enum Action {
    /// With its name.
    Wait(TokenId),
    Launch(Channel, Vec<Expression>),
    Kill(Channel, Vec<Expression>),
    Receive(Channel, Vec<Set>, Option<Names>),
    Check(Channel, Vec<Set>),
    HandshakeSend(Channel, Vec<Expression>),
    HandshakeReceive(Channel, Vec<Set>, Option<Names>),
}

/// One to three items, each an expression or a name (02, note 7).
pub type Channel = Vec<Expression>;

/// The most items of a channel.
pub const ITEMS: usize = 3;

/// The names that a receive binds.
#[derive(Debug)]
pub struct Names {
    /// The `(`.
    pub bracket: TokenId,
    pub names: Vec<TokenId>,
}

/// The first part, then each further part with the sign before it, joined left to right.
#[derive(Debug)]
pub struct Set {
    pub first: SetPart,
    pub rest: Vec<(SetSign, SetPart)>,
}

#[derive(Clone, Copy, Debug, PartialEq, Eq)]
pub enum SetSign {
    Without,
    Union,
    Inter,
}

#[derive(Debug)]
pub enum SetPart {
    One(Expression),
    Range(Expression, Expression),
}

#[derive(Debug)]
pub struct Expression {
    pub first: Term,
    pub rest: Vec<(SumSign, Term)>,
}

#[derive(Clone, Copy, Debug, PartialEq, Eq)]
pub enum SumSign {
    Plus,
    Minus,
}

#[derive(Debug)]
pub struct Term {
    pub first: Atom,
    pub rest: Vec<(ProductSign, Atom)>,
}

#[derive(Clone, Copy, Debug, PartialEq, Eq)]
pub enum ProductSign {
    Times,
    Over,
}

#[derive(Debug)]
pub enum Atom {
    Number(Number),
    Name(TokenId),
    Abs(Box<Expression>),
    Max(Box<(Expression, Expression)>),
    Min(Box<(Expression, Expression)>),
    Brackets(Box<Expression>),
}

/// Parts joined by `|`, each of them relations joined by `&`.
#[derive(Debug)]
pub struct Condition {
    pub any: Vec<Vec<Relation>>,
}

#[derive(Debug)]
pub struct Relation {
    pub negated: bool,
    pub left: Expression,
    pub sign: RelationSign,
    pub right: Expression,
}

#[derive(Clone, Copy, Debug, PartialEq, Eq)]
pub enum RelationSign {
    Less,
    LessEqual,
    Greater,
    GreaterEqual,
    Equal,
    Unequal,
}

#[derive(Debug)]
pub struct Rate {
    pub scale: Scale,
    pub atom: Option<Atom>,
}

#[derive(Debug)]
pub enum Scale {
    Number(Number),
    Name(TokenId),
}

impl Expression {
    /// The name, if the expression is nothing but a name. `(c)` isn't.
    pub fn lone_name(&self) -> Option<TokenId> {
        match self.first.first {
            Atom::Name(name) if self.rest.is_empty() && self.first.rest.is_empty() => Some(name),
            _ => None,
        }
    }
}

impl Action {
    /// The items of its channel; none of a wait.
    pub fn channel(&self) -> &[Expression] {
        match self {
            Action::Wait(_) => &[],
            Action::Launch(channel, _)
            | Action::Kill(channel, _)
            | Action::Receive(channel, _, _)
            | Action::Check(channel, _)
            | Action::HandshakeSend(channel, _)
            | Action::HandshakeReceive(channel, _, _) => channel,
        }
    }

    pub fn values(&self) -> &[Expression] {
        match self {
            Action::Launch(_, values) | Action::Kill(_, values) | Action::HandshakeSend(_, values) => values,
            _ => &[],
        }
    }

    pub fn sets(&self) -> &[Set] {
        match self {
            Action::Receive(_, sets, _) | Action::Check(_, sets) | Action::HandshakeReceive(_, sets, _) => sets,
            _ => &[],
        }
    }

    /// The list of names after a receive, if it has one.
    pub fn names(&self) -> Option<&Names> {
        match self {
            Action::Receive(_, _, names) | Action::HandshakeReceive(_, _, names) => names.as_ref(),
            _ => None,
        }
    }

    /// The names that the action binds, in order.
    pub fn bound(&self) -> &[TokenId] {
        self.names().map_or(&[], |names| &names.names)
    }
}
