//! The model that a text stands for: names and numbers settled. And the questions 2 to 9 in
//! order, and the model buffer.

use crate::limits;
use crate::names::{scope_after, Meaning, Names};
use crate::reader;
use crate::syntax::{self, ProductSign, RelationSign, SetSign, SumSign};
use crate::tokens::{self, Kind, TokenId};
use std::cell::{Cell, RefCell};
use std::rc::Rc;

/// Bytes of the longest text.
pub const TEXT: usize = 16_384;
const TOKENS: usize = 4_096;

/// The length of the model buffer: two bytes for the text's length, then the text.
pub const BUFFER: usize = 2 + TEXT;

#[derive(Debug)]
pub struct Model {
    /// How many variables there are.
    pub variables: usize,
    pub definitions: Vec<Definition>,
    pub sums: Vec<Sum>,
    pub system: Vec<SystemItem>,
    /// The byte place of the system line.
    pub system_start: usize,
    /// How many channel names there are.
    pub channel_names: usize,
    /// The place of the first `(` or call name after which a continuation can leave more than one process (02, note 11).
    pub unsteady: Option<usize>,
    /// The names of waits, by first appearance as a wait.
    wait_names: Vec<Vec<u8>>,
}

#[derive(Debug)]
pub struct Definition {
    pub sums: Vec<usize>,
}

#[derive(Debug)]
pub struct SystemItem {
    pub count: usize,
    pub definition: usize,
    pub values: Vec<i64>,
}

#[derive(Debug)]
pub struct Sum {
    /// The number of the definition in whose text it stands.
    pub definition: usize,
    /// How many locals it has in scope.
    pub locals: usize,
    pub branches: Vec<Branch>,
}

#[derive(Debug)]
pub struct Branch {
    pub gate: Option<Condition>,
    pub rate: Rate,
    pub action: Action,
    pub continuation: Vec<Item>,
}

#[derive(Debug)]
pub enum Item {
    Sum(usize),
    Call { definition: usize, arguments: Vec<Expression> },
}

#[derive(Debug)]
pub enum Action {
    /// With its name.
    Wait(Vec<u8>),
    Launch(Channel, Vec<Expression>),
    Kill(Channel, Vec<Expression>),
    /// With true, the values are bound to names.
    Receive(Channel, Vec<Set>, bool),
    Check(Channel, Vec<Set>),
    HandshakeSend(Channel, Vec<Expression>),
    /// With true, the values are bound to names.
    HandshakeReceive(Channel, Vec<Set>, bool),
}

impl Action {
    /// How many items its channel has; none of a wait.
    pub fn items(&self) -> usize {
        match self {
            Action::Wait(_) => 0,
            Action::Launch(channel, _)
            | Action::Kill(channel, _)
            | Action::Receive(channel, _, _)
            | Action::Check(channel, _)
            | Action::HandshakeSend(channel, _)
            | Action::HandshakeReceive(channel, _, _) => channel.len(),
        }
    }
}

/// One to three items.
pub type Channel = Vec<ChannelItem>;

#[derive(Debug)]
pub enum ChannelItem {
    Number(Expression),
    /// The channel name with this number.
    Name(i64),
}

#[derive(Debug)]
pub struct Set {
    pub first: SetPart,
    pub rest: Vec<(SetSign, SetPart)>,
}

/// One value is a range with equal ends.
#[derive(Debug)]
pub enum SetPart {
    One(Expression),
    Range(Expression, Expression),
}

#[derive(Debug)]
pub struct Expression {
    pub first: Term,
    pub rest: Vec<(SumSign, Term)>,
}

#[derive(Debug)]
pub struct Term {
    pub first: Atom,
    pub rest: Vec<(ProductSign, Atom)>,
}

#[derive(Debug)]
pub enum Atom {
    Number(i64),
    Local(usize),
    Abs(Box<Expression>),
    Max(Box<(Expression, Expression)>),
    Min(Box<(Expression, Expression)>),
    Brackets(Box<Expression>),
}

#[derive(Debug)]
pub struct Condition {
    pub any: Vec<Vec<Relation>>,
}

#[derive(Debug)]
pub struct Relation {
    pub negated: bool,
    pub left: Expression,
    pub sign: RelationSign,
    pub right: Expression,
}

#[derive(Debug)]
pub struct Rate {
    pub scale: Scale,
    pub atom: Option<Atom>,
}

#[derive(Debug)]
pub enum Scale {
    /// In ten-thousandths.
    Fixed(i64),
    Local(usize),
}

/// The number of the question that has the answer no, and the place.
#[derive(Clone, Copy, PartialEq, Eq, Debug)]
pub struct Refused {
    pub number: u64,
    pub place: usize,
}

thread_local! {
    /// With `keep_last`, the text read last and what was read.
    static LAST: RefCell<Option<(Vec<u8>, Result<Rc<Model>, Refused>)>> = const { RefCell::new(None) };
    static KEEPS: Cell<bool> = const { Cell::new(false) };
}

/// From now on this thread doesn't read a text again that it read last: a comparison makes many calls on one text.
pub fn keep_last() {
    KEEPS.set(true);
}

/// Asks questions 2 to 9 of a text.
pub fn read(text: &[u8]) -> Result<Rc<Model>, Refused> {
    if !KEEPS.get() {
        return read_anew(text).map(Rc::new);
    }
    LAST.with_borrow_mut(|last| match last {
        Some((kept, read)) if kept == text => read.clone(),
        _ => {
            let read = read_anew(text).map(Rc::new);
            *last = Some((text.to_vec(), read.clone()));
            read
        }
    })
}

fn read_anew(text: &[u8]) -> Result<Model, Refused> {
    let refuse = |number, place| Err(Refused { number, place });
    if text.len() > TEXT {
        return refuse(2, TEXT);
    }
    if let Some(place) = text.iter().position(|&byte| !is_allowed(byte)) {
        return refuse(3, place);
    }
    let tokens = tokens::split(text);
    if let Some(place) = tokens::too_deep(&tokens) {
        return refuse(4, place);
    }
    let tree = match reader::read(&tokens, text.len()) {
        Ok(tree) => tree,
        Err(place) => return refuse(5, place),
    };
    if let Some(token) = tokens.get(TOKENS) {
        return refuse(6, token.start);
    }
    if let Some(place) = limits::first_beyond(text, &tokens, &tree) {
        return refuse(7, place);
    }
    let names = Names::new(text, &tokens, &tree);
    if let Some(place) = names.first_not_new() {
        return refuse(8, place);
    }
    if let Some(place) = names.first_not_given() {
        return refuse(9, place);
    }
    Ok(Settler::new(&names).model())
}

fn is_allowed(byte: u8) -> bool {
    matches!(byte, 32..=126 | b'\t' | b'\n' | b'\r')
}

/// Writes an accepted text into a model buffer.
pub fn write_buffer(text: &[u8], buffer: &mut [u8]) {
    buffer.fill(0);
    buffer[0] = (text.len() % 256) as u8;
    buffer[1] = (text.len() / 256) as u8;
    buffer[2..2 + text.len()].copy_from_slice(text);
}

/// The model that a buffer holds, if it holds one: it holds a text, and questions 2 to 9 have the
/// answer yes for it.
pub fn read_buffer(buffer: &[u8]) -> Option<Rc<Model>> {
    read(held_text(buffer)?).ok()
}

/// The text that a buffer holds: the length is at most 16,384, and the bytes after the text are 0.
pub fn held_text(buffer: &[u8]) -> Option<&[u8]> {
    if buffer.len() != BUFFER {
        return None;
    }
    let length = usize::from(buffer[0]) + 256 * usize::from(buffer[1]);
    if length > TEXT {
        return None;
    }
    let (text, rest) = buffer[2..].split_at(length);
    rest.iter().all(|&byte| byte == 0).then_some(text)
}

impl Model {
    pub fn wait_names(&self) -> &[Vec<u8>] {
        &self.wait_names
    }

    /// How many processes a call of a definition gives.
    pub fn processes_of(&self, definition: usize) -> usize {
        self.definitions[definition].sums.len()
    }

    /// How many processes a part of a continuation gives.
    pub fn processes_of_item(&self, item: &Item) -> usize {
        match item {
            Item::Sum(_) => 1,
            Item::Call { definition, .. } => self.processes_of(*definition),
        }
    }
}

/// Turns a tree into a model. Questions 2 to 9 have the answer yes for the text.
struct Settler<'a> {
    names: &'a Names<'a>,
    /// The channel names, in the order of their numbers.
    channel_names: Vec<&'a [u8]>,
}

impl<'a> Settler<'a> {
    fn new(names: &'a Names<'a>) -> Self {
        let mut uses: Vec<TokenId> = Vec::new();
        for (number, sum) in names.tree.sums.iter().enumerate() {
            for branch in &sum.branches {
                let items = branch.action.channel().iter();
                uses.extend(items.filter_map(|item| channel_name(names, item, &names.scopes[number])));
            }
        }
        // The order of the text.
        uses.sort();
        let mut channel_names: Vec<&[u8]> = Vec::new();
        for name in uses {
            let word = names.word(name);
            if !channel_names.contains(&word) {
                channel_names.push(word);
            }
        }
        Settler { names, channel_names }
    }

    fn model(&self) -> Model {
        let tree = self.names.tree;
        Model {
            variables: tree.variables.len(),
            definitions: tree
                .definitions
                .iter()
                .map(|definition| Definition { sums: definition.sums.clone() })
                .collect(),
            sums: (0..tree.sums.len()).map(|number| self.sum(number)).collect(),
            system: tree.system.iter().map(|item| self.system_item(item)).collect(),
            system_start: self.names.tokens[tree.system_start].start,
            channel_names: self.channel_names.len(),
            unsteady: self.unsteady(),
            wait_names: self.wait_names(),
        }
    }

    /// The place of the first group with more than one item of its own, or call of a definition with more than one sum.
    fn unsteady(&self) -> Option<usize> {
        let tree = self.names.tree;
        let groups = tree.groups.iter().filter(|group| group.items > 1).map(|group| group.bracket);
        let branches = tree.sums.iter().flat_map(|sum| &sum.branches);
        let calls = branches.flat_map(|branch| &branch.continuation).filter_map(|item| match item {
            syntax::Item::Call(call) => Some(call.name),
            syntax::Item::Sum(_) => None,
        });
        let calls = calls.filter(|name| tree.definitions[self.definition(*name)].sums.len() > 1);
        groups.chain(calls).min().map(|token| self.names.tokens[token].start)
    }

    fn wait_names(&self) -> Vec<Vec<u8>> {
        let actions = self.names.tree.sums.iter().flat_map(|sum| &sum.branches).map(|branch| &branch.action);
        let mut tokens: Vec<TokenId> = actions
            .filter_map(|action| match action {
                syntax::Action::Wait(name) => Some(*name),
                _ => None,
            })
            .collect();
        // The order of the text.
        tokens.sort();
        let mut names: Vec<Vec<u8>> = Vec::new();
        for token in tokens {
            let word = self.names.word(token);
            if !names.iter().any(|name| name == word) {
                names.push(word.to_vec());
            }
        }
        names
    }

    fn system_item(&self, item: &syntax::SystemItem) -> SystemItem {
        SystemItem {
            count: item.count.map_or(1, |count| self.whole(&count) as usize),
            definition: self.definition(item.name),
            values: item.values.iter().map(|value| self.whole(value)).collect(),
        }
    }

    fn definition(&self, name: TokenId) -> usize {
        self.names.definition(name).expect("question 9 has the answer yes")
    }

    fn whole(&self, number: &syntax::Number) -> i64 {
        limits::whole_value(self.names.word(number.token), number.negative)
    }

    fn sum(&self, number: usize) -> Sum {
        let scope = &self.names.scopes[number];
        let sum = &self.names.tree.sums[number];
        Sum {
            definition: sum.definition,
            locals: scope.len(),
            branches: sum.branches.iter().map(|branch| self.branch(branch, scope)).collect(),
        }
    }

    fn branch(&self, branch: &syntax::Branch, scope: &[TokenId]) -> Branch {
        let after = scope_after(scope, &branch.action);
        Branch {
            gate: branch.gate.as_ref().map(|gate| self.condition(gate, scope)),
            rate: self.rate(&branch.rate, scope),
            action: self.action(&branch.action, scope),
            continuation: branch.continuation.iter().map(|item| self.item(item, &after)).collect(),
        }
    }

    fn item(&self, item: &syntax::Item, scope: &[TokenId]) -> Item {
        match item {
            syntax::Item::Sum(number) => Item::Sum(*number),
            syntax::Item::Call(call) => Item::Call {
                definition: self.definition(call.name),
                arguments: self.expressions(&call.arguments, scope),
            },
        }
    }

    fn action(&self, action: &syntax::Action, scope: &[TokenId]) -> Action {
        match action {
            syntax::Action::Wait(name) => Action::Wait(self.names.word(*name).to_vec()),
            syntax::Action::Launch(channel, values) => {
                Action::Launch(self.channel(channel, scope), self.expressions(values, scope))
            }
            syntax::Action::Kill(channel, values) => {
                Action::Kill(self.channel(channel, scope), self.expressions(values, scope))
            }
            syntax::Action::Receive(channel, sets, names) => {
                Action::Receive(self.channel(channel, scope), self.sets(sets, scope), names.is_some())
            }
            syntax::Action::Check(channel, sets) => Action::Check(self.channel(channel, scope), self.sets(sets, scope)),
            syntax::Action::HandshakeSend(channel, values) => {
                Action::HandshakeSend(self.channel(channel, scope), self.expressions(values, scope))
            }
            syntax::Action::HandshakeReceive(channel, sets, names) => {
                Action::HandshakeReceive(self.channel(channel, scope), self.sets(sets, scope), names.is_some())
            }
        }
    }

    fn channel(&self, channel: &syntax::Channel, scope: &[TokenId]) -> Channel {
        channel.iter().map(|item| self.channel_item(item, scope)).collect()
    }

    fn channel_item(&self, item: &syntax::Expression, scope: &[TokenId]) -> ChannelItem {
        match channel_name(self.names, item, scope) {
            None => ChannelItem::Number(self.expression(item, scope)),
            Some(name) => {
                let word = self.names.word(name);
                let number = self.channel_names.iter().position(|&other| other == word);
                ChannelItem::Name(number.expect("every channel name has a number") as i64)
            }
        }
    }

    fn sets(&self, sets: &[syntax::Set], scope: &[TokenId]) -> Vec<Set> {
        sets.iter()
            .map(|set| Set {
                first: self.set_part(&set.first, scope),
                rest: set.rest.iter().map(|(sign, part)| (*sign, self.set_part(part, scope))).collect(),
            })
            .collect()
    }

    fn set_part(&self, part: &syntax::SetPart, scope: &[TokenId]) -> SetPart {
        match part {
            syntax::SetPart::One(value) => SetPart::One(self.expression(value, scope)),
            syntax::SetPart::Range(low, high) => {
                SetPart::Range(self.expression(low, scope), self.expression(high, scope))
            }
        }
    }

    fn expressions(&self, expressions: &[syntax::Expression], scope: &[TokenId]) -> Vec<Expression> {
        expressions.iter().map(|expression| self.expression(expression, scope)).collect()
    }

    fn expression(&self, expression: &syntax::Expression, scope: &[TokenId]) -> Expression {
        Expression {
            first: self.term(&expression.first, scope),
            rest: expression.rest.iter().map(|(sign, term)| (*sign, self.term(term, scope))).collect(),
        }
    }

    fn term(&self, term: &syntax::Term, scope: &[TokenId]) -> Term {
        Term {
            first: self.atom(&term.first, scope),
            rest: term.rest.iter().map(|(sign, atom)| (*sign, self.atom(atom, scope))).collect(),
        }
    }

    fn atom(&self, atom: &syntax::Atom, scope: &[TokenId]) -> Atom {
        let two = |two: &(syntax::Expression, syntax::Expression)| {
            Box::new((self.expression(&two.0, scope), self.expression(&two.1, scope)))
        };
        match atom {
            syntax::Atom::Number(number) => Atom::Number(self.whole(number)),
            syntax::Atom::Name(name) => match self.names.meaning(*name, scope) {
                Meaning::Local(local) => Atom::Local(local),
                Meaning::WholeVariable(variable) => {
                    Atom::Number(self.whole(&self.names.tree.variables[variable].number))
                }
                Meaning::DecimalVariable(_) | Meaning::Nothing => unreachable!("question 9 has the answer yes"),
            },
            syntax::Atom::Abs(inner) => Atom::Abs(Box::new(self.expression(inner, scope))),
            syntax::Atom::Max(pair) => Atom::Max(two(pair)),
            syntax::Atom::Min(pair) => Atom::Min(two(pair)),
            syntax::Atom::Brackets(inner) => Atom::Brackets(Box::new(self.expression(inner, scope))),
        }
    }

    fn condition(&self, condition: &syntax::Condition, scope: &[TokenId]) -> Condition {
        let relation = |relation: &syntax::Relation| Relation {
            negated: relation.negated,
            left: self.expression(&relation.left, scope),
            sign: relation.sign,
            right: self.expression(&relation.right, scope),
        };
        Condition { any: condition.any.iter().map(|all| all.iter().map(relation).collect()).collect() }
    }

    fn rate(&self, rate: &syntax::Rate, scope: &[TokenId]) -> Rate {
        let scale = match &rate.scale {
            syntax::Scale::Number(number) => Scale::Fixed(self.ten_thousandths(number)),
            syntax::Scale::Name(name) => match self.names.meaning(*name, scope) {
                Meaning::Local(local) => Scale::Local(local),
                Meaning::WholeVariable(variable) | Meaning::DecimalVariable(variable) => {
                    Scale::Fixed(self.ten_thousandths(&self.names.tree.variables[variable].number))
                }
                Meaning::Nothing => unreachable!("question 9 has the answer yes"),
            },
        };
        Rate { scale, atom: rate.atom.as_ref().map(|atom| self.atom(atom, scope)) }
    }

    /// A number, whole or not, in ten-thousandths.
    fn ten_thousandths(&self, number: &syntax::Number) -> i64 {
        if self.names.tokens[number.token].kind == Kind::Whole {
            return self.whole(number) * 10_000;
        }
        let (before, after) = limits::decimal_parts(self.names.word(number.token));
        // Four digits after the point, zeros where the text has none.
        let mut digits = after.to_vec();
        digits.resize(4, b'0');
        let value = limits::whole_value(before, false) * 10_000 + limits::whole_value(&digits, false);
        if number.negative {
            -value
        } else {
            value
        }
    }
}

/// The name, if this item of a channel is a channel name: a lone name, neither local nor whole variable.
fn channel_name(names: &Names, item: &syntax::Expression, scope: &[TokenId]) -> Option<TokenId> {
    let name = item.lone_name()?;
    match names.meaning(name, scope) {
        Meaning::Local(_) | Meaning::WholeVariable(_) => None,
        Meaning::DecimalVariable(_) | Meaning::Nothing => Some(name),
    }
}
