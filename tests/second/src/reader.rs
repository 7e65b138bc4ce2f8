//! Question 5: reads the tokens of a text into a tree, or finds the first token that no fitting
//! text could have after those before it.
//!
//! Every function looks at the present token only, and takes it only if the grammar allows it
//! there. A function that ends before a token it can't use leaves that token to its caller, who
//! knows what may follow. So the fault is always at the first impossible token. Three places
//! of the grammar share their beginnings, and are read together until they part:
//!
//! - `name,` as the beginning of a wait and of a channel with more items than one: what follows
//!   is read as a rate and as an item, as long as it can be both (02, note 7);
//! - `name[` as the beginning of a definition and of the system line: what follows the `[`
//!   tells them apart, or, when the list is empty, what follows the `]`;
//! - a variable and a definition both begin with a name; the next token tells them apart.
//!   The system line can't come before the first definition, variables can't come after it.
//!
//! Stack: a chain of prefixes is read by a loop. Functions call themselves only inside round
//! brackets, and question 4, asked before, allows 24 open ones: group, sum, chain (3 frames a
//! bracket) or expression, term, atom (3 frames a bracket). 100 kB of stack are plenty.

use crate::syntax::*;
use crate::tokens::{Kind, Token, TokenId};

/// What was read, or the byte place of the fault.
type Read<T> = Result<T, usize>;

/// Reads the tokens of a text of `length` bytes.
pub fn read(tokens: &[Token], length: usize) -> Read<Tree> {
    let mut reader = Reader { tokens, next: 0, length, tree: Tree::default() };
    reader.model()?;
    Ok(reader.tree)
}

/// What follows `{`, a name and `,`.
enum RateOrItem {
    Rate(Rate),
    Item(Expression),
}

struct Reader<'a> {
    tokens: &'a [Token],
    next: TokenId,
    length: usize,
    tree: Tree,
}

impl Reader<'_> {
    // The present token.

    fn kind(&self) -> Option<Kind> {
        self.tokens.get(self.next).map(|token| token.kind)
    }

    fn at(&self, kind: Kind) -> bool {
        self.kind() == Some(kind)
    }

    /// Takes the present token if it is of this kind.
    fn take(&mut self, kind: Kind) -> bool {
        let there = self.at(kind);
        if there {
            self.next += 1;
        }
        there
    }

    /// Takes the present token, which has to be of this kind.
    fn expect(&mut self, kind: Kind) -> Read<TokenId> {
        if self.take(kind) {
            Ok(self.next - 1)
        } else {
            self.fault()
        }
    }

    /// The present token, or the text's end, fits nowhere here.
    fn fault<T>(&self) -> Read<T> {
        Err(self.tokens.get(self.next).map_or(self.length, |token| token.start))
    }

    // Lines.

    fn model(&mut self) -> Read<()> {
        let mut name = self.expect(Kind::Name)?;
        while self.take(Kind::Assign) {
            let number = self.any_number()?;
            self.expect(Kind::Semicolon)?;
            self.tree.variables.push(Variable { name, number });
            name = self.expect(Kind::Name)?;
        }

        self.expect(Kind::OpenSquare)?;
        let parameters = if self.at(Kind::Name) { self.names()? } else { Vec::new() };
        self.expect(Kind::CloseSquare)?;
        self.expect(Kind::Assign)?;
        self.definition(name, parameters)?;

        // From here on a line is a definition or the system line.
        loop {
            self.tree.system_start = self.next;
            if self.at(Kind::Whole) {
                self.system_item()?;
                return self.rest_of_system_line();
            }
            let name = self.expect(Kind::Name)?;
            self.expect(Kind::OpenSquare)?;
            match self.kind() {
                Some(Kind::Name) => {
                    let parameters = self.names()?;
                    self.expect(Kind::CloseSquare)?;
                    self.expect(Kind::Assign)?;
                    self.definition(name, parameters)?;
                }
                Some(Kind::Whole | Kind::Minus) => {
                    let values = self.whole_numbers()?;
                    self.expect(Kind::CloseSquare)?;
                    self.tree.system.push(SystemItem { count: None, name, values });
                    return self.rest_of_system_line();
                }
                _ => {
                    self.expect(Kind::CloseSquare)?;
                    if self.take(Kind::Assign) {
                        self.definition(name, Vec::new())?;
                    } else {
                        self.tree.system.push(SystemItem { count: None, name, values: Vec::new() });
                        return self.rest_of_system_line();
                    }
                }
            }
        }
    }

    /// The body of a definition, after its `=`, and the `;`.
    fn definition(&mut self, name: TokenId, parameters: Vec<TokenId>) -> Read<()> {
        let mut sums = vec![self.sum()?];
        while self.take(Kind::Parallel) {
            sums.push(self.sum()?);
        }
        self.expect(Kind::Semicolon)?;
        self.tree.definitions.push(Definition { name, parameters, sums });
        Ok(())
    }

    fn system_item(&mut self) -> Read<()> {
        let mut count = None;
        if self.at(Kind::Whole) {
            let number = Number { token: self.next, negative: false, count: true };
            self.next += 1;
            self.tree.numbers.push(number);
            self.expect(Kind::Times)?;
            count = Some(number);
        }
        let name = self.expect(Kind::Name)?;
        self.expect(Kind::OpenSquare)?;
        let values = if self.at(Kind::CloseSquare) { Vec::new() } else { self.whole_numbers()? };
        self.expect(Kind::CloseSquare)?;
        self.tree.system.push(SystemItem { count, name, values });
        Ok(())
    }

    /// What follows the first item of the system line. Nothing follows the line.
    fn rest_of_system_line(&mut self) -> Read<()> {
        while self.take(Kind::Parallel) {
            self.system_item()?;
        }
        self.expect(Kind::Semicolon)?;
        if self.next < self.tokens.len() {
            return self.fault();
        }
        Ok(())
    }

    /// One or more names joined by `,`.
    fn names(&mut self) -> Read<Vec<TokenId>> {
        let mut names = vec![self.expect(Kind::Name)?];
        while self.take(Kind::Comma) {
            names.push(self.expect(Kind::Name)?);
        }
        Ok(names)
    }

    /// One or more whole numbers joined by `,`.
    fn whole_numbers(&mut self) -> Read<Vec<Number>> {
        let mut numbers = vec![self.whole_number()?];
        while self.take(Kind::Comma) {
            numbers.push(self.whole_number()?);
        }
        Ok(numbers)
    }

    /// A number, whole or not, perhaps with `-`.
    fn any_number(&mut self) -> Read<Number> {
        let negative = self.take(Kind::Minus);
        if self.at(Kind::Decimal) {
            return Ok(self.take_number(negative));
        }
        self.digits_of_whole_number(negative)
    }

    /// A whole number, perhaps with `-`.
    fn whole_number(&mut self) -> Read<Number> {
        let negative = self.take(Kind::Minus);
        self.digits_of_whole_number(negative)
    }

    fn digits_of_whole_number(&mut self, negative: bool) -> Read<Number> {
        if !self.at(Kind::Whole) {
            return self.fault();
        }
        Ok(self.take_number(negative))
    }

    fn take_number(&mut self, negative: bool) -> Number {
        let number = Number { token: self.next, negative, count: false };
        self.next += 1;
        self.tree.numbers.push(number);
        number
    }

    // Sums and what they are made of.

    /// Guarded prefixes joined by `+`. The result is the sum's number.
    fn sum(&mut self) -> Read<usize> {
        let sum = self.new_sum();
        self.chain(sum)?;
        while self.take(Kind::Plus) {
            self.chain(sum)?;
        }
        Ok(sum)
    }

    fn new_sum(&mut self) -> usize {
        // The definitions before this one are read whole.
        self.tree.sums.push(Sum { definition: self.tree.definitions.len(), branches: Vec::new() });
        self.tree.sums.len() - 1
    }

    /// A guarded prefix, which becomes a branch of `sum`, with its continuation. A continuation
    /// that is itself a prefix is a new sum, whose only branch is read in the next round.
    fn chain(&mut self, mut sum: usize) -> Read<()> {
        loop {
            let branch = self.prefix()?;
            self.tree.sums[sum].branches.push(branch);
            if !self.take(Kind::Point) {
                return Ok(());
            }
            let mut items = Vec::new();
            let mut following = None;
            match self.kind() {
                Some(Kind::OpenSquare | Kind::OpenBrace) => {
                    let next = self.new_sum();
                    items.push(Item::Sum(next));
                    following = Some(next);
                }
                Some(Kind::Name) => items.push(Item::Call(self.call()?)),
                Some(Kind::OpenRound) => self.group(&mut items)?,
                _ => return self.fault(),
            }
            if let Some(branch) = self.tree.sums[sum].branches.last_mut() {
                branch.continuation = items;
            }
            match following {
                Some(next) => sum = next,
                None => return Ok(()),
            }
        }
    }

    /// `[condition] ->`, if it is there, and `{action,rate}`.
    fn prefix(&mut self) -> Read<Branch> {
        let first = self.next;
        let mut gate = None;
        if self.take(Kind::OpenSquare) {
            gate = Some(self.condition()?);
            self.expect(Kind::CloseSquare)?;
            self.expect(Kind::Arrow)?;
        }
        self.expect(Kind::OpenBrace)?;
        let (action, rate) = self.action_and_rate()?;
        self.expect(Kind::CloseBrace)?;
        Ok(Branch { first, gate, action, rate, continuation: Vec::new() })
    }

    fn call(&mut self) -> Read<Call> {
        let name = self.expect(Kind::Name)?;
        self.expect(Kind::OpenSquare)?;
        let mut arguments = Vec::new();
        if !self.at(Kind::CloseSquare) {
            arguments.push(self.expression()?);
            while self.take(Kind::Comma) {
                arguments.push(self.expression()?);
            }
        }
        self.expect(Kind::CloseSquare)?;
        Ok(Call { name, arguments })
    }

    /// Round brackets around items joined by `||`, each a sum, call or group. They are added to
    /// `items`; what a group inside has is added in its place.
    fn group(&mut self, items: &mut Vec<Item>) -> Read<()> {
        let bracket = self.expect(Kind::OpenRound)?;
        self.group_item(items)?;
        let mut own = 1;
        while self.take(Kind::Parallel) {
            self.group_item(items)?;
            own += 1;
        }
        self.expect(Kind::CloseRound)?;
        self.tree.groups.push(Group { bracket, items: own });
        Ok(())
    }

    fn group_item(&mut self, items: &mut Vec<Item>) -> Read<()> {
        match self.kind() {
            Some(Kind::OpenSquare | Kind::OpenBrace) => {
                let sum = self.sum()?;
                items.push(Item::Sum(sum));
                Ok(())
            }
            Some(Kind::Name) => {
                let call = self.call()?;
                items.push(Item::Call(call));
                Ok(())
            }
            Some(Kind::OpenRound) => self.group(items),
            _ => self.fault(),
        }
    }

    // Actions.

    fn action_and_rate(&mut self) -> Read<(Action, Rate)> {
        let action = if self.take(Kind::At) {
            self.handshake()?
        } else if self.take(Kind::Tilde) {
            self.check()?
        } else {
            let first = self.expression()?;
            let name = first.lone_name();
            let mut items = vec![first];
            if let Some(name) = name.filter(|_| self.take(Kind::Comma)) {
                match self.rate_or_item()? {
                    RateOrItem::Rate(rate) => return Ok((Action::Wait(name), rate)),
                    RateOrItem::Item(second) => items.push(second),
                }
            }
            self.beacon(items)?
        };
        self.expect(Kind::Comma)?;
        Ok((action, self.rate()?))
    }

    /// After `@`.
    fn handshake(&mut self) -> Read<Action> {
        let channel = self.channel()?;
        match self.kind() {
            Some(Kind::Bang) => Ok(Action::HandshakeSend(channel, self.values()?)),
            Some(Kind::Question) => {
                let sets = self.sets()?;
                Ok(Action::HandshakeReceive(channel, sets, self.bound_names()?))
            }
            _ => self.fault(),
        }
    }

    /// After `~`.
    fn check(&mut self) -> Read<Action> {
        let channel = self.channel()?;
        if !self.at(Kind::Question) {
            return self.fault();
        }
        Ok(Action::Check(channel, self.sets()?))
    }

    /// A launch, kill or receive, of whose channel these items are read.
    fn beacon(&mut self, items: Vec<Expression>) -> Read<Action> {
        let channel = self.rest_of_channel(items)?;
        match self.kind() {
            Some(Kind::Bang) => Ok(Action::Launch(channel, self.values()?)),
            Some(Kind::Hash) => Ok(Action::Kill(channel, self.values()?)),
            Some(Kind::Question) => {
                let sets = self.sets()?;
                Ok(Action::Receive(channel, sets, self.bound_names()?))
            }
            _ => self.fault(),
        }
    }

    fn channel(&mut self) -> Read<Channel> {
        let first = self.expression()?;
        self.rest_of_channel(vec![first])
    }

    fn rest_of_channel(&mut self, mut items: Channel) -> Read<Channel> {
        while items.len() < ITEMS && self.take(Kind::Comma) {
            items.push(self.expression()?);
        }
        Ok(items)
    }

    /// What follows `{`, a name and `,`: the rate of a wait, if a `}` follows it or it is no expression, else the second
    /// item of a channel.
    fn rate_or_item(&mut self) -> Read<RateOrItem> {
        if !matches!(self.kind(), Some(Kind::Name | Kind::Whole | Kind::Decimal | Kind::Minus)) {
            return Ok(RateOrItem::Item(self.expression()?));
        }
        let rate = self.rate()?;
        if self.at(Kind::CloseBrace) {
            return Ok(RateOrItem::Rate(rate));
        }
        // A scale without a point and what it is multiplied by begin a term.
        let first = match rate.scale {
            Scale::Number(number) if self.tokens[number.token].kind == Kind::Decimal => {
                return Ok(RateOrItem::Rate(rate));
            }
            Scale::Number(number) => Atom::Number(number),
            Scale::Name(name) => Atom::Name(name),
        };
        let rest = rate.atom.map(|atom| (ProductSign::Times, atom)).into_iter().collect();
        let term = self.rest_of_term(Term { first, rest })?;
        Ok(RateOrItem::Item(self.rest_of_expression(term)?))
    }

    /// `!` or `#`, then one or two expressions in square brackets.
    fn values(&mut self) -> Read<Vec<Expression>> {
        self.next += 1;
        self.expect(Kind::OpenSquare)?;
        let mut values = vec![self.expression()?];
        if self.take(Kind::Comma) {
            values.push(self.expression()?);
        }
        self.expect(Kind::CloseSquare)?;
        Ok(values)
    }

    /// `?`, then one or two sets in square brackets.
    fn sets(&mut self) -> Read<Vec<Set>> {
        self.next += 1;
        self.expect(Kind::OpenSquare)?;
        let mut sets = vec![self.set()?];
        if self.take(Kind::Comma) {
            sets.push(self.set()?);
        }
        self.expect(Kind::CloseSquare)?;
        Ok(sets)
    }

    /// One or more names in round brackets, if the bracket is there.
    fn bound_names(&mut self) -> Read<Option<Names>> {
        let bracket = self.next;
        if !self.take(Kind::OpenRound) {
            return Ok(None);
        }
        let names = self.names()?;
        self.expect(Kind::CloseRound)?;
        Ok(Some(Names { bracket, names }))
    }

    // Sets, expressions, conditions, rates.

    fn set(&mut self) -> Read<Set> {
        let first = self.set_part()?;
        let mut rest = Vec::new();
        loop {
            let sign = match self.kind() {
                Some(Kind::Without) => SetSign::Without,
                Some(Kind::Union) => SetSign::Union,
                Some(Kind::Inter) => SetSign::Inter,
                _ => return Ok(Set { first, rest }),
            };
            self.next += 1;
            rest.push((sign, self.set_part()?));
        }
    }

    fn set_part(&mut self) -> Read<SetPart> {
        let low = self.expression()?;
        if self.take(Kind::Range) {
            return Ok(SetPart::Range(low, self.expression()?));
        }
        Ok(SetPart::One(low))
    }

    fn expression(&mut self) -> Read<Expression> {
        let first = self.term()?;
        self.rest_of_expression(first)
    }

    fn rest_of_expression(&mut self, first: Term) -> Read<Expression> {
        let mut rest = Vec::new();
        loop {
            let sign = match self.kind() {
                Some(Kind::Plus) => SumSign::Plus,
                Some(Kind::Minus) => SumSign::Minus,
                _ => return Ok(Expression { first, rest }),
            };
            self.next += 1;
            rest.push((sign, self.term()?));
        }
    }

    fn term(&mut self) -> Read<Term> {
        let first = self.atom()?;
        self.rest_of_term(Term { first, rest: Vec::new() })
    }

    fn rest_of_term(&mut self, mut term: Term) -> Read<Term> {
        loop {
            let sign = match self.kind() {
                Some(Kind::Times) => ProductSign::Times,
                Some(Kind::Over) => ProductSign::Over,
                _ => return Ok(term),
            };
            self.next += 1;
            term.rest.push((sign, self.atom()?));
        }
    }

    fn atom(&mut self) -> Read<Atom> {
        match self.kind() {
            Some(Kind::Whole | Kind::Minus) => Ok(Atom::Number(self.whole_number()?)),
            Some(Kind::Name) => Ok(Atom::Name(self.expect(Kind::Name)?)),
            Some(Kind::Abs) => {
                self.next += 1;
                Ok(Atom::Abs(Box::new(self.brackets()?)))
            }
            Some(Kind::Max) => {
                self.next += 1;
                Ok(Atom::Max(Box::new(self.brackets_around_two()?)))
            }
            Some(Kind::Min) => {
                self.next += 1;
                Ok(Atom::Min(Box::new(self.brackets_around_two()?)))
            }
            Some(Kind::OpenRound) => Ok(Atom::Brackets(Box::new(self.brackets()?))),
            _ => self.fault(),
        }
    }

    fn brackets(&mut self) -> Read<Expression> {
        self.expect(Kind::OpenRound)?;
        let inner = self.expression()?;
        self.expect(Kind::CloseRound)?;
        Ok(inner)
    }

    fn brackets_around_two(&mut self) -> Read<(Expression, Expression)> {
        self.expect(Kind::OpenRound)?;
        let left = self.expression()?;
        self.expect(Kind::Comma)?;
        let right = self.expression()?;
        self.expect(Kind::CloseRound)?;
        Ok((left, right))
    }

    fn condition(&mut self) -> Read<Condition> {
        let mut any = vec![self.conjunction()?];
        while self.take(Kind::Or) {
            any.push(self.conjunction()?);
        }
        Ok(Condition { any })
    }

    fn conjunction(&mut self) -> Read<Vec<Relation>> {
        let mut all = vec![self.relation()?];
        while self.take(Kind::And) {
            all.push(self.relation()?);
        }
        Ok(all)
    }

    fn relation(&mut self) -> Read<Relation> {
        let negated = self.take(Kind::Tilde);
        let left = self.expression()?;
        let sign = match self.kind() {
            Some(Kind::Less) => RelationSign::Less,
            Some(Kind::LessEqual) => RelationSign::LessEqual,
            Some(Kind::Greater) => RelationSign::Greater,
            Some(Kind::GreaterEqual) => RelationSign::GreaterEqual,
            Some(Kind::Equal) => RelationSign::Equal,
            Some(Kind::Unequal) => RelationSign::Unequal,
            _ => return self.fault(),
        };
        self.next += 1;
        let right = self.expression()?;
        Ok(Relation { negated, left, sign, right })
    }

    fn rate(&mut self) -> Read<Rate> {
        let scale =
            if self.at(Kind::Name) { Scale::Name(self.expect(Kind::Name)?) } else { Scale::Number(self.any_number()?) };
        let mut atom = None;
        if self.take(Kind::Times) {
            atom = Some(self.atom()?);
        }
        Ok(Rate { scale, atom })
    }
}
