//! Questions 8 and 9: names that are new where they have to be, and given where they are used.

use crate::syntax::*;
use crate::tokens::{Kind, Token, TokenId};

/// What a name in an expression or a scale stands for.
#[derive(Clone, Copy, PartialEq, Eq, Debug)]
pub enum Meaning {
    /// The local with this number, from 0, parameters first.
    Local(usize),
    /// The variable with this number, from 0; its number has no point.
    WholeVariable(usize),
    /// The same, with a point.
    DecimalVariable(usize),
    Nothing,
}

/// A text with its tree and what can be looked up in it. Questions 2 to 7 have the answer yes.
pub struct Names<'a> {
    pub text: &'a [u8],
    pub tokens: &'a [Token],
    pub tree: &'a Tree,
    /// For each sum the names of the locals it has in scope, parameters first, then as bound.
    pub scopes: Vec<Vec<TokenId>>,
}

impl<'a> Names<'a> {
    pub fn new(text: &'a [u8], tokens: &'a [Token], tree: &'a Tree) -> Self {
        let mut scopes = vec![Vec::new(); tree.sums.len()];
        for definition in &tree.definitions {
            for &sum in &definition.sums {
                scopes[sum] = definition.parameters.clone();
            }
        }
        // A sum's number is larger than that of the sum in whose continuation it stands.
        for (number, sum) in tree.sums.iter().enumerate() {
            for branch in &sum.branches {
                let after = scope_after(&scopes[number], &branch.action);
                for item in &branch.continuation {
                    if let Item::Sum(next) = item {
                        scopes[*next] = after.clone();
                    }
                }
            }
        }
        Names { text, tokens, tree, scopes }
    }

    pub fn word(&self, id: TokenId) -> &'a [u8] {
        self.tokens[id].word(self.text)
    }

    fn is_among(&self, name: TokenId, names: &[TokenId]) -> bool {
        names.iter().any(|&other| self.word(other) == self.word(name))
    }

    pub fn meaning(&self, name: TokenId, scope: &[TokenId]) -> Meaning {
        let word = self.word(name);
        if let Some(local) = scope.iter().position(|&other| self.word(other) == word) {
            return Meaning::Local(local);
        }
        let variables = &self.tree.variables;
        match variables.iter().position(|variable| self.word(variable.name) == word) {
            None => Meaning::Nothing,
            Some(number) if self.tokens[variables[number].number.token].kind == Kind::Whole => {
                Meaning::WholeVariable(number)
            }
            Some(number) => Meaning::DecimalVariable(number),
        }
    }

    /// The number of the definition with this name.
    pub fn definition(&self, name: TokenId) -> Option<usize> {
        self.tree.definitions.iter().position(|definition| self.word(definition.name) == self.word(name))
    }

    /// Question 8: the place of the first name that isn't new.
    pub fn first_not_new(&self) -> Option<usize> {
        let mut faults = Vec::new();
        let variables: Vec<TokenId> = self.tree.variables.iter().map(|variable| variable.name).collect();
        let definitions: Vec<TokenId> = self.tree.definitions.iter().map(|definition| definition.name).collect();
        self.note_repeated(&variables, &[], &mut faults);
        self.note_repeated(&definitions, &[], &mut faults);
        for definition in &self.tree.definitions {
            self.note_repeated(&definition.parameters, &variables, &mut faults);
        }
        for (number, sum) in self.tree.sums.iter().enumerate() {
            let mut met = variables.clone();
            met.extend(&self.scopes[number]);
            for branch in &sum.branches {
                self.note_repeated(branch.action.bound(), &met, &mut faults);
            }
        }
        self.first(faults)
    }

    /// Notes each of `names` that is among `others` or among the names before it.
    fn note_repeated(&self, names: &[TokenId], others: &[TokenId], faults: &mut Vec<TokenId>) {
        for (number, &name) in names.iter().enumerate() {
            if self.is_among(name, others) || self.is_among(name, &names[..number]) {
                faults.push(name);
            }
        }
    }

    /// Question 9: the place of the first name that isn't given, or isn't used as it is given.
    pub fn first_not_given(&self) -> Option<usize> {
        let mut faults = Vec::new();
        for (number, sum) in self.tree.sums.iter().enumerate() {
            for branch in &sum.branches {
                self.note_branch(branch, &self.scopes[number], &mut faults);
            }
        }
        for item in &self.tree.system {
            self.note_call(item.name, item.values.len(), &mut faults);
        }
        self.first(faults)
    }

    fn note_branch(&self, branch: &Branch, scope: &[TokenId], faults: &mut Vec<TokenId>) {
        if let Some(gate) = &branch.gate {
            for relation in gate.any.iter().flatten() {
                self.note_expression(&relation.left, scope, faults);
                self.note_expression(&relation.right, scope, faults);
            }
        }
        for item in branch.action.channel() {
            // A lone name that means nothing as a value is a channel name.
            if item.lone_name().is_none() {
                self.note_expression(item, scope, faults);
            }
        }
        for value in branch.action.values() {
            self.note_expression(value, scope, faults);
        }
        for set in branch.action.sets() {
            self.note_set_part(&set.first, scope, faults);
            for (_, part) in &set.rest {
                self.note_set_part(part, scope, faults);
            }
        }
        if let Some(names) = branch.action.names() {
            if names.names.len() != branch.action.sets().len() {
                faults.push(names.bracket);
            }
        }
        if let Scale::Name(name) = branch.rate.scale {
            if self.meaning(name, scope) == Meaning::Nothing {
                faults.push(name);
            }
        }
        if let Some(atom) = &branch.rate.atom {
            self.note_atom(atom, scope, faults);
        }
        let after = scope_after(scope, &branch.action);
        for item in &branch.continuation {
            if let Item::Call(call) = item {
                self.note_call(call.name, call.arguments.len(), faults);
                for argument in &call.arguments {
                    self.note_expression(argument, &after, faults);
                }
            }
        }
    }

    fn note_call(&self, name: TokenId, values: usize, faults: &mut Vec<TokenId>) {
        match self.definition(name) {
            Some(number) if self.tree.definitions[number].parameters.len() == values => {}
            _ => faults.push(name),
        }
    }

    fn note_set_part(&self, part: &SetPart, scope: &[TokenId], faults: &mut Vec<TokenId>) {
        match part {
            SetPart::One(value) => self.note_expression(value, scope, faults),
            SetPart::Range(low, high) => {
                self.note_expression(low, scope, faults);
                self.note_expression(high, scope, faults);
            }
        }
    }

    fn note_expression(&self, expression: &Expression, scope: &[TokenId], faults: &mut Vec<TokenId>) {
        self.note_term(&expression.first, scope, faults);
        for (_, term) in &expression.rest {
            self.note_term(term, scope, faults);
        }
    }

    fn note_term(&self, term: &Term, scope: &[TokenId], faults: &mut Vec<TokenId>) {
        self.note_atom(&term.first, scope, faults);
        for (_, atom) in &term.rest {
            self.note_atom(atom, scope, faults);
        }
    }

    fn note_atom(&self, atom: &Atom, scope: &[TokenId], faults: &mut Vec<TokenId>) {
        match atom {
            Atom::Number(_) => {}
            Atom::Name(name) => match self.meaning(*name, scope) {
                Meaning::Local(_) | Meaning::WholeVariable(_) => {}
                Meaning::DecimalVariable(_) | Meaning::Nothing => faults.push(*name),
            },
            Atom::Abs(inner) | Atom::Brackets(inner) => self.note_expression(inner, scope, faults),
            Atom::Max(two) | Atom::Min(two) => {
                self.note_expression(&two.0, scope, faults);
                self.note_expression(&two.1, scope, faults);
            }
        }
    }

    /// The place of the fault that stands first in the text.
    fn first(&self, faults: Vec<TokenId>) -> Option<usize> {
        faults.into_iter().min().map(|id| self.tokens[id].start)
    }
}

/// The locals of what follows an action: those before it and the names it binds.
pub fn scope_after(scope: &[TokenId], action: &Action) -> Vec<TokenId> {
    let mut after = scope.to_vec();
    after.extend(action.bound());
    after
}
