//! Names for the numbers of the engine, by byte places of the text.
//!
//! This is the interface of a name map in the engine's library. Until there is one it is filled by `outline`, a plain
//! reader that is not proved: a mistake in it prints a wrong word, and changes no number.

use crate::outline::Outline;

/// Of a branch of a sum: the places of its first token and of its action's `{`, the number of its definition, and how
/// many locals the sum has in scope.
#[derive(Clone, Copy, Debug, PartialEq, Eq)]
pub struct BranchPlace {
    pub first: usize,
    pub action: usize,
    pub definition: usize,
    pub locals: usize,
}

/// Places of a text that the engine accepted.
#[derive(Clone, Default)]
pub struct Names {
    sums: Vec<Vec<BranchPlace>>,
    definitions: Vec<usize>,
    channels: Vec<usize>,
    waits: Vec<usize>,
}

impl Names {
    pub fn read(text: &[u8]) -> Names {
        let Some(outline) = Outline::read(text) else { return Names::default() };
        let sums = outline.sums.iter().map(|sum| {
            let places = sum.branches.iter().map(|branch| BranchPlace {
                first: branch.first,
                action: branch.action,
                definition: sum.definition,
                locals: sum.locals.len(),
            });
            places.collect()
        });
        Names {
            sums: sums.collect(),
            definitions: outline.definitions.iter().map(|definition| definition.name.start).collect(),
            channels: outline.channels.iter().map(|name| name.start).collect(),
            waits: outline.waits.iter().map(|name| name.start).collect(),
        }
    }

    pub fn branch(&self, sum: u64, branch: u64) -> Option<BranchPlace> {
        self.sums.get(sum as usize)?.get(branch as usize).copied()
    }

    pub fn sum_count(&self) -> usize {
        self.sums.len()
    }

    /// The places of the names of the definitions, by their numbers.
    pub fn definitions(&self) -> &[usize] {
        &self.definitions
    }

    /// The places where the channel names appear first, by their numbers.
    pub fn channels(&self) -> &[usize] {
        &self.channels
    }

    /// The places where the names of waits appear first, by their numbers.
    pub fn waits(&self) -> &[usize] {
        &self.waits
    }
}

#[cfg(test)]
mod tests {
    use super::*;
    use second::generate::{self, Random};
    use second::syntax::{Action, Tree};
    use second::tokens::{self, Token};

    /// The second engine reads the text by itself.
    fn agrees(text: &[u8]) -> bool {
        let Ok(model) = second::model::read(text) else { return false };
        let tokens = tokens::split(text);
        let tree = second::reader::read(&tokens, text.len()).expect("it was read before");
        let names = Names::read(text);
        let words = String::from_utf8_lossy(text);
        assert_eq!(names.sum_count(), model.sums.len(), "{words}");
        let scopes = second::names::Names::new(text, &tokens, &tree).scopes;
        for (number, sum) in tree.sums.iter().enumerate() {
            for (branch, given) in sum.branches.iter().enumerate() {
                let place = names.branch(number as u64, branch as u64).expect("a branch");
                let (first, definition, locals) = (tokens[given.first].start, sum.definition, scopes[number].len());
                assert_eq!((place.first, place.definition, place.locals), (first, definition, locals), "{words}");
                assert_eq!(text[place.action], b'{');
            }
            assert_eq!(names.branch(number as u64, sum.branches.len() as u64), None);
        }
        let definitions: Vec<usize> = tree.definitions.iter().map(|one| tokens[one.name].start).collect();
        assert_eq!(names.definitions(), definitions, "{words}");
        assert_eq!(names.channels().len(), model.channel_names, "{words}");
        assert_eq!(names.waits(), waits(text, &tokens, &tree), "{words}");
        true
    }

    fn waits(text: &[u8], tokens: &[Token], tree: &Tree) -> Vec<usize> {
        let branches = tree.sums.iter().flat_map(|sum| &sum.branches);
        let names =
            branches.filter_map(|branch| if let Action::Wait(name) = branch.action { Some(name) } else { None });
        let mut names: Vec<&Token> = names.map(|name| &tokens[name]).collect();
        names.sort_by_key(|token| token.start);
        let mut first: Vec<&Token> = Vec::new();
        for name in names {
            if !first.iter().any(|other| other.word(text) == name.word(text)) {
                first.push(name);
            }
        }
        first.iter().map(|token| token.start).collect()
    }

    #[test]
    fn places_are_those_of_the_second_reader() {
        let mut random = Random::new(33);
        let accepted = (0..3_000).filter(|_| agrees(&generate::lively(&mut random))).count();
        let edges = (0..300).filter(|_| agrees(&generate::edge(&mut random))).count();
        assert!(accepted > 1_000 && edges > 50, "{accepted}, {edges}");
    }

    /// A text that was not accepted is never looked up, but reading it ends.
    #[test]
    fn any_text_is_read_to_an_end() {
        let mut random = Random::new(34);
        for _ in 0..2_000 {
            let text = generate::lively(&mut random);
            Names::read(&generate::damaged(&mut random, &text));
        }
    }
}
