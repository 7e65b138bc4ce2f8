//! How many decimals each parameter's whole number stands for.

use super::form::{Locals, Scope};
use super::say::{after, Trouble};
use super::tree::*;

/// More decimals than this are not followed: a parameter that is halved again and again has no end of them.
const MOST: u32 = 9;

pub struct Scales {
    of: Vec<(String, Vec<u32>)>,
}

impl Scales {
    /// Enough for the values of the system line and of every call.
    pub fn of_model(model: &Model) -> Result<Scales, Trouble> {
        let none = |definition: &Definition| (definition.name.clone(), vec![0; definition.parameters.len()]);
        let mut scales = Scales { of: model.definitions.iter().map(none).collect() };
        for start in &model.system {
            for (number, value) in start.values.iter().enumerate() {
                scales.raise(&start.name, number, value.decimals().unwrap_or(0), start.place)?;
            }
        }
        loop {
            let before = scales.of.clone();
            for definition in &model.definitions {
                let locals = scales.locals(definition);
                scales.follow(model, &definition.body, &locals)?;
            }
            if scales.of == before {
                return Ok(scales);
            }
        }
    }

    pub fn of(&self, name: &str) -> Option<&[u32]> {
        self.of.iter().find(|(definition, _)| definition == name).map(|(_, decimals)| &decimals[..])
    }

    /// A definition's parameters with their decimals.
    pub fn locals(&self, definition: &Definition) -> Vec<(String, u32)> {
        let decimals = self.of(&definition.name).unwrap_or(&[]);
        definition.parameters.iter().cloned().zip(decimals.iter().copied()).collect()
    }

    fn raise(&mut self, name: &str, number: usize, decimals: u32, place: usize) -> Result<(), Trouble> {
        if decimals > MOST {
            return Err(Trouble {
                place,
                what: format!("a value has more than {MOST} decimals, or ever more of them"),
            });
        }
        let found = self.of.iter_mut().find(|(definition, _)| definition == name);
        if let Some(most) = found.and_then(|(_, all)| all.get_mut(number)) {
            *most = decimals.max(*most);
        }
        Ok(())
    }

    /// Raises the decimals of what a process calls.
    fn follow(&mut self, model: &Model, process: &Process, locals: &Locals) -> Result<(), Trouble> {
        match process {
            Process::Prefix(action, _, Some(then)) => self.follow(model, then, &after(action, locals)),
            Process::Prefix(_, _, None) => Ok(()),
            Process::Gated(_, inside) => self.follow(model, inside, locals),
            Process::Choice(parts) | Process::Parallel(parts) => {
                parts.iter().try_for_each(|part| self.follow(model, part, locals))
            }
            Process::Call(name, arguments) => {
                let scope = Scope { variables: &model.variables, locals: locals.to_vec(), folds: false, divides: true };
                for (number, argument) in arguments.iter().enumerate() {
                    let decimals = scope.form(&argument.it).ok().and_then(|form| form.scale.decimals());
                    self.raise(&name.it, number, decimals.unwrap_or(0), argument.place)?;
                }
                Ok(())
            }
        }
    }
}
