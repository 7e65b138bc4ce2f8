//! Writes a bcs model in our dialect, as far as that can say it.

use super::form::{together, Form, Locals, Scope, Whole};
use super::gates::{narrowed, Relations};
use super::ratio::{Ratio, ONE};
use super::scales::Scales;
use super::spread::{each_value, uses};
use super::tree::*;
use crate::engine::TEXT;

/// Digits that a decimal of our texts may have before and after its point.
const BEFORE: usize = 6;
const AFTER: u32 = 4;
/// A sum of which no branch can be said.
const NOTHING: &str = "{left_out,0}";

/// What can't be said, and where.
pub struct Trouble {
    pub place: usize,
    pub what: String,
}

type Said = Result<String, Trouble>;

pub struct Sayer<'a> {
    pub model: &'a Model,
    pub scales: &'a Scales,
    pub troubles: Vec<Trouble>,
}

/// A part of a continuation.
enum Item {
    Sum(Vec<String>),
    Call(String),
}

impl Item {
    fn written(&self) -> String {
        match self {
            Item::Sum(branches) => branches.join(" + "),
            Item::Call(call) => call.clone(),
        }
    }
}

impl Sayer<'_> {
    pub fn text(&mut self) -> String {
        let model = self.model;
        let mut text = String::new();
        for (name, number) in model.variables.iter().filter(|(_, number)| is_number(*number)) {
            text += &format!("{name} = {};\n", number.written().unwrap_or_default());
        }
        for definition in &model.definitions {
            text += &self.definition(definition);
        }
        text + &self.system()
    }

    fn definition(&mut self, definition: &Definition) -> String {
        let locals = self.scales.locals(definition);
        let scaled: Vec<String> = locals.iter().filter(|(_, decimals)| *decimals > 0).map(in_parts).collect();
        let note = if scaled.is_empty() { String::new() } else { format!("// {}\n", scaled.join(", ")) };
        let head = format!("{}[{}] = ", definition.name, definition.parameters.join(","));
        let below = |sign: &str| format!("\n{:>width$} ", sign, width = head.len() - 1);
        let sums = self.body(&definition.body, &locals).into_iter().map(|branches| branches.join(&below("+")));
        format!("{note}{head}{};\n", sums.collect::<Vec<_>>().join(&below("||")))
    }

    /// The sums of a definition.
    fn body(&mut self, body: &Process, locals: &Locals) -> Vec<Vec<String>> {
        let parts = if let Process::Parallel(parts) = body { &parts[..] } else { std::slice::from_ref(body) };
        parts
            .iter()
            .flat_map(|part| match part {
                Process::Parallel(_) => self.body(part, locals),
                _ => vec![self.sum(part, locals)],
            })
            .collect()
    }

    /// The branches of a process that isn't several side by side.
    fn sum(&mut self, process: &Process, locals: &Locals) -> Vec<String> {
        let mut branches = Vec::new();
        self.branches(process, &[Vec::new()], locals, &mut branches);
        if branches.is_empty() {
            branches.push(NOTHING.to_string());
        }
        branches
    }

    fn system(&mut self) -> String {
        let mut items = Vec::new();
        for start in &self.model.system {
            match self.start(start) {
                Ok(item) => items.push(item),
                Err(trouble) => self.troubles.push(trouble),
            }
        }
        items.join(" ||\n") + ";\n"
    }

    fn start(&self, start: &Start) -> Said {
        let trouble = |what: String| Trouble { place: start.place, what };
        let decimals = self.scales.of(&start.name).ok_or_else(|| trouble(format!("{} isn't defined", start.name)))?;
        if decimals.len() != start.values.len() {
            return Err(trouble(format!("{} takes {} values", start.name, decimals.len())));
        }
        let whole = |(value, decimals): (&Ratio, &u32)| value.times(Ratio::whole(10i128.pow(*decimals)));
        let values: Option<Vec<Ratio>> = start.values.iter().zip(decimals).map(whole).collect();
        let values = values.ok_or_else(|| trouble("the numbers are too large".to_string()))?;
        let values: Vec<String> = values.iter().map(|value| value.above.to_string()).collect();
        let count = if start.count == 1 { String::new() } else { format!("{}*", start.count) };
        Ok(format!("{count}{}[{}]", start.name, values.join(",")))
    }

    /// What stands side by side.
    fn items(&mut self, process: &Process, locals: &Locals) -> Result<Vec<Item>, Trouble> {
        match process {
            Process::Parallel(parts) => {
                let items = parts.iter().map(|part| self.items(part, locals)).collect::<Result<Vec<_>, _>>()?;
                Ok(items.into_iter().flatten().collect())
            }
            Process::Call(name, arguments) => Ok(vec![Item::Call(self.call(name, arguments, locals)?)]),
            _ => Ok(vec![Item::Sum(self.sum(process, locals))]),
        }
    }

    fn call(&self, name: &At<String>, arguments: &[At<Expr>], locals: &Locals) -> Said {
        let trouble = |place, what| Trouble { place, what };
        let decimals =
            self.scales.of(&name.it).ok_or_else(|| trouble(name.place, format!("{} isn't defined", name.it)))?;
        if decimals.len() != arguments.len() {
            return Err(trouble(name.place, format!("{} takes {} values", name.it, decimals.len())));
        }
        let value = |(argument, decimals): (&At<Expr>, &u32)| {
            let unit = Ratio::new(1, 10i128.pow(*decimals)).unwrap_or(ONE);
            self.multiple(&argument.it, unit, locals).map_err(|what| trouble(argument.place, what))
        };
        let values = arguments.iter().zip(decimals).map(value).collect::<Result<Vec<_>, _>>()?;
        Ok(format!("{}[{}]", name.it, values.join(",")))
    }

    /// The branches of a choice, gates spread over them. What can't be said is noted and left out.
    fn branches(&mut self, process: &Process, gates: &[Relations], locals: &Locals, said: &mut Vec<String>) {
        match process {
            Process::Choice(parts) => parts.iter().for_each(|part| self.branches(part, gates, locals, said)),
            Process::Gated(condition, inside) => match narrowed(gates, condition) {
                Ok(gates) => self.branches(inside, &gates, locals, said),
                Err(trouble) => self.troubles.push(trouble),
            },
            Process::Prefix(action, rate, then) => {
                let prefixes = self.prefixes(action, rate, gates, locals);
                if prefixes.is_empty() {
                    return;
                }
                match self.then(action, then, locals) {
                    Ok(words) if prefixes.len() > 1 && prefixes.len() * words.len() > TEXT => {
                        let what = "a branch for each value would be too long".to_string();
                        self.troubles.push(Trouble { place: rate.place, what });
                    }
                    Ok(words) => said.extend(prefixes.into_iter().map(|prefix| prefix + &words)),
                    Err(trouble) => self.troubles.push(trouble),
                }
            }
            Process::Call(name, _) => {
                let what = format!("{} is called where an action has to come first", name.it);
                self.troubles.push(Trouble { place: name.place, what });
            }
            Process::Parallel(parts) => {
                let place = parts.first().map_or(0, first_place);
                let what = "processes side by side behind a gate or in a choice need an action before them".to_string();
                self.troubles.push(Trouble { place, what });
            }
        }
    }

    /// A prefix, or one for each value that its rate uses. What can't be said is noted and left out.
    fn prefixes(&mut self, action: &At<Action>, rate: &At<Expr>, gates: &[Relations], locals: &Locals) -> Vec<String> {
        let known = |name: &str| self.variable(name, locals);
        let each = each_value(&action.it, &rate.it, &known).unwrap_or(vec![(action.it.clone(), rate.it.clone())]);
        let mut said = Vec::new();
        for (one, its_rate) in each {
            let (one, its_rate) = (At { place: action.place, it: one }, At { place: rate.place, it: its_rate });
            match self.prefix(&one, &its_rate, gates, locals) {
                Ok(words) => said.push(words),
                Err(trouble) => self.troubles.push(trouble),
            }
        }
        said
    }

    fn prefix(&self, action: &At<Action>, rate: &At<Expr>, gates: &[Relations], locals: &Locals) -> Said {
        let gate = self.gate(gates, locals).map_err(|what| Trouble { place: action.place, what })?;
        let done = self.action(&action.it, locals).map_err(|what| Trouble { place: action.place, what })?;
        let bound = if let Action::Take(_, _, _, names) = &action.it { &names[..] } else { &[] };
        let rate = self.rate(&rate.it, locals, bound).map_err(|what| Trouble { place: rate.place, what })?;
        Ok(format!("{gate}{{{done},{rate}}}"))
    }

    /// `.` and what follows an action, if anything does.
    fn then(&mut self, action: &At<Action>, then: &Option<Box<Process>>, locals: &Locals) -> Said {
        let Some(then) = then else { return Ok(String::new()) };
        let items = self.items(then, &after(action, locals))?;
        Ok(match &items[..] {
            [Item::Call(call)] => format!(".{call}"),
            [Item::Sum(branches)] if branches.len() == 1 => format!(".{}", branches[0]),
            _ => format!(".({})", items.iter().map(Item::written).collect::<Vec<_>>().join(" || ")),
        })
    }

    fn scope(&self, locals: &Locals, divides: bool) -> Scope<'_> {
        Scope { variables: &self.model.variables, locals: locals.to_vec(), folds: false, divides }
    }

    /// An expression in multiples of a unit, which have to be whole.
    fn multiple(&self, expr: &Expr, unit: Ratio, locals: &Locals) -> Result<String, String> {
        let form = self.scope(locals, unit == ONE).form(expr)?;
        let part = form.part(unit).ok_or("a value with a point can't stand here")?;
        Ok(part.written(0))
    }

    fn wholes(&self, list: &[Expr], locals: &Locals) -> Result<String, String> {
        let all = list.iter().map(|one| self.multiple(one, ONE, locals)).collect::<Result<Vec<_>, _>>()?;
        Ok(all.join(","))
    }

    fn action(&self, action: &Action, locals: &Locals) -> Result<String, String> {
        match action {
            Action::Wait(name) => Ok(name.clone()),
            Action::Give(before, items, sign, values) => {
                Ok(format!("{before}{}{sign}[{}]", self.channel(items, locals)?, self.wholes(values, locals)?))
            }
            Action::Take(before, items, sets, names) => {
                let sets = sets.iter().map(|set| self.set(set, locals)).collect::<Result<Vec<_>, _>>()?.join(",");
                let names = if names.is_empty() { String::new() } else { format!("({})", names.join(",")) };
                Ok(format!("{before}{}?[{sets}]{names}", self.channel(items, locals)?))
            }
        }
    }

    /// A lone name that has no value is a channel name.
    fn channel(&self, items: &[Expr], locals: &Locals) -> Result<String, String> {
        let given = |name: &String| {
            locals.iter().any(|(local, _)| local == name) || self.model.variables.iter().any(|(given, _)| given == name)
        };
        let item = |item: &Expr| match item {
            Expr::Name(name) if !given(name) => Ok(name.clone()),
            _ => self.multiple(item, ONE, locals),
        };
        Ok(items.iter().map(item).collect::<Result<Vec<_>, _>>()?.join(","))
    }

    /// Our signs join sets from left to right: of a union at most one part may have signs of its own, and stands first.
    fn set(&self, set: &Set, locals: &Locals) -> Result<String, String> {
        let is_plain = |term: &&Vec<Vec<Range>>| term.len() == 1 && term[0].len() == 1;
        let (plain, mixed): (Vec<_>, Vec<_>) = set.0.iter().partition(is_plain);
        if mixed.len() > 1 {
            return Err("a union of two sets that have `\\` or `I` of their own can't be said".to_string());
        }
        let terms = mixed.into_iter().chain(plain).map(|term| self.intersection(term, locals));
        Ok(terms.collect::<Result<Vec<_>, _>>()?.join(" union "))
    }

    fn intersection(&self, term: &[Vec<Range>], locals: &Locals) -> Result<String, String> {
        let mut factors = Vec::new();
        for factor in term {
            let ranges = factor.iter().map(|range| self.range(range, locals)).collect::<Result<Vec<_>, _>>()?;
            factors.push(ranges.join("\\"));
        }
        Ok(factors.join(" inter "))
    }

    fn range(&self, range: &Range, locals: &Locals) -> Result<String, String> {
        let first = self.multiple(&range.first, ONE, locals)?;
        match &range.last {
            None => Ok(first),
            Some(last) => Ok(format!("{first}..{}", self.multiple(last, ONE, locals)?)),
        }
    }

    /// A gate that holds where one of the alternatives does.
    fn gate(&self, gates: &[Relations], locals: &Locals) -> Result<String, String> {
        let mut any = Vec::new();
        for relations in gates {
            let all =
                relations.iter().map(|relation| self.relation(relation, locals)).collect::<Result<Vec<_>, _>>()?;
            any.push(all.join(" & "));
        }
        match &any[..] {
            [one] if one.is_empty() => Ok(String::new()),
            _ => Ok(format!("[{}] -> ", any.join(" | "))),
        }
    }

    fn relation(&self, (left, sign, right): &(Expr, &'static str, Expr), locals: &Locals) -> Result<String, String> {
        let scope = self.scope(locals, false);
        let (_, parts) = together(vec![scope.form(left)?, scope.form(right)?])?;
        Ok(format!("{}{sign}{}", parts[0].written(0), parts[1].written(0)))
    }

    /// A number or a name, perhaps times one atom.
    fn rate(&self, rate: &Expr, locals: &Locals, bound: &[String]) -> Result<String, String> {
        if bound.iter().any(|name| uses(rate, name)) {
            return Err("a receive's rate can't use a name that it binds; write a branch for each value".to_string());
        }
        if let Expr::Name(name) = rate {
            if self.is_variable(name, locals) {
                return Ok(name.clone());
            }
        }
        let mut scope = self.scope(locals, false);
        let named = self.by_variable(rate, &scope);
        let kept = scope.form(rate)?;
        scope.folds = true;
        let folded = scope.form(rate)?;
        let said = named.or_else(|| in_dialect(&kept)).or_else(|| in_dialect(&folded));
        said.ok_or_else(|| {
            let scale = folded.scale.written().unwrap_or(format!("{}/{}", folded.scale.above, folded.scale.below));
            format!("{scale} is no decimal of at most {BEFORE} digits before and {AFTER} after the point")
        })
    }

    /// The number of a variable that no local hides.
    fn variable(&self, name: &str, locals: &Locals) -> Option<Ratio> {
        if locals.iter().any(|(local, _)| local == name) {
            return None;
        }
        self.model.variables.iter().find(|(given, _)| given == name).map(|(_, number)| *number)
    }

    fn is_variable(&self, name: &str, locals: &Locals) -> bool {
        self.variable(name, locals).is_some_and(is_number)
    }

    /// A variable with a point, times what has none: the variable stays.
    fn by_variable(&self, rate: &Expr, scope: &Scope) -> Option<String> {
        let Expr::Op('*', left, right) = rate else { return None };
        let pairs = [(left, right), (right, left)];
        pairs.into_iter().find_map(|(variable, other)| match &**variable {
            Expr::Name(name) if self.is_variable(name, &scope.locals) => {
                let other = scope.form(other).ok()?.part(ONE)?;
                Some(format!("{name}*{}", other.written(3)))
            }
            _ => None,
        })
    }
}

/// `name in hundredths` and the like.
fn in_parts((name, decimals): &(String, u32)) -> String {
    let unit = Ratio::new(1, 10i128.pow(*decimals)).and_then(Ratio::written).unwrap_or_default();
    format!("{name} counts {unit}")
}

/// Can our texts write the number?
fn is_number(number: Ratio) -> bool {
    number.is_whole()
        || (number.decimals().is_some_and(|digits| digits <= AFTER)
            && (number.above / number.below).to_string().trim_start_matches('-').len() <= BEFORE)
}

/// A form as a rate.
fn in_dialect(form: &Form) -> Option<String> {
    if !is_number(form.scale) {
        return None;
    }
    let scale = form.scale.written()?;
    Some(match &form.whole {
        None => scale,
        Some(Whole::Name(name)) if form.scale == ONE => name.clone(),
        Some(whole) => format!("{scale}*{}", whole.written(3)),
    })
}

/// The locals after an action: names that it binds are whole.
pub fn after(action: &At<Action>, locals: &Locals) -> Vec<(String, u32)> {
    let mut locals = locals.to_vec();
    if let Action::Take(_, _, _, names) = &action.it {
        locals.extend(names.iter().map(|name| (name.clone(), 0)));
    }
    locals
}

fn first_place(process: &Process) -> usize {
    match process {
        Process::Prefix(action, ..) => action.place,
        Process::Call(name, _) => name.place,
        Process::Gated(condition, _) => condition.place,
        Process::Choice(parts) | Process::Parallel(parts) => parts.first().map_or(0, first_place),
    }
}
