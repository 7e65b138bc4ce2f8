//! Who acts in an entry, by which action, with whom, and on which pair.

use crate::engine::{Entry, Pair, State, HANDSHAKE};
use crate::model::{joined, Model};

/// A process and its action. In tables, its values stand one blank apart.
struct Actor<'a> {
    definition: &'a str,
    values: Vec<i64>,
    action: &'a str,
}

pub struct Acting<'a> {
    actor: Actor<'a>,
    partner: Option<Actor<'a>>,
    /// Channel and values of the pair that was lit, put out or taken.
    pair: Option<(String, Vec<i64>)>,
}

impl<'a> Acting<'a> {
    /// An entry of a state, and the pair that it is about, if any.
    pub fn new(model: &'a Model, state: &State, entry: &Entry, pair: Option<Pair>) -> Acting<'a> {
        let actor = |place, branch| {
            let (definition, values) = model.process(state, place);
            Actor { definition, values, action: model.action(state, place, branch) }
        };
        Acting {
            actor: actor(entry.place, entry.branch),
            partner: (entry.kind == HANDSHAKE).then(|| actor(entry.partner, entry.partner_branch)),
            pair: pair.map(|pair| (model.channel(&pair), pair.values().to_vec())),
        }
    }

    pub const FIELDS: [&'static str; 8] =
        ["definition", "values", "action", "partner", "partner_values", "partner_action", "channel", "lit"];

    /// For machines.
    pub fn fields(&self) -> Vec<String> {
        let fields =
            |actor: &Actor| vec![actor.definition.to_string(), joined(&actor.values, " "), actor.action.to_string()];
        let mut row = fields(&self.actor);
        row.extend(self.partner.as_ref().map_or(vec![String::new(); 3], fields));
        row.extend(
            self.pair
                .as_ref()
                .map_or(<[String; 2]>::default(), |(channel, values)| [channel.clone(), joined(values, " ")]),
        );
        row
    }

    pub const COLUMNS: [&'static str; 5] = ["process", "action", "with", "its action", "pair"];

    /// For people.
    pub fn columns(&self) -> Vec<String> {
        let columns = |actor: &Actor| {
            let values = joined(&actor.values, ",");
            vec![format!("{}[{values}]", actor.definition), actor.action.to_string()]
        };
        let pair = |(channel, values): &(String, Vec<i64>)| format!("{channel}![{}]", joined(values, ","));
        let mut row = columns(&self.actor);
        row.extend(self.partner.as_ref().map_or(vec![String::new(); 2], columns));
        row.push(self.pair.as_ref().map_or(String::new(), pair));
        row
    }

    /// The columns or fields of a table of this kind.
    pub fn head(csv: bool) -> &'static [&'static str] {
        if csv {
            &Self::FIELDS
        } else {
            &Self::COLUMNS
        }
    }

    pub fn row(&self, csv: bool) -> Vec<String> {
        if csv {
            self.fields()
        } else {
            self.columns()
        }
    }
}
