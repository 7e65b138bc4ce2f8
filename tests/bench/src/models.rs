//! The models that are timed.

pub struct Model {
    pub name: &'static str,
    pub text: Vec<u8>,
}

pub fn all() -> Vec<Model> {
    let read = |name, text: &str| Model { name, text: text.as_bytes().to_vec() };
    vec![
        read("sheet", include_str!("../../../models/sheet.bc")),
        read("chromosome", include_str!("../../../models/chromosome.bc")),
        read("crowd", include_str!("../../../models/crowd.bc")),
        read("kinesin", include_str!("../../../models/kinesin.bc")),
        Model { name: "long text", text: long_text().into_bytes() },
    ]
}

/// Bytes of the longest text.
const TEXT: usize = 16_384;
/// Branches of a sum, at most.
const BRANCHES: usize = 16;

/// A legal text of nearly 16,384 bytes and 4,096 tokens: definitions of 16 branches each that
/// call one another, a few processes.
pub fn long_text() -> String {
    let mut text = String::new();
    let mut definitions = 0;
    loop {
        let definition = definition(definitions);
        let system = "4*Stage_00_of_them[1]||4*Stage_01_of_them[2];\n";
        if text.len() + definition.len() + system.len() > TEXT {
            return text + system;
        }
        text += &definition;
        definitions += 1;
    }
}

/// A definition with names of 16 bytes, so that the text has many bytes for its tokens.
fn definition(number: usize) -> String {
    let stage = |number: usize| format!("Stage_{number:02}_of_them");
    let branch = |branch: usize| match branch % 4 {
        0 => format!("{{works_till_it_{branch:02},0.25}}.{}[how_far_it_is_on+1]", stage(number / 2)),
        1 => format!(
            "[how_far_it_is_on<{branch}]->{{signal_from_them![how_far_it_is_on*2],1.5}}.{}[0]",
            stage(number / 2)
        ),
        2 => {
            format!("{{signal_from_them?[0..{branch}](what_was_lit_now),2}}.{}[what_was_lit_now-1]", stage(number / 3))
        }
        _ => format!("{{@meeting_of_them![{branch}],0.5}}.{}[max(how_far_it_is_on,0)]", stage(number / 3)),
    };
    let branches: Vec<String> = (0..BRANCHES).map(branch).collect();
    format!("{}[how_far_it_is_on] = {};\n", stage(number), branches.join("\n + "))
}

#[cfg(test)]
mod tests {
    use super::*;
    use second::generate::{Buffers, SECOND};

    /// The model and the state that the second engine opens a text to.
    fn opened(text: &[u8]) -> (Vec<u8>, Vec<i64>) {
        let (mut buffers, answer) = Buffers::opened(&SECOND, text);
        assert_eq!(answer.number, 0, "{answer:?}");
        buffers.model.truncate(second::MODEL);
        buffers.state.truncate(second::STATE);
        (buffers.model, buffers.state)
    }

    #[test]
    fn each_model_is_legal_and_takes_a_step() {
        for model in all() {
            let (held, mut state) = opened(&model.text);
            let mut listing = vec![0; second::LISTING];
            assert_eq!(second::step(&held, &mut state, &mut listing, 0).number, 0, "{}", model.name);
        }
    }

    #[test]
    fn the_chromosome_is_copied_whole() {
        let text = include_bytes!("../../../models/chromosome.bc");
        let (held, mut state) = opened(text);
        let mut listing = vec![0; second::LISTING];
        let mut random = second::generate::Random::new(1);
        loop {
            let total = second::list(&held, &state, &mut listing).total;
            if total == 0 {
                break;
            }
            assert_eq!(second::step(&held, &mut state, &mut listing, random.number() % total).number, 0);
        }
        // No process is left; bins 0 to 203 are lit.
        assert_eq!(state[..2], [0, 204]);
    }

    #[test]
    fn the_long_text_is_long() {
        let text = long_text();
        assert!(text.len() > TEXT - 1_000 && text.len() <= TEXT, "{} bytes", text.len());
        assert!(second::tokens::split(text.as_bytes()).len() > 3_000);
    }
}
