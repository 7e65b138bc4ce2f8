//! For each file named: a line `== ` and its name, then `accepted` with the numbers of variables,
//! definitions, sums, channel names and starting processes, or `refused`, number and place.

use second::{model, state};

fn main() -> std::io::Result<()> {
    for file in std::env::args().skip(1) {
        println!("== {file}");
        println!("{}", opened(&std::fs::read(&file)?));
    }
    Ok(())
}

fn opened(text: &[u8]) -> String {
    let model = match model::read(text) {
        Ok(model) => model,
        Err(refused) => return format!("refused,{},{}", refused.number, refused.place),
    };
    let processes = state::processes_at_start(&model);
    if processes > state::PROCESSES {
        return format!("refused,10,{}", model.system_start);
    }
    let (definitions, sums) = (model.definitions.len(), model.sums.len());
    format!("accepted,{},{definitions},{sums},{},{processes}", model.variables, model.channel_names)
}
