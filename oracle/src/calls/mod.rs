//! The calls of a script: their text form, read and written.

mod create;
mod machine;
mod manager;
mod words;

pub use create::{Create, Kind, Marks, Part};
pub use machine::MachineCall;
pub use manager::ManagerCall;
pub use words::{BadLine, Words, number};

/// One call of a script.
#[derive(Clone, Debug, PartialEq, Eq)]
pub enum Call {
    Manager(ManagerCall),
    Machine(MachineCall),
}

/// The call of a line, or nothing where the line is blank or a comment.
///
/// # Errors
/// What is wrong with a line that is no call.
pub fn parse(line: &str) -> Result<Option<Call>, BadLine> {
    if line.starts_with('#') {
        return Ok(None);
    }
    let mut words = Words::new(line);
    let Some(name) = words.first() else {
        return Ok(None);
    };
    let call = match ManagerCall::parse(name, &mut words)?.map(Call::Manager) {
        Some(call) => Some(call),
        None => MachineCall::parse(name, &mut words)?.map(Call::Machine),
    };
    let call = call.ok_or_else(|| BadLine::new(format!("no call is named {name}")))?;
    words.end()?;
    Ok(Some(call))
}
