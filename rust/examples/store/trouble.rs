//! What ends a run, with its exit status.

use std::io;
use std::path::Path;

#[derive(Debug)]
pub enum Trouble {
    /// The command line is none of the three.
    Usage(String),
    /// What was asked is not done: there is nothing wrong with the machine.
    Refused(String),
    /// Reading or writing failed.
    Failed(String),
}

impl Trouble {
    pub fn status(&self) -> u8 {
        match self {
            Trouble::Refused(_) => 1,
            Trouble::Usage(_) | Trouble::Failed(_) => 2,
        }
    }

    /// What standard error is told, in the name of the command.
    pub fn text(&self, name: &str) -> String {
        match self {
            Trouble::Usage(text) => text.clone(),
            Trouble::Refused(text) | Trouble::Failed(text) => format!("{name}: {text}"),
        }
    }

    pub fn reading(path: &Path, error: io::Error) -> Trouble {
        Trouble::Failed(format!("cannot read {}: {error}", path.display()))
    }

    pub fn writing(path: &Path, error: io::Error) -> Trouble {
        Trouble::Failed(format!("cannot write {}: {error}", path.display()))
    }
}
