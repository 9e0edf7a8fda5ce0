//! Stores a file over drives, loses some, and loads it back. `--help` says how.
//!
//!     cargo run --release --example store -- store FILE FOLDER
//!
//! A drive is a file in FOLDER. FILE is cut into messages of k bytes, the last one filled with
//! zeros; byte c of drive p is symbol p of codeword c. File and drives are held in memory.

mod arguments;
mod load;
mod lose;
mod made;
mod say;
mod store;
mod stripe;
mod trouble;

use arguments::{Command, USAGE};
use std::process::ExitCode;
use trouble::Trouble;

fn run(command: &Command) -> Result<(), Trouble> {
    match command {
        Command::Help => say::out(USAGE.trim_end()),
        Command::Store { file, folder, code } => store::store(file, folder, *code),
        Command::Lose { folder, slots } => lose::lose(folder, slots),
        Command::Load { folder, file } => load::load(folder, file),
    }
}

fn main() -> ExitCode {
    let arguments: Vec<_> = std::env::args_os().skip(1).collect();
    match arguments::command(&arguments).and_then(|command| run(&command)) {
        Ok(()) => ExitCode::SUCCESS,
        Err(trouble) => {
            say::error(&trouble.text(arguments::name(&arguments)));
            ExitCode::from(trouble.status())
        }
    }
}
