//! The command line.

use crate::trouble::Trouble;
use latsefidy::Code;
use std::ffi::{OsStr, OsString};
use std::path::PathBuf;

pub const USAGE: &str = "\
usage:
    store store FILE FOLDER [R N K [WIRING]]      field 1; default R 4 N 20 K 12 WIRING 0
    store lose FOLDER SLOT...
    store load FOLDER FILE

store  spreads FILE over N drives, files in FOLDER, which must be new or empty
lose   deletes drives
load   gets the file back from the drives that are there; FILE must be new

WIRING 0 has the drives of a group side by side; WIRING 1 spreads them, for drives on shelves.
Groups have R + 1 drives. Under WIRING 0 the last one may have fewer, but not 1: N 18 with R 4 has
groups of 5 5 5 3.
A wrong byte on a drive that claims to be sound is not found unless decode happens to refuse it (9).
A run that fails removes what it made. One that is interrupted does not: it leaves drives without a
stripe.txt, which are no store, or a FILE that may be short.

Exit status: 0 done; 1 refused; 2 reading or writing failed, or usage.
";

const BYTES: u32 = 1;
const DEFAULT: [u32; 4] = [4, 20, 12, 0];

pub enum Command {
    Help,
    Store { file: PathBuf, folder: PathBuf, code: Code },
    Lose { folder: PathBuf, slots: Vec<OsString> },
    Load { folder: PathBuf, file: PathBuf },
}

/// The command's name, for the head of a sentence; the program's where there is none.
pub fn name(arguments: &[OsString]) -> &str {
    let first = arguments.first().and_then(|name| name.to_str());
    first.filter(|name| ["lose", "load"].contains(name)).unwrap_or("store")
}

pub fn command(arguments: &[OsString]) -> Result<Command, Trouble> {
    if arguments.iter().any(|a| a == "--help" || a == "-h") {
        return Ok(Command::Help);
    }
    let (name, rest) = arguments.split_first().ok_or(Trouble::Usage(USAGE.into()))?;
    match (name.to_str(), rest) {
        (Some("store"), [file, folder, numbers @ ..]) if matches!(numbers.len(), 0 | 3 | 4) => {
            Ok(Command::Store { file: file.into(), folder: folder.into(), code: code(numbers)? })
        }
        (Some("lose"), [folder, slots @ ..]) if !slots.is_empty() => {
            Ok(Command::Lose { folder: folder.into(), slots: slots.to_vec() })
        }
        (Some("load"), [folder, file]) => Ok(Command::Load { folder: folder.into(), file: file.into() }),
        _ => Err(Trouble::Usage(USAGE.into())),
    }
}

/// A number of decimal digits and nothing else.
pub fn decimal(text: &OsStr) -> Option<u32> {
    let text = text.to_str()?;
    text.bytes().all(|b| b.is_ascii_digit()).then(|| text.parse().ok())?
}

/// The code over bytes of R, N, K and WIRING, of the first three, or of none.
fn code(numbers: &[OsString]) -> Result<Code, Trouble> {
    let mut values = DEFAULT;
    for ((value, name), text) in values.iter_mut().zip(["R", "N", "K", "WIRING"]).zip(numbers) {
        let refused = || Trouble::Refused(format!("{name} is {text:?}, which is no decimal number below 2^32"));
        *value = decimal(text).ok_or_else(refused)?;
    }
    let [r, n, k, wiring] = values;
    let refused = |refusal| Trouble::Refused(format!("code {BYTES} {r} {n} {k} {wiring}: {refusal}"));
    Code::with_wiring(BYTES, r, n, k, wiring).map_err(refused)
}
