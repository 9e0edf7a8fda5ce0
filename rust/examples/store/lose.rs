//! lose: drives deleted.

use crate::arguments::decimal;
use crate::say;
use crate::stripe::{self, Stripe};
use crate::trouble::Trouble;
use latsefidy::Code;
use std::ffi::{OsStr, OsString};
use std::fs;
use std::io::ErrorKind;
use std::path::Path;

fn slot(code: Code, text: &OsStr) -> Result<u32, Trouble> {
    let last = code.n() - 1;
    let refused = || Trouble::Refused(format!("{text:?} is no slot: slots are 0 to {last}; nothing was deleted"));
    decimal(text).filter(|&slot| slot <= last).ok_or_else(refused)
}

/// 1 for each drive that is gone.
fn marks(folder: &Path, code: Code) -> Vec<u8> {
    (0..code.n()).map(|slot| u8::from(!stripe::drive(folder, slot).exists())).collect()
}

pub fn lose(folder: &Path, slots: &[OsString]) -> Result<(), Trouble> {
    let code = Stripe::read(folder)?.code;
    let slots: Vec<u32> = slots.iter().map(|text| slot(code, text)).collect::<Result<_, _>>()?;
    for slot in slots {
        let path = stripe::drive(folder, slot);
        match fs::remove_file(&path) {
            Ok(()) => say::out(&format!("lose: drive {slot} deleted"))?,
            Err(error) if error.kind() == ErrorKind::NotFound => {
                say::out(&format!("lose: drive {slot} is already gone"))?
            }
            Err(error) => return Err(Trouble::Failed(format!("cannot delete {}: {error}", path.display()))),
        }
    }
    say::out(&summary(code, &marks(folder, code))?)
}

fn summary(code: Code, marks: &[u8]) -> Result<String, Trouble> {
    let mut work = vec![0; code.work_len()];
    let grade = code.grade(marks, &mut work).map_err(|refusal| Trouble::Refused(refusal.to_string()))?;
    let (n, sure, others) = (code.n(), code.guarantee(), stripe::others(code));
    let gone = marks.iter().filter(|&&mark| mark == 1).count();
    let meaning = match grade {
        0 | 1 => format!("each is rebuilt from {others}"),
        2 => format!("within the guarantee of {sure}, the file still loads"),
        3 => format!("past the guarantee of {sure}, but the rest still decides every stripe: the file loads"),
        _ => format!("past the guarantee of {sure}, and the rest decides no stripe"),
    };
    Ok(format!("lose: {gone} of {n} drives gone: {meaning}"))
}
