//! load: the file from the drives that are there.

use crate::made::{self, Made};
use crate::say::{self, grouped, speed, Progress};
use crate::stripe::{self, Stripe};
use crate::trouble::Trouble;
use latsefidy::{Refusal, STRIP_MOST};
use std::fs;
use std::io::ErrorKind;
use std::path::Path;
use std::time::Instant;

/// A drive's bytes, or none for a lost one.
type Drive = Option<Vec<u8>>;

/// FILE must be new, and not in FOLDER, which stays as it is.
fn refuse_file(file: &Path, folder: &Path) -> Result<(), Trouble> {
    if file.symlink_metadata().is_ok() {
        return Err(made::exists(file));
    }
    let above = file.parent().filter(|path| !path.as_os_str().is_empty()).unwrap_or(Path::new("."));
    match (above.canonicalize(), folder.canonicalize()) {
        (Ok(above), Ok(folder)) if above.starts_with(&folder) => {
            Err(Trouble::Refused(format!("{} lies in the store, which load leaves as it is", file.display())))
        }
        _ => Ok(()),
    }
}

fn read_drive(folder: &Path, slot: u32, length: usize) -> Result<Drive, Trouble> {
    let path = stripe::drive(folder, slot);
    match fs::read(&path) {
        Ok(bytes) if bytes.len() == length => Ok(Some(bytes)),
        Ok(bytes) => {
            let (has, due) = (grouped(bytes.len()), grouped(length));
            say::out(&format!("load: drive {slot} has {has} bytes in place of {due}: it counts as lost"))?;
            Ok(None)
        }
        Err(error) if error.kind() == ErrorKind::NotFound => Ok(None),
        Err(error) => Err(Trouble::reading(&path, error)),
    }
}

/// A lost drive from its mates, strip by strip.
fn rebuilt(stripe: &Stripe, slot: u32, mates: &[&[u8]]) -> Result<Vec<u8>, Refusal> {
    let mut bytes = vec![0; stripe.codewords()];
    for (i, strip) in bytes.chunks_mut(STRIP_MOST).enumerate() {
        let part = i * STRIP_MOST..i * STRIP_MOST + strip.len();
        let strips: Vec<&[u8]> = mates.iter().map(|mate| &mate[part.clone()]).collect();
        stripe.code.rebuild(slot, &strips.concat(), strip)?;
    }
    Ok(bytes)
}

/// Rebuilds the lost drive of each group that has lost just one. Where no codeword has some stripe's mates the drive stays
/// lost: decode then says which stripe is refused.
fn rebuild(stripe: &Stripe, drives: &mut [Drive]) -> Result<(), Trouble> {
    for group in stripe.code.groups() {
        let lost: Vec<u32> = group.clone().filter(|&slot| drives[slot as usize].is_none()).collect();
        let &[slot] = &lost[..] else { continue };
        let (slots, mates): (Vec<String>, Vec<&[u8]>) =
            group.filter_map(|p| Some((p.to_string(), drives[p as usize].as_deref()?))).unzip();
        let bytes = match rebuilt(stripe, slot, &mates) {
            Ok(bytes) => bytes,
            Err(Refusal::Foreign) => continue,
            Err(refusal) => return Err(Trouble::Refused(format!("drive {slot} is not rebuilt: {refusal}"))),
        };
        drives[slot as usize] = Some(bytes);
        say::out(&format!("load: drive {slot} rebuilt from drives {}", slots.join(" ")))?;
    }
    Ok(())
}

/// The file's bytes. The code is not systematic, so each message is decoded, lost drives or none.
fn decode(stripe: &Stripe, drives: &[Drive]) -> Result<Vec<u8>, Trouble> {
    let code = stripe.code;
    let marks: Vec<u8> = drives.iter().map(|drive| u8::from(drive.is_none())).collect();
    let mut word = vec![0; code.n() as usize];
    let (mut message, mut work) = (vec![0; code.k() as usize], vec![0; code.work_len()]);
    let mut data = Vec::new();
    let mut progress = Progress::new("load", stripe.codewords());
    for at in 0..stripe.codewords() {
        for (symbol, drive) in word.iter_mut().zip(drives) {
            *symbol = drive.as_ref().map_or(0, |bytes| bytes[at]);
        }
        let decoded = code.decode(&word, &marks, &mut message, &mut work);
        decoded.map_err(|refusal| Trouble::Refused(format!("stripe {at} {refusal}")))?;
        data.extend_from_slice(&message);
        progress.at(at);
    }
    data.truncate(stripe.bytes);
    Ok(data)
}

pub fn load(folder: &Path, file: &Path) -> Result<(), Trouble> {
    let stripe = Stripe::read(folder)?;
    refuse_file(file, folder)?;
    let slots = 0..stripe.code.n();
    let mut drives: Vec<Drive> =
        slots.map(|slot| read_drive(folder, slot, stripe.codewords())).collect::<Result<_, _>>()?;
    let (there, all) = (drives.iter().flatten().count(), drives.len());
    let clock = Instant::now();
    rebuild(&stripe, &mut drives)?;
    let data = decode(&stripe, &drives)?;
    let mut made = Made::default();
    made.file(file, &data)?;
    let (bytes, speed) = (grouped(data.len()), speed(data.len(), clock.elapsed()));
    say::out(&format!(
        "load: {bytes} bytes from {there} of {all} drives: {speed} (file bytes rebuilt, decoded and written a second)"
    ))?;
    made.keep();
    Ok(())
}
