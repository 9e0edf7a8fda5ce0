//! store: a file onto drives.

use crate::made::Made;
use crate::say::{self, grouped, speed, Progress};
use crate::stripe::{self, Stripe};
use crate::trouble::Trouble;
use latsefidy::{Code, Refusal};
use std::fs;
use std::path::Path;
use std::time::Instant;

/// The drives of the data, which is filled with zeros to whole messages.
fn encoded(stripe: &Stripe, data: &[u8]) -> Result<Vec<Vec<u8>>, Refusal> {
    let (code, codewords) = (stripe.code, stripe.codewords());
    let mut drives = vec![vec![0; codewords]; code.n() as usize];
    let mut codeword = vec![0; code.n() as usize];
    let mut message = vec![0; code.k() as usize];
    let mut progress = Progress::new("store", codewords);
    for (at, part) in data.chunks(message.len()).enumerate() {
        message[..part.len()].copy_from_slice(part);
        message[part.len()..].fill(0);
        code.encode(&message, &mut codeword)?;
        drives.iter_mut().zip(&codeword).for_each(|(drive, &symbol)| drive[at] = symbol);
        progress.at(at);
    }
    Ok(drives)
}

pub fn store(file: &Path, folder: &Path, code: Code) -> Result<(), Trouble> {
    let data = fs::read(file).map_err(|error| Trouble::reading(file, error))?;
    let mut made = Made::folder(folder)?;
    let clock = Instant::now();
    let stripe = Stripe { code, bytes: data.len() };
    let drives = encoded(&stripe, &data).map_err(|refusal| Trouble::Refused(refusal.to_string()))?;
    for (slot, bytes) in (0..).zip(&drives) {
        made.file(&stripe::drive(folder, slot), bytes)?;
    }
    // Last: drives without it are no store.
    made.file(&stripe::path(folder), stripe.text().as_bytes())?;
    say::out(&summary(&stripe, &speed(data.len(), clock.elapsed())))?;
    made.keep();
    Ok(())
}

fn summary(stripe: &Stripe, speed: &str) -> String {
    let (code, bytes, each) = (stripe.code, grouped(stripe.bytes), grouped(stripe.codewords()));
    let (n, sure, others) = (code.n(), code.guarantee(), stripe::others(code));
    format!(
        "store: {bytes} bytes on {n} drives of {each} bytes: {speed} (file bytes encoded and written a second)\n\
         store: any {sure} drives can be lost and the file still loads; one lost drive is rebuilt from {others}"
    )
}
