//! What stripe.txt says: the code and the file's length.

use crate::trouble::Trouble;
use latsefidy::Code;
use std::fs;
use std::io::ErrorKind;
use std::path::{Path, PathBuf};

pub struct Stripe {
    pub code: Code,
    pub bytes: usize,
}

pub fn path(folder: &Path) -> PathBuf {
    folder.join("stripe.txt")
}

pub fn drive(folder: &Path, slot: u32) -> PathBuf {
    folder.join(format!("drive-{slot}"))
}

/// What a lost drive is rebuilt from; one of a short last group has fewer others.
pub fn others(code: Code) -> String {
    let (most, least) = (code.group_size().min(code.n()) - 1, code.last_group_size() - 1);
    let (bound, plural) = (if least < most { "at most " } else { "" }, if most == 1 { "" } else { "s" });
    format!("{bound}{most} other{plural}")
}

impl Stripe {
    /// The number of codewords, which is the length of a drive.
    pub fn codewords(&self) -> usize {
        self.bytes.div_ceil(self.code.k() as usize)
    }

    /// The line of the code is field, r, n, k, and under wiring 1 alone the wiring after them.
    pub fn text(&self) -> String {
        let (code, bytes) = (self.code, self.bytes);
        let numbers = format!("{} {} {} {}", code.field(), code.r(), code.n(), code.k());
        let wired = if code.wiring() == 1 { " 1" } else { "" };
        format!("latsefidy store 1\ncode {numbers}{wired}\nbytes {bytes}\n")
    }

    /// The stripe of a text that `text` writes, and of no other.
    fn parse(text: &str) -> Option<Stripe> {
        let [_, code, bytes] = text.lines().collect::<Vec<_>>().try_into().ok()?;
        let numbers: Vec<u32> = code.strip_prefix("code 1 ")?.split(' ').map_while(|t| t.parse().ok()).collect();
        let (&[r, n, k], rest) = numbers.split_first_chunk()?;
        let wiring = rest.first().copied().unwrap_or(0);
        let bytes = bytes.strip_prefix("bytes ")?.parse().ok()?;
        let stripe = Stripe { code: Code::with_wiring(1, r, n, k, wiring).ok()?, bytes };
        (stripe.text() == text).then_some(stripe)
    }

    pub fn read(folder: &Path) -> Result<Stripe, Trouble> {
        let refused = |what| Trouble::Refused(format!("{} is no store: {what}", folder.display()));
        let path = path(folder);
        let text = fs::read(&path).map_err(|error| match error.kind() {
            ErrorKind::NotFound | ErrorKind::NotADirectory => refused("it has no stripe.txt"),
            _ => Trouble::reading(&path, error),
        })?;
        let stripe = std::str::from_utf8(&text).ok().and_then(Stripe::parse);
        stripe.ok_or_else(|| refused("its stripe.txt is not as store writes it"))
    }
}
