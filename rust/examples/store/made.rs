//! What a run makes, so that it can be removed again, and nothing else with it.

use crate::trouble::Trouble;
use std::fs::{self, File};
use std::io::{ErrorKind, Write};
use std::path::{Path, PathBuf};

/// The files and the folder that this run made. They are removed when it ends before `keep`.
#[derive(Default)]
pub struct Made {
    folder: Option<PathBuf>,
    files: Vec<PathBuf>,
}

impl Made {
    /// Makes the folder, or finds it empty.
    pub fn folder(path: &Path) -> Result<Made, Trouble> {
        match fs::create_dir(path) {
            Ok(()) => Ok(Made { folder: Some(path.into()), files: Vec::new() }),
            Err(error) if error.kind() == ErrorKind::AlreadyExists => {
                found_empty(path)?;
                Ok(Made::default())
            }
            Err(error) => Err(Trouble::writing(path, error)),
        }
    }

    /// Makes a file with these bytes. A file that is there already is left as it is.
    pub fn file(&mut self, path: &Path, bytes: &[u8]) -> Result<(), Trouble> {
        let mut file = File::create_new(path).map_err(|error| match error.kind() {
            ErrorKind::AlreadyExists => exists(path),
            _ => Trouble::writing(path, error),
        })?;
        self.files.push(path.into());
        file.write_all(bytes).map_err(|error| Trouble::writing(path, error))
    }

    pub fn keep(mut self) {
        self.files.clear();
        self.folder = None;
    }
}

impl Drop for Made {
    fn drop(&mut self) {
        for file in &self.files {
            let _ = fs::remove_file(file);
        }
        if let Some(folder) = &self.folder {
            let _ = fs::remove_dir(folder);
        }
    }
}

pub fn exists(path: &Path) -> Trouble {
    Trouble::Refused(format!("{} is there already, and stays as it is", path.display()))
}

fn found_empty(folder: &Path) -> Result<(), Trouble> {
    let refused = |what| Err(Trouble::Refused(format!("{} {what}: nothing was stored", folder.display())));
    if !folder.is_dir() {
        return refused("is there already and is no folder");
    }
    match fs::read_dir(folder).map_err(|error| Trouble::reading(folder, error))?.next() {
        None => Ok(()),
        Some(_) => refused("is not empty"),
    }
}
