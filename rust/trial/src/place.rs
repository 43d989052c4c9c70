//! A folder with one state file, and what the program may leave beside it.

use crate::trial::Tried;
use std::fs;
use std::path::{Path, PathBuf};

pub struct Place {
    pub folder: PathBuf,
    pub state: PathBuf,
}

impl Place {
    /// Makes the folder.
    pub fn new(within: &Path, name: &str) -> Tried<Place> {
        let folder = within.join(name);
        fs::create_dir_all(&folder).map_err(|error| format!("{}: {error}", folder.display()))?;
        Ok(Place::at(folder))
    }

    /// A folder that is there.
    pub fn at(folder: PathBuf) -> Place {
        Place {
            state: folder.join("state"),
            folder,
        }
    }

    pub fn put(&self, bytes: &[u8]) -> Tried<()> {
        write(&self.state, bytes)
    }

    pub fn get(&self) -> Tried<Vec<u8>> {
        fs::read(&self.state).map_err(|error| format!("{}: {error}", self.state.display()))
    }

    pub fn lock(&self) -> PathBuf {
        self.folder.join("state.lock")
    }

    /// The names in the folder.
    pub fn names(&self) -> Tried<Vec<String>> {
        let failed = |error| format!("{}: {error}", self.folder.display());
        let mut names = Vec::new();
        for entry in fs::read_dir(&self.folder).map_err(failed)? {
            let name = entry.map_err(failed)?.file_name();
            names.push(name.to_string_lossy().into_owned());
        }
        names.sort();
        Ok(names)
    }

    /// The state must be there with these bytes, and nothing else.
    pub fn check(&self, bytes: &[u8]) -> Tried<()> {
        self.check_state(bytes)?;
        self.check_names(&["state"])
    }

    pub fn check_names(&self, expected: &[&str]) -> Tried<()> {
        let names = self.names()?;
        if names != expected {
            return Err(format!(
                "files in the folder: expected {expected:?}, found {names:?}"
            ));
        }
        Ok(())
    }

    pub fn check_state(&self, expected: &[u8]) -> Tried<()> {
        let found = self.get()?;
        if found.len() != expected.len() {
            return Err(format!(
                "the state file: expected {} bytes, found {}",
                expected.len(),
                found.len()
            ));
        }
        for (place, byte) in expected.iter().enumerate() {
            if found[place] != *byte {
                return Err(format!(
                    "the state file at byte {place}: expected {byte}, found {}",
                    found[place]
                ));
            }
        }
        Ok(())
    }

    /// Takes away everything in the folder.
    pub fn clear(&self) -> Tried<()> {
        for name in self.names()? {
            let path = self.folder.join(name);
            let removed = if path.is_dir() {
                fs::remove_dir_all(&path)
            } else {
                fs::remove_file(&path)
            };
            removed.map_err(|error| format!("{}: {error}", path.display()))?;
        }
        Ok(())
    }
}

pub fn write(path: &Path, bytes: &[u8]) -> Tried<()> {
    fs::write(path, bytes).map_err(|error| format!("{}: {error}", path.display()))
}
