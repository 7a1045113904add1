//! Which files several words name: a folder stands for all databases in it and in the folders below it, by their names.

use crate::failure::Failure;
use crate::input;
use std::ffi::OsString;
use std::fs;
use std::path::{Path, PathBuf};

#[derive(Default)]
pub struct Files {
    pub names: Vec<OsString>,
    /// Folders that cannot be read or have no database.
    pub failures: Vec<Failure>,
}

impl Files {
    pub fn of(words: &[OsString]) -> Files {
        let mut files = Files::default();
        for word in words {
            if word == "-" || !Path::new(word).is_dir() {
                files.names.push(word.clone());
                continue;
            }
            let (mut found, known) = (Vec::new(), files.failures.len());
            files.below(Path::new(word), &mut found);
            if found.is_empty() && files.failures.len() == known {
                files.failures.push(Failure::Bare(word.to_string_lossy().into_owned()));
            }
            found.sort();
            files.names.extend(found.into_iter().map(PathBuf::into_os_string));
        }
        files
    }

    /// A folder that cannot be read hides no other.
    fn below(&mut self, folder: &Path, found: &mut Vec<PathBuf>) {
        let listed = fs::read_dir(folder).and_then(|entries| entries.collect::<Result<Vec<_>, _>>());
        let unread = |error| Failure::Unread(folder.to_string_lossy().into_owned(), error);
        let entries = listed.map_err(unread).unwrap_or_else(|failure| {
            self.failures.push(failure);
            Vec::new()
        });
        for entry in entries {
            let path = entry.path();
            // A link to a folder may lead back up, so it is not followed.
            if entry.file_type().is_ok_and(|kind| kind.is_dir()) {
                self.below(&path, found);
            } else if is_listed(&path) {
                found.push(path);
            }
        }
    }
}

/// A file that cannot be looked into may be a database, and is told later. What is no file is never opened: a pipe would
/// wait.
fn is_listed(path: &Path) -> bool {
    path.is_file() && input::is_database(path).unwrap_or(true)
}
