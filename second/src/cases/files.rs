//! The case files on disk: which ones there are, and the cases of several.

use super::{parse, Case, Error};
use std::collections::HashMap;
use std::fs;
use std::io;
use std::path::{Path, PathBuf};

/// The folder of the case files, beside that of the second planner.
pub fn folder() -> PathBuf {
    Path::new(env!("CARGO_MANIFEST_DIR")).join("../cases")
}

/// All case files of a folder, by name.
pub fn files(folder: &Path) -> Result<Vec<PathBuf>, Error> {
    let entries = fs::read_dir(folder).map_err(unreadable(folder))?;
    let paths = entries.filter_map(|entry| Some(entry.ok()?.path()));
    let mut files: Vec<_> =
        paths.filter(|path| path.extension().is_some_and(|ending| ending == "cases")).collect();
    files.sort();
    Ok(files)
}

/// The cases of several files; no two may share a name.
pub fn read(files: &[PathBuf]) -> Result<Vec<Case>, Error> {
    let mut cases: Vec<Case> = Vec::new();
    let mut origins = HashMap::new();
    for path in files {
        let content = fs::read_to_string(path).map_err(unreadable(path))?;
        let file =
            path.file_name().map_or_else(String::new, |name| name.to_string_lossy().into_owned());
        for case in parse(&file, &content)? {
            if let Some(by) = origins.insert(case.name.clone(), case.origin.clone()) {
                return Err(Error::NameTaken { origin: case.origin, name: case.name, by });
            }
            cases.push(case);
        }
    }
    Ok(cases)
}

fn unreadable(path: &Path) -> impl Fn(io::Error) -> Error + '_ {
    |error| Error::Unreadable(path.to_path_buf(), error)
}
