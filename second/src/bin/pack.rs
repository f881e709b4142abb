//! Packs every plan and text ask of `/cases` for the proved program `cases`, into the file named;
//! with `--check` it only tells whether that file is up to date.

use second::cases::{files, folder, pack, read};
use second::tool::{status, Error};
use std::fs;
use std::process::ExitCode;

fn run() -> Result<bool, Error> {
    let words: Vec<_> = std::env::args().skip(1).collect();
    let words: Vec<_> = words.iter().map(String::as_str).collect();
    let (path, only_check) = match words[..] {
        ["--check", path] => (path, true),
        [path] => (path, false),
        _ => return Err(Error::Usage("pack [--check] FILE")),
    };
    let packed = pack(&read(&files(&folder())?)?)?;
    if !only_check {
        fs::write(path, packed).map_err(|error| Error::File(path.into(), error))?;
    } else if !fs::read(path).is_ok_and(|bytes| bytes == packed) {
        return Err(Error::OutOfDate(path.into()));
    }
    Ok(true)
}

fn main() -> ExitCode {
    status(run())
}
