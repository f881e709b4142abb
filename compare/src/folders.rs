//! Asks as folders that the program can be run in.

use second::{bundle, headers, Ask, Question};
use std::path::{Path, PathBuf};
use std::{fs, io};

/// Writes an ask's `build.ninja` and `times.card` into a folder of this number, and what it is
/// called as a file `name`. Nothing is written of a text, nor of a plan with targets, which a
/// program reads from standard input, or of several files or header lists, of which it lends none.
pub fn write(folder: &Path, number: usize, name: &str, ask: &Ask) -> io::Result<Option<PathBuf>> {
    let is_alone = ask.lent.targets.is_empty() && ask.lent.headers == headers::none();
    if !matches!(ask.question, Question::Plan { .. }) || !is_alone {
        return Ok(None);
    }
    let Some(manifest) = bundle::text_alone(&ask.lent.bundle) else { return Ok(None) };
    let room = folder.join(format!("{number:02}"));
    fs::create_dir_all(&room)?;
    fs::write(room.join("build.ninja"), manifest)?;
    fs::write(room.join("times.card"), &ask.lent.card)?;
    fs::write(room.join("name"), name.trim())?;
    Ok(Some(room))
}
