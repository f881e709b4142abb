//! Writes the plans of [`compare::adversary`] as folders for the program: slow FOLDER.

use compare::{adversary, folders};
use std::path::Path;
use std::process::ExitCode;
use std::{env, io};

fn write(folder: &Path) -> io::Result<()> {
    for (number, slow) in adversary::all().iter().enumerate() {
        folders::write(folder, number, slow.name, &slow.ask)?;
    }
    Ok(())
}

fn main() -> ExitCode {
    let Some(folder) = env::args_os().nth(1) else {
        eprintln!("the command is: slow FOLDER");
        return ExitCode::from(2);
    };
    match write(Path::new(&folder)) {
        Ok(()) => ExitCode::SUCCESS,
        Err(error) => {
            eprintln!("slow: {error}");
            ExitCode::FAILURE
        }
    }
}
