//! What the commands of this crate share: why one gives up, and its exit status.

use crate::cases;
use std::error;
use std::fmt::{self, Display, Formatter};
use std::io;
use std::path::PathBuf;
use std::process::ExitCode;

/// Why a command gives up.
#[derive(Debug)]
pub enum Error {
    /// The words behind the command are not understood; this is its form.
    Usage(&'static str),
    Cases(cases::Error),
    /// A number that the packed form has no room for.
    Pack(cases::TooGreat),
    /// A file, folder or program can't be used.
    File(PathBuf, io::Error),
    /// The program can't be run on the case of this name.
    Run(String, io::Error),
    /// The packed file is not that of the cases as they are.
    OutOfDate(PathBuf),
    /// Standard output can't be written.
    Output(io::Error),
}

impl Display for Error {
    fn fmt(&self, f: &mut Formatter) -> fmt::Result {
        match self {
            Error::Usage(form) => write!(f, "the command is: {form}"),
            Error::Cases(error) => error.fmt(f),
            Error::Pack(error) => error.fmt(f),
            Error::File(path, error) => write!(f, "{}: {error}", path.display()),
            Error::Run(case, error) => write!(f, "{case}: {error}"),
            Error::OutOfDate(path) => {
                let path = path.display();
                write!(f, "{path} is out of date: run `pack {path}` of second/")
            }
            Error::Output(error) => write!(f, "standard output: {error}"),
        }
    }
}

impl error::Error for Error {
    fn source(&self) -> Option<&(dyn error::Error + 'static)> {
        match self {
            Error::Cases(error) => Some(error),
            Error::Pack(error) => Some(error),
            Error::File(_, error) | Error::Run(_, error) | Error::Output(error) => Some(error),
            Error::Usage(_) | Error::OutOfDate(_) => None,
        }
    }
}

impl From<cases::Error> for Error {
    fn from(error: cases::Error) -> Self {
        Error::Cases(error)
    }
}

impl From<cases::TooGreat> for Error {
    fn from(error: cases::TooGreat) -> Self {
        Error::Pack(error)
    }
}

/// The exit status of a command that tells whether all is well, or gave up.
pub fn status(outcome: Result<bool, Error>) -> ExitCode {
    match outcome {
        Ok(true) => ExitCode::SUCCESS,
        Ok(false) => ExitCode::FAILURE,
        Err(error) => {
            eprintln!("{error}");
            ExitCode::FAILURE
        }
    }
}
