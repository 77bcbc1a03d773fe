//! Errors that tell what was to be done.

use std::{fmt, io};

/// An error with what was to be done.
pub fn told(what: fmt::Arguments, error: &io::Error) -> io::Error {
    io::Error::new(error.kind(), format!("{what}: {error}"))
}
