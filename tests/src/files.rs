//! Files, by their paths from the folder of these tests.

use std::fs;
use std::path::{Path, PathBuf};

pub fn path(from_here: impl AsRef<Path>) -> PathBuf {
    Path::new(env!("CARGO_MANIFEST_DIR")).join(from_here)
}

/// The text of a file.
pub fn text(from_here: impl AsRef<Path>) -> String {
    let path = path(from_here);
    fs::read_to_string(&path).unwrap_or_else(|error| panic!("{}: {error}", path.display()))
}
