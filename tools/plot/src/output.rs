//! A file that is written only when it is whole.

use std::ffi::OsString;
use std::fs::{self, File};
use std::io::{self, ErrorKind, Write};
use std::path::{Path, PathBuf};
use std::process;

/// Writes a text to a new file beside the one asked for, and puts it in its place when all of it is there. What is no
/// file, as a device, is not replaced.
pub fn write_whole(file: &Path, text: &str) -> io::Result<()> {
    let file = match fs::metadata(file) {
        Ok(found) if !found.is_file() => return Err(io::Error::other("it is no regular file")),
        Ok(_) => fs::canonicalize(file)?,
        Err(error) if error.kind() == ErrorKind::NotFound => file.to_path_buf(),
        Err(error) => return Err(error),
    };
    let new = beside(&file);
    let written = write_new(&new, text).and_then(|()| fs::rename(&new, &file));
    if written.is_err() {
        let _ = fs::remove_file(&new);
    }
    written
}

/// A name in the same folder, which no other run that goes on has.
fn beside(file: &Path) -> PathBuf {
    let mut name = OsString::from(".");
    name.push(file.file_name().unwrap_or_default());
    name.push(format!(".{}", process::id()));
    file.with_file_name(name)
}

fn write_new(file: &Path, text: &str) -> io::Result<()> {
    let mut new = File::create(file)?;
    new.write_all(text.as_bytes())?;
    new.sync_all()
}
