//! What a command writes: all of it is made before any of it is written.

use std::fs::{self, File};
use std::io::{self, Write};
use std::os::fd::AsFd;
use std::path::{Path, PathBuf};

use super::fault::Fault;

/// Warnings for standard error, files, a text for standard output, and the status to end with.
#[derive(Clone, Debug, Default, PartialEq, Eq)]
pub struct Output {
    pub warnings: Vec<String>,
    pub files: Vec<(PathBuf, Vec<u8>)>,
    pub text: String,
    pub status: u8,
}

impl Output {
    /// A text alone.
    pub fn text(text: String) -> Self {
        Output {
            text,
            ..Output::default()
        }
    }

    /// The same with another status.
    pub fn with_status(self, status: u8) -> Self {
        Output { status, ..self }
    }

    /// Writes the files, then the text; the answer is the status.
    pub fn deliver(&self) -> Result<u8, Fault> {
        self.write_files()?;
        let failed = |error| Fault::failed(format!("standard output: {error}"));
        write_unbuffered(self.text.as_bytes()).map_err(failed)?;
        Ok(self.status)
    }

    /// Every file is written whole beside its place before the first is moved there; all are moved, or none.
    fn write_files(&self) -> Result<(), Fault> {
        let paths: Vec<&Path> = self.files.iter().map(|(path, _)| path.as_path()).collect();
        let mut files = self.files.iter();
        let written = paths
            .iter()
            .try_for_each(|path| told(path, is_free(path)))
            .and_then(|()| {
                files.try_for_each(|(path, bytes)| told(path, write_synced(path, bytes)))
            })
            .and_then(|()| move_all(&paths));
        if written.is_err() {
            for path in paths {
                let _ = fs::remove_file(beside(path));
            }
        }
        written
    }
}

/// Moves every file to its place; if one can't be moved, those that were are put back.
fn move_all(paths: &[&Path]) -> Result<(), Fault> {
    for (place, path) in paths.iter().enumerate() {
        if let Err(error) = move_one(path) {
            paths[..place].iter().for_each(|path| put_back(path));
            return told(path, Err(error));
        }
    }
    for path in paths {
        let _ = fs::remove_file(before(path));
    }
    Ok(())
}

/// Moves a file to its place, and what stood there aside.
fn move_one(path: &Path) -> io::Result<()> {
    match path.exists() {
        true => fs::rename(path, before(path))?,
        false => drop(fs::remove_file(before(path))),
    }
    fs::rename(beside(path), path).inspect_err(|_| put_back(path))
}

/// What stood in a file's place stands there again; nothing, if nothing did.
fn put_back(path: &Path) {
    let _ = match before(path).exists() {
        true => fs::rename(before(path), path),
        false => fs::remove_file(path),
    };
}

/// A file may stand in this place: nothing does, or a file that it replaces.
fn is_free(path: &Path) -> io::Result<()> {
    match fs::symlink_metadata(path) {
        Ok(there) if !there.is_file() => {
            Err(io::Error::other("expected a file, or nothing, there"))
        }
        _ => Ok(()),
    }
}

/// A failure with the file's name.
fn told(path: &Path, done: io::Result<()>) -> Result<(), Fault> {
    done.map_err(|error| Fault::failed(format!("{}: {error}", path.display())))
}

/// Where a file is written before it is moved to its place.
fn beside(path: &Path) -> PathBuf {
    path.with_extension("part")
}

/// Where a file that is replaced stands until all are.
fn before(path: &Path) -> PathBuf {
    path.with_extension("before")
}

/// Writes a whole file down to the disk, beside its place; its folder is made if it is not there.
fn write_synced(path: &Path, bytes: &[u8]) -> io::Result<()> {
    fs::create_dir_all(path.parent().unwrap_or(Path::new(".")))?;
    let mut file = File::create(beside(path))?;
    file.write_all(bytes)?;
    file.sync_all()
}

/// Writes to standard output in one go; only what a short write left is written again.
fn write_unbuffered(bytes: &[u8]) -> io::Result<()> {
    let mut output = File::from(io::stdout().as_fd().try_clone_to_owned()?);
    output.write_all(bytes)
}
