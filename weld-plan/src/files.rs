//! Files: read with a sentence on what went wrong, and written beside their place and moved into it, so that none is ever half there.
use crate::fault::Fault;
use std::fs::{self, File};
use std::io::{Error, ErrorKind, Read, Write};
use std::path::{Path, PathBuf};

/// What the system said, in words that a sentence can end with.
fn reason(error: &Error) -> String {
    match error.kind() {
        ErrorKind::NotFound => "it is not there".into(),
        ErrorKind::PermissionDenied => "it may not be opened by this user".into(),
        ErrorKind::StorageFull => "the disk is full".into(),
        ErrorKind::QuotaExceeded => "this user's share of the disk is full".into(),
        ErrorKind::FileTooLarge => "the file would be larger than this user may write".into(),
        ErrorKind::ReadOnlyFilesystem => "the disk is read-only".into(),
        ErrorKind::IsADirectory => "it is a folder".into(),
        ErrorKind::NotADirectory | ErrorKind::AlreadyExists => "a file is in the way of a folder".into(),
        _ => error.to_string(),
    }
}

fn unreadable(path: &Path, error: &Error) -> Fault {
    Fault::input(format!("{} cannot be read: {}", path.display(), reason(error)))
}

fn unwritable(path: &Path, error: &Error) -> Fault {
    Fault::input(format!("{} cannot be written: {}", path.display(), reason(error)))
}

/// A file's bytes; more than `most` are refused before they are all read, so that a wrong name cannot fill the memory.
pub fn read_at_most(path: &Path, most: usize) -> Result<Vec<u8>, Fault> {
    let mut bytes = Vec::new();
    let file = File::open(path).map_err(|error| unreadable(path, &error))?;
    file.take(most as u64 + 1).read_to_end(&mut bytes).map_err(|error| unreadable(path, &error))?;
    match bytes.len() > most {
        true => Err(Fault::input(format!("{} has more than {most} bytes, which is longer than any such file", path.display()))),
        false => Ok(bytes),
    }
}

/// The folder that a day writes to, made if it is not there.
pub fn make_folder(path: &Path) -> Result<(), Fault> {
    fs::create_dir_all(path).map_err(|error| Fault::input(format!("the folder {} cannot be made: {}", path.display(), reason(&error))))
}

/// Where a file is written before it is moved.
fn beside(folder: &Path, name: &str) -> PathBuf {
    folder.join(format!("{name}.new"))
}

fn write_one(path: &Path, bytes: &[u8]) -> Result<(), Error> {
    let mut file = File::create(path)?;
    file.write_all(bytes)?;
    // on the disk before it takes the old one's place, so that a machine that is lost has one of them whole
    file.sync_all()
}

/// All of these files, or none of them: each is written beside its place, and they are moved only when all are on the disk.
pub fn write_all(folder: &Path, files: &[(&str, &[u8])]) -> Result<(), Fault> {
    let written = files
        .iter()
        .try_for_each(|(name, bytes)| write_one(&beside(folder, name), bytes).map_err(|error| unwritable(&folder.join(name), &error)));
    if let Err(fault) = written {
        for (name, _) in files {
            let _ = fs::remove_file(beside(folder, name));
        }
        return Err(fault);
    }
    for (name, _) in files {
        let place = folder.join(name);
        fs::rename(beside(folder, name), &place).map_err(|error| unwritable(&place, &error))?;
    }
    // the folder's own entries; not every system has this, and the files are whole without it
    let _ = File::open(folder).and_then(|folder| folder.sync_all());
    Ok(())
}
