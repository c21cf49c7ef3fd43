//! Reading files, and writing them whole or not at all.

use super::Failure;
use std::ffi::OsStr;
use std::fs::{self, File};
use std::io::{self, Read, Write};
use std::path::{Path, PathBuf};

/// The name of standard input and output.
pub const STANDARD: &str = "-";

fn trouble(what: &str, file: &OsStr) -> impl Fn(io::Error) -> Failure {
    let words = format!("{}: cannot {what}", file.display());
    move |cause| Failure::Trouble(format!("{words}: {cause}"))
}

fn open(file: &OsStr) -> io::Result<Box<dyn Read>> {
    if file == STANDARD {
        Ok(Box::new(io::stdin().lock()))
    } else {
        Ok(Box::new(File::open(file)?))
    }
}

/// Reads a file, or only its first `most` bytes.
pub fn read(file: &OsStr, most: u64) -> Result<Vec<u8>, Failure> {
    let mut bytes = Vec::new();
    open(file)
        .and_then(|source| source.take(most).read_to_end(&mut bytes))
        .map_err(trouble("read", file))?;
    Ok(bytes)
}

/// Reads a file, keeps only its first `most` bytes, and gives its length.
pub fn read_counted(file: &OsStr, most: u64) -> Result<(Vec<u8>, u64), Failure> {
    let mut bytes = Vec::new();
    let mut count = || {
        let mut source = open(file)?;
        source.by_ref().take(most).read_to_end(&mut bytes)?;
        io::copy(&mut source, &mut io::sink())
    };
    let rest = count().map_err(trouble("read", file))?;
    let length = bytes.len() as u64 + rest;
    Ok((bytes, length))
}

/// Bytes and the file that is to hold them.
pub struct Output<'a> {
    file: &'a OsStr,
    bytes: &'a [u8],
}

impl<'a> Output<'a> {
    pub fn new(file: &'a OsStr, bytes: &'a [u8]) -> Self {
        Output { file, bytes }
    }

    fn trouble(&self) -> impl Fn(io::Error) -> Failure {
        trouble("write", self.file)
    }

    /// The file to replace: none for standard output, a device or a pipe, which
    /// are written to as they are.
    fn target(&self) -> io::Result<Option<PathBuf>> {
        if self.file == STANDARD {
            return Ok(None);
        }
        match fs::metadata(self.file) {
            Ok(found) if found.is_dir() => Err(io::ErrorKind::IsADirectory.into()),
            Ok(found) if found.is_file() => fs::canonicalize(self.file).map(Some),
            Ok(_) => Ok(None),
            Err(cause) if cause.kind() == io::ErrorKind::NotFound => {
                new_place(Path::new(self.file)).map(Some)
            }
            Err(cause) => Err(cause),
        }
    }

    fn write_through(&self) -> io::Result<()> {
        let mut sink: Box<dyn Write> = if self.file == STANDARD {
            Box::new(io::stdout().lock())
        } else {
            Box::new(File::options().write(true).open(self.file)?)
        };
        sink.write_all(self.bytes)?;
        sink.flush()
    }
}

/// Where a file that is not there will be.
fn new_place(file: &Path) -> io::Result<PathBuf> {
    let name = file.file_name().ok_or(io::ErrorKind::InvalidFilename)?;
    let folder = match file.parent() {
        Some(folder) if !folder.as_os_str().is_empty() => folder,
        _ => Path::new("."),
    };
    Ok(fs::canonicalize(folder)?.join(name))
}

/// Writes all outputs. Files are written beside their targets and put there only
/// after everything has been written; on an error they are removed.
pub fn write(outputs: &[Output]) -> Result<(), Failure> {
    let mut drafts: Vec<(&Output, Draft)> = Vec::new();
    let mut others = Vec::new();
    for output in outputs {
        let Some(target) = output.target().map_err(output.trouble())? else {
            others.push(output);
            continue;
        };
        if drafts.iter().any(|(_, draft)| draft.target == target) {
            let words = "wrong use: two outputs go to";
            return Err(Failure::Trouble(format!("{words} {}", target.display())));
        }
        let draft = Draft::write(target, output.bytes).map_err(output.trouble())?;
        drafts.push((output, draft));
    }
    for output in others {
        output.write_through().map_err(output.trouble())?;
    }
    for (output, draft) in drafts {
        draft.put().map_err(output.trouble())?;
    }
    Ok(())
}

/// A file beside its target, removed unless it is put there.
struct Draft {
    path: PathBuf,
    target: PathBuf,
}

impl Draft {
    /// Writes and syncs a draft, with the permissions of an old target.
    fn write(target: PathBuf, bytes: &[u8]) -> io::Result<Draft> {
        let (path, mut file) = beside(&target)?;
        let draft = Draft { path, target };
        if let Ok(old) = fs::metadata(&draft.target) {
            file.set_permissions(old.permissions())?;
        }
        file.write_all(bytes)?;
        file.sync_all()?;
        Ok(draft)
    }

    fn put(self) -> io::Result<()> {
        fs::rename(&self.path, &self.target)
    }
}

impl Drop for Draft {
    fn drop(&mut self) {
        // After `put` there is nothing of this name; no failure can be told.
        let _ = fs::remove_file(&self.path);
    }
}

/// A new file in the target's folder. A name may be left over from a run that
/// was killed, so some are tried.
fn beside(target: &Path) -> io::Result<(PathBuf, File)> {
    let mut number = 0;
    loop {
        let name = format!(".glouds.{}.{number}.part", std::process::id());
        let path = target.with_file_name(name);
        match File::create_new(&path) {
            Err(cause) if cause.kind() == io::ErrorKind::AlreadyExists && number < 99 => {
                number += 1;
            }
            made => return Ok((path, made?)),
        }
    }
}
