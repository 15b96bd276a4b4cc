//! The output of a command that runs beside others, kept in files until the command has ended.

use std::env;
use std::fs::{self, File, OpenOptions};
use std::io::{self, Seek, Write};
use std::os::fd::AsFd;
use std::os::unix::fs::{MetadataExt, OpenOptionsExt};
use std::process::{self, Stdio};
use std::sync::atomic::{AtomicU64, Ordering};

/// Files without a name, one command's at a time. A pipe would stay open while a process that the command left behind has it.
#[derive(Debug)]
pub struct Capture {
    output: File,
    /// If both streams of this program are one file, so are those of the commands: then their lines keep their order.
    errors: Option<File>,
}

impl Capture {
    pub fn new() -> io::Result<Capture> {
        let are_one = identity(io::stdout())? == identity(io::stderr())?;
        Ok(Capture {
            output: nameless_file()?,
            errors: if are_one { None } else { Some(nameless_file()?) },
        })
    }

    /// The standard output and the standard error of a command.
    pub fn streams(&self) -> io::Result<(Stdio, Stdio)> {
        let errors = self.errors.as_ref().unwrap_or(&self.output);
        Ok((self.output.try_clone()?.into(), errors.try_clone()?.into()))
    }

    /// Prints what was captured, and empties the files.
    pub fn print(&mut self) -> io::Result<()> {
        let printed = move_to(&mut self.output, &mut io::stdout().lock());
        let errors = self.errors.as_mut().map_or(Ok(()), |errors| move_to(errors, &mut io::stderr().lock()));
        printed.and(errors)
    }
}

/// Empties the file even if the write fails.
fn move_to(file: &mut File, stream: &mut impl Write) -> io::Result<()> {
    if file.metadata()?.len() == 0 {
        return Ok(());
    }
    file.rewind()?;
    let copied = io::copy(file, stream).and_then(|_| stream.flush());
    file.set_len(0)?;
    copied
}

/// The file behind a stream.
fn identity(stream: impl AsFd) -> io::Result<(u64, u64, u64)> {
    let metadata = File::from(stream.as_fd().try_clone_to_owned()?).metadata()?;
    Ok((metadata.dev(), metadata.ino(), metadata.rdev()))
}

/// A file for appending, whose name is removed.
fn nameless_file() -> io::Result<File> {
    static COUNT: AtomicU64 = AtomicU64::new(0);
    let number = COUNT.fetch_add(1, Ordering::Relaxed);
    let path = env::temp_dir().join(format!("cml_make-{}-{number}", process::id()));
    let file = OpenOptions::new().read(true).append(true).create_new(true).mode(0o600).open(&path)?;
    fs::remove_file(&path)?;
    Ok(file)
}
