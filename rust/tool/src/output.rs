//! Standard output and standard error.
use crate::stop::{is_closed, trouble, why, Stop};
use std::fs::File;
use std::io::{self, IsTerminal, Write};
use std::os::fd::AsFd;

/// Writes to standard output, all of it or there is trouble. The bytes go past the buffer that Rust keeps for it, which
/// takes a file that cannot be written to for one that can.
pub fn standard(bytes: &[u8]) -> Result<(), Stop> {
    let file = io::stdout().as_fd().try_clone_to_owned().map(File::from);
    file.and_then(|mut file| {
        file.write_all(bytes)?;
        if file.metadata()?.is_file() {
            synced(&file)?;
        }
        Ok(())
    })
    .or_else(|error| match error.kind() {
        io::ErrorKind::BrokenPipe => trouble("standard output: the reader went away before all was written"),
        _ if is_closed(&error) => trouble("standard output is closed"),
        _ => trouble(format!("standard output cannot be written to: {}", why(&error))),
    })
}

/// Says something on standard error. Where that is closed or full, nobody can be told.
pub fn say(words: &str) {
    let _ = io::stderr().write_all(format!("apfelruder: {words}\n").as_bytes());
}

/// Whether a person would see the bytes.
pub fn is_terminal() -> bool {
    io::stdout().is_terminal()
}

/// Waits until the file lies on the disk: that there is no room may be told only then. Some file systems cannot say.
pub fn synced(file: &File) -> io::Result<()> {
    match file.sync_all() {
        Err(error) if !matches!(error.kind(), io::ErrorKind::InvalidInput | io::ErrorKind::Unsupported) => Err(error),
        _ => Ok(()),
    }
}
