//! Files that are written whole or not at all.
use crate::names;
use crate::output::synced;
use crate::stop::{trouble, why, Stop};
use std::ffi::OsStr;
use std::fs::{self, File, Metadata, OpenOptions, Permissions};
use std::io::{self, Write};
use std::os::fd::AsFd;
use std::os::unix::ffi::OsStrExt;
use std::os::unix::fs::{MetadataExt, OpenOptionsExt};
use std::path::{Path, PathBuf};
use std::process;

/// Whether two names lead to the same file, which is there and is a regular one.
pub fn is_same(one: &OsStr, other: &OsStr) -> bool {
    is_one(fs::metadata(one), fs::metadata(other))
}

/// Whether the name leads to the file that is open here, a regular one.
pub fn is_open(name: &OsStr, open: impl AsFd) -> bool {
    let there = open.as_fd().try_clone_to_owned().and_then(|file| File::from(file).metadata());
    is_one(fs::metadata(name), there)
}

fn is_one(one: io::Result<Metadata>, other: io::Result<Metadata>) -> bool {
    match (one, other) {
        (Ok(one), Ok(other)) => one.is_file() && (one.dev(), one.ino()) == (other.dev(), other.ino()),
        _ => false,
    }
}

/// Writes a file, whole or not at all.
pub fn file(name: &OsStr, bytes: &[u8]) -> Result<(), Stop> {
    stage(name, bytes)?.commit()
}

/// A file that is written whole, beside the one that it is to replace. Dropped before that, it is removed.
#[must_use = "nothing is replaced before the commit"]
pub struct Staged {
    name: String,
    /// The new file and the one that it becomes; nothing once that is done, and for what is no regular file.
    paths: Option<(PathBuf, PathBuf)>,
}

impl Staged {
    /// Puts the new file in the place of the old one.
    pub fn commit(mut self) -> Result<(), Stop> {
        let Some((new, target)) = &self.paths else { return Ok(()) };
        fs::rename(new, target).or_else(|error| unwritten(&self.name, &error))?;
        self.paths = None;
        Ok(())
    }
}

impl Drop for Staged {
    fn drop(&mut self) {
        if let Some((new, _)) = &self.paths {
            // there is nobody left to tell
            let _ = fs::remove_file(new);
        }
    }
}

/// Writes the bytes whole, so that only the commit is left to do. What is there and is no regular file, a device or a pipe
/// say, is written to now.
pub fn stage(name: &OsStr, bytes: &[u8]) -> Result<Staged, Stop> {
    let shown = names::shown(name);
    let target = Path::new(name);
    let told = match fs::metadata(target) {
        Ok(there) if there.is_dir() => return trouble(format!("{shown} is a folder: name a file to write to")),
        Ok(there) if there.is_file() => replace(target, there.permissions()),
        Ok(_) => {
            return match write_to(target, bytes) {
                Ok(()) => Ok(Staged { name: shown, paths: None }),
                Err(error) => unwritten(&shown, &error),
            }
        }
        Err(error) if error.kind() == io::ErrorKind::NotFound => {
            if name.as_bytes().ends_with(b"/") {
                return trouble(format!("there is no folder {shown}, and no file is named in it"));
            }
            Ok((end_of_links(target), None))
        }
        Err(error) => Err(error),
    };
    let (target, kept) = told.or_else(|error| unwritten(&shown, &error))?;
    let (file, new) = beside(&target, kept.is_some()).or_else(|error| unmade(&shown, &target, &error))?;
    let staged = Staged { name: shown, paths: Some((new, target)) };
    fill(file, bytes, kept).or_else(|error| unwritten(&staged.name, &error))?;
    Ok(staged)
}

/// The file that the name leads to, which may be written to, and what must be kept of it.
fn replace(target: &Path, kept: Permissions) -> io::Result<(PathBuf, Option<Permissions>)> {
    OpenOptions::new().write(true).open(target)?;
    Ok((fs::canonicalize(target)?, Some(kept)))
}

fn write_to(target: &Path, bytes: &[u8]) -> io::Result<()> {
    OpenOptions::new().write(true).open(target)?.write_all(bytes)
}

fn fill(mut file: File, bytes: &[u8], kept: Option<Permissions>) -> io::Result<()> {
    file.write_all(bytes)?;
    if let Some(kept) = kept {
        file.set_permissions(kept)?;
    }
    synced(&file)
}

/// Where a file that is not there yet has to be made: links that lead nowhere are followed, as many as the system follows.
fn end_of_links(target: &Path) -> PathBuf {
    let mut target = target.to_path_buf();
    for _ in 0..40 {
        let Ok(next) = fs::read_link(&target) else { break };
        target = folder(&target).join(next);
    }
    target
}

fn folder(target: &Path) -> &Path {
    match target.parent() {
        Some(folder) if folder != Path::new("") => folder,
        _ => Path::new("."),
    }
}

/// A new file in the folder of the target, with a name that nobody has. Where it takes the place of a file, nobody else may
/// read it before it has that file's permissions.
fn beside(target: &Path, kept: bool) -> io::Result<(File, PathBuf)> {
    let mode = if kept { 0o600 } else { 0o666 };
    let mut number = 0;
    loop {
        let new = folder(target).join(format!(".apfelruder-{}-{number}.new", process::id()));
        match OpenOptions::new().write(true).create_new(true).mode(mode).open(&new) {
            Err(error) if error.kind() == io::ErrorKind::AlreadyExists && number < 1000 => number += 1,
            other => return other.map(|file| (file, new)),
        }
    }
}

fn unwritten<T>(name: &str, error: &io::Error) -> Result<T, Stop> {
    trouble(format!("{name} cannot be written to: {}", why(error)))
}

fn unmade<T>(name: &str, target: &Path, error: &io::Error) -> Result<T, Stop> {
    if error.kind() == io::ErrorKind::NotFound {
        return trouble(format!("{name} cannot be written to: its folder is not there"));
    }
    let folder = names::shown(folder(target).as_os_str());
    trouble(format!("{name} cannot be written to: in the folder {folder} no new file can be made: {}", why(error)))
}

#[cfg(test)]
mod tests {
    use super::{file, is_same, stage};
    use crate::stop::Stop;
    use std::fs::{self, Permissions};
    use std::os::unix::fs::{symlink, PermissionsExt};
    use std::path::{Path, PathBuf};

    /// An empty folder, removed at the end.
    struct Room(PathBuf);

    impl Room {
        fn new(name: &str) -> Room {
            let room = std::env::temp_dir().join(format!("apfelruder-test-{}-{name}", std::process::id()));
            fs::create_dir(&room).expect("a new folder");
            Room(room)
        }

        fn join(&self, name: &str) -> PathBuf {
            self.0.join(name)
        }

        fn names(&self) -> Vec<String> {
            let entries = fs::read_dir(&self.0).expect("a folder");
            let mut names: Vec<_> =
                entries.map(|entry| entry.expect("an entry").file_name().to_string_lossy().into_owned()).collect();
            names.sort();
            names
        }
    }

    impl Drop for Room {
        fn drop(&mut self) {
            let _ = fs::remove_dir_all(&self.0);
        }
    }

    fn write(path: &Path, bytes: &[u8]) -> Result<(), String> {
        file(path.as_os_str(), bytes).map_err(|stop| match stop {
            Stop::Trouble(words) => words,
            Stop::Refused(_) => panic!("a refusal"),
        })
    }

    #[test]
    fn a_file_is_made_or_replaced() {
        let room = Room::new("replaced");
        let target = room.join("out");
        for bytes in [&b"longer than the next"[..], b"", b"new"] {
            assert_eq!(write(&target, bytes), Ok(()));
            assert_eq!(
                (fs::read(&target).expect("it is there"), room.names()),
                (bytes.to_vec(), vec!["out".to_string()])
            );
        }
    }

    #[test]
    fn permissions_are_kept() {
        let room = Room::new("permissions");
        let target = room.join("out");
        fs::write(&target, "old").expect("a file");
        fs::set_permissions(&target, Permissions::from_mode(0o640)).expect("its owner may");
        assert_eq!(write(&target, b"new"), Ok(()));
        assert_eq!(fs::metadata(&target).expect("it is there").permissions().mode() & 0o777, 0o640);
    }

    #[test]
    fn links_are_followed() {
        let room = Room::new("links");
        fs::create_dir(room.join("deep")).expect("a folder");
        symlink("deep/link", room.join("link")).expect("a link");
        symlink("target", room.join("deep/link")).expect("a link");
        for bytes in [b"first", b"later"] {
            assert_eq!(write(&room.join("link"), bytes), Ok(()));
            assert_eq!(fs::read(room.join("deep/target")).expect("it is there"), bytes);
            assert!(fs::symlink_metadata(room.join("link")).expect("it is there").is_symlink());
        }
        assert_eq!(room.names(), ["deep", "link"]);
    }

    #[test]
    fn the_same_file_has_many_names() {
        let room = Room::new("same");
        let [one, other, link] = ["one", "other", "link"].map(|name| room.join(name));
        fs::write(&one, "").expect("a file");
        fs::write(&other, "").expect("a file");
        symlink("one", &link).expect("a link");
        let same = |one: &Path, other: &Path| is_same(one.as_os_str(), other.as_os_str());
        assert!(
            same(&one, &link) && same(&room.join("../").join(room.0.file_name().expect("a name")).join("one"), &one)
        );
        assert!(
            !same(&one, &other) && !same(&one, &room.join("none")) && !same(&room.join("none"), &room.join("none"))
        );
        assert!(!same(Path::new("/dev/null"), Path::new("/dev/null")));
    }

    #[test]
    fn without_a_commit_nothing_changes() {
        let room = Room::new("staged");
        let target = room.join("out");
        fs::write(&target, "old").expect("a file");
        let staged = stage(target.as_os_str(), b"new");
        assert_eq!((staged.is_ok(), room.names().len()), (true, 2));
        drop(staged);
        assert_eq!((fs::read(&target).expect("it is there"), room.names()), (b"old".to_vec(), vec!["out".to_string()]));
    }

    #[test]
    fn a_name_that_is_taken_is_left_alone() {
        let room = Room::new("taken");
        let taken = format!(".apfelruder-{}-0.new", std::process::id());
        fs::write(room.join(&taken), "somebody's").expect("a file");
        assert_eq!(write(&room.join("out"), b"new"), Ok(()));
        assert_eq!(room.names(), [taken.as_str(), "out"]);
        assert_eq!(fs::read(room.join(&taken)).expect("it is there"), b"somebody's");
    }

    #[test]
    fn what_cannot_be_written_is_trouble() {
        let room = Room::new("trouble");
        symlink("loop", room.join("loop")).expect("a link");
        let told = |path: &Path, words: &str| {
            let said = write(path, b"new").expect_err("trouble");
            assert!(said.contains(words) && !said.contains('\n'), "{said}");
        };
        told(&room.0, "is a folder");
        told(&room.join("none/out"), "cannot be written to: its folder is not there");
        told(&room.join("none/"), "there is no folder");
        told(&room.join("loop"), "cannot be written to: ");
        told(&room.join("loop/out"), "cannot be written to: ");
        told(&room.join(&"long".repeat(100)), "cannot be written to: ");
        told(Path::new("/dev/full"), "/dev/full cannot be written to: no space left on device");
        assert_eq!(room.names(), ["loop"]);
        assert_eq!(write(Path::new("/dev/null"), b"new"), Ok(()));
    }
}
