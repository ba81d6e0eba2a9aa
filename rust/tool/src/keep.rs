//! A roll in its file: read, and kept so that nothing is lost.

use std::ffi::{OsStr, OsString};
use std::fs::{self, File, Metadata, OpenOptions, Permissions};
use std::io::{self, Read, Write};
use std::os::unix::ffi::OsStrExt;
use std::os::unix::fs::{MetadataExt, OpenOptionsExt, PermissionsExt};
use std::path::{Path, PathBuf};
use std::thread;
use std::time::{Duration, Instant};

use crate::failure::Failure;
use crate::system;

/// The name of standard input, and of standard output.
pub const STANDARD: &str = "-";

/// How long a command waits for another that is at work in the same folder.
const PATIENCE: Duration = Duration::from_secs(10);

/// The file that is written beside the old one. There is one in a folder, as there is one lock; what a command that was
/// killed has left of it the next one removes.
const FRESH: &str = ".monterculo.new";

/// At most so many bytes of a file, or of standard input.
pub fn read(name: &OsStr, most: usize) -> Result<Vec<u8>, Failure> {
    let failed = |error| Failure::system(name, &error);
    if name == STANDARD {
        return read_from(&mut io::stdin().lock(), 0, most).map_err(failed);
    }
    let mut file = File::open(name).map_err(failed)?;
    let size = file.metadata().map_err(failed)?.len();
    read_from(&mut file, size, most).map_err(failed)
}

/// At most so many bytes of a source that is thought to have a number of them.
fn read_from(source: &mut impl Read, size: u64, most: usize) -> io::Result<Vec<u8>> {
    let mut bytes = Vec::with_capacity(usize::try_from(size).unwrap_or(most).min(most).saturating_add(1));
    source.take(most as u64).read_to_end(&mut bytes)?;
    Ok(bytes)
}

/// A roll's place on disk. Whoever has it has the lock of its folder, and is alone in changing it.
pub struct Place<'a> {
    name: &'a OsStr,
    path: PathBuf,
    folder: File,
    /// What stands there, if anything does.
    old: Option<Metadata>,
}

/// The file that a name leads to, through links, whether it is there or not.
fn resolve(name: &OsStr) -> io::Result<PathBuf> {
    let path = Path::new(name);
    // What ends so would be a folder.
    let named = path.file_name().filter(|_| !name.as_bytes().ends_with(b"/"));
    match (fs::canonicalize(path), named) {
        (Err(error), Some(last)) if error.kind() == io::ErrorKind::NotFound => {
            let folder = path.parent().filter(|folder| *folder != Path::new("")).unwrap_or_else(|| Path::new("."));
            Ok(fs::canonicalize(folder)?.join(last))
        }
        (found, _) => found,
    }
}

/// What stands at a path, be it a link that leads nowhere.
fn standing(path: &Path) -> io::Result<Option<Metadata>> {
    match fs::symlink_metadata(path) {
        Err(error) if error.kind() == io::ErrorKind::NotFound => Ok(None),
        found => found.map(Some),
    }
}

/// What tells a file from another, and from itself when it has been changed.
fn traits(file: &Metadata) -> ([u64; 3], [i64; 2]) {
    ([file.dev(), file.ino(), file.size()], [file.ctime(), file.ctime_nsec()])
}

/// The folder of a file.
fn folder_of(path: &Path) -> &Path {
    path.parent().unwrap_or_else(|| Path::new("/"))
}

impl<'a> Place<'a> {
    /// Takes the place of a name. Another command at work in the folder is waited for, but not for ever.
    pub fn take(name: &'a OsStr) -> Result<Place<'a>, Failure> {
        let failed = |error| Failure::system(name, &error);
        let path = resolve(name).map_err(failed)?;
        if path.file_name() == Some(OsStr::new(FRESH)) {
            return Err(Failure::of(name, "new files are written under this name, and no roll is kept there"));
        }
        let folder = File::open(folder_of(&path)).map_err(failed)?;
        let start = Instant::now();
        while let Err(error) = system::lock(&folder) {
            match error.kind() {
                io::ErrorKind::WouldBlock | io::ErrorKind::Interrupted if start.elapsed() < PATIENCE => {
                    thread::sleep(Duration::from_millis(5));
                }
                io::ErrorKind::WouldBlock | io::ErrorKind::Interrupted => {
                    return Err(Failure::of(
                        name,
                        "another command is still at work in its folder; nothing was changed",
                    ))
                }
                _ => return Err(Failure::step(name, "its folder cannot be locked", &error)),
            }
        }
        match standing(&path).map_err(failed)? {
            Some(old) if !old.is_file() => Err(Failure::of(name, "no plain file: no roll is kept there")),
            old => Ok(Place { name, path, folder, old }),
        }
    }

    /// Whether something stands there already.
    pub fn is_taken(&self) -> bool {
        self.old.is_some()
    }

    /// What stands there, opened for writing too, so that what is marked as not to be written is refused.
    pub fn open(&self) -> Result<File, Failure> {
        let opened = OpenOptions::new().read(true).write(true).open(&self.path);
        opened.map_err(|error| Failure::system(self.name, &error))
    }

    /// At most so many bytes of what stands there, to be changed.
    pub fn read(&self, most: usize) -> Result<Vec<u8>, Failure> {
        let failed = |error| Failure::system(self.name, &error);
        let mut file = self.open()?;
        let size = file.metadata().map_err(failed)?.len();
        read_from(&mut file, size, most).map_err(failed)
    }

    /// Says whether a new file can be made beside it, before there is anything to be lost.
    pub fn try_out(&self) -> Result<(), Failure> {
        let fresh = self.fresh();
        self.create(&fresh).and_then(|_| fs::remove_file(&fresh)).map_err(|error| self.unwritten(&error))
    }

    /// Keeps these bytes there: in a new file beside the old one, made lasting and then put in its place. If the process
    /// or the current fails, there is the old file or the new one, and either is whole.
    pub fn keep(self, bytes: &[u8]) -> Result<(), Failure> {
        let fresh = self.fresh();
        if let Err(error) = self.write(&fresh, bytes) {
            let _ = fs::remove_file(&fresh);
            return Err(self.unwritten(&error));
        }
        if let Err(failure) = self.put(&fresh) {
            let _ = fs::remove_file(&fresh);
            return Err(failure);
        }
        // The folder too, or the new name may be lost.
        match self.folder.sync_all() {
            // A file system that knows no such call for folders.
            Err(error) if error.kind() == io::ErrorKind::InvalidInput => Ok(()),
            synced => synced.map_err(|error| {
                Failure::step(self.name, "it is changed, but may not outlast a failure of the current", &error)
            }),
        }
    }

    /// Puts the new file in its place, unless something else stands there than did.
    fn put(&self, fresh: &Path) -> Result<(), Failure> {
        let failed =
            |error| Failure::step(self.name, "the new file cannot take its place, and nothing was changed", &error);
        // A program that knows no lock, such as cp, may have been there.
        if standing(&self.path).map_err(failed)?.as_ref().map(traits) != self.old.as_ref().map(traits) {
            return Err(Failure::of(self.name, "another program has changed it meanwhile, and that was left as it is"));
        }
        fs::rename(fresh, &self.path).map_err(failed)
    }

    /// Where the new file is written.
    fn fresh(&self) -> PathBuf {
        folder_of(&self.path).join(FRESH)
    }

    fn unwritten(&self, error: &io::Error) -> Failure {
        Failure::step(self.name, "no new file can be written beside it, and nothing was changed", error)
    }

    /// Makes the new file, which nobody else may read before it has the old one's rights.
    fn create(&self, fresh: &Path) -> io::Result<File> {
        match fs::remove_file(fresh) {
            Err(error) if error.kind() != io::ErrorKind::NotFound => return Err(error),
            _ => {}
        }
        let mut options = OpenOptions::new();
        options.write(true).create_new(true);
        if self.old.is_some() {
            options.mode(0o600);
        }
        options.open(fresh)
    }

    /// Writes the new file, with the old one's owner and rights.
    fn write(&self, fresh: &Path, bytes: &[u8]) -> io::Result<()> {
        let mut file = self.create(fresh)?;
        file.write_all(bytes)?;
        if let Some(old) = &self.old {
            let own = file.metadata()?;
            if (own.uid(), own.gid()) != (old.uid(), old.gid()) {
                // Who may not give a file away keeps it, for the old one's group if that is one of theirs.
                let _ =
                    system::give(&file, old.uid(), old.gid()).or_else(|_| system::give(&file, own.uid(), old.gid()));
            }
            // Another group gets no rights by it.
            let mode = if file.metadata()?.gid() == old.gid() { old.mode() } else { old.mode() & !0o070 };
            file.set_permissions(Permissions::from_mode(mode))?;
        }
        file.sync_all()
    }
}

/// The name that a file is called by in front of what is found in it.
pub fn label(name: &OsStr) -> OsString {
    if name == STANDARD {
        "(standard input)".into()
    } else {
        name.into()
    }
}
