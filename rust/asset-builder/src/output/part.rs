//! A file that takes its place when it is whole.

use super::signals::{parts, Parts};
use super::Existing;
use rustix::fs::{AtFlags, OFlags, RenameFlags};
use std::fs::{self, File, Metadata, OpenOptions, Permissions};
use std::io::{self, ErrorKind, Write};
use std::os::fd::AsRawFd;
use std::os::unix::fs::{fchown, MetadataExt, OpenOptionsExt, PermissionsExt};
use std::path::{Path, PathBuf};

/// The mode of a new file, before the mask of the user.
const NEW_FILE: u32 = 0o666;
/// The bits of a mode that a new file may have from the one that it replaces: no other user's rights go with it.
const KEPT_MODE: u32 = 0o777;

/// A file on its way to its place.
pub struct Part {
    file: File,
    /// Its name, where the file system has no files without one.
    name: Option<PathBuf>,
    place: PathBuf,
    existing: Existing,
    placed: bool,
}

impl Part {
    /// Starts a file for the path; a link stays, and the file that it names is written.
    pub fn create(path: &Path, existing: Existing) -> io::Result<Part> {
        Part::at(place_of(path)?, existing)
    }

    /// A file without a name, in the folder of the path, for that path.
    pub fn of_unnamed(file: File, path: &Path, existing: Existing) -> io::Result<Part> {
        Ok(Part {
            file,
            name: None,
            place: place_of(path)?,
            existing,
            placed: false,
        })
    }

    /// Starts a file for just this place.
    pub fn at(place: PathBuf, existing: Existing) -> io::Result<Part> {
        let (file, name) = match unnamed_in(folder_of(&place)) {
            Some(file) => (file, None),
            None => named_beside(&place).map(|(file, name)| (file, Some(name)))?,
        };
        Ok(Part {
            file,
            name,
            place,
            existing,
            placed: false,
        })
    }

    /// Puts the file in its place, once its bytes and its name are on the disk; answers what there is to remark.
    pub fn place_synced(self) -> io::Result<Option<String>> {
        self.file.sync_all()?;
        let folder = folder_of(&self.place).to_path_buf();
        let remark = self.place()?;
        sync_folder(&folder);
        Ok(remark)
    }

    /// Puts the file in its place; answers what there is to remark.
    pub fn place(mut self) -> io::Result<Option<String>> {
        let remark = match fs::symlink_metadata(&self.place) {
            Ok(there) if there.is_file() => {
                may_replace(&self.place, &there, self.existing)?;
                keep_rights(&self.file, &there)?;
                self.replace()?;
                remark_of(&there)
            }
            Ok(there) if there.is_dir() => return Err(ErrorKind::IsADirectory.into()),
            Ok(_) => return Err(is_there()),
            Err(_) => {
                self.put()?;
                None
            }
        };
        self.placed = true;
        Ok(remark)
    }

    /// Gives it the name of its place, where nothing is.
    fn put(&self) -> io::Result<()> {
        let put = match &self.name {
            None => link(&self.file, &self.place),
            Some(name) => {
                let mut parts = parts();
                let put = rename_to_new(name, &self.place);
                if put.is_ok() {
                    parts.forget(name);
                }
                put
            }
        };
        put.map_err(|error| match error.kind() {
            ErrorKind::AlreadyExists => is_there(),
            _ => error,
        })
    }

    /// Takes the place of the file that is there.
    fn replace(&self) -> io::Result<()> {
        // No signal ends the run between the two names.
        let mut parts = parts();
        let name = match &self.name {
            Some(name) => name.clone(),
            None => {
                let (_, name) = new_name_beside(&self.place, |name| link(&self.file, name))?;
                name
            }
        };
        let replaced = fs::rename(&name, &self.place);
        if replaced.is_err() && self.name.is_none() {
            let _ = fs::remove_file(&name);
        }
        if replaced.is_ok() {
            parts.forget(&name);
        }
        replaced
    }
}

impl Write for Part {
    fn write(&mut self, bytes: &[u8]) -> io::Result<usize> {
        self.file.write(bytes)
    }

    fn flush(&mut self) -> io::Result<()> {
        self.file.flush()
    }
}

impl Drop for Part {
    fn drop(&mut self) {
        if let Some(name) = self.name.as_deref().filter(|_| !self.placed) {
            let mut parts = parts();
            // Nothing is lost if it stays.
            let _ = fs::remove_file(name);
            parts.forget(name);
        }
    }
}

/// Where a path leads.
pub fn place_of(path: &Path) -> io::Result<PathBuf> {
    match fs::canonicalize(path) {
        Ok(place) => Ok(place),
        Err(_) if path.is_symlink() => {
            Err(io::Error::other("it is a link to a file that is not there"))
        }
        Err(_) => Ok(path.to_path_buf()),
    }
}

/// The folder of a place.
pub fn folder_of(place: &Path) -> &Path {
    match place.parent() {
        Some(folder) if !folder.as_os_str().is_empty() => folder,
        Some(_) => Path::new("."),
        None => place,
    }
}

/// A new file that is removed already, and whether it can get a name in the folder.
pub fn unnamed_file(folder: &Path) -> io::Result<(File, bool)> {
    if let Some(file) = unnamed_in(folder) {
        return Ok((file, true));
    }
    let mut parts = parts();
    let (file, name) = named_beside_held(&folder.join("unnamed"), &mut parts)?;
    fs::remove_file(&name)?;
    parts.forget(&name);
    Ok((file, false))
}

/// A new file in the folder that has no name, where the file system has such files: whatever ends the run, it goes.
fn unnamed_in(folder: &Path) -> Option<File> {
    // For tests: as on a file system without such files.
    if std::env::var_os("ASSET_BUILDER_NAMED_PARTS").is_some() {
        return None;
    }
    let mut options = OpenOptions::new();
    options.read(true).write(true).mode(NEW_FILE);
    options.custom_flags(OFlags::TMPFILE.bits() as i32);
    let file = options.open(folder).ok()?;
    // It gets its name through this link.
    fs::symlink_metadata(link_of(&file)).ok()?;
    Some(file)
}

/// Gives a file without a name this one, which nothing has.
fn link(file: &File, name: &Path) -> io::Result<()> {
    let (here, follow) = (rustix::fs::cwd(), AtFlags::SYMLINK_FOLLOW);
    Ok(rustix::fs::linkat(here, link_of(file), here, name, follow)?)
}

/// A link of the system's that leads to an open file.
fn link_of(file: &File) -> String {
    format!("/proc/self/fd/{}", file.as_raw_fd())
}

/// A new file in the folder of the place, under a name that no other has; every end of the run removes it.
fn named_beside(place: &Path) -> io::Result<(File, PathBuf)> {
    named_beside_held(place, &mut parts())
}

fn named_beside_held(place: &Path, parts: &mut Parts) -> io::Result<(File, PathBuf)> {
    // Where it replaces a file, nobody else reads it before it has that file's mode.
    let mode = if place.exists() { 0o600 } else { NEW_FILE };
    let mut options = OpenOptions::new();
    options.read(true).write(true).create_new(true).mode(mode);
    let (file, name) = new_name_beside(place, |name| options.open(name))?;
    parts.add(&name);
    Ok((file, name))
}

/// What the action makes under a name beside the place that no other file has, and the name.
fn new_name_beside<T>(
    place: &Path,
    action: impl Fn(&Path) -> io::Result<T>,
) -> io::Result<(T, PathBuf)> {
    let mut tries = 0;
    loop {
        let name = format!(".asset-builder-{}-{tries}.part", std::process::id());
        let name = folder_of(place).join(name);
        match action(&name) {
            Err(error) if error.kind() == ErrorKind::AlreadyExists && tries < 100 => tries += 1,
            made => return Ok((made?, name)),
        }
    }
}

/// Renames a file to a name that nothing has.
fn rename_to_new(name: &Path, place: &Path) -> io::Result<()> {
    let here = rustix::fs::cwd();
    match rustix::fs::renameat_with(here, name, here, place, RenameFlags::NOREPLACE) {
        // The file system does not know; then the test before it must do.
        Err(rustix::io::Errno::INVAL | rustix::io::Errno::NOSYS) => {
            match fs::symlink_metadata(place) {
                Ok(_) => Err(ErrorKind::AlreadyExists.into()),
                Err(_) => fs::rename(name, place),
            }
        }
        renamed => Ok(renamed?),
    }
}

fn is_there() -> io::Error {
    io::Error::other("it is there already; -f overwrites it")
}

/// Whether a plain file may be replaced.
pub fn may_replace(path: &Path, there: &Metadata, existing: Existing) -> io::Result<()> {
    match existing {
        Existing::Force => Ok(()),
        Existing::Keep => Err(is_there()),
        Existing::Replace if is_read_only(path, there) => {
            Err(io::Error::other("it is read-only; -f overwrites it"))
        }
        Existing::Replace => Ok(()),
    }
}

/// Whether nobody may write the file, or this user may not.
fn is_read_only(path: &Path, there: &Metadata) -> bool {
    let (here, write) = (rustix::fs::cwd(), rustix::fs::Access::WRITE_OK);
    let denied = rustix::fs::accessat(here, path, write, AtFlags::empty()).is_err();
    there.permissions().readonly() || denied
}

/// Gives a file the owner and the mode of the one that it replaces, as far as that can be.
fn keep_rights(file: &File, there: &Metadata) -> io::Result<()> {
    let new = file.metadata()?;
    let owner = Some(there.uid()).filter(|it| *it != new.uid());
    let group = Some(there.gid()).filter(|it| *it != new.gid());
    let mut mode = there.mode() & KEPT_MODE;
    let owned = fchown(file, owner, group).is_ok() || fchown(file, None, group).is_ok();
    if !owned {
        // Another group gets no more than all others.
        mode = mode & 0o707 | (mode & 0o007) << 3;
    }
    file.set_permissions(Permissions::from_mode(mode))
}

/// What there is to say of a file that was replaced.
fn remark_of(there: &Metadata) -> Option<String> {
    let others = there.nlink().saturating_sub(1);
    match (others, there.permissions().readonly()) {
        (0, false) => None,
        (0, true) => Some("it was read-only, and is overwritten".to_string()),
        (1, _) => Some("it had another name (a hard link), which keeps the old file".to_string()),
        _ => Some(format!(
            "it had {others} other names (hard links), which keep the old file"
        )),
    }
}

/// Puts a folder's names on the disk; not every file system can.
fn sync_folder(folder: &Path) {
    let _ = File::open(folder).and_then(|folder| folder.sync_all());
}
