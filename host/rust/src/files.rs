//! Files of a repository and of a store, in folders.

use crate::File;
use std::fs;
use std::io::{self, Read, Write};
use std::os::unix::ffi::{OsStrExt, OsStringExt};
use std::os::unix::fs::OpenOptionsExt;
use std::path::{Path, PathBuf};
use std::sync::atomic::{AtomicU64, Ordering};

const MOST_OF_FILE: u64 = 64 << 20;
/// What stands in the name of a file that isn't yet in its place.
const BESIDE: &str = ".new~";
const O_NONBLOCK: i32 = 0o4000;
const ENAMETOOLONG: i32 = 36;
const ENOTDIR: i32 = 20;

/// What fetches files of a repository.
pub trait Files {
    /// The file of this name, or none where the repository doesn't have it. No more than `most` bytes are of use, and one more tells
    /// that it is too long. An error ends the verification.
    fn file(&mut self, name: &[u8], most: u64) -> io::Result<Option<Vec<u8>>>;
}

/// What keeps documents between verifications.
pub trait Store {
    /// All files.
    fn load(&mut self) -> io::Result<Vec<File>>;
    /// Puts each file in place of the one of its name, all before the next verification over this store begins.
    fn keep(&mut self, files: &[File]) -> io::Result<()>;
}

/// An error with the place where it came up.
fn at(path: &Path, fault: io::Error) -> io::Error {
    io::Error::new(fault.kind(), format!("{}: {fault}", path.display()))
}

/// Where a name leads to below a folder; none where it leads elsewhere.
fn below(folder: &Path, name: &[u8]) -> Option<PathBuf> {
    let leads = |part: &[u8]| !matches!(part, b"" | b"." | b"..") && !part.contains(&0);
    let name_of = |name| std::ffi::OsStr::from_bytes(name);
    name.split(|&octet| octet == b'/').all(leads).then(|| folder.join(name_of(name)))
}

/// The bytes of a regular file, `most` and one more at most.
fn read(path: &Path, most: u64) -> io::Result<Vec<u8>> {
    let file = fs::OpenOptions::new().read(true).custom_flags(O_NONBLOCK).open(path)?;
    if !file.metadata()?.is_file() {
        return Err(io::Error::new(io::ErrorKind::InvalidInput, "not a regular file"));
    }
    let mut bytes = Vec::new();
    file.take(most.saturating_add(1)).read_to_end(&mut bytes)?;
    Ok(bytes)
}

/// Adds the files of a folder, and of those in it.
fn add_folder(files: &mut Vec<File>, folder: &Path, before: &[u8]) -> io::Result<()> {
    for entry in fs::read_dir(folder).map_err(|fault| at(folder, fault))? {
        let entry = entry?;
        let name = [before, entry.file_name().as_bytes()].concat();
        let path = entry.path();
        if path.is_dir() {
            add_folder(files, &path, &[&name[..], b"/"].concat())?;
            continue;
        }
        match read(&path, MOST_OF_FILE) {
            Ok(bytes) => files.push(File { name, bytes }),
            // (another process has put it in its place)
            Err(fault) if fault.kind() == io::ErrorKind::NotFound && entry.file_name().to_string_lossy().contains(BESIDE) => {}
            Err(fault) => return Err(at(&path, fault)),
        }
    }
    Ok(())
}

/// A folder with the files of a repository, targets below targets/.
#[derive(Clone, Debug)]
pub struct Folder(pub PathBuf);

impl Folder {
    /// All files.
    pub fn all(&self) -> io::Result<Vec<File>> {
        let mut files = Vec::new();
        add_folder(&mut files, &self.0, b"")?;
        Ok(files)
    }
}

impl Files for Folder {
    fn file(&mut self, name: &[u8], most: u64) -> io::Result<Option<Vec<u8>>> {
        let path = match below(&self.0, name) {
            Some(path) => path,
            None => return Ok(None),
        };
        match read(&path, most) {
            Ok(bytes) => Ok(Some(bytes)),
            Err(fault) if fault.kind() == io::ErrorKind::NotFound => Ok(None),
            Err(fault) if matches!(fault.raw_os_error(), Some(ENOTDIR | ENAMETOOLONG)) => Ok(None),
            Err(fault) => Err(at(&path, fault)),
        }
    }
}

/// A folder that keeps documents; the first verification makes it.
#[derive(Clone, Debug)]
pub struct FolderStore(pub PathBuf);

impl Store for FolderStore {
    fn load(&mut self) -> io::Result<Vec<File>> {
        let mut files = Vec::new();
        match fs::symlink_metadata(&self.0) {
            Err(fault) if fault.kind() == io::ErrorKind::NotFound => Ok(files),
            _ => add_folder(&mut files, &self.0, b"").map(|()| files),
        }
    }

    fn keep(&mut self, files: &[File]) -> io::Result<()> {
        for file in files {
            let path = below(&self.0, &file.name).ok_or_else(|| io::Error::new(io::ErrorKind::InvalidInput, "a name that leads out of the store"))?;
            put(&path, &file.bytes).map_err(|fault| at(&path, fault))?;
        }
        Ok(())
    }
}

static COUNT: AtomicU64 = AtomicU64::new(0);

/// Writes a file beside its place, flushes it, renames it, and flushes its folder.
fn put(path: &Path, bytes: &[u8]) -> io::Result<()> {
    let folder = path.parent().unwrap_or(Path::new("."));
    fs::create_dir_all(folder)?;
    let mut beside = path.as_os_str().as_bytes().to_vec();
    beside.extend_from_slice(format!("{BESIDE}{}-{}", std::process::id(), COUNT.fetch_add(1, Ordering::Relaxed)).as_bytes());
    let beside = PathBuf::from(std::ffi::OsString::from_vec(beside));
    let written = || {
        // (what an ended process left goes, and no link is followed)
        let _ = fs::remove_file(&beside);
        let mut file = fs::OpenOptions::new().write(true).create_new(true).open(&beside)?;
        file.write_all(bytes)?;
        file.sync_all()?;
        fs::rename(&beside, path)
    };
    if let Err(fault) = written() {
        let _ = fs::remove_file(&beside);
        return Err(fault);
    }
    fs::File::open(folder)?.sync_all()
}
