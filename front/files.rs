//! Writing a file as a whole: what fails leaves the old one as it was.

use std::fs::{self, File, OpenOptions, Permissions};
use std::io::{stdout, ErrorKind, Result, Write};
use std::os::unix::fs::{OpenOptionsExt, PermissionsExt};
use std::path::{Path, PathBuf};

/// Writes bytes to a new file in the same folder and renames it over the old one, whose permissions it keeps. A symbolic link is followed.
pub fn write_whole(path: &str, bytes: &[u8]) -> Result<()> {
    if path == "/dev/stdout" {
        // Where it leads to a file, the shell still holds that one.
        return stdout().write_all(bytes).and_then(|()| stdout().flush());
    }
    let permissions = match OpenOptions::new().write(true).open(path) {
        Err(e) if e.kind() == ErrorKind::NotFound => None,
        Err(e) => return Err(e),
        Ok(mut old) => {
            let found = old.metadata()?;
            // A device or a pipe cannot be replaced.
            if !found.is_file() {
                return old.write_all(bytes);
            }
            Some(found.permissions())
        }
    };
    let path = followed(Path::new(path));
    let (new, file) = created(path.parent().unwrap_or_else(|| Path::new("")), permissions.as_ref())?;
    let written = filled(file, bytes, permissions).and_then(|()| fs::rename(&new, &path));
    if written.is_err() {
        // The first failure is the one to tell.
        let _ = fs::remove_file(&new);
    }
    written
}

/// Where symbolic links lead to, whether or not there is a file. Links in a circle were refused when the file was opened.
fn followed(path: &Path) -> PathBuf {
    let mut path = path.to_path_buf();
    while let Ok(link) = fs::read_link(&path) {
        path = path.parent().unwrap_or_else(|| Path::new("")).join(link);
    }
    path
}

/// A new file in a folder, with a name that nothing there has; nobody may read it who may not read the old one.
fn created(folder: &Path, permissions: Option<&Permissions>) -> Result<(PathBuf, File)> {
    let mode = permissions.map_or(0o666, |p| p.mode() & 0o777);
    let mut number = 0;
    loop {
        let path = folder.join(format!(".rules-{}-{number}.new", std::process::id()));
        match OpenOptions::new().write(true).create_new(true).mode(mode).open(&path) {
            Err(e) if e.kind() == ErrorKind::AlreadyExists => number += 1,
            Err(e) => return Err(e),
            Ok(file) => return Ok((path, file)),
        }
    }
}

fn filled(mut file: File, bytes: &[u8], permissions: Option<Permissions>) -> Result<()> {
    file.write_all(bytes)?;
    if let Some(permissions) = permissions {
        file.set_permissions(permissions)?;
    }
    file.sync_all()
}
