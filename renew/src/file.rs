//! Writes a file so that what stood there before stays whole until all of the new one is written.

use std::fs::{File, OpenOptions, Permissions};
use std::io::{self, ErrorKind, Write};
use std::path::{Path, PathBuf};

/// Puts a file of these bytes in the target's place, with its permissions. Where this fails, the target is as it was. A
/// device or a pipe is written to as it stands.
pub fn write_file(target: &Path, bytes: &[u8]) -> io::Result<()> {
    let mut there = match OpenOptions::new().write(true).open(target) {
        Ok(there) => there,
        Err(error) if error.kind() == ErrorKind::NotFound => return put(target, None, bytes),
        Err(error) => return Err(error),
    };
    let metadata = there.metadata()?;
    if metadata.is_file() {
        return put(&target.canonicalize()?, Some(metadata.permissions()), bytes);
    }
    there.write_all(bytes)
}

/// A new file beside the target, then under its name.
fn put(target: &Path, permissions: Option<Permissions>, bytes: &[u8]) -> io::Result<()> {
    let (beside, file) = create_beside(target)?;
    let done = fill(file, permissions, bytes).and_then(|()| std::fs::rename(&beside, target));
    if done.is_err() {
        let _ = std::fs::remove_file(&beside);
    }
    done
}

fn fill(mut file: File, permissions: Option<Permissions>, bytes: &[u8]) -> io::Result<()> {
    if let Some(permissions) = permissions {
        file.set_permissions(permissions)?;
    }
    file.write_all(bytes)?;
    file.sync_all()
}

/// A new file in the target's folder, under a name that no file has.
fn create_beside(target: &Path) -> io::Result<(PathBuf, File)> {
    let folder = target.parent().unwrap_or(Path::new(""));
    let mut count = 0;
    loop {
        let path = folder.join(format!(".renew-{}-{count}", std::process::id()));
        match File::create_new(&path) {
            Err(error) if error.kind() == ErrorKind::AlreadyExists => count += 1,
            created => return created.map(|file| (path, file)),
        }
    }
}
