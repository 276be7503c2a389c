//! The files that questions are in.

use std::ffi::OsStr;
use std::fs;
use std::io::{self, Read};
use std::path::{Path, PathBuf};

/// A file, or what is said where there is none.
pub type Listed = Result<PathBuf, String>;

/// A path as text: where it has bytes that are no text, or control characters, with escapes.
pub fn shown(path: &Path) -> String {
    match path.to_str() {
        Some(text) if !text.contains(char::is_control) => text.to_string(),
        _ => format!("{path:?}"),
    }
}

/// A path and what is said of it.
pub fn of(path: &Path, what: impl std::fmt::Display) -> String {
    format!("{}: {what}", shown(path))
}

/// The files of these paths, in order, then those that a list names. The error is one of the list.
pub fn listed(paths: &[PathBuf], names: Option<&Path>) -> Result<Vec<Listed>, String> {
    let names = names.map_or(Ok(Vec::new()), named)?;
    let mut files = Vec::new();
    for path in paths.iter().cloned().map(Ok).chain(names) {
        match path {
            Ok(path) => add(&path, &mut files),
            Err(what) => files.push(Err(what)),
        }
    }
    Ok(files)
}

/// A path's file, or the files of its folder and of the folders in it.
fn add(path: &Path, files: &mut Vec<Listed>) {
    if !path.is_dir() {
        return files.push(Ok(path.to_path_buf()));
    }
    let before = files.len();
    add_folder(path, files);
    if files.len() == before {
        files.push(Err(of(path, "no file in this folder")));
    }
}

fn add_folder(folder: &Path, files: &mut Vec<Listed>) {
    let entries = fs::read_dir(folder).and_then(Iterator::collect::<io::Result<Vec<_>>>);
    let mut paths: Vec<PathBuf> = match entries {
        Ok(entries) => entries.iter().map(|entry| entry.path()).collect(),
        Err(error) => return files.push(Err(of(folder, format_args!("reading: {error}")))),
    };
    paths.sort();
    for path in paths {
        match (path.is_dir(), path.is_symlink()) {
            (true, true) => files.push(Err(of(&path, "a link to a folder, which is not followed"))),
            (true, false) => add_folder(&path, files),
            (false, _) if path.exists() && !path.is_file() => {
                files.push(Err(of(&path, "neither a file nor a folder")));
            }
            (false, _) => files.push(Ok(path)),
        }
    }
}

/// The names in a list, each on a line; where the list has a zero byte each name ends with one instead.
fn named(list: &Path) -> Result<Vec<Listed>, String> {
    let bytes = read_list(list).map_err(|error| format!("the list {} cannot be read: {error}", shown(list)))?;
    let end = if bytes.contains(&0) { 0 } else { b'\n' };
    let mut names: Vec<&[u8]> = bytes.split(|byte| *byte == end).collect();
    // What stands behind the last end is a name only where there is something.
    names.pop_if(|last| last.is_empty());
    if names.is_empty() {
        return Err(format!("the list {} has no name", shown(list)));
    }
    let one = |(i, name): (usize, &&[u8])| {
        path_of(name).map_err(|what| format!("the list {}: name {} {what}", shown(list), i + 1))
    };
    Ok(names.iter().enumerate().map(one).collect())
}

fn path_of(name: &[u8]) -> Result<PathBuf, &'static str> {
    match (name, os_name(name)) {
        (b"", _) => Err("is empty"),
        (_, None) => Err("is no text in UTF-8"),
        (_, Some(name)) => Ok(PathBuf::from(name)),
    }
}

/// A file's name from the bytes of a list: on Unix any bytes, elsewhere text.
fn os_name(name: &[u8]) -> Option<&OsStr> {
    #[cfg(unix)]
    return Some(std::os::unix::ffi::OsStrExt::from_bytes(name));
    #[cfg(not(unix))]
    return std::str::from_utf8(name).ok().map(OsStr::new);
}

fn read_list(list: &Path) -> io::Result<Vec<u8>> {
    if list != Path::new("-") {
        return fs::read(list);
    }
    let mut bytes = Vec::new();
    io::stdin().read_to_end(&mut bytes)?;
    Ok(bytes)
}
