//! Copies the words once for each edit, with the edit applied, and writes the list of the copies.
//!
//! An edit has the form of the proofs' must-fail edits: what it does, the file below src/words, a line that stands
//! there once, and the line that replaces it; a few edits have several such lines. The file is taken from the right
//! words, so a wrong version differs in these lines alone. Modules that do not name the changed one, nor any that does,
//! are not copied: the copy takes the right ones. Versions of `undisturbed.rs` answer no question: they are conditions
//! (document 02, order 7), and have a list of their own.

use std::collections::BTreeSet;
use std::path::{Path, PathBuf};
use std::{env, fs, process};

fn stop(message: String) -> ! {
    eprintln!("wrong-words: {}", message);
    process::exit(1)
}

fn text(path: &Path) -> String {
    println!("cargo:rerun-if-changed={}", path.display());
    fs::read_to_string(path).unwrap_or_else(|e| stop(format!("{}: {}", path.display(), e)))
}

/// The files of a folder with this ending, by name.
fn files(folder: &Path, ending: &str) -> Vec<PathBuf> {
    println!("cargo:rerun-if-changed={}", folder.display());
    let entries = fs::read_dir(folder).unwrap_or_else(|e| stop(format!("{}: {}", folder.display(), e)));
    let paths = entries.filter_map(|entry| Some(entry.ok()?.path()));
    let mut paths: Vec<PathBuf> = paths.filter(|p| p.extension().is_some_and(|e| e == ending)).collect();
    paths.sort();
    paths
}

struct Edit {
    label: String,
    what: String,
    file: String,
    /// Each old line and the new one.
    changes: Vec<(String, String)>,
}

impl Edit {
    fn read(path: &Path) -> Edit {
        let text = text(path);
        let lines = |begin: &str| -> Vec<String> {
            text.lines().filter_map(|l| l.strip_prefix(begin)).map(String::from).collect()
        };
        let line = |begin: &str| match &lines(begin)[..] {
            [line] => line.clone(),
            _ => stop(format!("{}: not one line `{}`", path.display(), begin)),
        };
        let (old, new) = (lines("old: "), lines("new: "));
        if old.is_empty() || old.len() != new.len() {
            stop(format!("{}: no new line for each old one", path.display()));
        }
        let label = path.file_stem().map_or(String::new(), |s| s.to_string_lossy().to_string());
        Edit { label, what: line("# "), file: line("file: "), changes: old.into_iter().zip(new).collect() }
    }

    fn applied(&self, right: &str) -> String {
        self.changes.iter().fold(right.to_string(), |text, (old, new)| {
            let (old, new) = (format!("\n{}\n", old), format!("\n{}\n", new));
            if text.matches(&old).count() != 1 {
                stop(format!("{}: its old line does not stand in {} once: {}", self.label, self.file, old));
            }
            text.replace(&old, &new)
        })
    }

    /// The wrong version as an item of its list.
    fn item(&self) -> String {
        let Edit { label, what, .. } = self;
        if self.is_condition() {
            let asked = format!("{}::undisturbed::is_undisturbed(old, new, &added, question)", label);
            let added = format!("{}::undisturbed::added(old, new)", label);
            let holds = format!("|old, new, question| {}.is_ok_and(|added| {})", added, asked);
            return format!("    WrongCondition {{ name: {:?}, what: {:?}, holds: {} }},\n", label, what, holds);
        }
        let says = format!("|table, question| Some({}::said(table, question))", label);
        let load = format!("|start, nodes, out| Some({}::load::write(start, nodes, out))", label);
        let yardstick = format!("name: {:?}, says: {}, answer: {}::lent::answer, load: {}", label, says, label, load);
        format!("    Wrong {{ what: {:?}, yardstick: answer::Yardstick {{ {} }} }},\n", what, yardstick)
    }

    fn is_condition(&self) -> bool {
        self.file == "undisturbed.rs"
    }
}

/// The files that name one, it itself among them: directly, or by another that does. `words.rs` names all.
fn naming(file: &str, right: &[(String, String)]) -> BTreeSet<String> {
    let mut found = BTreeSet::from([file.to_string(), String::from("words.rs")]);
    loop {
        let names = |text: &str, of: &String| of != "words.rs" && text.contains(&format!("super::{}::", module(of)));
        let more = right.iter().filter(|(_, text)| found.iter().any(|of| names(text, of)));
        let more: Vec<String> = more.map(|(name, _)| name.clone()).filter(|name| !found.contains(name)).collect();
        if more.is_empty() {
            return found;
        }
        found.extend(more);
    }
}

fn module(file: &str) -> &str {
    file.strip_suffix(".rs").unwrap_or(file)
}

/// Writes the words with an edit applied into a folder.
fn copy(edit: &Edit, right: &[(String, String)], folder: &Path) {
    fs::create_dir_all(folder).unwrap_or_else(|e| stop(e.to_string()));
    if right.iter().all(|(name, _)| *name != edit.file) {
        stop(format!("{}: there is no file {}", edit.label, edit.file));
    }
    let copied = naming(&edit.file, right);
    for (name, text) in right {
        let copy = match (*name == edit.file, copied.contains(name)) {
            (true, _) => edit.applied(text),
            (_, true) => text.clone(),
            _ => format!("pub use reading::words::{}::*;\n", module(name)),
        };
        fs::write(folder.join(name), copy).unwrap_or_else(|e| stop(e.to_string()));
    }
}

fn main() {
    println!("cargo:rerun-if-changed=build.rs");
    let here = PathBuf::from(env::var("CARGO_MANIFEST_DIR").unwrap_or_else(|e| stop(e.to_string())));
    let out = PathBuf::from(env::var("OUT_DIR").unwrap_or_else(|e| stop(e.to_string())));
    let source = here.join("../src");
    let mut paths = files(&source.join("words"), "rs");
    paths.push(source.join("words.rs"));
    let name = |path: &PathBuf| path.file_name().map_or(String::new(), |n| n.to_string_lossy().to_string());
    let right: Vec<(String, String)> = paths.iter().map(|path| (name(path), text(path))).collect();
    let (mut modules, mut list, mut conditions) = (String::new(), String::new(), String::new());
    for edit in files(&here.join("edits"), "edit").iter().map(|path| Edit::read(path)) {
        let folder = out.join(&edit.label);
        copy(&edit, &right, &folder);
        modules.push_str(&format!("#[path = {:?}]\nmod {};\n", folder.join("words.rs"), edit.label));
        if edit.is_condition() { &mut conditions } else { &mut list }.push_str(&edit.item());
    }
    let conditions = format!("pub const CONDITIONS: &[WrongCondition] = &[\n{}];", conditions);
    let text = format!("{}\npub const WRONG: &[Wrong] = &[\n{}];\n\n{}\n", modules, list, conditions);
    fs::write(out.join("wrong.rs"), text).unwrap_or_else(|e| stop(e.to_string()));
}
