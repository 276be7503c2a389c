//! The commands of README.md, in its blocks marked `console`, print what it shows.

mod common;

use common::process::*;
use std::os::unix::fs::symlink;
use std::path::Path;
use std::process::Command;

const PAGE: &str = include_str!("../README.md");

/// The commands of all blocks, each with the lines below it.
fn commands() -> Vec<(&'static str, String)> {
    let blocks = PAGE.split("\n```console\n").skip(1);
    let lines = blocks.flat_map(|block| block.lines().take_while(|line| *line != "```"));
    let mut commands: Vec<(&str, String)> = Vec::new();
    for line in lines {
        match (line.strip_prefix("$ "), commands.last_mut()) {
            (Some(command), _) => commands.push((command, String::new())),
            (None, Some((_, printed))) => *printed += &format!("{line}\n"),
            (None, None) => panic!("no command above {line}"),
        }
    }
    commands
}

#[test]
fn the_commands_print_what_the_page_shows() {
    let folder = Folder::new("page");
    let root = Path::new(concat!(env!("CARGO_MANIFEST_DIR"), "/.."));
    for name in ["samples", "tools"] {
        symlink(root.join(name), folder.0.join(name)).expect("a link");
    }
    let program = Path::new(env!("CARGO_BIN_EXE_undisturbed")).parent().expect("a folder");
    let path = std::env::var_os("PATH").expect("a path");
    let path = std::env::join_paths([program.to_path_buf()].into_iter().chain(std::env::split_paths(&path)));
    let path = path.expect("a path");
    let commands = commands();
    for (command, printed) in &commands {
        let mut shell = Command::new("sh");
        let (_, out, said) = ended(shell.args(["-c", command]).current_dir(&folder.0).env("PATH", &path), &[]);
        assert_eq!((&String::from_utf8(out).expect("text"), said.as_str()), (printed, ""), "{command}");
    }
    let status = |end: &str| commands.iter().filter(|(_, printed)| printed.ends_with(end)).count();
    assert_eq!((commands.len(), status("\nstatus 0\n"), status("\nstatus 1\n")), (13, 2, 1));
}
