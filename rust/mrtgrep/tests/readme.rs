//! What README.md shows of the command is what it does: each `$` line of its blocks is run, from the repository's top.

mod common;

use std::path::Path;
use std::process::Command;

use common::*;

/// The commands that a page shows, each with what comes out.
fn shown(page: &str) -> Vec<(String, String)> {
    let mut commands: Vec<(String, String)> = Vec::new();
    let mut within = false;
    for line in page.lines() {
        let code = line.strip_prefix("    ");
        if let Some(command) = code.and_then(|code| code.strip_prefix("$ ")) {
            commands.push((command.to_owned(), String::new()));
            within = true;
        } else if let (true, Some(code)) = (within, code) {
            let (_, output) = commands.last_mut().unwrap();
            *output += &format!("{code}\n");
        } else {
            within = false;
        }
    }
    commands
}

#[test]
fn its_commands_give_what_it_shows() {
    let folder = Folder::new("readme");
    // the files that are named, in a folder that may be written to
    for name in ["examples", "tests"] {
        std::os::unix::fs::symlink(path(name).canonicalize().unwrap(), folder.path(name)).unwrap();
    }
    let built = Path::new(env!("CARGO_BIN_EXE_mrtgrep")).parent().unwrap();
    let search = format!("{}:{}", built.display(), std::env::var("PATH").unwrap());
    let commands = shown(&stored_text("README.md"));
    assert!(commands.len() >= 6, "{commands:?}");
    for (command, output) in commands {
        assert!(command.starts_with("mrtgrep "), "{command}");
        let ran = Command::new("sh")
            .args(["-c", &format!("{command} 2>&1")])
            .current_dir(folder.path(""))
            .env("PATH", &search)
            .output()
            .unwrap();
        assert_eq!(String::from_utf8_lossy(&ran.stdout), output, "$ {command}");
    }
}
