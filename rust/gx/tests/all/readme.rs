//! What the README shows of `gx` is what it prints, on copies of the examples.

use std::path::Path;
use std::process::Command;

use crate::support::{repository, without_given, Folder};

/// A command that the README shows, the folder that it is run in, and what stands below it.
struct Shown {
    folder: String,
    command: String,
    lines: Vec<String>,
}

/// The commands of the text, in order.
fn shown(readme: &str) -> Vec<Shown> {
    let (mut all, mut folder): (Vec<Shown>, String) = (Vec::new(), String::new());
    let mut open = false;
    for line in readme.lines() {
        let Some(line) = line.strip_prefix("    ") else {
            // A blank line may stand in what is printed; anything else ends it.
            match all.last_mut() {
                Some(last) if open && line.is_empty() => last.lines.push(String::new()),
                _ => open = false,
            }
            continue;
        };
        let command = line.strip_prefix("$ ");
        open = command.map_or(open, |command| command.starts_with("gx "));
        match (command, all.last_mut()) {
            (Some(command), _) if open => all.push(Shown {
                folder: folder.clone(),
                command: command.into(),
                lines: Vec::new(),
            }),
            (Some(command), _) => folder = command.strip_prefix("cd ").unwrap_or("").into(),
            (None, Some(last)) if open => last.lines.push(line.into()),
            _ => (),
        }
    }
    all
}

fn copied(from: &Path, to: &Path) {
    std::fs::create_dir_all(to).unwrap();
    for entry in std::fs::read_dir(from).unwrap() {
        let (path, name) = entry
            .map(|entry| (entry.path(), entry.file_name()))
            .unwrap();
        match path.is_dir() {
            true => copied(&path, &to.join(name)),
            false => drop(std::fs::copy(&path, to.join(name)).unwrap()),
        }
    }
}

#[test]
fn what_it_shows_is_printed() {
    let folder = Folder::new("readme");
    copied(&repository("examples"), &folder.path().join("examples"));
    let bin = Path::new(env!("CARGO_BIN_EXE_gx")).parent().unwrap();
    let path = std::env::var("PATH").unwrap_or_default();
    let readme = std::fs::read_to_string(repository("README.md")).unwrap();
    let all = shown(&readme);
    assert!(all.len() > 15, "{}", all.len());
    for one in all {
        let ran = Command::new("sh")
            .args(["-c", &one.command])
            .current_dir(folder.path().join(&one.folder))
            .env("PATH", format!("{}:{path}", bin.display()))
            .env_remove("GX_LAB")
            .output()
            .unwrap();
        let printed = without_given(&String::from_utf8_lossy(&ran.stdout));
        let mut printed = printed.trim_end().lines();
        let due = one.lines.iter().filter(|line| !line.starts_with("given: "));
        let due: Vec<&str> = due.map(String::as_str).collect();
        let due = due.join("\n");
        for line in due.trim_end().lines() {
            match line {
                ".." => printed.by_ref().for_each(drop),
                line => assert_eq!(printed.next(), Some(line), "{}", one.command),
            }
        }
        assert_eq!(printed.next(), None, "{}", one.command);
    }
}
