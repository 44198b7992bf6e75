//! The completions, read by the shells themselves where these are installed.

use std::io::Write;
use std::process::{Command, Stdio};

use crate::support::{repository, Folder};

/// What a shell prints of this input, if it is installed.
fn said(shell: &str, args: &[&str], folder: &Folder, input: &str) -> Option<String> {
    let child = Command::new(shell)
        .args(args)
        .current_dir(folder.path())
        .env("HOME", folder.path())
        .stdin(Stdio::piped())
        .stdout(Stdio::piped())
        .stderr(Stdio::piped())
        .spawn();
    let Ok(mut child) = child else {
        println!("{shell} is not installed: not asked (apt-get install {shell})");
        return None;
    };
    child.stdin.take()?.write_all(input.as_bytes()).unwrap();
    let output = child.wait_with_output().unwrap();
    let err = String::from_utf8_lossy(&output.stderr).into_owned();
    assert!(output.status.success() && err.is_empty(), "{err}");
    Some(String::from_utf8(output.stdout).unwrap())
}

/// A folder with the completions for this shell in this file, and one more file.
fn with(shell: &str, file: &str) -> Folder {
    let folder = Folder::new(&format!("completions-{shell}"));
    let ran = folder.gx(&["completions", shell]);
    assert_eq!((ran.status, ran.err.as_str()), (0, ""));
    std::fs::create_dir(folder.path().join("f")).unwrap();
    folder.put(file, ran.out).put("afile.txt", "1,7");
    folder
}

/// What is typed, and what it becomes.
const LINES: [(&str, &str); 11] = [
    ("gx catal", "gx catalogue "),
    ("gx from", "gx from-owl "),
    ("gx --vers", "gx --version "),
    ("gx help norm", "gx help normal "),
    ("gx completions fi", "gx completions fish "),
    ("gx show af", "gx show afile.txt "),
    ("gx show --so", "gx show --sort "),
    ("gx show --sort serv", "gx show --sort services "),
    ("gx catalogue --on", "gx catalogue --only "),
    ("gx owl --fac", "gx owl --fact "),
    ("gx show --fac", "gx show --fac"),
];

#[test]
fn zsh_completes() {
    let folder = with("zsh", "f/_gx");
    if said("zsh", &["-f", "-n", "f/_gx"], &folder, "").is_none() {
        return;
    }
    let script = repository("rust/gx/tests/complete.zsh")
        .display()
        .to_string();
    let typed: String = LINES
        .iter()
        .map(|(typed, _)| format!("{typed}\n"))
        .collect();
    let completed = said("zsh", &["-f", &script], &folder, &typed).unwrap();
    let due = LINES.iter().map(|(_, due)| format!("<<{due}>>\n"));
    assert_eq!(completed, due.collect::<String>());
}

#[test]
fn fish_completes() {
    let folder = with("fish", "gx.fish");
    if said("fish", &["--no-config", "-n", "gx.fish"], &folder, "").is_none() {
        return;
    }
    let asked = |typed: &str| {
        let script = format!("source gx.fish; complete -C '{typed}'");
        said("fish", &["--no-config", "-c", &script], &folder, "").unwrap()
    };
    for (typed, due) in LINES {
        let offered = asked(typed);
        let words: Vec<&str> = offered
            .lines()
            .filter_map(|line| line.split('\t').next())
            .collect();
        let due = due.trim_end().rsplit(' ').next().unwrap();
        match typed.ends_with(due) {
            true => assert_eq!(words, [""; 0], "{typed}"),
            false => assert_eq!(words, [due], "{typed}"),
        }
    }
    // What a description says is shown whole, apostrophes and brackets too.
    let numbers = asked("gx show --numb");
    assert_eq!(numbers, "--numbers\tin text, write each entry's number\n");
    assert!(asked("gx show --t").contains("'desk' (5,1 [3,2,1; 4,2,1])"));
    assert_eq!(asked("gx help fi").lines().count(), 1);
}
