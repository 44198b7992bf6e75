//! The command line: suggestions, letters, completions, colour, and the help at 80 columns.

use std::io::Read;
use std::process::{Command, Stdio};

use gx::args::{Command as Word, OPTIONS};

use crate::support::Folder;

#[test]
fn a_near_word_is_suggested() {
    let folder = Folder::new("suggested");
    folder.put("d", "1,7");
    for (args, due) in [
        (
            &["chekc", "d"][..],
            "there is no command 'chekc'; did you mean 'check'?",
        ),
        (
            &["catalog", "d", "d"],
            "there is no command 'catalog'; did you mean 'catalogue'?",
        ),
        (
            &["help", "shwo"],
            "there is no command 'shwo'; did you mean 'show'?",
        ),
        (
            &["check", "d", "--name", "n"],
            "check has no option '--name'; did you mean '--names'?",
        ),
        (
            &["show", "d", "--nubmers"],
            "show has no option '--nubmers'; did you mean '--numbers'?",
        ),
        (
            &["show", "d", "--to", "bloks"],
            "--to takes text or desk or blocks or stored; did you mean 'blocks'?",
        ),
        (
            &["normal", "d", "--html", "p"],
            "normal has no option '--html'; show, fit, compare, keep, missing, narrowest, catalogue, hierarchy, delivered, desk, doubles has",
        ),
        (&["judge"], "there is no command 'judge'\n"),
        (
            &["check", "d", "--names", "a", "--names", "b"],
            "--names is given twice",
        ),
        (
            &["completions", "csh"],
            "completions takes bash or zsh or fish; did you mean 'zsh'?",
        ),
    ] {
        let ran = folder.gx(args);
        assert_eq!((ran.status, ran.out.len()), (64, 0), "{args:?}");
        assert!(ran.err.starts_with(&format!("gx: {due}")), "{}", ran.err);
    }
}

#[test]
fn letters_stand_for_options() {
    let folder = Folder::new("letters");
    folder.put("d", "1,7");
    for args in [
        &["write", "d", "-o", "b"][..],
        &["write", "d", "-ob"],
        &["write", "d", "--out=b"],
    ] {
        assert_eq!(folder.gx(args).status, 0, "{args:?}");
        assert_eq!(folder.get("b").len(), 512);
        std::fs::remove_file(folder.path().join("b")).unwrap();
    }
    let ran = folder.gx(&["check", "d", "-q"]);
    assert_eq!((ran.status, ran.out.len(), ran.err.as_str()), (0, 0, ""));
    let ran = folder.gx(&["check", "d", "--quiet", "--json"]);
    assert_eq!((ran.status, ran.out.len()), (0, 0));
    let (version, same) = (folder.gx(&["--version"]), folder.gx(&["-V"]));
    assert_eq!(version, same);
    let lines: Vec<String> = version.text().lines().map(String::from).collect();
    assert_eq!(lines[0], format!("gx {}", gx::given::VERSION));
    assert!(
        lines[1].starts_with("library ") && lines[1].contains(" by "),
        "{lines:?}"
    );
}

#[test]
fn without_a_command_the_commands_are_shown() {
    let ran = Folder::new("bare").gx(&[]);
    assert_eq!((ran.status, ran.out.len()), (64, 0));
    for command in Word::ALL {
        assert!(
            ran.err.contains(&format!("\n  {} ", command.word())),
            "{}",
            ran.err
        );
    }
}

#[test]
fn help_keeps_to_80_columns() {
    let folder = Folder::new("columns");
    let mut helps = vec![folder.gx(&["--help"]), folder.gx(&[])];
    helps.extend(Word::ALL.map(|command| folder.gx(&["help", command.word()])));
    for help in helps {
        for line in help.text().lines().chain(help.err.lines()) {
            assert!(line.chars().count() <= 80, "{line}");
        }
    }
}

#[test]
fn completions_have_help() {
    let folder = Folder::new("completions-help");
    let help = folder.gx(&["completions", "--help"]);
    assert_eq!((help.status, help.err.as_str()), (0, ""));
    assert!(help
        .text()
        .contains("usage: gx completions bash|zsh|fish\n"));
    assert!(help.text().lines().all(|line| line.chars().count() <= 80));
    assert_eq!(help, folder.gx(&["help", "completions"]));
    assert_eq!(help, folder.gx(&["completions", "-h"]));
}

/// What is one answer about many files is written into one file, and the help says so.
#[test]
fn one_answer_in_one_file() {
    let folder = Folder::new("help-one");
    for command in ["hierarchy", "doubles", "desk"] {
        let help = folder.gx(&[command, "--help"]).text();
        assert!(help.contains("--html FILE"), "{help}");
        assert!(!help.contains("into this folder"), "{help}");
    }
    let help = folder.gx(&["catalogue", "--help"]).text();
    assert!(help.contains("into this folder"), "{help}");
}

#[test]
fn completions_have_each_command_and_option() {
    let folder = Folder::new("completions");
    for shell in ["bash", "zsh", "fish"] {
        let ran = folder.gx(&["completions", shell]);
        assert_eq!(ran.status, 0);
        for command in Word::ALL {
            assert!(
                ran.text().contains(command.word()),
                "{shell} {}",
                command.word()
            );
        }
        for option in OPTIONS {
            let name = option.name.trim_start_matches('-');
            assert!(ran.text().contains(name), "{shell} {name}");
        }
        folder.put(shell, ran.out);
        // A shell that is here reads them.
        if let Ok(read) = Command::new(shell)
            .arg("-n")
            .arg(folder.path().join(shell))
            .output()
        {
            assert!(read.status.success(), "{shell}: {read:?}");
        }
    }
}

#[test]
fn a_terminal_shows_colour_unless_it_is_ruled_out() {
    let folder = Folder::new("colour");
    folder.put("c", "1,7").put("d", "1,8");
    assert!(!folder.gx(&["compare", "c", "d"]).text().contains('\u{1b}'));
    let script = |before: &str, args: &str| {
        let line = format!("{before} '{}' {args}", env!("CARGO_BIN_EXE_gx"));
        Command::new("script")
            .args(["-qec", &line, "/dev/null"])
            .env("TERM", "xterm")
            .env_remove("NO_COLOR")
            .current_dir(folder.path())
            .stdin(Stdio::null())
            .output()
            .ok()
            .map(|ran| String::from_utf8(ran.stdout).unwrap())
    };
    let Some(no) = script("", "compare c d") else {
        println!("script is not installed: no terminal is tried");
        return;
    };
    assert!(
        no.starts_with("\u{1b}[1;31mnot contained\u{1b}[0m"),
        "{no:?}"
    );
    assert!(script("", "compare c c")
        .unwrap()
        .starts_with("\u{1b}[1;32mcontained\u{1b}[0m"));
    assert!(script("NO_COLOR=1", "compare c d")
        .unwrap()
        .starts_with("not contained"));
    assert!(script("TERM=dumb", "compare c d")
        .unwrap()
        .starts_with("not contained"));
}

#[test]
fn somebody_at_a_terminal_is_told_what_is_waited_for() {
    let folder = Folder::new("waits");
    folder.put("input", "1,7\n");
    let line = format!("'{}' check", env!("CARGO_BIN_EXE_gx"));
    let child = Command::new("script")
        .args(["-qec", &line, "/dev/null"])
        .current_dir(folder.path())
        .stdin(Stdio::piped())
        .stdout(Stdio::piped())
        .spawn();
    let Ok(mut child) = child else {
        println!("script is not installed: no terminal is tried");
        return;
    };
    let mut begin = [0; 26];
    child
        .stdout
        .as_mut()
        .unwrap()
        .read_exact(&mut begin)
        .unwrap();
    assert_eq!(&begin, b"gx: reads standard input; ");
    child.kill().unwrap();
    child.wait().unwrap();
}

#[test]
fn a_closed_pipe_stops_the_work() {
    let folder = Folder::new("closed");
    std::fs::create_dir_all(folder.path().join("in")).unwrap();
    for number in 0..3000 {
        folder.put(&format!("in/{number}"), "1,7");
    }
    let mut child = Command::new(env!("CARGO_BIN_EXE_gx"))
        .args(["check", "in", "--json"])
        .current_dir(folder.path())
        .stdout(Stdio::piped())
        .spawn()
        .unwrap();
    let mut some = [0; 10];
    let mut out = child.stdout.take().unwrap();
    out.read_exact(&mut some).unwrap();
    drop(out);
    assert_eq!(child.wait().unwrap().code(), Some(141));
}
