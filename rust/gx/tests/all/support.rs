//! What the tests share: the program, files of their own, drawn inputs.

use std::io::Write;
use std::path::{Path, PathBuf};
use std::process::{Command, Stdio};

use differential::chance::Chance;
use differential::derived::reordered;
use differential::draw;
use gx::entry::Entry;

/// What a run of the program gave.
#[derive(Clone, Debug, PartialEq, Eq)]
pub struct Ran {
    pub status: i32,
    pub out: Vec<u8>,
    pub err: String,
}

impl Ran {
    /// What it printed, without what it says of the files that it was given: most tests have none.
    pub fn text(&self) -> String {
        without_given(&self.whole())
    }

    /// All that it printed.
    pub fn whole(&self) -> String {
        String::from_utf8(self.out.clone()).unwrap()
    }
}

/// An answer without under what it is given.
pub fn without_given(text: &str) -> String {
    let mut lines: Vec<String> = Vec::new();
    for line in text.lines() {
        match line.split_once(",\"given\":{") {
            Some((fields, _)) => lines.push(format!("{fields}}}")),
            None if line.starts_with("given: ") => drop(lines.pop()),
            None if line.starts_with("<p class=\"given\">") => (),
            None => lines.push(line.into()),
        }
    }
    let end = if lines.is_empty() || !text.ends_with('\n') {
        ""
    } else {
        "\n"
    };
    lines.join("\n") + end
}

/// What was told besides, without under what the answers are given.
fn told(err: &str) -> String {
    let told = err.lines().filter(|line| !line.starts_with("gx: given: "));
    told.map(|line| format!("{line}\n")).collect()
}

/// A folder for the files of one test, which begins empty.
pub struct Folder(PathBuf);

impl Folder {
    pub fn new(name: &str) -> Folder {
        let path = Path::new(env!("CARGO_TARGET_TMPDIR")).join(name);
        let _ = std::fs::remove_dir_all(&path);
        std::fs::create_dir_all(&path).unwrap();
        Folder(path)
    }

    pub fn path(&self) -> &Path {
        &self.0
    }

    /// Writes a file.
    pub fn put(&self, name: &str, bytes: impl AsRef<[u8]>) -> &Folder {
        std::fs::write(self.0.join(name), bytes).unwrap();
        self
    }

    pub fn get(&self, name: &str) -> Vec<u8> {
        std::fs::read(self.0.join(name)).unwrap()
    }

    /// Runs the program in the folder.
    pub fn gx(&self, args: &[&str]) -> Ran {
        self.gx_with(args, b"")
    }

    /// Runs the program in the folder with this standard input.
    pub fn gx_with(&self, args: &[&str], input: &[u8]) -> Ran {
        let mut child = Command::new(env!("CARGO_BIN_EXE_gx"))
            .args(args)
            .current_dir(&self.0)
            .stdin(Stdio::piped())
            .stdout(Stdio::piped())
            .stderr(Stdio::piped())
            .spawn()
            .unwrap();
        // A program that does not read its input closes it, which is no failure here.
        let _ = child.stdin.take().unwrap().write_all(input);
        let output = child.wait_with_output().unwrap();
        Ran {
            status: output.status.code().unwrap(),
            out: output.stdout,
            err: told(&String::from_utf8(output.stderr).unwrap()),
        }
    }
}

/// The entries of the reference as entries of gx.
pub fn ours(entries: &[reference::Entry]) -> Vec<Entry> {
    let one = |e: &reference::Entry| Entry {
        kind: e.kind,
        zero: e.zero,
        owner: e.owner,
        name: e.name,
        number: e.number,
    };
    entries.iter().map(one).collect()
}

/// A drawn description, in any order in which owners are earlier.
pub fn description(chance: &mut Chance) -> Vec<reference::Entry> {
    let shape = draw::shape(chance);
    let entries = draw::description(chance, &shape);
    reordered(chance, &entries)
}

/// A drawn specimen, in any such order.
pub fn specimen(chance: &mut Chance) -> Vec<reference::Entry> {
    let shape = draw::shape(chance);
    let entries = draw::specimen(chance, &shape);
    reordered(chance, &entries)
}

/// The sample text of this kind at the limit of 1,008 entries.
pub fn repository(file: &str) -> PathBuf {
    Path::new(env!("CARGO_MANIFEST_DIR"))
        .join("../..")
        .join(file)
}
