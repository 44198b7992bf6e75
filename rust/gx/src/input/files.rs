//! Files: their bytes, their names, and those of a folder.

use std::fs::File;
use std::io::Read;
use std::path::{Path, PathBuf};

use crate::names::Names;
use crate::text::{Mistake, Position};
use crate::trouble::Trouble;

/// The most bytes that are read; every accepted input is shorter.
const MOST_BYTES: u64 = 8 << 20;

/// The bytes of a file, or of standard input for `-`.
///
/// # Errors
///
/// What the system says.
pub fn bytes_of(path: &Path) -> Result<Vec<u8>, Trouble> {
    let mut bytes = Vec::new();
    let read = if path.as_os_str() == "-" {
        std::io::stdin()
            .lock()
            .take(MOST_BYTES)
            .read_to_end(&mut bytes)
    } else {
        File::open(path).and_then(|file| file.take(MOST_BYTES).read_to_end(&mut bytes))
    };
    read.map_err(|error| unreadable(path, &error))?;
    Ok(bytes)
}

/// The trouble that a file's error is.
pub fn unreadable(path: &Path, error: &std::io::Error) -> Trouble {
    Trouble::File {
        file: named(path),
        why: why(error),
    }
}

/// What the system says, without its number for it.
pub fn why(error: &std::io::Error) -> String {
    let words = error.to_string();
    let words = words.split(" (os error").next().unwrap_or_default();
    let mut signs = words.chars();
    let first = signs.next().map(|sign| sign.to_ascii_lowercase());
    first.into_iter().chain(signs).collect()
}

/// The file as messages name it.
pub fn named(path: &Path) -> String {
    if path.as_os_str() == "-" {
        return "standard input".into();
    }
    path.display().to_string()
}

/// The file's name without its folder.
pub fn title(path: &Path) -> String {
    match path.file_name() {
        Some(name) if path.as_os_str() != "-" => name.to_string_lossy().into_owned(),
        _ => named(path),
    }
}

/// The names in a file of these bytes.
///
/// # Errors
///
/// They have a mistake.
pub fn names_of(path: &Path, bytes: &[u8]) -> Result<Names, Trouble> {
    let text = text_of(path, bytes)?;
    let names = Names::read(text);
    let names = names.map_err(|first| all_mistaken(path, first, text, Names::mistakes(text)))?;
    Ok(names.placed(&named(path), text))
}

/// The bytes as text.
///
/// # Errors
///
/// Where they are no UTF-8, or so many that not all of them were read.
pub fn text_of<'a>(path: &Path, bytes: &'a [u8]) -> Result<&'a str, Trouble> {
    if bytes.len() as u64 == MOST_BYTES {
        return Err(Trouble::File {
            file: named(path),
            why: "the text is longer than 8 MiB".into(),
        });
    }
    std::str::from_utf8(bytes).map_err(|error| {
        let good = String::from_utf8_lossy(&bytes[..error.valid_up_to()]);
        let last = good.rsplit('\n').next().unwrap_or("");
        let at = Position {
            line: good.matches('\n').count() + 1,
            column: last.chars().count() + 1,
        };
        let byte = bytes.get(error.valid_up_to()).copied().unwrap_or(0);
        let found = format!("the byte {byte:02x}");
        mistaken(path, Mistake::new(at, "text in UTF-8", found), &good)
    })
}

/// The trouble that a mistake is.
pub fn mistaken(path: &Path, mistake: Mistake, text: &str) -> Trouble {
    Trouble::Mistake {
        file: named(path),
        shown: mistake.shown_in(text),
        mistake: Box::new(mistake),
        more: Vec::new(),
    }
}

/// The trouble that the mistakes of a text are, the first of them this one.
pub fn all_mistaken(path: &Path, first: Mistake, text: &str, mut later: Vec<Mistake>) -> Trouble {
    later.retain(|mistake| mistake.at > first.at);
    let mut trouble = mistaken(path, first, text);
    if let Trouble::Mistake { more, .. } = &mut trouble {
        let shown = |mistake: Mistake| {
            let shown = mistake.shown_in(text);
            (mistake, shown)
        };
        *more = later.into_iter().map(shown).collect();
    }
    trouble
}

/// What a folder has.
#[derive(Clone, Debug, Default, PartialEq, Eq)]
pub struct Listed {
    /// The inputs, by name.
    pub files: Vec<PathBuf>,
    /// The folders in it, which are passed over unless all are to be read.
    pub folders: Vec<PathBuf>,
    /// How many names files, lists of pairs, dictionaries and settings are passed over.
    pub beside: usize,
}

impl Listed {
    /// What is passed over, in words after a comma.
    pub fn passed(&self) -> String {
        let counted = |count: usize, one: &str, many: &str| match count {
            0 => None,
            1 => Some(format!("1 {one}")),
            _ => Some(format!("{count} {many}")),
        };
        let beside = counted(
            self.beside,
            "file of names, pairs, descriptions or settings",
            "files of names, pairs, descriptions or settings",
        );
        let folders = counted(self.folders.len(), "folder", "folders");
        let passed: Vec<String> = [beside, folders].into_iter().flatten().collect();
        match passed.is_empty() {
            true => String::new(),
            false => format!("; passed over: {}", passed.join(" and ")),
        }
    }
}

/// The files of a folder by name, and with all its folders theirs. Hidden files, names files, lists of pairs, dictionaries and
/// settings are passed over.
///
/// # Errors
///
/// What the system says.
pub fn files_of(path: &Path, recursive: bool) -> Result<Listed, Trouble> {
    let listed = std::fs::read_dir(path).and_then(|list| {
        let paths = list.map(|file| file.map(|file| file.path()));
        paths.collect::<Result<Vec<PathBuf>, _>>()
    });
    let mut paths = listed.map_err(|error| unreadable(path, &error))?;
    paths.sort();
    let mut all = Listed::default();
    for file in paths {
        let name = title(&file);
        let beside = [".names", ".pairs", ".dictionary", ".gx"];
        match () {
            () if name.starts_with('.') => (),
            // A folder behind a link might be one that is being read.
            () if file.is_dir() && recursive && !file.is_symlink() => {
                let below = files_of(&file, true)?;
                all.files.extend(below.files);
                all.folders.extend(below.folders);
                all.beside += below.beside;
            }
            () if file.is_dir() => all.folders.push(file),
            () if beside.iter().any(|ending| name.ends_with(ending)) => all.beside += 1,
            () if file.is_file() => all.files.push(file),
            () => (),
        }
    }
    Ok(all)
}
