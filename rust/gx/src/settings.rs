//! A laboratory's settings: which names file, list of pairs and dictionary all its answers are given under.
//!
//! They are lines like `names laboratory.names`, `pairs soil.pairs` and `dictionary cores.dictionary` in a file `laboratory.gx`; the
//! files stand beside it.

use std::path::{Path, PathBuf};

use crate::args::{Command, Opt, Options};
use crate::input::{mistaken, text_of};
use crate::text::{Lexer, Mistake, Sign, Token};
use crate::trouble::Trouble;

/// The name of the file.
pub const FILE: &str = "laboratory.gx";
/// The variable that names another.
pub const VARIABLE: &str = "GX_LAB";

/// What the file says.
#[derive(Clone, Debug, Default, PartialEq, Eq)]
pub struct Settings {
    /// The names file.
    pub names: Option<PathBuf>,
    /// The list of pairs.
    pub pairs: Option<PathBuf>,
    /// The dictionary.
    pub dictionary: Option<PathBuf>,
}

/// The file of the settings, if there is one: that of the variable, or the nearest of this folder and those above.
pub fn found() -> Option<PathBuf> {
    if let Some(path) = std::env::var_os(VARIABLE).filter(|path| !path.is_empty()) {
        return Some(path.into());
    }
    let here = std::env::current_dir().ok()?;
    let mut files = here.ancestors().map(|folder| folder.join(FILE));
    files.find(|file| file.is_file())
}

/// Reads the settings in these bytes of a file.
///
/// # Errors
///
/// They have a mistake.
pub fn of(path: &Path, bytes: &[u8]) -> Result<Settings, Trouble> {
    let text = text_of(path, bytes)?;
    let folder = path.parent().unwrap_or(Path::new(""));
    read(text, folder).map_err(|mistake| mistaken(path, mistake, text))
}

impl Settings {
    /// Gives the options that are not given and that the command takes.
    pub fn complete(self, options: &mut Options, command: Command) {
        let takes = |name: &str| Opt::called(name).is_some_and(|opt| opt.of.contains(&command));
        let all = [
            ("--names", &mut options.names, self.names),
            ("--pairs", &mut options.pairs, self.pairs),
            ("--dictionary", &mut options.dictionary, self.dictionary),
        ];
        for (name, option, setting) in all {
            if option.is_none() && takes(name) {
                *option = setting;
            }
        }
    }
}

fn read(text: &str, folder: &Path) -> Result<Settings, Mistake> {
    let mut settings = Settings::default();
    let mut lexer = Lexer::new(text);
    loop {
        let token = lexer.next_token()?;
        let place = match &token.sign {
            Sign::Line => continue,
            Sign::End => return Ok(settings),
            Sign::Word(word) => match word.as_str() {
                "names" => Some(&mut settings.names),
                "pairs" => Some(&mut settings.pairs),
                "dictionary" => Some(&mut settings.dictionary),
                _ => None,
            },
            _ => None,
        };
        let Some(place) = place else {
            let expected = "'names', 'pairs' or 'dictionary', and a file";
            return Err(Mistake::new(token.at, expected, token.sign.named()));
        };
        if place.is_some() {
            let expected = "each setting once";
            return Err(Mistake::new(token.at, expected, token.sign.named()));
        }
        *place = Some(folder.join(file(&mut lexer)?));
    }
}

/// A file up to the end of the line, in quotes where it has other signs.
fn file(lexer: &mut Lexer<'_>) -> Result<String, Mistake> {
    let mut words = Vec::new();
    let Token { mut sign, mut at } = lexer.next_token()?;
    loop {
        match sign {
            Sign::Quoted(word) if words.is_empty() && !word.is_empty() => words.push(word),
            Sign::Word(word) | Sign::Number(word) => words.push(word),
            Sign::Line | Sign::End if !words.is_empty() => return Ok(words.join(" ")),
            other => {
                let expected = "a file; one with other signs stands in quotes";
                return Err(Mistake::new(at, expected, other.named()));
            }
        }
        Token { sign, at } = lexer.next_token()?;
    }
}
