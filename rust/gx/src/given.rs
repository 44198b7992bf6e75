//! Under what an answer is given: the names file, the list of pairs and the dictionary, and the versions of gx and of the library.

use std::path::Path;

use crate::input::title;
use crate::json::Json;
use crate::sha256::digest;
use crate::shown::file_name;

/// The version of this program.
pub const VERSION: &str = env!("CARGO_PKG_VERSION");
/// The version of the library, and what proved it.
pub const KIT: &str = env!("GX_KIT");

/// A file that an answer is given under.
#[derive(Clone, Debug, PartialEq, Eq)]
pub struct Source {
    /// Its name without its folder.
    pub title: String,
    /// The SHA-256 of its bytes.
    pub sha256: String,
}

impl Source {
    /// The file with these bytes.
    pub fn new(path: &Path, bytes: &[u8]) -> Source {
        Source {
            title: title(path),
            sha256: digest(bytes),
        }
    }

    fn json(source: Option<&Source>) -> Json {
        source.map_or(Json::Null, |source| {
            Json::Object(vec![
                ("file", Json::text(&source.title)),
                ("sha256", Json::text(&source.sha256)),
            ])
        })
    }
}

/// All that answers are given under.
#[derive(Clone, Debug, Default, PartialEq, Eq)]
pub struct Given {
    /// The file of the settings.
    pub settings: Option<Source>,
    /// The names file.
    pub names: Option<Source>,
    /// The list of pairs.
    pub pairs: Option<Source>,
    /// The dictionary.
    pub dictionary: Option<Source>,
}

impl Given {
    /// The files in words, and then the versions.
    pub fn words(&self) -> [String; 2] {
        let told = |what: &str, source: &Option<Source>| match source {
            Some(source) => {
                let title = file_name(&source.title);
                format!("{what} {title} (SHA-256 {})", source.sha256)
            }
            None => format!("no {what}"),
        };
        let mut files = vec![
            told("names file", &self.names),
            told("list of pairs", &self.pairs),
            told("dictionary", &self.dictionary),
        ];
        if let Some(settings) = &self.settings {
            files.push(format!("by {}", file_name(&settings.title)));
        }
        [files.join(", "), versions()]
    }

    /// On one line.
    pub fn line(&self) -> String {
        format!("given: {}\n", self.words().join("; "))
    }

    /// For programs.
    pub fn json(&self) -> Json {
        Json::Object(vec![
            ("gx", Json::text(VERSION)),
            ("library", Json::text(goltximen::VERSION)),
            ("kit", Json::text(KIT)),
            ("settings", Source::json(self.settings.as_ref())),
            ("names", Source::json(self.names.as_ref())),
            ("pairs", Source::json(self.pairs.as_ref())),
            ("dictionary", Source::json(self.dictionary.as_ref())),
        ])
    }
}

/// The versions of gx and of the library, and the kit that proved it.
pub fn versions() -> String {
    let library = goltximen::VERSION;
    format!("gx {VERSION}, library {library} by {KIT}")
}
