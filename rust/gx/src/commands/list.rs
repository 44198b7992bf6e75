//! A list of properties that exclude each other.

use super::held::Held;
use crate::json::Json;
use crate::names::Names;
use crate::pairs::{List, Pair};
use crate::readback;
use crate::text::{self, Numbers};
use crate::trouble::Trouble;
use crate::words;

impl Held for List {
    fn title(&self) -> &str {
        &self.title
    }

    fn told(&self) -> String {
        format!("a list of {}", words::pairs(self.pairs.len()))
    }

    fn text(&self, _: Numbers) -> Result<String, Trouble> {
        readback::pairs(text::pairs(&self.pairs, &self.names), self)
    }

    fn desk(&self) -> Result<Option<String>, Trouble> {
        readback::pairs(text::desk_pairs(&self.pairs), self).map(Some)
    }

    fn bytes(&self) -> &[u8] {
        &self.bytes
    }

    fn ending(&self) -> &'static str {
        "pairs"
    }

    fn names(&self) -> &Names {
        &self.names
    }

    fn fields(&self) -> Vec<(&'static str, Json)> {
        vec![
            ("sort", Json::text("pairs")),
            ("pairs", pairs_json(&self.pairs, &self.names)),
        ]
    }
}

/// The pairs for programs.
pub(super) fn pairs_json(pairs: &[Pair], names: &Names) -> Json {
    let list = (1..).zip(pairs).map(|(number, &Pair(one, other))| {
        let both = [one, other];
        let numbers = both.map(|property| Json::number(property.0.into()));
        let words = both.map(|property| names.property(property).into());
        Json::Object(vec![
            ("pair", Json::number(number)),
            ("properties", Json::List(numbers.to_vec())),
            ("words", Json::List(words.to_vec())),
        ])
    });
    Json::List(list.collect())
}
