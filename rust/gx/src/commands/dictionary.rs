//! A dictionary of named descriptions.

use super::entries_json;
use super::held::Held;
use crate::dictionary::Dictionary;
use crate::entry::Named;
use crate::json::Json;
use crate::names::Names;
use crate::readback;
use crate::text::{self, Numbers};
use crate::trouble::Trouble;
use crate::words;

impl Held for Dictionary {
    fn title(&self) -> &str {
        &self.title
    }

    fn told(&self) -> String {
        format!("a dictionary of {}", words::descriptions(self.parts.len()))
    }

    fn text(&self, numbers: Numbers) -> Result<String, Trouble> {
        readback::dictionary(text::dictionary(&self.parts, &self.names, numbers), self)
    }

    fn desk(&self) -> Result<Option<String>, Trouble> {
        readback::dictionary(text::desk_dictionary(&self.parts), self).map(Some)
    }

    fn bytes(&self) -> &[u8] {
        &self.bytes
    }

    fn ending(&self) -> &'static str {
        "dictionary"
    }

    fn names(&self) -> &Names {
        &self.names
    }

    fn fields(&self) -> Vec<(&'static str, Json)> {
        let parts = (1..).zip(&self.parts).map(|(number, part)| {
            Json::Object(vec![
                ("description", Json::number(number.into())),
                ("word", self.names.description(Named(number)).into()),
                ("entries", entries_json(&part.entries, &self.names)),
            ])
        });
        vec![
            ("sort", Json::text("dictionary")),
            ("descriptions", Json::List(parts.collect())),
        ]
    }
}
