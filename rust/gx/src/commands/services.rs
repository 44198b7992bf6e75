//! A list of services.

use super::entries_json;
use super::held::Held;
use crate::json::Json;
use crate::names::Names;
use crate::readback;
use crate::services::Services;
use crate::text::{self, Numbers};
use crate::trouble::Trouble;
use crate::words;

impl Held for Services {
    fn title(&self) -> &str {
        &self.title
    }

    fn told(&self) -> String {
        format!("a list of {}", words::services(self.parts.len()))
    }

    fn text(&self, numbers: Numbers) -> Result<String, Trouble> {
        readback::services(text::services(&self.parts, &self.names, numbers), self)
    }

    fn desk(&self) -> Result<Option<String>, Trouble> {
        readback::services(text::desk_services(&self.parts), self).map(Some)
    }

    fn bytes(&self) -> &[u8] {
        &self.bytes
    }

    fn ending(&self) -> &'static str {
        "services"
    }

    fn names(&self) -> &Names {
        &self.names
    }

    fn fields(&self) -> Vec<(&'static str, Json)> {
        let parts = (1..).zip(&self.parts).map(|(number, part)| {
            Json::Object(vec![
                ("service", Json::number(number)),
                ("entries", entries_json(&part.entries, &self.names)),
            ])
        });
        vec![
            ("sort", Json::text("services")),
            ("services", Json::List(parts.collect())),
        ]
    }
}
