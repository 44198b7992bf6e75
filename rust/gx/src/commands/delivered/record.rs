//! A delivered record.

use super::super::held::Held;
use crate::blocks::BLOCK;
use crate::delivered::{Delivered, LINKED};
use crate::json::Json;
use crate::names::Names;
use crate::readback;
use crate::text::{self, Numbers};
use crate::trouble::Trouble;
use crate::words;

impl Held for Delivered {
    fn title(&self) -> &str {
        &self.title
    }

    fn told(&self) -> String {
        let items = if self.items == 1 { "item" } else { "items" };
        format!(
            "a record of {} {items}, {} in {}",
            self.items,
            words::entries(self.entries.len()),
            words::blocks(self.bytes.len() / BLOCK)
        )
    }

    fn text(&self, _: Numbers) -> Result<String, Trouble> {
        readback::record(text::record(self.items, &self.entries, &self.names), self)
    }

    fn desk(&self) -> Result<Option<String>, Trouble> {
        Ok(None)
    }

    fn bytes(&self) -> &[u8] {
        &self.bytes
    }

    fn ending(&self) -> &'static str {
        "blocks"
    }

    fn names(&self) -> &Names {
        &self.names
    }

    fn fields(&self) -> Vec<(&'static str, Json)> {
        let said = self.entries.iter().map(|e| {
            let mut fields = vec![
                ("item", Json::number(e.owner.into())),
                ("kind", Json::number(e.kind.into())),
                ("name", Json::number(e.name.into())),
            ];
            if e.kind == LINKED {
                fields.push(("to", Json::number(e.number.into())));
            }
            Json::Object(fields)
        });
        vec![
            ("sort", Json::text("record")),
            ("items", Json::number(self.items)),
            ("said", Json::List(said.collect())),
        ]
    }
}
