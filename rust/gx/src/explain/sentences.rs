//! A failure in sentences.

use super::Failure;
use crate::entry::{Link, Says};
use crate::words::{grouped, listed, Words};

/// So many groups of a path are told in a sentence.
const LONG_PATH: usize = 4;

impl Failure {
    /// What the entry asks, with where it stands.
    pub fn asks(&self, words: Words<'_>) -> String {
        words.asks(&self.way, self.says)
    }

    /// What the supplier's description says there, and what follows of a link that leads to one item only.
    pub fn supplier_says(&self, words: Words<'_>) -> String {
        self.supplier_has(words) + &self.one_item_only()
    }

    /// Why a number above 1 is asked in vain, or says nothing, of a link that leads to one item only.
    fn one_item_only(&self) -> String {
        match self.says {
            Says::AtLeast(link, n) if self.says.is_impossible() => format!(
                "; at least {} is impossible, since link {} leads to one item only",
                grouped(n.into()),
                link.0
            ),
            Says::AtMost(link, _) if self.supplier_always_met => format!(
                "; its at most says nothing, since link {} leads to one item only",
                link.0
            ),
            _ => String::new(),
        }
    }

    fn supplier_has(&self, words: Words<'_>) -> String {
        let every = words.these(&self.way);
        if self.says == Says::Nothing {
            return format!("of {every}, nothing that shuts out all items");
        }
        let subject = match (self.says.link(), self.says.property()) {
            (Some(link), _) => words.items(2, link).trim_start_matches("2 ").to_string(),
            (_, Some(property)) => words.property(property),
            _ => "this".into(),
        };
        if !self.place_known {
            return format!("nothing about {every}");
        }
        if !self.excluding.is_empty() {
            let has = self.excluding.iter().map(|&one| words.property(one));
            let has: Vec<String> = has.collect();
            return format!("{every} lacks {subject}, since it has {}", listed(&has));
        }
        if self.said.is_empty() {
            return format!("of {every}, nothing about {subject}");
        }
        let said: Vec<String> = self.said.iter().map(|&says| words.says(says)).collect();
        match self.says {
            Says::Has(_) | Says::Lacks(_) => format!("{every} {}", listed(&said)),
            _ => format!("of {every}, {}{}", listed(&said), self.missing_bound()),
        }
    }

    /// The bound that the entry asks and the supplier does not speak of at all.
    fn missing_bound(&self) -> &'static str {
        let least = |says: &Says| matches!(says, Says::AtLeast(..));
        let most = |says: &Says| matches!(says, Says::AtMost(..));
        match self.says {
            Says::AtMost(..) if !self.said.iter().any(most) => ", and no at most",
            Says::AtLeast(..) if !self.said.iter().any(least) => ", and no at least",
            _ => "",
        }
    }

    /// What is wrong at the place of the specimen that is marked.
    pub fn note(&self, words: Words<'_>) -> String {
        let items = |link: Link| match self.specimen.count {
            0 => format!("no {}", words.item(link)),
            count => words.items(count, link),
        };
        match self.says {
            Says::Has(property) => format!("without {}", words.property(property)),
            Says::Lacks(property) => format!("with {}", words.property(property)),
            Says::AtLeast(link, n) => {
                format!("{}, not at least {}", items(link), grouped(n.into()))
            }
            Says::AtMost(link, n) => format!("{}, not at most {}", items(link), grouped(n.into())),
            _ => "no item may be here".into(),
        }
    }

    /// What the specimen shows, from its top item to the place that is marked: "1 sample, which has 2 fields".
    pub fn shows(&self, words: Words<'_>) -> String {
        let path = self.path_in_words(words);
        let top = path.is_empty();
        let begin = if top { "the top item".into() } else { path };
        let which = match (top, self.several_at_end()) {
            (true, _) => "",
            (_, false) => ", which",
            (_, true) => ", each of which",
        };
        match self.says {
            Says::Has(property) => format!("{begin}{which} lacks {}", words.property(property)),
            Says::Lacks(property) => format!("{begin}{which} has {}", words.property(property)),
            Says::AtLeast(link, n) if self.specimen.several => {
                let items = words.items(self.specimen.count, link);
                format!(
                    "{begin}{which} has {items}, not at least {}",
                    grouped(n.into())
                )
            }
            Says::AtMost(link, n) if self.specimen.several => {
                let items = words.items(self.specimen.count, link);
                format!(
                    "{begin}{which} has {items}, not at most {}",
                    grouped(n.into())
                )
            }
            Says::AtLeast(_, n) if self.specimen.count > 0 => {
                format!("{begin}, not at least {}", grouped(n.into()))
            }
            Says::AtLeast(link, _) => format!("{begin}{which} has no {}", words.item(link)),
            Says::AtMost(_, n) => format!("{begin}, not at most {}", grouped(n.into())),
            _ => format!("{begin}, where no item may be"),
        }
    }

    /// The groups of the path with their counts; of a long path the last ones.
    fn path_in_words(&self, words: Words<'_>) -> String {
        let path = &self.specimen.path;
        let first = path.len().saturating_sub(LONG_PATH);
        let mut out = String::from(if first > 0 { "… " } else { "" });
        let mut several = false;
        for (at, &group) in path.iter().enumerate().skip(first) {
            if at > first {
                out.push_str(if several {
                    ", each of which has "
                } else {
                    ", which has "
                });
            }
            if let Says::Group(link, count) = self.specimen.entries[group - 1].says() {
                out.push_str(&words.items(count, link));
                several = count > 1;
            }
        }
        out
    }

    fn several_at_end(&self) -> bool {
        let last = self.specimen.path.last();
        last.is_some_and(|&group| self.specimen.entries[group - 1].number > 0)
    }
}
