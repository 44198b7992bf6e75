//! Entries and places in sentences.

use crate::entry::{Link, Named, Property, Says};
use crate::names::Names;

/// The words for people, with these names.
#[derive(Clone, Copy, Debug)]
pub struct Words<'a> {
    names: &'a Names,
    form: Form,
}

/// How the words of the names stand among others.
#[derive(Clone, Copy, Debug, PartialEq, Eq)]
enum Form {
    Plain,
    /// Between two signs that keep the direction of a word from what is around it.
    Apart,
    /// Long ones cut, as in a drawing.
    Short,
}

/// Of more steps than this the middle is folded on pages, and so many are told on each side of it.
const MOST_STEPS: usize = 12;
const ENDS: usize = 3;

/// The letters of a word that is cut.
const SHORT: usize = 40;

/// The sign before a word that is kept apart, and the one after it. No word of a text has them.
pub const APART: [char; 2] = ['\u{2068}', '\u{2069}'];

/// A way with more links than this is not told as 'of every ... of every ...'.
const LONG_WAY: usize = 3;

impl<'a> Words<'a> {
    /// The words with these names.
    pub fn new(names: &'a Names) -> Words<'a> {
        Words {
            names,
            form: Form::Plain,
        }
    }

    /// The same, with each word kept apart, as pages have them.
    pub fn apart(names: &'a Names) -> Words<'a> {
        Words {
            names,
            form: Form::Apart,
        }
    }

    /// The same without signs between words.
    pub fn plain(self) -> Words<'a> {
        Words::new(self.names)
    }

    /// The same with long words cut.
    pub fn short(self) -> Words<'a> {
        Words {
            names: self.names,
            form: Form::Short,
        }
    }

    /// A word of the names.
    fn own(self, word: &str) -> String {
        let [before, after] = APART;
        match (self.form, word.char_indices().nth(SHORT)) {
            (Form::Apart, _) => format!("{before}{word}{after}"),
            (Form::Short, Some((end, _))) => format!("{}…", &word[..end]),
            _ => word.into(),
        }
    }

    /// The names.
    pub fn names(self) -> &'a Names {
        self.names
    }

    /// One item by a link: "sample", or "item by link 1".
    pub fn item(self, link: Link) -> String {
        match self.names.link(link) {
            Some(word) => self.own(word),
            None => format!("item by link {}", link.0),
        }
    }

    /// So many items by a link: "2 samples", or "2 items by link 1".
    pub fn items(self, count: u32, link: Link) -> String {
        let items = if count == 1 { "item" } else { "items" };
        match self.names.links(link, count) {
            Some(word) => format!("{} {}", grouped(count), self.own(word)),
            None => format!("{} {items} by link {}", grouped(count), link.0),
        }
    }

    /// A property: "property sealed", or "property 7".
    pub fn property(self, property: Property) -> String {
        format!("property {}", self.property_word(property))
    }

    /// A property without that word.
    pub fn property_word(self, property: Property) -> String {
        let word = self.names.property(property);
        word.map_or_else(|| property.0.to_string(), |word| self.own(word))
    }

    /// A description of a dictionary: "description sealed core", or "description 3".
    pub fn description(self, named: Named) -> String {
        match self.names.description(named) {
            Some(word) => format!("description {}", self.own(word)),
            None => format!("description {}", named.0),
        }
    }

    /// The items that stand at a place: "every sample", "every core of every sample", "the top item".
    pub fn every(self, way: &[Link]) -> String {
        match way {
            [] => "the top item".into(),
            [.., last] if way.len() > LONG_WAY => {
                format!("every {} reached by {}", self.item(*last), self.steps(way))
            }
            _ => {
                let items = way.iter().rev();
                let every: Vec<String> = items
                    .map(|&link| format!("every {}", self.item(link)))
                    .collect();
                every.join(" of ")
            }
        }
    }

    /// The same where they have been named before: a long way is not told again.
    pub fn these(self, way: &[Link]) -> String {
        match way.len() > LONG_WAY {
            true => "every such item".into(),
            false => self.every(way),
        }
    }

    /// The links of a way, one after the other.
    pub fn steps(self, way: &[Link]) -> String {
        let mut steps: Vec<String> = way.iter().map(|&link| self.step(link)).collect();
        if self.form != Form::Plain && steps.len() > MOST_STEPS {
            let more = steps.len() - 2 * ENDS;
            steps.splice(ENDS..steps.len() - ENDS, [format!("{more} more")]);
        }
        steps.join(" › ")
    }

    fn step(self, link: Link) -> String {
        match self.names.link(link) {
            Some(word) => self.own(word),
            None => format!("link {}", link.0),
        }
    }

    /// What an entry says, without where: "at most 2 cores".
    pub fn says(self, says: Says) -> String {
        match says {
            Says::Has(property) => format!("has {}", self.property(property)),
            Says::Lacks(property) => format!("lacks {}", self.property(property)),
            Says::AtLeast(link, n) => format!("at least {}", self.items(n.into(), link)),
            Says::AtMost(link, n) => format!("at most {}", self.items(n.into(), link)),
            Says::Every(link) => format!("every {}", self.item(link)),
            Says::Nothing => "nothing fits".into(),
            Says::Group(link, count) => self.items(count, link),
            Says::Named(named) => format!("fits {}", self.description(named)),
            Says::Unknown(kind) => format!("kind {kind}"),
        }
    }

    /// What an entry says, with where it stands: "of every sample, at most 2 cores".
    pub fn asks(self, way: &[Link], says: Says) -> String {
        let every = self.every(way);
        match says {
            Says::Has(_) | Says::Lacks(_) | Says::Named(_) => {
                format!("{every} {}", self.says(says))
            }
            _ => format!("of {every}, {}", self.says(says)),
        }
    }
}

/// A number with a comma before each three digits.
pub fn grouped(number: u32) -> String {
    let digits = number.to_string();
    let mut out = String::new();
    for (at, digit) in digits.chars().enumerate() {
        if at > 0 && (digits.len() - at).is_multiple_of(3) {
            out.push(',');
        }
        out.push(digit);
    }
    out
}

/// The count with its word: "1 entry", "2 entries".
pub fn entries(count: usize) -> String {
    let word = if count == 1 { "entry" } else { "entries" };
    format!("{} {word}", grouped(count as u32))
}

/// The count with its word: "1 block", "2 blocks".
pub fn blocks(count: usize) -> String {
    let word = if count == 1 { "block" } else { "blocks" };
    format!("{count} {word}")
}

/// The count with its word: "1 pair", "2 pairs".
pub fn pairs(count: usize) -> String {
    let word = if count == 1 { "pair" } else { "pairs" };
    format!("{count} {word}")
}

/// The count with its word: "1 description", "2 descriptions".
pub fn descriptions(count: usize) -> String {
    let word = if count == 1 {
        "description"
    } else {
        "descriptions"
    };
    format!("{count} {word}")
}

/// The count with its word: "1 service", "2 services".
pub fn services(count: usize) -> String {
    let word = if count == 1 { "service" } else { "services" };
    format!("{count} {word}")
}

/// Several things: "a", "a and b", "a, b and c".
pub fn listed(things: &[String]) -> String {
    match things {
        [] => String::new(),
        [one] => one.clone(),
        [most @ .., last] => format!("{} and {last}", most.join(", ")),
    }
}
