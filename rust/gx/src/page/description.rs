//! A description as a list of places that fold.

use std::collections::{BTreeMap, BTreeSet};

use super::folds::{parts, Part};
use super::{filed, marked};
use crate::entry::Says;
use crate::input::Input;
use crate::text;
use crate::tree::Tree;
use crate::words::{self, Words};

/// Up to so many entries all places are open; of more, those on the way to the marked entry.
const ALL_OPEN: usize = 60;

/// The class of rows on the way to what is marked.
const ON_THE_WAY: &str = " way";
/// The class of rows that are to be added.
pub(super) const ADDED: &str = " added";
/// The class of rows that fail beside another.
pub(super) const FAILS_TOO: &str = " too";

/// The entries that are marked.
#[derive(Clone, Debug, Default)]
pub(super) struct Marks {
    /// The owners on the way to the place.
    pub(super) way: Vec<usize>,
    /// The entry that fails.
    pub(super) fails: Option<usize>,
    /// The other entries that fail, where they are asked for.
    pub(super) too: Vec<usize>,
    /// The entries that say something of the same.
    pub(super) says: Vec<usize>,
    /// What is told of entries, each with the class of its row.
    pub(super) notes: BTreeMap<usize, (&'static str, String)>,
    /// Owners whose places are open, of which nothing is told.
    pub(super) open: BTreeSet<usize>,
    /// All places are open and no line is folded, as on paper.
    pub(super) whole: bool,
}

impl Marks {
    /// The entries that earn a yes, and the others grey.
    pub(super) fn earning(marks: &[bool]) -> Marks {
        let note = |(entry, &is): (usize, &bool)| match is {
            true => (entry, (ON_THE_WAY, "earns it".to_string())),
            false => (entry, (" gone", String::new())),
        };
        Marks {
            notes: (1..).zip(marks).map(note).collect(),
            ..Marks::default()
        }
    }

    fn any(&self, entry: usize) -> bool {
        self.fails == Some(entry)
            || self.too.contains(&entry)
            || self.way.contains(&entry)
            || self.says.contains(&entry)
            || self.open.contains(&entry)
            || self
                .notes
                .get(&entry)
                .is_some_and(|note| !note.1.is_empty())
    }

    /// Whether the place that an entry owns is open in any case.
    fn opens(&self, entry: usize) -> bool {
        let opens = |note: &(&str, String)| [ON_THE_WAY, ADDED, FAILS_TOO].contains(&note.0);
        let told = self.way.contains(&entry) || self.open.contains(&entry);
        told || self.notes.get(&entry).is_some_and(opens)
    }
}

/// The section of one description.
pub(super) fn listing(
    id: &str,
    heading: &str,
    input: &Input,
    marks: &Marks,
    words: Words<'_>,
) -> String {
    let count = input.entries.len();
    let list = Listing {
        id,
        input,
        marks,
        words,
        tree: Tree::new(&input.entries),
        open: marks.whole || count <= ALL_OPEN,
    };
    let mut body = String::new();
    match count {
        0 => body.push_str("<p>It has no entries: everything fits it.</p>\n"),
        _ => list.place(0, &mut body),
    }
    let digits = count.to_string().len();
    let deepest = (1..=count)
        .map(|entry| list.depth(entry))
        .max()
        .unwrap_or(0);
    let tight = match deepest {
        0..=6 => "",
        7..=14 => " tight",
        _ => " tighter",
    };
    format!(
        "<section class=\"card{tight}\" style=\"--n:{digits}ch\" aria-labelledby=\"{id}\">\n<h2 id=\"{id}\">{heading} <span class=\"file\">{}</span></h2>\n\
         <p class=\"size\">{}</p>\n{body}</section>\n",
        filed(&input.title),
        size(input)
    )
}

/// How many entries there are, and how many were sent where named ones were unfolded.
fn size(input: &Input) -> String {
    let count = words::entries(input.entries.len());
    match input.is_unfolded() {
        true => format!("{count}, unfolded from {}", input.sent),
        false => count,
    }
}

struct Listing<'a> {
    id: &'a str,
    input: &'a Input,
    marks: &'a Marks,
    words: Words<'a>,
    tree: Tree,
    open: bool,
}

impl Listing<'_> {
    fn depth(&self, entry: usize) -> usize {
        crate::tree::owners(&self.input.entries, entry).len()
    }

    /// The entries of a place; of a long one those without a mark are folded in runs.
    fn place(&self, owner: usize, out: &mut String) {
        out.push_str("<ul>\n");
        let shown = |entry| self.marks.whole || self.marks.any(entry);
        for part in parts(self.tree.owned(owner), shown) {
            match part {
                Part::Shown(shown) => shown.iter().for_each(|&entry| self.entry(entry, out)),
                Part::Folded(run) => self.run(run, out),
            }
        }
        out.push_str("</ul>\n");
    }

    /// Several entries of one place behind one line.
    fn run(&self, run: &[usize], out: &mut String) {
        let (first, last) = (run[0], run[run.len() - 1]);
        out.push_str(&format!(
            "<li><details class=\"run\"><summary>{} of this place, {first} to {last}</summary><ul>\n",
            words::entries(run.len())
        ));
        run.iter().for_each(|&entry| self.entry(entry, out));
        out.push_str("</ul></details></li>\n");
    }

    fn entry(&self, entry: usize, out: &mut String) {
        let below = self.tree.below(entry);
        let id = format!("{}-{entry}", self.id);
        let row = self.row(entry, below);
        if below == 0 {
            out.push_str(&format!("<li id=\"{id}\">{row}</li>\n"));
            return;
        }
        let open = if self.open || self.marks.opens(entry) {
            " open"
        } else {
            ""
        };
        out.push_str(&format!(
            "<li id=\"{id}\"><details{open}><summary>{row}</summary>\n"
        ));
        self.place(entry, out);
        out.push_str("</details></li>\n");
    }

    /// An entry's number, words and marks.
    fn row(&self, entry: usize, below: usize) -> String {
        let says = self.input.entries[entry - 1].says();
        let fails = self.marks.fails == Some(entry);
        let (class, flag) = self.flagged(entry);
        let words = marked(&self.words.says(says));
        let words = match (fails, class) {
            (true, _) => format!("<mark>{words}</mark>"),
            (_, "" | " gone") => words,
            _ => format!("<b>{words}</b>"),
        };
        let count = match (below, says) {
            (0, Says::Every(_)) => " <span class=\"c\">owns nothing</span>".into(),
            (0, _) => String::new(),
            _ => format!(" <span class=\"c\">{}</span>", words::entries(below)),
        };
        format!(
            "<span class=\"e{class}\"><span class=\"n\">{entry}</span><span class=\"w\">{words}{}{count}{}{flag}</span></span>",
            self.number(says),
            self.named(entry)
        )
    }

    /// The class of an entry's row, and what is told of it.
    fn flagged(&self, entry: usize) -> (&'static str, String) {
        let marks = self.marks;
        if let Some((class, note)) = marks.notes.get(&entry) {
            if note.is_empty() {
                return (class, String::new());
            }
            return (class, format!(" <span class=\"c t\">{note}</span>"));
        }
        let (class, flag) = match () {
            () if marks.fails == Some(entry) => {
                (" fails", " <strong class=\"flag\">✕ fails</strong>")
            }
            () if marks.says.contains(&entry) => (
                " says",
                " <strong class=\"flag here\">is said there</strong>",
            ),
            () if marks.too.contains(&entry) => {
                (FAILS_TOO, " <strong class=\"flag\">✕ fails too</strong>")
            }
            () if marks.way.contains(&entry) => (ON_THE_WAY, ""),
            () => ("", ""),
        };
        (class, flag.into())
    }

    /// The description that an entry was put in from.
    fn named(&self, entry: usize) -> String {
        let origin = self.input.origin(entry);
        let named = origin.and_then(|origin| origin.within.last());
        named.map_or(String::new(), |&(named, _)| {
            let of = text::description(named, self.words.names());
            format!(" <span class=\"c\">of {}</span>", marked(&of))
        })
    }

    /// The number of a link or property that is told by its word.
    fn number(&self, says: Says) -> String {
        let names = self.words.names();
        let number = match (says.link(), says.property()) {
            (Some(link), _) if names.link(link).is_some() => format!("link {}", link.0),
            (_, Some(property)) if names.property(property).is_some() => {
                format!("property {}", property.0)
            }
            _ => return String::new(),
        };
        format!(" <span class=\"c k\">{number}</span>")
    }
}
