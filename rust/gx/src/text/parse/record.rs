//! A text as a delivered record, and a table with commas as one.

use super::{Mistake, Parser, Position, Sign};
use crate::delivered::LINKED;
use crate::entry::Entry;
use crate::names::Names;

/// What a text of a record says.
#[derive(Clone, Debug, Default)]
pub struct ParsedRecord {
    /// How many items it has; of a table the highest that it names.
    pub items: usize,
    /// What is said of them.
    pub entries: Vec<Entry>,
    /// Where each begins.
    pub positions: Vec<Position>,
    /// The words that the text itself gives.
    pub words: Names,
}

/// The heading of a text of a record.
pub const RECORD: &str = "record";
/// What a table begins with.
pub const TABLE: &str = "item,says,name,to";
/// The word before an item, which ends the word of a link.
const ITEM: &str = "item";

const A_HEADING: &str = "a record (record of 3 items), or a table headed item,says,name,to";
const AN_ITEM: &str = "an item's number from 0 to 65,535";
const A_LINE: &str = "what is said of an item (item 1 has property 7, or item 1 link 1 item 2)";
const THE_END: &str = "a new line or ';' after it";

/// Whether a text is a table of a record.
pub fn is_table(text: &str) -> bool {
    let first = text
        .trim_start_matches('\u{feff}')
        .lines()
        .next()
        .unwrap_or("");
    first.trim().eq_ignore_ascii_case(TABLE)
}

/// Reads a text of a record. The names give words their numbers, and hold against the words of the text.
///
/// # Errors
///
/// The first mistake in it.
pub fn parse_record(text: &str, names: &Names) -> Result<ParsedRecord, Mistake> {
    if is_table(text) {
        return table(text, names);
    }
    let mut parser = Parser::new(text, names)?;
    parser.stop = Some(ITEM);
    let mut parsed = ParsedRecord::default();
    parser.skip_lines()?;
    if !parser.next_is_word(RECORD) {
        return parser.expected(A_HEADING);
    }
    parser.word(RECORD)?;
    parser.word("of")?;
    parsed.items = parser
        .number("how many items there are, from 0 to 65,535")?
        .into();
    parser.word(if parsed.items == 1 { ITEM } else { "items" })?;
    parser.line_ends()?;
    while !parser.next_of_record(&mut parsed)? {}
    parsed.words = parser.learnt;
    Ok(parsed)
}

impl Parser<'_> {
    /// What is said next of an item; whether the text has ended instead.
    fn next_of_record(&mut self, parsed: &mut ParsedRecord) -> Result<bool, Mistake> {
        self.skip_lines()?;
        let at = self.next.at;
        if self.next.sign == Sign::End {
            return Ok(true);
        }
        if !self.next_is_word(ITEM) {
            return self.expected(A_LINE);
        }
        self.take()?;
        let owner = self.number(AN_ITEM)?;
        let says = self.said_of_item()?;
        parsed.entries.push(Entry { owner, ..says });
        parsed.positions.push(at);
        Ok(false)
    }

    /// `has property 7`, or `link 1 item 2`.
    fn said_of_item(&mut self) -> Result<Entry, Mistake> {
        let says = match self.next_is_word("has") {
            true => Entry {
                kind: 1,
                name: self.owned_property()?,
                ..Entry::default()
            },
            false => {
                let name = self.link()?;
                self.word(ITEM)?;
                Entry {
                    kind: LINKED,
                    name,
                    number: self.number(AN_ITEM)?,
                    ..Entry::default()
                }
            }
        };
        self.line_ends()?;
        Ok(says)
    }

    fn line_ends(&self) -> Result<(), Mistake> {
        match self.next.sign {
            Sign::Line | Sign::Semicolon | Sign::End => Ok(()),
            _ => self.expected(THE_END),
        }
    }
}

/// Reads a table: a row for each thing that is said, `1,has,7,` or `1,link,1,2`, where a word may stand for a number.
fn table(text: &str, names: &Names) -> Result<ParsedRecord, Mistake> {
    let mut parsed = ParsedRecord::default();
    for (line, row) in (1..).zip(text.lines()).skip(1) {
        if row.trim().is_empty() {
            continue;
        }
        let at = Position { line, column: 1 };
        let entry = said_in_row(row, names)
            .map_err(|(expected, found)| Mistake::new(at, expected, found))?;
        let highest = usize::from(entry.owner.max(entry.number));
        parsed.items = parsed.items.max(highest);
        parsed.entries.push(entry);
        parsed.positions.push(at);
    }
    Ok(parsed)
}

/// What a row says; else what was expected and what was found.
fn said_in_row(row: &str, names: &Names) -> Result<Entry, (&'static str, String)> {
    let cells = cells(row).ok_or(("four cells", "a quote that does not end".to_string()))?;
    let [item, says, name, to] = cells.as_slice() else {
        let found = format!("{} cells", cells.len());
        return Err(("four cells: item, says, name, to", found));
    };
    let number = |cell: &str, what: &'static str| {
        let read = cell.trim().parse::<u16>();
        read.map_err(|_| (what, format!("'{cell}'")))
    };
    let word = name.trim();
    let property = names.property_called(word).map(|property| property.0);
    let link = names.link_called(word).map(|link| link.0);
    let a_word = "a number, or a word of the names file";
    let (kind, name, to) = match says.trim() {
        "has" => (1, property.map_or_else(|| number(word, a_word), Ok)?, 0),
        "link" => (
            LINKED,
            link.map_or_else(|| number(word, a_word), Ok)?,
            number(to, AN_ITEM)?,
        ),
        other => return Err(("'has' or 'link'", format!("'{other}'"))),
    };
    Ok(Entry {
        kind,
        owner: number(item, AN_ITEM)?,
        name,
        number: to,
        ..Entry::default()
    })
}

/// The cells of a row; a cell in quotes may have commas, and a quote twice for one.
fn cells(row: &str) -> Option<Vec<String>> {
    let mut cells = vec![String::new()];
    let mut signs = row.chars().peekable();
    let mut inside = false;
    while let Some(sign) = signs.next() {
        let cell = cells.last_mut()?;
        match (sign, inside) {
            ('"', true) if signs.peek() == Some(&'"') => {
                signs.next();
                cell.push('"');
            }
            ('"', _) => inside = !inside,
            (',', false) => cells.push(String::new()),
            _ => cell.push(sign),
        }
    }
    (!inside).then_some(cells)
}
