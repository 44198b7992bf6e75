//! A description on a page, read back: its rows are written as a text, and the text's own reader has to give the same entries. And a
//! specimen on a page: its rows have to say what it has.

use crate::blocks::encode;
use crate::explain::Failure;
use crate::input::Input;
use crate::names::Names;
use crate::specimen::read::{self, Due, Reader};
use crate::text::{self, quoted};
use crate::trouble::Trouble;
use crate::words::APART;

/// Whether the section of this page with this id shows the input's entries.
///
/// # Errors
///
/// An error of this program: it does not.
pub(super) fn checked(page: &str, id: &str, input: &Input, names: &Names) -> Result<(), Trouble> {
    let same = section(page, id).and_then(text_of).is_some_and(|text| {
        let parsed = text::parse(&text, names);
        parsed.is_ok_and(|parsed| encode(&parsed.entries) == encode(&input.entries))
    });
    match same {
        true => Ok(()),
        false => Err(Trouble::Fault {
            file: input.title.clone(),
            why: "the page would show another description than the one that was compared".into(),
        }),
    }
}

/// Whether the section of the specimen on this page shows the one of this failure.
///
/// # Errors
///
/// An error of this program: it does not.
pub(super) fn specimen(page: &str, failure: &Failure, names: &Names) -> Result<(), Trouble> {
    let due = read::due(&failure.specimen.entries);
    let reader = Reader::new(names);
    let same = section(page, "specimen").and_then(|section| groups_of(section));
    let same = same.is_some_and(|groups| {
        let row = |(row, due): (&Group, &Due)| row.says(due, reader);
        groups.len() == due.len() && groups.iter().zip(&due).all(row)
    });
    match same {
        true => Ok(()),
        false => Err(Trouble::Fault {
            file: "the specimen".into(),
            why: "the page would show another specimen than the one that was found".into(),
        }),
    }
}

/// A row of a specimen.
struct Group {
    depth: usize,
    line: String,
    /// The properties that are behind a line of their own.
    more: Option<String>,
}

impl Group {
    /// Whether the row says this, with all properties that are left out of its line.
    fn says(&self, due: &Due, reader: Reader<'_>) -> bool {
        let line = reader.readings(&self.line, self.depth);
        let more = match &self.more {
            Some(more) => reader.listed(more, due.left_out.len() > 1),
            None => vec![(Vec::new(), 0)],
        };
        let more = more
            .iter()
            .any(|(more, left)| (more, *left) == (&due.left_out, 0));
        line.contains(&due.said) && more
    }
}

/// The rows of a section, from the top item down.
fn groups_of(section: &str) -> Option<Vec<Group>> {
    let mut groups: Vec<Group> = Vec::new();
    let (mut places, mut run) = (Vec::new(), false);
    let mut parts = section.split('<').skip(1);
    while let Some(part) = parts.next() {
        let (tag, _) = part.split_once('>')?;
        match tag {
            "details class=\"run\"" => run = true,
            "ul" => places.push(!std::mem::take(&mut run)),
            "/ul" => drop(places.pop()?),
            // The first paragraph of a section tells how large it is.
            "p" => {
                run = false;
                let more = text_up_to(part, &mut parts, "/p")?;
                groups.last_mut()?.more = Some(more);
            }
            "span class=\"w\"" => groups.push(Group {
                depth: places.iter().filter(|&&place| place).count() - 1,
                line: text_up_to(part, &mut parts, "/span")?,
                more: None,
            }),
            _ => (),
        }
    }
    Some(groups)
}

/// What stands from this part on up to a tag, or to a flag before it; each word that is kept apart between its signs.
fn text_up_to<'a>(
    first: &'a str,
    parts: &mut impl Iterator<Item = &'a str>,
    end: &str,
) -> Option<String> {
    let [before, after] = APART;
    let mut text = String::from(first.split_once('>')?.1);
    let mut flag = false;
    loop {
        let (tag, words) = parts.next()?.split_once('>')?;
        match tag {
            tag if tag == end => return Some(unescaped(text.trim_end())),
            tag if tag.starts_with("strong") => flag = true,
            _ if flag => (),
            "/bdi" => text.push(after),
            tag if tag.starts_with("bdi") => text.push(before),
            _ => (),
        }
        if !flag {
            text.push_str(words);
        }
    }
}

/// The part of a page from the heading with this id to the end of its section.
fn section<'a>(page: &'a str, id: &str) -> Option<&'a str> {
    let begin = page.find(&format!("<h2 id=\"{id}\">"))?;
    let end = page[begin..].find("</section>")?;
    Some(&page[begin..begin + end])
}

/// What the rows of a section say, as a text.
fn text_of(section: &str) -> Option<String> {
    let mut rows = Rows {
        out: String::from("description\n"),
        ..Rows::default()
    };
    let mut parts = section.split('<').skip(1);
    while let Some(part) = parts.next() {
        let (tag, after) = part.split_once('>')?;
        match tag {
            "ul" => rows.open(),
            "/ul" => rows.close()?,
            "details class=\"run\"" => rows.run = true,
            "span class=\"n\"" => rows.number = after.parse().ok()?,
            "span class=\"w\"" => {
                rows.words = after.into();
                rows.words(&mut parts)?;
            }
            _ => (),
        }
    }
    Some(rows.out)
}

/// The text as far as it is written.
#[derive(Default)]
struct Rows {
    out: String,
    /// Of each list that is open, whether it is the place of the entry before it.
    places: Vec<bool>,
    /// The next list has more rows of the same place.
    run: bool,
    number: usize,
    words: String,
}

impl Rows {
    fn open(&mut self) {
        let place = !self.places.is_empty() && !self.run;
        self.run = false;
        self.places.push(place);
        if place {
            self.out.push_str("[\n");
        }
    }

    fn close(&mut self) -> Option<()> {
        if self.places.pop()? {
            self.out.push_str("]\n");
        }
        Some(())
    }

    /// The words of a row up to the first remark, and the number that stands in one.
    fn words<'a>(&mut self, parts: &mut impl Iterator<Item = &'a str>) -> Option<()> {
        let (mut number, mut depth, mut remarks) = ("", 1, false);
        while depth > 0 {
            let (tag, after) = parts.next()?.split_once('>')?;
            match tag {
                "span class=\"c k\"" => number = after,
                "mark" | "/mark" | "b" | "/b" | "bdi" | "bdi class=\"long\"" | "/bdi"
                    if !remarks =>
                {
                    self.words.push_str(after);
                }
                _ => (),
            }
            remarks |= tag.starts_with("span") || tag.starts_with("strong");
            depth += usize::from(tag.starts_with("span"));
            depth -= usize::from(tag == "/span");
        }
        let entry = as_text(unescaped(self.words.trim_end()).as_str(), number)?;
        self.out.push_str(&format!("#{} {entry}\n", self.number));
        Some(())
    }
}

/// An entry in the words of a page as one in the words of a text.
fn as_text(words: &str, number: &str) -> Option<String> {
    let named = |rest: &str| match number {
        "" => match rest.rsplit_once("link ") {
            Some((_, link)) => format!("link {link}"),
            None => rest.into(),
        },
        number => format!("{number} {}", quoted(rest)),
    };
    if words == "nothing fits" {
        return Some(words.into());
    }
    for begin in ["has property ", "lacks property "] {
        if let Some(rest) = words.strip_prefix(begin) {
            let begin = begin.trim_end_matches("property ");
            return Some(match number {
                "" => format!("{begin}property {rest}"),
                number => format!("{begin}{number} {}", quoted(rest)),
            });
        }
    }
    for begin in ["at least ", "at most "] {
        if let Some(rest) = words.strip_prefix(begin) {
            let (count, rest) = rest.split_once(' ')?;
            return Some(format!("{begin}{} {}", count.replace(',', ""), named(rest)));
        }
    }
    let rest = words.strip_prefix("every ")?;
    Some(format!("every {}", named(rest)))
}

/// What a page's text stands for.
fn unescaped(text: &str) -> String {
    let signs = [
        ("&lt;", "<"),
        ("&gt;", ">"),
        ("&quot;", "\""),
        ("&#39;", "'"),
        ("&amp;", "&"),
    ];
    let each = |text: String, (name, sign): &(&str, &str)| text.replace(name, sign);
    signs.iter().fold(text.into(), each)
}

#[cfg(test)]
mod tests {
    use super::*;
    use crate::page::specimen::listing;
    use crate::words::Words;

    const NAMES: &str = "link 1 \"a, which has\" \"2 b and <c>\"\nproperty 2 \"x, y and 3 more\"\nproperty 3 \"</p>\"\n";

    fn entries(text: &str) -> Vec<crate::entry::Entry> {
        text::parse(text, &Names::default()).unwrap().entries
    }

    #[test]
    fn a_specimen_on_a_page_is_read_back() {
        let names = Names::read(NAMES).unwrap();
        let many: String = (2..40).map(|property| format!("1,{property}; ")).collect();
        let text = format!("1,2; 7,1,1 [{many} 7,5,2000 [1,3; 1,9]; 7,1 []]; 7,6 [1,2]");
        let failure = Failure::of_specimen(&entries(&text), &entries("5,1 [2,3]"), 2, 3);
        let page = listing(&failure, Words::apart(&names));
        assert!(specimen(&page, &failure, &names).is_ok(), "{page}");
        for (one, other) in [
            ("2,001 items", "2,002 items"),
            ("link 5", "link 6"),
            (">2 b and &lt;c&gt;<", ">a, which has<"),
            ("property <bdi>x, y", "property <bdi>x; y"),
            ("and 39</p>", "and 40</p>"),
            ("properties <bdi>&lt;/p&gt;</bdi> and 9", "properties 9"),
            ("<li><span class=\"e\">", "<li><ul><li><span class=\"e\">"),
            (
                "the 26 more properties</summary><p>14",
                "the 26 more properties</summary><p>13",
            ),
        ] {
            assert!(page.contains(one), "{one}: {page}");
            let wrong = page.replacen(one, other, 1);
            let same = specimen(&wrong, &failure, &names);
            // The singular and the plural of a link are one word for it.
            assert_eq!(same.is_ok(), one.contains("&lt;c&gt;"), "{one}");
        }
    }

    #[test]
    fn folded_groups_of_a_page_are_read_back() {
        let text: String = (1..200)
            .map(|link| format!("7,{link},1 [1,{link}]; "))
            .collect();
        let failure = Failure::of_specimen(&entries(&text), &entries("2,5"), 1, 0);
        let names = Names::default();
        let page = listing(&failure, Words::apart(&names));
        assert!(page.contains("<details class=\"run\">"));
        assert!(specimen(&page, &failure, &names).is_ok(), "{page}");
        let from = page.find("<b>2 items by link 150").unwrap();
        let begin = page[..from].rfind("<li>").unwrap();
        let end = from + page[from..].find("</li>").unwrap() + 5;
        let short = page[..begin].to_string() + &page[end..];
        assert!(specimen(&short, &failure, &names).is_err());
    }
}
