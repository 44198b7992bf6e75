//! The page of descriptions that mean the same: each meaning with its descriptions, and what it says in normal form.

use super::{filed, framed, given, where_kept};
use crate::entry::{Entry, Sort};
use crate::given::Given;
use crate::names::Names;
use crate::pairs::List;
use crate::readback;
use crate::svg::escaped;
use crate::text::{self, Numbers};
use crate::trouble::Trouble;
use crate::words;

/// The descriptions that mean the same.
#[derive(Clone, Debug)]
pub struct Meaning {
    /// Their names.
    pub files: Vec<String>,
    /// The entries of their normal form.
    pub entries: Vec<Entry>,
}

/// The page of these meanings under a list of pairs.
///
/// # Errors
///
/// What is shown of a normal form is not read back as it.
pub fn doubles(
    meanings: &[Meaning],
    list: &List,
    names: &Names,
    under: &Given,
) -> Result<String, Trouble> {
    let count = meanings.iter().map(|meaning| meaning.files.len()).sum();
    let several = meanings.iter().filter(|meaning| meaning.files.len() > 1);
    let title = match several.count() {
        0 => "No doubles".into(),
        1 => "1 meaning has doubles".into(),
        several => format!("{several} meanings have doubles"),
    };
    let kept = where_kept(list)
        .replace("<a href=\"#pairs\">", "")
        .replace("</a>", "");
    let mut body = format!(
        "<header class=\"answer\">\n<h1 id=\"answer\">{title}</h1>\n<p>{}. Descriptions in one frame mean the same: the same items fit \
         them.{kept}</p>\n</header>\n",
        words::descriptions(count)
    );
    // Those with doubles first.
    for several in [true, false] {
        for meaning in meanings {
            if (meaning.files.len() > 1) == several {
                body.push_str(&section(meaning, names)?);
            }
        }
    }
    body.push_str(&format!("<footer>\n{FOOTER}{}</footer>\n", given(under)));
    Ok(framed(&title, &body))
}

const FOOTER: &str = "<p>Two descriptions mean the same exactly if their normal forms are the same bytes. The normal forms are those \
of the proved library; this page compares and words them.</p>\n";

fn section(meaning: &Meaning, names: &Names) -> Result<String, Trouble> {
    let files: Vec<String> = meaning.files.iter().map(|file| filed(file)).collect();
    let text = text::text(
        Sort::Description,
        &meaning.entries,
        names,
        Numbers::WhereNeeded,
    );
    let title = &meaning.files[0];
    let text = readback::entries(text, Sort::Description, &meaning.entries, names, title)?;
    Ok(format!(
        "<section class=\"card\">\n<h2>{}</h2>\n<details class=\"run\"{}><summary>{} in normal form</summary>\n<pre>{}</pre></details>\n</section>\n",
        files.join(" = "),
        if meaning.entries.len() <= 12 { " open" } else { "" },
        words::entries(meaning.entries.len()),
        escaped(&text)
    ))
}
