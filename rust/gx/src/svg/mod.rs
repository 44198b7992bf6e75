//! The drawing of a specimen: a box for the top item and for each group, with counts and properties, and the path to the place
//! where the entry fails marked by thick lines, a sign and words. And the drawing of a hierarchy, in layers.

mod boxes;
mod hasse;
mod layers;
mod plan;

use crate::explain::Failure;
use crate::words::Words;
use boxes::{rendered, Look, Node, Written};

pub use hasse::{hierarchy, hierarchy_inside};

/// The style of a drawing, also of one inside a page.
pub(crate) const STYLE: &str = "\
.gx-drawing{font-family:\"Segoe UI\",\"Noto Sans\",\"DejaVu Sans\",Arial,sans-serif}\
.gx-box{fill:#fff;stroke:#6b757e;stroke-width:1.25}\
.gx-more{fill:none;stroke:#6b757e;stroke-width:1.25;stroke-dasharray:4 4}\
.gx-way{fill:#eef4fb;stroke:#174a7c;stroke-width:2.75}\
.gx-fails{fill:#fdf1ee;stroke:#9b1c0b;stroke-width:3.5}\
.gx-line{fill:none;stroke:#6b757e;stroke-width:1.25}\
.gx-line-way{fill:none;stroke:#174a7c;stroke-width:2.75}\
.gx-title{font-size:16px;font-weight:600;fill:#14181c}\
.gx-small{font-size:14px;fill:#353c43}\
.gx-note{font-size:14px;font-weight:700;fill:#9b1c0b}";

/// The drawing of the specimen that shows a failure. Without `whole`, a large one is drawn in part.
pub fn drawing(failure: &Failure, words: Words<'_>, whole: bool) -> String {
    drawn(failure, words, whole, STYLE)
}

/// The same drawing for a page that has the style.
pub fn inside(failure: &Failure, words: Words<'_>, whole: bool) -> String {
    drawn(failure, words, whole, "")
}

fn drawn(failure: &Failure, words: Words<'_>, whole: bool, style: &str) -> String {
    let words = words.short();
    let mut nodes = plan::nodes(failure, words, whole);
    let title = format!("Specimen: {}", failure.note(words));
    let about = format!("The entry that fails: {}", failure.asks(words));
    rendered(&mut nodes, &title, &about, style)
}

/// A chain of items, from the first to the one that this is wrong of, for a page that has the style.
pub fn chain(steps: &[String], wrong: &str) -> String {
    let last = steps.len().saturating_sub(1);
    let node = |(depth, step): (usize, &String)| {
        let mut lines = vec![Written::title(step)];
        let above = depth.checked_sub(1);
        if depth < last {
            return Node::new(depth, above, Look::Way, 0, lines);
        }
        lines.push(Written::note(&format!("✕ {wrong}")));
        Node::new(depth, above, Look::Fails, 0, lines)
    };
    let mut nodes: Vec<Node> = steps.iter().enumerate().map(node).collect();
    rendered(&mut nodes, &steps.join(", "), wrong, "")
}

/// A drawing that only says this.
pub fn empty(says: &str) -> String {
    let line = Written::small(says);
    let mut nodes = vec![Node::new(0, None, Look::More, 0, vec![line])];
    rendered(&mut nodes, says, says, STYLE)
}

/// The text for XML and HTML.
pub fn escaped(text: &str) -> String {
    let mut out = String::with_capacity(text.len());
    for sign in text.chars() {
        match sign {
            '&' => out.push_str("&amp;"),
            '<' => out.push_str("&lt;"),
            '>' => out.push_str("&gt;"),
            '"' => out.push_str("&quot;"),
            '\'' => out.push_str("&#39;"),
            sign => out.push(sign),
        }
    }
    out
}
