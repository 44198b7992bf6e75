//! The boxes of a drawing: how large they are, where they stand, and how they are written.

use super::escaped;

/// How far a box stands to the right of the one it hangs from, where there is room.
const INDENT: f64 = 28.0;
/// The boxes of all depths begin within this width, so that the last is seen on a telephone.
const INDENTS: f64 = 100.0;
/// With more depths than this, where each group is drawn, they begin within the other.
const DEEP: usize = 12;
const DEEP_INDENTS: f64 = 420.0;
const MARGIN: f64 = 12.0;
const GAP: f64 = 16.0;
pub(super) const LINE: f64 = 20.0;
pub(super) const PADDING: f64 = 12.0;
/// How far the sheets of a group of several items stand apart.
const SHEET: f64 = 4.0;
/// The most characters of a line.
const LONGEST: usize = 80;

/// How a box is drawn.
#[derive(Clone, Copy, Debug, PartialEq, Eq)]
pub(super) enum Look {
    Plain,
    Way,
    Fails,
    More,
}

/// A line of words in a box.
pub(super) struct Written {
    text: String,
    class: &'static str,
}

/// A box of the drawing.
pub(super) struct Node {
    depth: usize,
    /// Which box it hangs from.
    above: Option<usize>,
    look: Look,
    /// How many sheets are drawn behind it.
    sheets: usize,
    lines: Vec<Written>,
    /// The place of its upper left corner, and its size.
    x: f64,
    y: f64,
    width: f64,
    height: f64,
}

impl Written {
    /// The line with the count.
    pub(super) fn title(text: &str) -> Written {
        Written {
            text: text.into(),
            class: "gx-title",
        }
    }

    /// A line in small letters.
    pub(super) fn small(text: &str) -> Written {
        Written {
            text: text.into(),
            class: "gx-small",
        }
    }

    /// A line that says what is wrong.
    pub(super) fn note(text: &str) -> Written {
        Written {
            text: text.into(),
            class: "gx-note",
        }
    }
}

impl Node {
    /// A box of this depth and look with these lines, below that other one.
    pub(super) fn new(
        depth: usize,
        above: Option<usize>,
        look: Look,
        sheets: usize,
        lines: Vec<Written>,
    ) -> Node {
        let widest = lines.iter().map(width_of);
        let width = widest.fold(96.0, f64::max) + 2.0 * PADDING;
        Node {
            depth,
            above,
            look,
            sheets,
            width: width.ceil(),
            height: LINE * lines.len() as f64 + 1.25 * PADDING,
            lines,
            x: 0.0,
            y: 0.0,
        }
    }
}

/// The text, or its beginning.
fn cut(text: &str) -> String {
    if text.chars().count() <= LONGEST {
        return text.into();
    }
    let begin: String = text.chars().take(LONGEST - 1).collect();
    format!("{begin}…")
}

/// About how wide a line is: fonts differ, so it is taken rather too wide.
pub(super) fn width_of(line: &Written) -> f64 {
    let size = match line.class {
        "gx-title" => 17.6,
        "gx-note" => 15.8,
        _ => 14.0,
    };
    let width = |sign: char| match sign {
        'i' | 'j' | 'l' | 't' | 'f' | 'r' | ' ' | '.' | ',' | ':' | '\'' | '(' | ')' | '·' => 0.40,
        'm' | 'w' | 'M' | 'W' | '@' | '<' | '>' | '&' | '✕' | '…' => 0.98,
        'A'..='Z' => 0.74,
        sign if u32::from(sign) >= 0x1100 => 1.05,
        _ => 0.64,
    };
    cut(&line.text).chars().map(width).sum::<f64>() * size
}

/// Places the boxes one under the other, and writes them.
pub(super) fn rendered(nodes: &mut [Node], title: &str, about: &str, style: &str) -> String {
    let deepest = nodes.iter().map(|node| node.depth).max().unwrap_or(0);
    let room = if deepest > DEEP {
        DEEP_INDENTS
    } else {
        INDENTS
    };
    let indent = INDENT.min((room / deepest.max(1) as f64).floor());
    let mut y = MARGIN;
    for node in nodes.iter_mut() {
        node.x = MARGIN + indent * node.depth as f64;
        node.y = y;
        y += node.height + GAP + SHEET * node.sheets as f64;
    }
    let right = nodes
        .iter()
        .map(|node| node.x + node.width + SHEET * node.sheets as f64);
    let width = right.fold(0.0, f64::max) + MARGIN;
    let height = y - GAP + MARGIN;
    let mut out = format!(
        "<svg xmlns=\"http://www.w3.org/2000/svg\" class=\"gx-drawing\" role=\"img\" width=\"{width}\" height=\"{height}\" viewBox=\"0 0 {width} {height}\">\n"
    );
    out.push_str(&format!(
        "<title>{}</title>\n<desc>{}</desc>\n",
        escaped(title),
        escaped(about)
    ));
    if !style.is_empty() {
        out.push_str(&format!("<style>{style}</style>\n"));
    }
    // Lines first, so that boxes lie over them; those of the path last, so that they lie over the others.
    for on_way in [false, true] {
        for node in nodes.iter() {
            if matches!(node.look, Look::Way | Look::Fails) == on_way {
                out.push_str(&joined(node, nodes, indent));
            }
        }
    }
    for node in nodes.iter() {
        out.push_str(&boxed(node));
    }
    out.push_str("</svg>\n");
    out
}

/// The line from a box to the one it hangs from.
fn joined(node: &Node, nodes: &[Node], indent: f64) -> String {
    let Some(above) = node.above.and_then(|above| nodes.get(above)) else {
        return String::new();
    };
    let class = match node.look {
        Look::Way | Look::Fails => "gx-line-way",
        _ => "gx-line",
    };
    format!(
        "<path class=\"{class}\" d=\"M{} {}V{}H{}\"/>\n",
        above.x + indent / 2.0,
        above.y + above.height,
        node.y + LINE,
        node.x
    )
}

/// A box with its sheets and words.
fn boxed(node: &Node) -> String {
    let class = match node.look {
        Look::Plain => "gx-box",
        Look::Way => "gx-way",
        Look::Fails => "gx-fails",
        Look::More => "gx-more",
    };
    let mut out = String::from("<g>\n");
    for sheet in (0..=node.sheets).rev() {
        let off = SHEET * sheet as f64;
        out.push_str(&format!(
            "<rect class=\"{class}\" x=\"{}\" y=\"{}\" width=\"{}\" height=\"{}\" rx=\"5\"/>\n",
            node.x + off,
            node.y + off,
            node.width,
            node.height
        ));
    }
    out.push_str(&words(&node.lines, node.x, node.y));
    out.push_str("</g>\n");
    out
}

/// The lines of a box whose upper left corner is here.
pub(super) fn words(lines: &[Written], x: f64, y: f64) -> String {
    let mut out = String::new();
    for (at, line) in lines.iter().enumerate() {
        let shown = cut(&line.text);
        let full = match shown == line.text {
            true => String::new(),
            false => format!("<title>{}</title>", escaped(&line.text)),
        };
        out.push_str(&format!(
            "<text class=\"{}\" x=\"{}\" y=\"{}\">{full}{}</text>\n",
            line.class,
            x + PADDING,
            y + 0.5 * PADDING + LINE * at as f64 + 16.0,
            escaped(&shown)
        ));
    }
    out
}
